//! The test of the search: sheets whose first clash, or that they are apart, is known from elsewhere.
//! Where all fillings can be tried it is known from that; and from the plain search, which is held to
//! it. The search is to give just that clash. Both checkers, the plain one and the library's own, have
//! to find it one.

use crate::answers;
use crate::engine;
use crate::examples;
use crate::fillings;
use crate::first;
use crate::hard;
use crate::met::Met;
use crate::order::{self, WRONG};
use crate::planted;
use crate::printed;
use crate::question::{self, REASONS, SPREADS};
use crate::random::Random;
use crate::reader::{self, Sheet};
use crate::refusal::Refusal;
use crate::reordered;
use crate::report::{require, Case, Hex};
use crate::shapes;
use crate::sheets;
use crate::small;
use crate::speller::{self, Filling, Verdict, FIELD_BYTES};
use crate::tally::Tally;
use crate::test;
use std::time::{Duration, Instant};

const SMALL: usize = 100_000;
const FAR_PERCENT: usize = 20;
const WIDE_PERCENT: usize = 10;
const SPLIT_PERCENT: usize = 8;
const TRADED_PERCENT: usize = 8;
const PLANTED: usize = 2000;
const REFUSED: usize = 60_000;
/// How many small sheets must clash and how many be apart, and how many have each reason, each
/// spread of clashes and each shape. So many must have another first clash by each wrong order.
const LEAST_OF_EACH_ANSWER: usize = 15_000;
const LEAST_OF_EACH_REASON: usize = 1500;
const LEAST_OF_EACH_SPREAD: usize = 500;
const LEAST_OF_EACH_SHAPE: usize = 500;
const LEAST_OF_EACH_ORDER: usize = 300;
/// In how many sheets with a planted clash the first must be another one.
const LEAST_BEFORE_PLANTED: usize = 500;

/// A buffer of 54 is to be long enough for every filling.
pub const ROOMY: usize = 54;

/// Holds the library's answers to the known ones and counts them.
pub struct Searches {
    pub random: Random,
    name: &'static str,
    tally: Tally,
    sheets: usize,
    pub slowest: Duration,
}

pub fn run() {
    println!("outside: known reports: {}", printed::known());
    let mut searches = Searches::new("searches", (1..=15).chain([27]));
    searches.part("searches with a known answer", known);
    searches.part("searches with buffers of all lengths", all_buffers);
    searches.part("searches of small sheets", small);
    searches.part("searches of sheets with a planted clash", planted);
    searches.part("searches of sheets in another order", reordered::run);
    searches.part("searches of refused sheets", refused);
    searches.part("searches of hard sheets", hard);
    searches.finish();
}

impl Searches {
    /// Of sheets, named so, that may have these refusals.
    pub fn new(name: &'static str, refusals: impl Iterator<Item = u8>) -> Searches {
        let answers = ["clash, no fields", "clash, an empty text", "clash", "apart"];
        Searches {
            random: Random::new(1),
            name,
            tally: Tally::new(name, &answers, refusals),
            sheets: 0,
            slowest: Duration::ZERO,
        }
    }

    fn part(&mut self, name: &str, run: fn(&mut Searches)) {
        let before = self.sheets;
        run(self);
        println!("outside: {name}: {}", self.sheets - before);
    }

    /// Compares what is found in a sheet, whose first clash is this one if it has one, with each kind
    /// of buffer.
    fn compare(&mut self, sheet: &[u8], first: Option<&Filling>) {
        let rooms = fillings::rooms(&mut self.random, filling_bytes(sheet));
        self.compare_in(sheet, first, &rooms);
    }

    /// Compares what is found with buffers of these lengths, and answers how long the slowest search
    /// took.
    pub fn compare_in(
        &mut self,
        sheet: &[u8],
        first: Option<&Filling>,
        rooms: &[usize],
    ) -> Duration {
        let times = rooms
            .iter()
            .map(|&room| self.compare_once(sheet, first, room));
        let slowest = times.max().unwrap_or_default();
        self.slowest = self.slowest.max(slowest);
        self.sheets += 1;
        slowest
    }

    fn compare_once(&mut self, sheet: &[u8], first: Option<&Filling>, room: usize) -> Duration {
        let start = Instant::now();
        let got = engine::search(sheet, room);
        let took = start.elapsed();
        let mut buffer = engine::buffer_before(room);
        let (status, answer) = match due(sheet, first, room) {
            Ok(Some(filling)) => {
                let bytes = fillings::encode(filling);
                buffer[..bytes.len()].copy_from_slice(&bytes);
                require_clash(sheet, &bytes);
                (1, Ok(kind(filling)))
            }
            Ok(None) => (0, Ok("apart")),
            Err(refusal) => (test::status(refusal), Err(refusal as u8)),
        };
        let case: &Case = &[("sheet", &Hex(sheet)), ("buffer of", &room)];
        test::hold(got, test::due(status, &buffer), case);
        self.tally.count(answer);
        took
    }

    /// Prints how often each answer came up, and fails if one came up too seldom.
    fn finish(&self) {
        self.tally.finish();
        println!(
            "outside: the library agrees on {} {}, {} times; the slowest took {:.3} s",
            self.sheets,
            self.name,
            self.tally.total(),
            self.slowest.as_secs_f64()
        );
    }
}

/// How many bytes a filling has; 0 where the sheet is refused.
fn filling_bytes(sheet: &[u8]) -> usize {
    reader::read(sheet).map_or(0, |sheet| FIELD_BYTES * sheet.limits.len())
}

/// The clash that is due, if there is one, for a buffer of `room` bytes, or the first refusal in
/// document 01's order.
fn due<'a>(
    sheet: &[u8],
    first: Option<&'a Filling>,
    room: usize,
) -> Result<Option<&'a Filling>, Refusal> {
    reader::read(sheet)?;
    if room < filling_bytes(sheet) {
        return Err(Refusal::BufferBelowFilling);
    }
    Ok(first)
}

/// The clash that the search gives, if it gives one.
pub fn given(sheet: &[u8]) -> Option<Filling> {
    let got = engine::search(sheet, ROOMY);
    (got.status == 1).then(|| fillings::decode(&got.lent[..filling_bytes(sheet)]))
}

/// What is special about a filling that is due.
fn kind(filling: &Filling) -> &'static str {
    if filling.is_empty() {
        "clash, no fields"
    } else if filling.iter().any(Vec::is_empty) {
        "clash, an empty text"
    } else {
        "clash"
    }
}

/// Holds a filling that is due to both checkers.
fn require_clash(sheet: &[u8], filling: &[u8]) {
    let plain = speller::check(sheet, filling);
    let checked = engine::check(sheet, filling);
    require(
        plain == Ok(Verdict::Clash) && checked == test::due(1, &engine::WHY_BEFORE),
        "the filling that the search is to give does not clash",
        &[
            ("sheet", &Hex(sheet)),
            ("filling", &Hex(filling)),
            ("plain", &format!("{plain:?}")),
            ("library", &checked),
        ],
    );
}

/// P with limit 0, with its last byte missing, and with a 16th byte.
const APART: &[u8] = b"TPL\0\x01\x01\x01\x01\0A\0\x01\x01\x80\0";
const CUT: &[u8] = b"TPL\0\x01\x01\x01\x01\0A\x01\x01\x01\x80";
const LONG: &[u8] = b"TPL\0\x01\x01\x01\x01\0A\x01\x01\x01\x80\0\0";

/// Six fields of limit 1, with two letters: all fields in a row and ABABAB, then ABABABA.
const SIX: &[u8] = b"TPL\0\x01\x02\x06\x01\0AB\x01\x01\x01\x01\x01\x01\
    \x06\x06\x80\x81\x82\x83\x84\x85\0\x01\0\x01\0\x01";
const SIX_APART: &[u8] = b"TPL\0\x01\x02\x06\x01\0AB\x01\x01\x01\x01\x01\x01\
    \x06\x07\x80\x81\x82\x83\x84\x85\0\x01\0\x01\0\x01\0";

/// What is to be returned for a sheet and a buffer of this length.
const KNOWN: [(i64, &[u8], usize); 16] = [
    (1, sheets::P, 9),
    (1, sheets::P, 54),
    (-27, sheets::P, 8),
    (-27, sheets::P, 0),
    (0, APART, 9),
    (0, APART, 54),
    (-27, APART, 8),
    (1, SIX, 54),
    (-27, SIX, 53),
    (0, SIX_APART, 54),
    (1, answers::NOTHING, 0),
    (0, answers::NEVER, 0),
    (-8, CUT, 9),
    (-8, CUT, 0),
    (-9, LONG, 9),
    (-9, LONG, 0),
];

/// Holds what is due here to document 01's own answers, and the library too.
fn known(searches: &mut Searches) {
    for (status, sheet, room) in KNOWN {
        let read = reader::read(sheet);
        let first = read.ok().and_then(|sheet| first::clash(&sheet));
        let due = due(sheet, first.as_ref(), room);
        let due = due.map_or_else(test::status, |clash| i64::from(clash.is_some()));
        require(
            due == status,
            "document 01 has another answer",
            &[
                ("sheet", &Hex(sheet)),
                ("buffer of", &room),
                ("answer", &due),
                ("due", &status),
            ],
        );
        searches.compare_in(sheet, first.as_ref(), &[room]);
    }
}

/// Sheets that clash and sheets that do not, with no field, with some and with six.
fn all_buffers(searches: &mut Searches) {
    let rooms: Vec<usize> = (0..=ROOMY + FIELD_BYTES).chain([256, 65_536]).collect();
    for sheet in [
        answers::NOTHING,
        answers::NEVER,
        sheets::P,
        APART,
        answers::UNUSED,
        SIX,
        SIX_APART,
    ] {
        let tried = question::try_all(&reader::accepted(sheet));
        searches.compare_in(sheet, tried.first(), &rooms);
    }
}

/// Document 01's examples, then sheets made by chance, each with the first clash of all fillings. The
/// plain search is held to it too.
fn small(searches: &mut Searches) {
    let mut met = Met::new(shapes::OF_SMALL);
    let mut reasons = Tally::new("small sheets", &REASONS, 0..0);
    let mut spreads = Tally::new("small sheets", &SPREADS, 0..0);
    let names = WRONG.map(|wrong| wrong.name);
    let mut orders = Tally::new("small sheets with another first clash by", &names, 0..0);
    let mut alone = 0;
    let examples = examples::sheets().into_iter().map(reader::accepted);
    let made = (0..SMALL).map(|_| small_sheet(&mut searches.random));
    let sheets: Vec<Sheet> = examples.chain(made).collect();
    for sheet in &sheets {
        let tried = question::try_all(sheet);
        let bytes = sheets::encode(sheet);
        let first = tried.first();
        searches.compare(&bytes, first);
        let plain = first::clash(sheet);
        require(
            plain.as_ref() == first,
            "the plain search does not give the first clash of all fillings",
            &[
                ("sheet", &Hex(&bytes)),
                ("plain", &format!("{plain:?}")),
                ("first", &format!("{first:?}")),
            ],
        );
        met.count(sheet, tried.clash());
        reasons.count(Ok(tried.reason));
        if let (Some(first), Some(spread)) = (first, tried.spread()) {
            spreads.count(Ok(spread));
            alone += usize::from(tried.clashes.len() == 1);
            for wrong in &WRONG {
                if wrong.differs(sheet, &tried.clashes, first) {
                    orders.count(Ok(wrong.name));
                }
            }
        }
    }
    reasons.finish_at(LEAST_OF_EACH_REASON);
    spreads.finish_at(LEAST_OF_EACH_SPREAD);
    orders.finish_at(LEAST_OF_EACH_ORDER);
    met.finish(LEAST_OF_EACH_ANSWER, LEAST_OF_EACH_SHAPE);
    println!(
        "outside: brute force agrees with the search on {} small sheets: {} clash, \
         {} of them in several ways, {} apart",
        met.total(),
        met.clash,
        met.clash - alone,
        met.apart
    );
}

pub fn small_sheet(random: &mut Random) -> Sheet {
    if random.chance(FAR_PERCENT) {
        small::far(random)
    } else if random.chance(WIDE_PERCENT) {
        small::wide(random)
    } else if random.chance(SPLIT_PERCENT) {
        small::split(random)
    } else if random.chance(TRADED_PERCENT) {
        small::traded(random)
    } else {
        small::sheet(random)
    }
}

/// Sheets of all sizes in which a filling was made to clash. The first clash is not after that one.
fn planted(searches: &mut Searches) {
    let mut before = 0;
    for turn in 0..PLANTED {
        let random = &mut searches.random;
        let (sheet, planted) = match turn % 3 {
            0 => planted::clashing(random, sheets::valid),
            1 => planted::clashing(random, sheets::largest),
            _ => full(random),
        };
        let bytes = sheets::encode(&sheet);
        let given = given(&bytes).unwrap_or_default();
        require(
            order::key(&given) <= order::key(&planted),
            "the clash that the search gives is after one that is known",
            &[
                ("sheet", &Hex(&bytes)),
                ("given", &format!("{given:?}")),
                ("known", &format!("{planted:?}")),
            ],
        );
        before += usize::from(given != planted);
        searches.compare(&bytes, first::clash(&sheet).as_ref());
    }
    println!("outside: sheets whose first clash is before the planted one: {before} of {PLANTED}");
    require(
        before >= LEAST_BEFORE_PLANTED,
        "the planted clash is the first too often",
        &[("before", &before)],
    );
}

/// A largest sheet in which a full filling was made to clash, with rules that only such a one keeps,
/// and that filling.
pub fn full(random: &mut Random) -> (Sheet, Filling) {
    let mut sheet = sheets::largest(random);
    let lengths = sheet.limits.clone();
    let filling = planted::plant_parts(random, &mut sheet, &lengths);
    planted::only_full(&mut sheet);
    (sheet, filling)
}

/// Damaged sheets; those that are still accepted are passed over.
fn refused(searches: &mut Searches) {
    for _ in 0..REFUSED {
        let random = &mut searches.random;
        let mut bytes = sheets::encode(&sheets::valid(random));
        sheets::damage(random, &mut bytes);
        if reader::read(&bytes).is_err() {
            searches.compare(&bytes, None);
        }
    }
}

/// The sheets of tests/hard, with the time that each takes.
fn hard(searches: &mut Searches) {
    for hard in hard::all() {
        let first = first::clash(&reader::accepted(&hard.sheet));
        require(
            first.is_some() == hard.clash,
            "the plain search has another answer to a hard sheet",
            &[("sheet", &hard.name), ("listed as a clash", &hard.clash)],
        );
        let took = searches.compare_in(&hard.sheet, first.as_ref(), &[ROOMY]);
        let answer = if hard.clash { "clash" } else { "apart" };
        println!(
            "outside: {}: {answer}, {:.3} s",
            hard.name,
            took.as_secs_f64()
        );
    }
}
