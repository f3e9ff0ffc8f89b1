//! The test of replies: hand-written texts, true assignments set out in many ways, and damaged ones.
//! Each is given to the library with a buffer that just fits, a longer one and a shorter one.

use crate::answers;
use crate::assignment::{self, Numbered};
use crate::changes::each_value_of_each_byte;
use crate::engine;
use crate::fillings;
use crate::planted;
use crate::random::Random;
use crate::reader::Sheet;
use crate::reply::{Asked, MOST_BYTES};
use crate::report::{require, Case, Hex};
use crate::sheets;
use crate::speller::FIELD_BYTES;
use crate::tally::Tally;
use crate::test;
use crate::texts;

const SMALL_SHEETS: usize = 2600;
const LARGE_SHEETS: usize = 60;
const TEXTS_OF_EACH: usize = 45;
const REFUSED_SHEETS: usize = 40_000;
const DAMAGED_LISTING_PERCENT: usize = 40;
const DAMAGED_TEXT_PERCENT: usize = 55;

/// Holds the library's answers to the plain ones and counts them.
pub struct Replies {
    pub random: Random,
    name: &'static str,
    tally: Tally,
    texts: usize,
}

pub fn run() {
    let mut replies = Replies::new("replies", (1..=15).chain([27]).chain(30..=39));
    replies.part("replies with a known answer", answers::known);
    replies.part("replies, several faults at once", answers::several_faults);
    replies.part("replies of all sizes", sizes);
    replies.part("replies, one byte changed, added or cut", small_changes);
    replies.part("replies to small sheets", small);
    replies.part("replies to large sheets", large);
    replies.part("replies to refused sheets", refused);
    replies.finish();
}

impl Replies {
    /// Of replies, named so, that may have these refusals.
    pub fn new(name: &'static str, refusals: impl Iterator<Item = u8>) -> Replies {
        let accepted = ["accepted, no fields", "accepted, an empty text", "accepted"];
        Replies {
            random: Random::new(1),
            name,
            tally: Tally::new(name, &accepted, refusals),
            texts: 0,
        }
    }

    fn part(&mut self, name: &str, run: fn(&mut Replies)) {
        let before = self.texts;
        run(self);
        println!("outside: {name}: {}", self.texts - before);
    }

    /// Compares what a text gives in each kind of buffer.
    pub fn compare(&mut self, asked: &Asked, text: &[u8]) {
        let rooms = fillings::rooms(&mut self.random, asked.filling_bytes());
        self.compare_in(asked, text, &rooms);
    }

    /// Compares what a text gives in buffers of these lengths.
    pub fn compare_in(&mut self, asked: &Asked, text: &[u8], rooms: &[usize]) {
        for &room in rooms {
            self.compare_once(asked, text, room);
        }
        self.texts += 1;
    }

    fn compare_once(&mut self, asked: &Asked, text: &[u8], room: usize) {
        let mut buffer = engine::buffer_before(room);
        let (status, answer) = match asked.read(text, room) {
            Ok(filling) => {
                buffer[..filling.len()].copy_from_slice(&filling);
                (0, Ok(kind(&filling)))
            }
            Err(refusal) => (test::status(refusal), Err(refusal as u8)),
        };
        let case: &Case = &[
            ("sheet", &Hex(&asked.sheet)),
            ("reply", &text.escape_ascii()),
            ("buffer of", &room),
        ];
        let got = engine::reply(&asked.sheet, text, room);
        test::hold(got, test::due(status, &buffer), case);
        self.tally.count(answer);
    }

    /// Prints how often each answer came up, and fails if one came up too seldom.
    pub fn finish(&self) {
        self.tally.finish();
        println!(
            "outside: the library agrees on {} {}, {} times",
            self.texts,
            self.name,
            self.tally.total()
        );
    }
}

/// Holds the plain reader itself to an answer.
pub fn require_plain(asked: &Asked, text: &[u8], room: usize, due: Result<&[u8], u8>) {
    let answer = asked.read(text, room);
    let answer = answer.as_deref().map_err(|&refusal| refusal as u8);
    require(
        answer == due,
        "document 01 has another answer",
        &[
            ("sheet", &Hex(&asked.sheet)),
            ("reply", &text.escape_ascii()),
            ("buffer of", &room),
            ("answer", &format!("{answer:?}")),
            ("due", &format!("{due:?}")),
        ],
    );
}

/// What is special about a filling that was accepted.
fn kind(filling: &[u8]) -> &'static str {
    if filling.is_empty() {
        "accepted, no fields"
    } else if filling.chunks(FIELD_BYTES).any(|field| field[0] == 0) {
        "accepted, an empty text"
    } else {
        "accepted"
    }
}

/// P's shortest reply in texts near the most bytes that there may be, and near as many more as it
/// has, which 16 bits cannot tell from its own: lines before it, in it and after it, of all forms.
fn sizes(replies: &mut Replies) {
    let p = Asked::new(sheets::P);
    let reply: &[u8] = b"s SATISFIABLE\nv 1 0\n";
    let (start, end) = reply.split_at(texts::STATUS.len() + 1);
    let fillers: [&[u8]; 6] = [b"c", b"c\n", b"v\n", b"v 1\n", b"\n", b"v 1 "];
    let around = |size| (size - 3..=size + 3).collect::<Vec<usize>>();
    let sizes = [around(MOST_BYTES), around(MOST_BYTES + reply.len())].concat();
    for size in sizes.into_iter().chain([2 * MOST_BYTES, 5 * MOST_BYTES]) {
        for filler in fillers {
            let filled: Vec<u8> = filler
                .iter()
                .copied()
                .cycle()
                .take(size - reply.len())
                .collect();
            let mut closed = filled.clone();
            closed[filled.len() - 1] = b'\n';
            for text in [
                [&closed[..], reply].concat(),
                [start, &closed, end].concat(),
                [reply, &closed].concat(),
                [reply, &filled].concat(),
            ] {
                replies.compare(&p, &text);
            }
        }
    }
}

/// P's replies and those of a sheet with an unused field: each value of each byte, each byte added
/// at each place, and each cut.
fn small_changes(replies: &mut Replies) {
    let texts: [(&[u8], &[u8]); 3] = [
        (sheets::P, b"c\ns SATISFIABLE\nv 1 -2\nv 0\n"),
        (sheets::P, b"s SATISFIABLE\nv 3 4 5 -6 -2 1 0\nc\n"),
        (answers::UNUSED, b"s SATISFIABLE\nv 1 -3 6 9 15 0\n"),
    ];
    for (sheet, text) in texts {
        let asked = Asked::new(sheet);
        for changed in each_value_of_each_byte(text) {
            replies.compare(&asked, &changed);
        }
        for place in 0..=text.len() {
            let (before, after) = text.split_at(place);
            replies.compare(&asked, before);
            replies.compare(&asked, after);
            for byte in 0..=255 {
                replies.compare(&asked, &[before, &[byte], after].concat());
            }
        }
    }
}

fn small(replies: &mut Replies) {
    let makers = [sheets::small, sheets::of_few_fillings];
    generated(replies, SMALL_SHEETS, makers);
}

fn large(replies: &mut Replies) {
    generated(replies, LARGE_SHEETS, [sheets::valid, sheets::largest]);
}

/// Replies to `times` sheets that the makers make in turn, in each of which a filling was made to
/// clash: that filling's assignment, whole and damaged, and a reply to the sheet before.
fn generated(replies: &mut Replies, times: usize, makers: [fn(&mut Random) -> Sheet; 2]) {
    let mut before = Vec::new();
    for turn in 0..times {
        let (sheet, filling) = planted::clashing(&mut replies.random, makers[turn % 2]);
        let asked = Asked::new(&sheets::encode(&sheet));
        let listing = texts::listing(&sheet, &filling);
        require_true(&asked, &listing);
        replies.compare(&asked, &before);
        before = texts::set_out(&mut replies.random, &listing);
        let filling = fillings::encode(&filling);
        require_plain(&asked, &before, filling.len(), Ok(&filling));
        replies.compare(&asked, &before);
        for _ in 0..TEXTS_OF_EACH {
            let text = text(&mut replies.random, asked.accepted(), &listing);
            replies.compare(&asked, &text);
        }
    }
}

/// Holds what is listed to the clauses, so that it is what a solver may list.
fn require_true(asked: &Asked, listing: &[i64]) {
    let judged = assignment::judge(asked.accepted(), &listing[..listing.len() - 1]);
    require(
        judged.is_ok(),
        &judged.err().unwrap_or_default(),
        &[
            ("sheet", &Hex(&asked.sheet)),
            ("listing", &format!("{listing:?}")),
        ],
    );
}

/// A reply that lists an assignment, most often damaged.
pub fn text(random: &mut Random, sheet: &Numbered, listing: &[i64]) -> Vec<u8> {
    let mut numbers = listing.to_vec();
    texts::vary(random, sheet, &mut numbers);
    if random.chance(DAMAGED_LISTING_PERCENT) {
        texts::damage_listing(random, sheet, &mut numbers);
    }
    let mut text = texts::set_out(random, &numbers);
    if random.chance(DAMAGED_TEXT_PERCENT) {
        texts::damage(random, &mut text);
    }
    text
}

/// Damaged sheets, with good and bad replies; sheets that are still accepted are passed over.
fn refused(replies: &mut Replies) {
    let texts: [&[u8]; 4] = [
        b"",
        b"s SATISFIABLE\nv 0\n",
        b"s SATISFIABLE\nv 1 0\n",
        b"x",
    ];
    for turn in 0..REFUSED_SHEETS {
        let random = &mut replies.random;
        let mut bytes = sheets::encode(&sheets::valid(random));
        sheets::damage(random, &mut bytes);
        let asked = Asked::new(&bytes);
        if asked.refusal().is_some() {
            replies.compare(&asked, texts[turn % texts.len()]);
        }
    }
}
