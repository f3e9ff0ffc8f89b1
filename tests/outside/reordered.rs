//! The part of the test of the search that changes the order of things on sheets: each then says the
//! same as before, and so has the same clashes.

use crate::late::FAMILIES;
use crate::planted;
use crate::random::Random;
use crate::reader::Sheet;
use crate::searches::{self, Searches, ROOMY};
use crate::sheets;
use crate::tally::Tally;

const SHEETS: usize = 20_000;
/// How many sheets that clash, and how many that are apart, must be changed in each way.
const LEAST_OF_EACH: usize = 500;

/// What comes in another order, and how.
struct Change {
    name: &'static str,
    make: fn(&mut Random, &mut Sheet),
}

const CHANGES: [Change; 3] = [
    Change {
        name: "the pairs",
        make: |random, sheet| sheet.pairs = planted::shuffled(random, &sheet.pairs),
    },
    Change {
        name: "the sides of pairs",
        make: |random, sheet| {
            for pair in &mut sheet.pairs {
                if random.chance(50) {
                    std::mem::swap(&mut pair.left, &mut pair.right);
                }
            }
        },
    },
    Change {
        name: "the rules",
        make: |random, sheet| sheet.rules = planted::shuffled(random, &sheet.rules),
    },
];

/// Sheets of all sizes, changed in each way: the search gives the same clash as before, or none again.
pub fn run(searches: &mut Searches) {
    let names = CHANGES.map(|change| change.name);
    let mut clash = Tally::new("clashing sheets with another order of", &names, 0..0);
    let mut apart = Tally::new("apart sheets with another order of", &names, 0..0);
    for number in 0..SHEETS {
        let random = &mut searches.random;
        let sheet = match number % 10 {
            0 => planted::clashing(random, sheets::valid).0,
            1 => planted::clashing(random, sheets::largest).0,
            2 => (random.one_of(&FAMILIES.map(|family| family.make)))(random),
            _ => searches::small_sheet(random),
        };
        let given = searches::given(&sheets::encode(&sheet));
        for change in &CHANGES {
            let reordered = by(change, &mut searches.random, &sheet);
            if reordered != sheet {
                searches.compare_in(&sheets::encode(&reordered), given.as_ref(), &[ROOMY]);
                let answers = if given.is_some() {
                    &mut clash
                } else {
                    &mut apart
                };
                answers.count(Ok(change.name));
            }
        }
    }
    clash.finish_at(LEAST_OF_EACH);
    apart.finish_at(LEAST_OF_EACH);
}

/// A sheet changed so; it may come out as it was.
fn by(change: &Change, random: &mut Random, sheet: &Sheet) -> Sheet {
    let mut reordered = sheet.clone();
    (change.make)(random, &mut reordered);
    reordered
}
