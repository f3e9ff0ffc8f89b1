//! Hours files with what they leave of a book's list, worked out by hand from document 02 (No. 6) apart
//! from any code: as bytes, as the minutes of windows, and for a shop that examples/ has.

use crate::engine;
use crate::hours::Shop;
use crate::report::{require, Hex};
use crate::schedule::{self, Interval, MOST_BYTES};
use crate::schedules;
use crate::test::Test;
use std::fs;
use std::time::{Duration, Instant};

pub fn run(test: &mut Test) {
    test.part("hours worked out by hand, as bytes", bytes);
    test.part("hours worked out by hand, as minutes", minutes);
    test.part("hours worked out by hand, for a shop", shop);
    test.part("hours worked out by hand, for 16 templates", sixteen);
}

/// The pairs that are left, or the number of a refusal.
type Known = Result<&'static [[u8; 2]], u8>;

const NONE: Known = Ok(&[]);
const ONE: Known = Ok(&[[0, 1]]);

/// One empty template; two; A and nothing, which are apart.
const ALONE: &[u8] = b"TPB\0\x01\x01A\x01\0\0";
const TWO: &[u8] = b"TPB\0\x01\x01A\x02\0\0\0\0";
const APART: &[u8] = b"TPB\0\x01\x01A\x02\0\x01\0\0\0";
/// Three empty templates: 0 1, 0 2 and 1 2 clash.
const THREE: &[u8] = b"TPB\0\x01\x01A\x03\0\0\0\0\0\0";
/// Nothing, nothing, A, X and XA, with limits 1: 0 1, 0 3, 1 3, 2 3, 2 4 and 3 4 clash.
const FIVE: &[u8] = b"TPB\0\x01\x01A\x05\0\0\0\0\0\x01\0\x01\x01\x01\x80\x01\x01\x02\x80\0";
/// A book of version 2, and one with a byte left over.
const NO_BOOK: &[u8] = b"TPB\0\x02\x01A\x02\0\0\0\0";
const BAD_BOOK: &[u8] = b"TPB\0\x01\x01A\x02\0\0\0\0\0";

/// What is left, or refused, of a book and an hours file, in a buffer of this length.
const BYTES: [(&[u8], &[u8], usize, Known); 46] = [
    // The mark and the version, and what follows them.
    (TWO, b"", 2, Err(43)),
    (TWO, b"T", 2, Err(43)),
    (TWO, b"TPH\0", 2, Err(43)),
    (TWO, b"TPH\0\x01", 2, Err(43)),
    (TWO, b"TPH\0\x01\0", 2, Err(43)),
    (TWO, b"TPH\0\x01\0\0", 2, NONE),
    (TWO, b"TPH\0\x01\0\0\0", 2, Err(43)),
    (ALONE, b"TPH\0\x01\0", 0, NONE),
    (ALONE, b"TPH\0\x01\0\0", 0, Err(43)),
    (THREE, b"TPH\0\x01\0\0", 6, Err(43)),
    (TWO, b"TPB\0\x01\0\0", 2, Err(43)),
    (TWO, b"TPL\0\x01\0\0", 2, Err(43)),
    (TWO, b"TPF\0\x01\0\0", 2, Err(43)),
    (TWO, b"tPH\0\x01\0\0", 2, Err(43)),
    (TWO, b"TpH\0\x01\0\0", 2, Err(43)),
    (TWO, b"TPh\0\x01\0\0", 2, Err(43)),
    (TWO, b"TPH\0\0\0\0", 2, Err(43)),
    (TWO, b"TPH\0\x02\0\0", 2, Err(43)),
    (TWO, b"TPH\x01\0\0\0", 2, Err(43)),
    (TWO, b"TPH\x01\x01\0\0", 2, Err(43)),
    (TWO, TWO, 2, Err(43)),
    // The whole week, and a minute more. 10,080 is 0x2760.
    (TWO, b"TPH\0\x01\x01\0\0\x27\x60\x01\0\0\x27\x60", 2, ONE),
    (
        TWO,
        b"TPH\0\x01\x01\0\0\x27\x61\x01\0\0\x27\x60",
        2,
        Err(44),
    ),
    (
        TWO,
        b"TPH\0\x01\x01\0\0\x27\x60\x01\0\0\xFF\xFF",
        2,
        Err(44),
    ),
    // The high byte first: 1 to 256 and 256 to 257; 1 to 257 and 256 to 258.
    (TWO, b"TPH\0\x01\x01\0\x01\x01\0\x01\x01\0\x01\x01", 2, NONE),
    (
        TWO,
        b"TPH\0\x01\x01\0\x01\x01\x01\x01\x01\0\x01\x02",
        2,
        ONE,
    ),
    // A byte of the last window is missing, or is one too many.
    (TWO, b"TPH\0\x01\x01\0\0\x27\x60\x01\0\0\x27", 2, Err(43)),
    (TWO, b"TPH\0\x01\x01\0\0\x27\x60\x01", 2, Err(43)),
    (TWO, b"TPH\0\x01\x01\0\0\x27\x60", 2, Err(43)),
    (
        TWO,
        b"TPH\0\x01\x01\0\0\x27\x60\x01\0\0\x27\x60\0",
        2,
        Err(43),
    ),
    (
        TWO,
        b"TPH\0\x01\x01\0\0\x27\x60\x01\0\0\x27\x60\0",
        0,
        Err(43),
    ),
    // Five windows, all there, and four; and a count of 5, 255 and 4 without windows.
    (
        ALONE,
        b"TPH\0\x01\x05\0\0\0\x01\0\x02\0\x03\0\x04\0\x05\0\x06\0\x07\0\x08\0\x09",
        0,
        Err(43),
    ),
    (
        ALONE,
        b"TPH\0\x01\x04\0\0\0\x01\0\x02\0\x03\0\x04\0\x05\0\x06\0\x07",
        0,
        NONE,
    ),
    (ALONE, b"TPH\0\x01\x05", 0, Err(43)),
    (ALONE, b"TPH\0\x01\xFF", 0, Err(43)),
    (ALONE, b"TPH\0\x01\x04", 0, Err(43)),
    // 43 is of the whole file: after a window from 5 to 5 a count of 5, a byte missing, one left over.
    (TWO, b"TPH\0\x01\x01\0\x05\0\x05\x05", 2, Err(43)),
    (TWO, b"TPH\0\x01\x01\0\x05\0\x05", 2, Err(43)),
    (TWO, b"TPH\0\x01\x01\0\x05\0\x05\0\0", 2, Err(43)),
    (TWO, b"TPH\0\x01\x01\0\x05\0\x05\0", 2, Err(44)),
    // So it is after a window that starts before the preceding one ends.
    (
        TWO,
        b"TPH\0\x01\x02\0\0\0\x09\0\x08\0\x0A\x01\0\0\0",
        2,
        Err(43),
    ),
    (TWO, b"TPH\0\x01\x02\0\0\0\x09\0\x08\0\x0A\0", 2, Err(45)),
    // The book comes first, whatever the hours are.
    (NO_BOOK, b"", 0, Err(40)),
    (NO_BOOK, b"TPH\0\x01\x01\0\x05\0\x05\0", 0, Err(40)),
    (BAD_BOOK, b"TPH\0\x01\x05", 0, Err(41)),
    (BAD_BOOK, b"TPH\0\x01\0\0", 0, Err(41)),
];

/// The windows of each template.
type Windows = &'static [&'static [Interval]];

/// The same, by the minutes of windows.
const MINUTES: [(&[u8], Windows, usize, Known); 106] = [
    // No window, and the whole week.
    (TWO, &[&[], &[]], 0, NONE),
    (TWO, &[&[[0, 10_080]], &[]], 0, NONE),
    (TWO, &[&[], &[[0, 10_080]]], 0, NONE),
    (TWO, &[&[[0, 10_080]], &[[0, 10_080]]], 2, ONE),
    (APART, &[&[[0, 10_080]], &[[0, 10_080]]], 0, NONE),
    (ALONE, &[&[[0, 10_080]]], 0, NONE),
    // Windows of one minute, the first and the last of the week too.
    (TWO, &[&[[0, 1]], &[[0, 1]]], 2, ONE),
    (TWO, &[&[[0, 1]], &[[1, 2]]], 2, NONE),
    (TWO, &[&[[1, 2]], &[[0, 1]]], 2, NONE),
    (TWO, &[&[[10_079, 10_080]], &[[10_079, 10_080]]], 2, ONE),
    (TWO, &[&[[10_079, 10_080]], &[[10_078, 10_079]]], 2, NONE),
    (TWO, &[&[[10_079, 10_080]], &[[0, 10_080]]], 2, ONE),
    (TWO, &[&[[10_079, 10_080]], &[[0, 10_079]]], 2, NONE),
    (TWO, &[&[[0, 1]], &[[0, 10_080]]], 2, ONE),
    (TWO, &[&[[0, 1]], &[[1, 10_080]]], 2, NONE),
    (TWO, &[&[[5000, 5001]], &[[0, 10_080]]], 2, ONE),
    // The end of the week does not meet its start.
    (TWO, &[&[[10_079, 10_080]], &[[0, 1]]], 2, NONE),
    (TWO, &[&[[10_020, 10_080]], &[[0, 60]]], 2, NONE),
    // Monday from 8 to 18 o'clock, and from 18 on, or from a minute before; up to 8, or a minute after.
    (TWO, &[&[[480, 1080]], &[[1080, 1440]]], 2, NONE),
    (TWO, &[&[[480, 1080]], &[[1079, 1440]]], 2, ONE),
    (TWO, &[&[[480, 1080]], &[[0, 480]]], 2, NONE),
    (TWO, &[&[[480, 1080]], &[[0, 481]]], 2, ONE),
    (TWO, &[&[[1080, 1440]], &[[480, 1080]]], 2, NONE),
    (TWO, &[&[[1079, 1440]], &[[480, 1080]]], 2, ONE),
    // The same hours on Tuesday.
    (TWO, &[&[[480, 1080]], &[[1920, 2520]]], 2, NONE),
    // One in another, from the same start or to the same end, and the same.
    (TWO, &[&[[100, 200]], &[[149, 151]]], 2, ONE),
    (TWO, &[&[[149, 151]], &[[100, 200]]], 2, ONE),
    (TWO, &[&[[100, 200]], &[[100, 101]]], 2, ONE),
    (TWO, &[&[[199, 200]], &[[100, 200]]], 2, ONE),
    (TWO, &[&[[100, 200]], &[[100, 200]]], 2, ONE),
    // Bytes that look alike: 0x0100 to 0x0200 and 0x0001 to 0x0002; 255 to 256 and 256 to 511.
    (TWO, &[&[[256, 512]], &[[1, 2]]], 2, NONE),
    (TWO, &[&[[255, 256]], &[[256, 511]]], 2, NONE),
    (TWO, &[&[[255, 257]], &[[256, 511]]], 2, ONE),
    (TWO, &[&[[0, 255]], &[[255, 256]]], 2, NONE),
    // Between two windows, before and after both.
    (TWO, &[&[[100, 200], [300, 400]], &[[200, 300]]], 2, NONE),
    (TWO, &[&[[100, 200], [300, 400]], &[[199, 300]]], 2, ONE),
    (TWO, &[&[[100, 200], [300, 400]], &[[200, 301]]], 2, ONE),
    (TWO, &[&[[200, 301]], &[[100, 200], [300, 400]]], 2, ONE),
    (TWO, &[&[[100, 200], [300, 400]], &[[0, 100]]], 2, NONE),
    (TWO, &[&[[100, 200], [300, 400]], &[[400, 500]]], 2, NONE),
    (
        TWO,
        &[
            &[[100, 200], [300, 400]],
            &[[0, 100], [200, 300], [400, 10_080]],
        ],
        2,
        NONE,
    ),
    (
        TWO,
        &[
            &[[100, 200], [300, 400]],
            &[[0, 100], [200, 300], [399, 10_080]],
        ],
        2,
        ONE,
    ),
    // Of four windows each only the last two meet, or the first two, or the last and the first.
    (
        TWO,
        &[
            &[[0, 1], [10, 11], [20, 21], [30, 31]],
            &[[1, 2], [11, 12], [21, 22], [30, 31]],
        ],
        2,
        ONE,
    ),
    (
        TWO,
        &[
            &[[0, 1], [10, 11], [20, 21], [30, 31]],
            &[[1, 2], [11, 12], [21, 22], [31, 32]],
        ],
        2,
        NONE,
    ),
    (
        TWO,
        &[
            &[[0, 2], [10, 11], [20, 21], [30, 31]],
            &[[1, 2], [11, 12], [21, 22], [31, 32]],
        ],
        2,
        ONE,
    ),
    (
        TWO,
        &[
            &[[0, 1], [10, 11], [20, 21], [30, 31]],
            &[[30, 32], [40, 41], [50, 51], [60, 61]],
        ],
        2,
        ONE,
    ),
    (
        TWO,
        &[
            &[[30, 32], [40, 41], [50, 51], [60, 61]],
            &[[0, 1], [10, 11], [20, 21], [30, 31]],
        ],
        2,
        ONE,
    ),
    // Back to back is in order.
    (TWO, &[&[[0, 100], [100, 200]], &[[99, 100]]], 2, ONE),
    (TWO, &[&[[0, 100], [100, 200]], &[[100, 101]]], 2, ONE),
    (TWO, &[&[[0, 100], [100, 200]], &[[200, 201]]], 2, NONE),
    (
        TWO,
        &[&[[0, 1], [1, 2], [2, 3], [3, 10_080]], &[[5000, 5001]]],
        2,
        ONE,
    ),
    (
        TWO,
        &[&[[0, 1], [1, 2], [2, 3], [3, 4]], &[[4, 10_080]]],
        2,
        NONE,
    ),
    // Across Sunday midnight, from 23 to 1 o'clock.
    (TWO, &[&[[0, 60], [10_020, 10_080]], &[[30, 31]]], 2, ONE),
    (
        TWO,
        &[&[[0, 60], [10_020, 10_080]], &[[10_079, 10_080]]],
        2,
        ONE,
    ),
    (
        TWO,
        &[&[[0, 60], [10_020, 10_080]], &[[60, 10_020]]],
        2,
        NONE,
    ),
    (
        TWO,
        &[&[[10_020, 10_080], [0, 60]], &[[30, 31]]],
        2,
        Err(45),
    ),
    (TWO, &[&[[10_020, 60]], &[[30, 31]]], 2, Err(44)),
    (TWO, &[&[[10_020, 10_140]], &[[30, 31]]], 2, Err(44)),
    // The start is not below the end, or the end is above 10,080.
    (TWO, &[&[[5, 5]], &[]], 2, Err(44)),
    (TWO, &[&[[0, 0]], &[]], 2, Err(44)),
    (TWO, &[&[[10_080, 10_080]], &[]], 2, Err(44)),
    (TWO, &[&[[6, 5]], &[]], 2, Err(44)),
    (TWO, &[&[[1, 0]], &[]], 2, Err(44)),
    (TWO, &[&[[256, 255]], &[]], 2, Err(44)),
    (TWO, &[&[[10_080, 0]], &[]], 2, Err(44)),
    (TWO, &[&[[0, 10_081]], &[]], 2, Err(44)),
    (TWO, &[&[[10_080, 10_081]], &[]], 2, Err(44)),
    (TWO, &[&[[20_000, 30_000]], &[]], 2, Err(44)),
    (TWO, &[&[[0, 65_535]], &[]], 2, Err(44)),
    (TWO, &[&[[65_535, 65_535]], &[]], 2, Err(44)),
    (TWO, &[&[[65_535, 0]], &[]], 2, Err(44)),
    (TWO, &[&[], &[[5, 5]]], 2, Err(44)),
    (TWO, &[&[[0, 5], [5, 5]], &[]], 2, Err(44)),
    (
        TWO,
        &[&[], &[[0, 1], [1, 2], [2, 3], [3, 10_081]]],
        2,
        Err(44),
    ),
    // Before the preceding one ends; a minute later is in order.
    (TWO, &[&[[0, 10], [9, 20]], &[]], 2, Err(45)),
    (TWO, &[&[[0, 10], [10, 20]], &[]], 2, NONE),
    (TWO, &[&[[0, 10], [0, 10]], &[]], 2, Err(45)),
    (TWO, &[&[[0, 10], [2, 3]], &[]], 2, Err(45)),
    (TWO, &[&[[10, 20], [0, 10]], &[]], 2, Err(45)),
    (TWO, &[&[[10, 20], [0, 30]], &[]], 2, Err(45)),
    (TWO, &[&[[0, 10_080], [0, 10_080]], &[]], 2, Err(45)),
    (TWO, &[&[[0, 10], [20, 30], [15, 40]], &[]], 2, Err(45)),
    (TWO, &[&[[0, 10], [20, 30], [10, 20]], &[]], 2, Err(45)),
    (
        TWO,
        &[&[[0, 10], [20, 30], [30, 40], [39, 50]], &[]],
        2,
        Err(45),
    ),
    (TWO, &[&[], &[[0, 10], [9, 20]]], 2, Err(45)),
    // Windows of another template do not precede.
    (TWO, &[&[[100, 200]], &[[50, 60]]], 2, NONE),
    (TWO, &[&[[100, 200]], &[[150, 160]]], 2, ONE),
    (TWO, &[&[[0, 10_080]], &[[0, 1], [2, 3]]], 2, ONE),
    // Both in one window: 44.
    (TWO, &[&[[0, 10], [9, 9]], &[]], 2, Err(44)),
    (TWO, &[&[[0, 10], [9, 5]], &[]], 2, Err(44)),
    (TWO, &[&[[0, 10], [9, 10_081]], &[]], 2, Err(44)),
    // In two windows: the number of the first one.
    (TWO, &[&[[0, 10], [9, 20], [30, 30]], &[]], 2, Err(45)),
    (TWO, &[&[[0, 10], [20, 20], [5, 30]], &[]], 2, Err(44)),
    (TWO, &[&[[0, 10], [9, 20]], &[[7, 7]]], 2, Err(45)),
    (TWO, &[&[[7, 7]], &[[0, 10], [9, 20]]], 2, Err(44)),
    (TWO, &[&[[0, 10_081], [5, 6]], &[]], 2, Err(44)),
    // A buffer that is too short comes last.
    (TWO, &[&[[0, 1]], &[[0, 1]]], 1, Err(42)),
    (TWO, &[&[[0, 1]], &[[0, 1]]], 0, Err(42)),
    (TWO, &[&[[0, 1]], &[[0, 1], [0, 1]]], 0, Err(45)),
    (TWO, &[&[[0, 1]], &[[0, 0]]], 0, Err(44)),
    // Of three pairs two are left, and need four bytes.
    (
        THREE,
        &[&[[0, 200]], &[[0, 100]], &[[100, 200]]],
        4,
        Ok(&[[0, 1], [0, 2]]),
    ),
    (
        THREE,
        &[&[[0, 200]], &[[0, 100]], &[[100, 200]]],
        3,
        Err(42),
    ),
    (THREE, &[&[[0, 200]], &[], &[[100, 200]]], 2, Ok(&[[0, 2]])),
    (
        THREE,
        &[&[[0, 50]], &[[50, 100]], &[[99, 200]]],
        2,
        Ok(&[[1, 2]]),
    ),
    // 0 2, 1 2 and 1 4 share minutes and do not clash; the windows of 0 1 and of 3 4 touch.
    (
        FIVE,
        &[&[[0, 10]], &[[10, 20]], &[[0, 20]], &[[5, 15]], &[[15, 20]]],
        8,
        Ok(&[[0, 3], [1, 3], [2, 3], [2, 4]]),
    ),
    (
        FIVE,
        &[&[[0, 10]], &[[10, 20]], &[[0, 20]], &[[5, 15]], &[[15, 20]]],
        7,
        Err(42),
    ),
];

/// Of the shop's twelve templates 0 1, 0 5, 2 3, 8 9 and 10 11 clash.
const SHOP: &str = "examples/shop.tpb";
const SLOWEST: &str = "bench/worst/book_2.tpb";
const ALWAYS: &[Interval] = &[[0, 10_080]];

/// Hours of the shop, with what they leave.
const SHOPS: [(Windows, Known); 3] = [
    (
        &[ALWAYS; 12],
        Ok(&[[0, 1], [0, 5], [2, 3], [8, 9], [10, 11]]),
    ),
    // A weekly test is sent on Monday from 9:00 to 9:30, a fire test never, a line test from Sunday 22:00
    // to Monday 2:00. Power is lost before Monday noon and comes back after it. A battery is low on Monday
    // and on Wednesday, and new from Tuesday on, up to the first minute of Wednesday.
    (
        &[
            ALWAYS,
            &[[540, 570]],
            ALWAYS,
            &[],
            ALWAYS,
            &[[0, 120], [9960, 10_080]],
            &[[480, 510], [1920, 1950], [3360, 3390], [4800, 4830]],
            &[[1050, 1080], [2490, 2520], [3930, 3960], [5370, 5400]],
            &[[0, 720]],
            &[[720, 1440]],
            &[[0, 1440], [2880, 4320]],
            &[[1440, 2881]],
        ],
        Ok(&[[0, 1], [0, 5], [10, 11]]),
    ),
    // Hold-ups are from Monday to Thursday from 8 to 18 o'clock, both tests only between.
    (
        &[
            &[[480, 1080], [1920, 2520], [3360, 3960], [4800, 5400]],
            &[[1080, 1920]],
            ALWAYS,
            ALWAYS,
            ALWAYS,
            &[[0, 480], [1080, 1920], [2520, 3360], [3960, 4800]],
            ALWAYS,
            ALWAYS,
            ALWAYS,
            ALWAYS,
            ALWAYS,
            ALWAYS,
        ],
        Ok(&[[2, 3], [8, 9], [10, 11]]),
    ),
];

fn bytes(test: &mut Test) {
    for (book, hours, room, known) in BYTES {
        compare(test, &Shop::new(book), hours, room, owned(known));
    }
}

fn minutes(test: &mut Test) {
    for (book, windows, room, known) in MINUTES {
        compare(
            test,
            &Shop::new(book),
            &encoded(windows),
            room,
            owned(known),
        );
    }
}

fn shop(test: &mut Test) {
    let book = fs::read(SHOP).expect("the book of a shop");
    let shop = Shop::new(&book);
    for (windows, known) in SHOPS {
        let hours = encoded(windows);
        let room = known.map_or(0, |pairs| 2 * pairs.len());
        compare(test, &shop, &hours, room, owned(known));
        compare(test, &shop, &hours, room - 1, Err(42));
    }
}

/// Sixteen empty templates, which all clash, with the windows that a rule gives to each.
fn sixteen(test: &mut Test) {
    let shop = Shop::new(&[&b"TPB\0\x01\x01A\x10"[..], &[0; 32]].concat());
    let hours = |windows: fn(u16) -> Vec<Interval>| {
        let all: Vec<Vec<Interval>> = (0..16).map(windows).collect();
        schedules::encode(&all)
    };
    // All 120 pairs are left: those of the whole week, and of one minute in the last of four windows.
    let week = hours(|_| vec![[0, 10_080]]);
    let full = hours(|i| {
        vec![
            [i, i + 1],
            [100 + i, 101 + i],
            [200 + i, 201 + i],
            [5000, 5001],
        ]
    });
    for hours in [&week, &full] {
        compare(test, &shop, hours, 240, Ok(pairs(|_, _| true)));
        compare(test, &shop, hours, 239, Err(42));
    }
    // That is the longest file.
    require(
        full.len() == 277 && MOST_BYTES == 277,
        "the longest file has another size",
        &[("bytes", &full.len()), ("due", &277)],
    );
    for byte in 0..=255 {
        compare(test, &shop, &[&full[..], &[byte]].concat(), 240, Err(43));
    }
    compare(test, &shop, &full[..276], 240, Err(43));
    // Windows like stairs, which share a minute with the next, or touch it.
    let stairs = hours(|i| vec![[10 * i, 10 * i + 11]]);
    compare(test, &shop, &stairs, 30, Ok(pairs(|i, j| j - i == 1)));
    compare(test, &shop, &stairs, 29, Err(42));
    let touching = hours(|i| vec![[10 * i, 10 * i + 10]]);
    compare(test, &shop, &touching, 0, Ok(Vec::new()));
    // Every other template on Monday, the others on Tuesday: 56 pairs. Only the first and the last.
    let days = hours(|i| vec![[1440 * (i % 2), 1440 * (i % 2) + 1440]]);
    compare(test, &shop, &days, 112, Ok(pairs(|i, j| (j - i) % 2 == 0)));
    compare(test, &shop, &days, 111, Err(42));
    let ends = hours(|i| {
        if i % 15 == 0 {
            vec![[7, 8]]
        } else {
            Vec::new()
        }
    });
    compare(test, &shop, &ends, 2, Ok(vec![0, 15]));
    unsearched();
}

/// The slowest book that is known, whose list takes half a second, with a minute of its own for each template: no pair is searched.
fn unsearched() {
    let book = fs::read(SLOWEST).expect("the slowest book");
    let minutes: Vec<Vec<Interval>> = (0..16).map(|i| vec![[i, i + 1]]).collect();
    let hours = schedules::encode(&minutes);
    let start = Instant::now();
    let status = engine::book_hours(&book, &hours, 0).status;
    let taken = start.elapsed();
    require(
        status == 0 && taken < Duration::from_millis(50),
        "no pair shares a minute, so the list is empty, and there is nothing to search",
        &[("status", &status), ("taken", &format!("{taken:?}"))],
    );
}

/// The list of the pairs below 16 that pass a test.
fn pairs(test: fn(u8, u8) -> bool) -> Vec<u8> {
    let after = |i| (i + 1..16).map(move |j| [i, j]);
    let mut pairs: Vec<[u8; 2]> = (0..16).flat_map(after).collect();
    pairs.retain(|&[i, j]| test(i, j));
    pairs.concat()
}

fn encoded(windows: Windows) -> Vec<u8> {
    let windows: Vec<Vec<Interval>> = windows.iter().map(|some| some.to_vec()).collect();
    schedules::encode(&windows)
}

fn owned(known: Known) -> Result<Vec<u8>, u8> {
    known.map(|pairs| pairs.concat())
}

/// Holds what is due here to the answer worked out by hand, and the library too.
fn compare(test: &mut Test, shop: &Shop, hours: &[u8], room: usize, known: Result<Vec<u8>, u8>) {
    let left = shop.left(hours);
    let due = schedule::due(&left, room).map_err(|refusal| refusal as u8);
    require(
        due == known.as_deref().map_err(|&number| number),
        "worked out by hand there is another answer",
        &[
            ("book", &Hex(&shop.book)),
            ("hours", &Hex(hours)),
            ("buffer of", &room),
            ("answer", &format!("{due:02X?}")),
            ("due", &format!("{known:02X?}")),
        ],
    );
    test.book_hours(&shop.book, hours, &left, room);
}
