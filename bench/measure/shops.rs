//! Books as shops have them: a template for each kind of event.

use crate::book::{Book, Own};
use crate::reader::Symbol;

/// A field's name in the templates below, and its limit: shop number, zone, code of a member of staff, time
/// of day, and a note.
const FIELDS: [(u8, u8); 5] = [(b's', 4), (b'z', 2), (b'p', 3), (b't', 4), (b'n', 8)];

/// A name, the letters, and the templates: small letters are fields, all else is itself.
const SHOPS: [(&str, &str, &str); 12] = [
    // Each kind of event has a code of two letters before all fields: all apart.
    (
        "codes first",
        "0123ABCD",
        "AAszp ABsz ACszp ADsz BAszp BBsz BCszp BDsz CAszp CBsz CCszp CDsz DAszp DBsz DCszp DDsz",
    ),
    // The codes come last, so that only the ends tell them apart.
    (
        "codes last",
        "0123ABCD",
        "szpAA szAB szpAC szAD szpBA szBB szpBC szBD szpCA szCB szpCC szCD",
    ),
    // One letter for opened, closed and test: many share a letter.
    (
        "opened and closed",
        "01234COT",
        "Oszp Ospt Osz Ost Cszp Cspt Csz Cst Tsz Tszt Ts Tst OOs CCs",
    ),
    // A hold-up has a code of staff where a weekly test has none.
    (
        "staff left empty",
        "0123456A",
        "Aszp Asz As 0szp 0sz 0s 1szp 1sz 1s 2szp 2sz 2s 3sz",
    ),
    // No letters but what fields hold.
    (
        "fields alone",
        "01234567",
        "szp sz szt st spt zpt sp zp s z p t n sn",
    ),
    // The shop number stands at both ends, to be sure of it.
    (
        "shop twice",
        "0123ABCD",
        "sAs sAzs sABs sApzs sBs sBzs sBpzs sCs sCzs sCpzs sDs sDzs sDpzs sDDs",
    ),
    // A letter between any two fields.
    (
        "letters between",
        "012345XY",
        "sXzXp sXzYp sYzXp sYzYp sXzX sXzY sYzX sYzY XsXz XsYz YsXz YsYz sXX sYY sXY sYX",
    ),
    // Long notes, with the code before or behind.
    (
        "notes",
        "0123NOPQ",
        "Nn On Pn Qn nN nO nP nQ NNnsz NOnsz OOnsz PPnsz QQnsz NnN OnO",
    ),
    // Fixed texts, and some with a zone.
    (
        "fixed texts",
        "AEFIRSTW",
        "TEST FIRE WATER STAFF SAFE ERASE TREAT TESTz FIREz WATERz SAFEz ERASEz REST",
    ),
    // Digits for events, digits in fields.
    (
        "digits",
        "01234567",
        "0sz 1sz 2sz 3sz 4szp 5szp 6szp 7szp 00zt 11zt 22zt 33zt 00szp 77t",
    ),
    // One code in three lengths, and copies of other shops' templates.
    (
        "copied",
        "0123ABCD",
        "Aszp Aszp Asz Asz AAsz AAsz AAAs BAsz BAsz BBsz BBsz Cszp Cszp Dsz Dsz DDt",
    ),
    // The time of day before, between and behind.
    (
        "times",
        "0123AWXZ",
        "Atsz Wtsz Xtsz Ztsz Astz Wstz Xstz Zstz Aszt Wszt Xszt Zszt AXt WZt",
    ),
];

/// All of them, by name.
pub fn all() -> Vec<(String, Book)> {
    let book = |&(name, letters, templates): &(&str, &str, &str)| {
        let letters = letters.as_bytes();
        let templates = templates.split(' ');
        let book = Book {
            letters: letters.to_vec(),
            templates: templates.map(|text| own(letters, text)).collect(),
        };
        (name.to_string(), book)
    };
    SHOPS.iter().map(book).collect()
}

/// A template, with its fields in the order in which they come up.
fn own(letters: &[u8], text: &str) -> Own {
    let mut own = Own {
        limits: Vec::new(),
        symbols: Vec::new(),
    };
    let mut named: Vec<u8> = Vec::new();
    for byte in text.bytes() {
        let symbol = match FIELDS.iter().find(|(name, _)| *name == byte) {
            Some((_, limit)) => {
                let known = named.iter().position(|&name| name == byte);
                let field = known.unwrap_or_else(|| {
                    named.push(byte);
                    own.limits.push(*limit);
                    named.len() - 1
                });
                Symbol::Field(field as u8)
            }
            None => {
                let number = letters.iter().position(|&letter| letter == byte);
                Symbol::Letter(number.expect("a letter of the book") as u8)
            }
        };
        own.symbols.push(symbol);
    }
    own
}
