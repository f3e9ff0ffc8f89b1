//! Sheets, a book and its hours that the tests use.

use crate::Sheet;

/// Document 01's sheet P: one field of limit 1 against A.
pub const P: [u8; 15] = *b"TPL\x00\x01\x01\x01\x01\x00A\x01\x01\x01\x80\x00";

/// P's clause file.
pub const P_FILE: &[u8] =
    b"p cnf 6 8\n1 2 0\n-1 -2 0\n3 0\n-3 -2 5 0\n-3 2 6 0\n-4 -2 6 0\n-4 2 0\n-5 0\n";

/// A sheet with the letters A and B, the fields x and y of limit 3, and two pairs: x against y; x and A against A and y. By its rules x has at most 2
/// letters, and x and y have at least 1 together.
pub const PAIRS_AND_RULES: [u8; 31] = *b"TPL\x00\x01\x02\x02\x02\x02AB\x03\x03\
\x01\x01\x80\x81\
\x02\x02\x80\x00\x00\x81\
\x01\x00\x00\x02\
\xFF\xFF\xFF\xFF";

/// A book with the letters A and B and four templates, of which 0 and 1 clash, and 1 and 3: A and its field 0; its fields 1 and 0, and A; B;
/// its fields 0 and 2, and ABA.
pub const BOOK: [u8; 34] = *b"TPB\x00\x01\x02AB\x04\
\x01\x01\x02\x00\x80\
\x02\x02\x01\x03\x81\x80\x00\
\x00\x01\x01\
\x03\x01\x01\x02\x05\x80\x82\x00\x01\x00";

/// Hours for that book, by which 1 and 3 share a minute, and 0 and 1 do not: from 0 to 60 and from 60 to 120; from 120 to 180; never; from 150 to the
/// end of the week.
pub const HOURS: [u8; 25] = *b"TPH\x00\x01\
\x02\x00\x00\x00\x3C\x00\x3C\x00\x78\
\x01\x00\x78\x00\xB4\
\x00\
\x01\x00\x96\x27\x60";

/// The sheet of a file of hexadecimal digits, with comments on lines that start with #.
pub fn sheet_of(file: &str) -> Sheet {
    let lines = file.lines().filter(|line| !line.starts_with('#'));
    let digits: Vec<u8> = lines
        .flat_map(str::bytes)
        .filter(|byte| *byte != b' ')
        .collect();
    let pair = |pair: &[u8]| u8::from_str_radix(std::str::from_utf8(pair).unwrap(), 16).unwrap();
    Sheet::read(digits.chunks(2).map(pair).collect::<Vec<u8>>()).unwrap()
}
