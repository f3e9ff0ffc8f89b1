//! Can two templates ever spell the same text? This is a safe wrapper of `libengine.a`, a proved engine for bounded word
//! equations with linear length constraints.
//!
//! A template is a row of letters and fields, and a filling gives each field a text. A book has all templates of a shop, and asks of every
//! two of them whether they clash: whether some filling makes both spell the same text.
//!
//! ```
//! use lunthegyr::Book;
//!
//! // One letter, A; three templates: a field of at most one letter, A, and AA.
//! let book = Book::read(*b"TPB\x00\x01\x01A\x03\x01\x01\x01\x80\x00\x01\x00\x00\x02\x00\x00")?;
//! for pair in book.clashes() {
//!     let sheet = book.question(pair.first, pair.second);
//!     let filling = sheet.search().expect("the field can be A");
//!     assert_eq!((pair.first, pair.second, sheet.text(0, &filling)?), (0, 1, b"A".to_vec()));
//! }
//! # Ok::<(), lunthegyr::Refusal>(())
//! ```
//!
//! [`Hours`] say when each template of a book is sent, and so which clashes are in the same minute.
//!
//! ```
//! use lunthegyr::{Book, Hours, Window};
//!
//! // One letter, A; three templates: A, A and A. So any two of them clash.
//! let book = Book::read(*b"TPB\x00\x01\x01A\x03\x00\x01\x00\x00\x01\x00\x00\x01\x00")?;
//! assert_eq!(book.clashes().len(), 3);
//! // Monday 09:00 to 17:30; Monday 17:30 to 18:00; the whole week.
//! let windows = [(540, 1050), (1050, 1080), (0, 10080)].map(|(start, end)| [Window { start, end }]);
//! let hours = Hours::from_windows(&book, &windows)?;
//! let shared: Vec<_> = hours.clashes().iter().map(|pair| (pair.first, pair.second)).collect();
//! assert_eq!(shared, [(0, 2), (1, 2)]);
//! # Ok::<(), lunthegyr::Refusal>(())
//! ```
//!
//! A sheet lists templates in pairs, and has rules. A filling clashes when in every pair both templates spell the same text, and every rule of
//! the sheet holds. The repository's `docs/01-scope.md` ("document 01") defines the bytes of a sheet and of a filling, and what is refused;
//! `docs/02-change-requests.md` ("document 02") does so for a book and its hours.
//!
//! ```
//! use lunthegyr::{Sheet, Side};
//!
//! // One letter, A; one field of at most one letter; one pair: the field against A.
//! let sheet = Sheet::read(*b"TPL\x00\x01\x01\x01\x01\x00A\x01\x01\x01\x80\x00")?;
//! let filling = sheet.search().expect("the field can be A");
//! assert_eq!(filling.letters(0), [0]); // letter 0 is A
//! assert_eq!(sheet.spell(0, Side::Left, &filling)?, b"A");
//! # Ok::<(), lunthegyr::Refusal>(())
//! ```
//!
//! [`Sheet::check`] says of texts of one's own whether they clash, and if they do not, where the first two texts part and what is left over, or
//! which rule does not hold.
//!
//! [`Book`], [`Hours`], [`Sheet`] and [`Filling`] are for most uses. The module [`calls`] has the engine's ten calls over any bytes and lent
//! buffers; it allocates nothing.

#![deny(missing_docs)]
#![deny(unsafe_code)]

mod answers;
mod book;
pub mod calls;
mod cause;
#[allow(unsafe_code)]
mod engine;
mod filling;
mod hours;
mod refusal;
mod sheet;
mod sizes;
mod status;

#[cfg(test)]
mod header;
#[cfg(test)]
mod samples;

pub use answers::{Checked, Clashing, ClauseCounts, Counts, Searched, Side};
pub use book::{Book, Template};
pub use cause::Cause;
pub use filling::Filling;
pub use hours::{Hours, Window};
pub use refusal::Refusal;
pub use sheet::Sheet;
pub use sizes::*;
