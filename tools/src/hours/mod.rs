//! The hours of a book: when each of its templates is sent, as text and as bytes, and what that says of two of them. A file here does for hours what
//! the file of its name in `book` does for books.

mod fault;
pub mod input;
pub mod parse;
pub mod shared;
pub mod text;
pub mod verdict;
mod week;
