//! Books: their text form, and what the engine says of them. A file here does for books what the file of its name in the folder above does
//! for sheets.

mod fault;
pub mod form;
pub mod input;
pub mod matrix;
pub mod opinion;
pub mod parse;
mod places;
pub mod question;
mod text;
pub mod verdict;

#[cfg(test)]
pub mod random;
