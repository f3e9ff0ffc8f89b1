//! Sizes, with the names of `include/lunthegyr.h` without `TPL_`.

/// No accepted sheet has more bytes.
pub const SHEET_MOST: usize = 159;

/// A sheet has at most this many letters, and at least one.
pub const LETTERS_MOST: usize = 8;

/// A sheet has at most this many fields.
pub const FIELDS_MOST: usize = 6;

/// A sheet has at most this many pairs, and at least one.
pub const PAIRS_MOST: usize = 4;

/// A sheet has at most this many rules.
pub const RULES_MOST: usize = 4;

/// A template has at most this many symbols.
pub const SYMBOLS_MOST: usize = 12;

/// The symbol of field 0; that of field f is f more. Lower symbols are letter numbers.
pub const FIELD_SYMBOL: u8 = 128;

/// A filling has this many places for each field. No limit is above it.
pub const FIELD_PLACES: usize = 8;

/// A filling has this many bytes for each field: a length, and the places.
pub const FIELD_BYTES: usize = 9;

/// The bytes of [`FIELDS_MOST`] fields: a buffer that is always long enough for a filling.
pub const FILLING_MOST: usize = 54;

/// What stands in a filling's places past the length.
pub const PAST_LENGTH: u8 = 255;

/// No template spells a longer text: a buffer that is always long enough for one.
pub const TEXT_MOST: usize = 24;

/// No line of a clause file has more bytes, its line feed counted: a buffer that is always long enough for one.
pub const LINE_MOST: usize = 80;

/// A longer reply is refused.
pub const REPLY_MOST: usize = 65536;

/// No accepted book has more bytes.
pub const BOOK_MOST: usize = 287;

/// A book has at most this many templates, and at least one.
pub const TEMPLATES_MOST: usize = 16;

/// A template of a book has at most this many fields.
pub const TEMPLATE_FIELDS_MOST: usize = 3;

/// The bytes of the longest list of clashing pairs: a buffer that is always long enough for one.
pub const LIST_MOST: usize = 240;

/// No accepted hours file has more bytes.
pub const HOURS_MOST: usize = 277;

/// A template has at most this many windows.
pub const WINDOWS_MOST: usize = 4;

/// The minutes of a week. No window ends later.
pub const WEEK_MINUTES: u16 = 10080;
