//! The numbers of the header for C: sizes, what is returned, choices, and the places of a row.

/// The longest pattern, in bytes.
pub const LONGEST_PATTERN: usize = 256;
/// The longest text, in bytes.
pub const LONGEST_TEXT: usize = 2048;
/// The most bytes of output that a writer needs for each byte of the pattern.
pub const BYTES_A_PATTERN_BYTE: usize = 8;
/// The most bytes of the stack that a call takes.
pub const MOST_STACK: usize = 2048;
/// The most bytes of the stack that a call of [`sheet_mend`](super::sheet_mend) or [`sheet_undo`](super::sheet_undo) takes.
pub const MEND_STACK: usize = 8960;

/// How many bytes an opened book has.
pub const BOOK_ROW: usize = BOOK_ROOMS * NAME_ROOM;
/// How many names a book has, each of which has its room in an opened book.
pub const BOOK_ROOMS: usize = 64;
/// How many bytes such a room has: one for the length of the name, then those for the name.
pub const NAME_ROOM: usize = 1 + LONGEST_NAME;
/// The longest name, in letters.
pub const LONGEST_NAME: usize = 20;
/// The longest book of version 1, in bytes.
pub const LONGEST_BOOK: usize = 743;
/// The longest stamp that is written, in bytes.
pub const LONGEST_STAMP: usize = 35;
/// How many entries the row of a prepared pattern has.
pub const PREPARED_ROW: usize = 259;

/// The most changes that a mended pattern has.
pub const MOST_CHANGES: usize = 128;
/// How many entries of `changes` a change has: its place, the byte, how often it stood there, how often it does now.
pub const CHANGE: usize = 4;

/// How many entries of `answer` a writer asks for.
pub const WRITE_ANSWER: usize = 2;
/// How many entries of `answer` a reader asks for.
pub const READ_ANSWER: usize = 48;
/// Where the values of a reading start in `answer`.
pub const READ_VALUES: usize = 3;
/// Where in `answer` the places start at which the parts of the values began.
pub const READ_STARTS: usize = 18;
/// Where in `answer` the places start at which they ended.
pub const READ_ENDS: usize = 33;
/// How many entries of `answer` [`sheet_parse_offset`](super::sheet_parse_offset) asks for.
pub const OFFSET_ANSWER: usize = 2;
/// How many entries of `answer` [`sheet_split`](super::sheet_split) asks for.
pub const SPLIT_ANSWER: usize = 2;
/// How many entries of `parts` [`sheet_split`](super::sheet_split) asks for.
pub const SPLIT_PARTS: usize = 768;
/// How many entries of `answer` [`sheet_units`](super::sheet_units) asks for.
pub const UNITS_ANSWER: usize = 2;
/// How many entries of `units` [`sheet_units`](super::sheet_units) asks for.
pub const UNITS_ROW: usize = 256;
/// How many entries of `answer` a check asks for.
pub const CHECK_ANSWER: usize = 10;
/// How many entries of `answer` [`sheet_day`](super::sheet_day) asks for.
pub const DAY_ANSWER: usize = 6;
/// How many entries of `answer` [`sheet_day_number`](super::sheet_day_number) asks for.
pub const DAY_NUMBER_ANSWER: usize = 2;
/// How many entries of `answer` [`sheet_book_read`](super::sheet_book_read) and [`sheet_book_write`](super::sheet_book_write) ask for.
pub const BOOK_ANSWER: usize = 2;
/// How many entries of `answer` [`sheet_read_list`](super::sheet_read_list) asks for.
pub const LIST_ANSWER: usize = 2;
/// How many entries of `answer` [`sheet_read_line`](super::sheet_read_line) asks for.
pub const LINE_ANSWER: usize = LINE_READING + READ_ANSWER;
/// How many entries of `answer` [`sheet_mend`](super::sheet_mend) asks for.
pub const MEND_ANSWER: usize = 2;
/// How many entries of `changes` [`sheet_mend`](super::sheet_mend) asks for.
pub const CHANGES_ROW: usize = MOST_CHANGES * CHANGE;
/// How many entries of `answer` [`sheet_undo`](super::sheet_undo) asks for.
pub const UNDO_ANSWER: usize = 2;
/// Where in `answer` of [`sheet_read_line`](super::sheet_read_line) the reading starts.
pub const LINE_READING: usize = 3;
/// How many entries of `answer` [`sheet_rfc_read`](super::sheet_rfc_read) asks for.
pub const RFC_READ_ANSWER: usize = 6;
/// How many entries of `answer` [`sheet_rfc_write`](super::sheet_rfc_write) asks for.
pub const RFC_WRITE_ANSWER: usize = 2;
/// How many entries of `answer` [`sheet_prepare`](super::sheet_prepare) asks for.
pub const PREPARE_ANSWER: usize = 2;

/// What is returned where an answer is accepted.
pub const ACCEPTED: u32 = 0;

// What is returned where it is refused; `refusal_text` has it in words, the table of `Refusal` with its details.
pub const PATTERN_TOO_LONG: u32 = 1;
pub const PATTERN_BYTE: u32 = 2;
pub const LONE_QUOTE: u32 = 3;
pub const FIELD_RANGE: u32 = 4;
pub const NO_ROOM: u32 = 5;
pub const TEXT_TOO_LONG: u32 = 6;
pub const TEXT_BYTE: u32 = 7;
pub const TOO_FEW: u32 = 8;
pub const NO_NUMBER: u32 = 9;
pub const NO_NAME: u32 = 10;
pub const NO_SIGN: u32 = 11;
pub const OFFSET_LENGTH: u32 = 12;
pub const OFFSET_RANGE: u32 = 13;
pub const CURRENT_YEAR: u32 = 14;
pub const LITERAL_DIFFERS: u32 = 15;
pub const TEXT_LEFT: u32 = 16;
pub const NO_SUCH_DAY: u32 = 17;
pub const NO_DAY_NUMBER: u32 = 18;
pub const PLUS_SIGN: u32 = 19;
pub const BOOK_MARK: u32 = 20;
pub const BOOK_VERSION: u32 = 21;
pub const BOOK_LENGTH: u32 = 22;
pub const BOOK_NAME: u32 = 23;
pub const SHORT_ROW: u32 = 24;
pub const NOT_STAMP: u32 = 25;
pub const STAMP_RANGE: u32 = 26;
pub const LEAP_SECOND: u32 = 27;
pub const STAMP_YEAR: u32 = 28;
pub const STAMP_OFFSET: u32 = 29;
pub const MENDED_TOO_LONG: u32 = 30;

/// What is returned where a lent row is too small; then nothing is altered.
pub const ROW_TOO_SMALL: u32 = 100;
/// What is returned where a number stands for no choices, or for no mark; then nothing is altered.
pub const NO_SUCH_CHOICE: u32 = 101;
/// What is returned where bytes are lent as an opened book that are none; then nothing is altered.
pub const NO_BOOK: u32 = 102;
/// What is returned where a text has no line at a place; then nothing is altered.
pub const NO_LINE: u32 = 103;
/// What is returned where a row holds no changes, or one that does not fit a pattern; then nothing is altered.
pub const MISFIT: u32 = 104;
/// What is returned where a row is lent as a prepared pattern that is none; then nothing is altered.
pub const NOT_PREPARED: u32 = 105;

/// Among the choices of [`sheet_read_with`](super::sheet_read_with), which are added: dates alone.
pub const DATE_PAIR: u32 = 1;
/// Among the choices of [`sheet_read_with`](super::sheet_read_with): a strict reading.
pub const STRICT: u32 = 2;
/// Among the choices of [`sheet_read_with`](super::sheet_read_with), of [`sheet_check_with`](super::sheet_check_with) and of [`sheet_mend`](super::sheet_mend): the second edition.
pub const SECOND_EDITION: u32 = 4;

/// In the place of a unit: a part that is a literal.
pub const LITERAL: i64 = -1;
/// In the place of a unit: a symbol that carries nothing.
pub const CARRIES_NOTHING: i64 = 15;

// The lists of a book: which room of it has each one's first name.
pub const WIDE_MONTHS: usize = 0;
pub const SHORT_MONTHS: usize = 12;
pub const WIDE_WEEKDAYS: usize = 24;
pub const SHORT_WEEKDAYS: usize = 31;
pub const TWO_LETTER_WEEKDAYS: usize = 38;
pub const NARROW_WEEKDAYS: usize = 45;
pub const NARROW_MONTHS: usize = 52;

/// What a number that was returned says, in words that need no details.
pub fn refusal_text(number: u32) -> &'static str {
    match number {
        ACCEPTED => "accepted",
        PATTERN_TOO_LONG => "the pattern has over 256 bytes",
        PATTERN_BYTE => "the pattern has a byte that is zero or not plain ASCII",
        LONE_QUOTE => "the pattern ends with a quote that opens nothing",
        FIELD_RANGE => "a field is out of its range",
        NO_ROOM => "the output is too short for the text",
        TEXT_TOO_LONG => "the text has over 2,048 bytes",
        TEXT_BYTE => "the text has a byte that is not plain ASCII",
        TOO_FEW => "the text has too few bytes left",
        NO_NUMBER => "the text has no number where one should stand",
        NO_NAME => "the text has no name or period that fits where one should stand",
        NO_SIGN => "the text has no sign of a zone where one should stand",
        OFFSET_LENGTH => "the offset has another length than +05:30, and does not begin with Z",
        OFFSET_RANGE => "the hour or the minute of the offset is too large",
        CURRENT_YEAR => "the current year is not from 1 to 9999, or from 81 in the second edition",
        LITERAL_DIFFERS => "the text differs from the literal that should stand there",
        TEXT_LEFT => "the text goes on where the pattern ends",
        NO_SUCH_DAY => "there is no such day",
        NO_DAY_NUMBER => "the day's number doesn't fit 32 signed bits",
        PLUS_SIGN => "the text has a plus in front of a number",
        BOOK_MARK => "the book does not begin with the mark LNB",
        BOOK_VERSION => "the book is of another version than 1 and 2",
        BOOK_LENGTH => "the book is cut short, or goes on behind its names",
        BOOK_NAME => "the book has a bad name",
        SHORT_ROW => "a row is shorter than the lines",
        NOT_STAMP => "the text is not a stamp of RFC 3339",
        STAMP_RANGE => "a number of the stamp is out of its range",
        LEAP_SECOND => "the stamp has the second 60",
        STAMP_YEAR => "the year of the stamp is not from 1 to 9999",
        STAMP_OFFSET => "the offset of the stamp is not of whole minutes, or not 0 though it is unknown",
        MENDED_TOO_LONG => "the mended pattern has over 256 bytes",
        ROW_TOO_SMALL => "a row for the answer is too small",
        NO_SUCH_CHOICE => "there is no such choice",
        NO_BOOK => "the bytes are no opened book",
        NO_LINE => "no line is left at that place",
        MISFIT => "the changes do not fit the pattern",
        NOT_PREPARED => "the row is no prepared pattern",
        _ => "no such number",
    }
}
