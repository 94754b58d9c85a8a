#![doc = include_str!("../README.md")]

mod book;
mod checking;
mod choices;
mod days;
mod explaining;
mod fields;
mod lists;
mod mending;
mod names;
mod prepared;
mod reading;
mod refusal;
mod splitting;
mod stamps;
mod units;
mod writing;

pub mod raw;

pub use book::Book;
pub use checking::{check, check_with, explain_check, explain_check_with, Verdict};
pub use choices::{Choices, Edition};
pub use days::{day_number, day_of, Day};
pub use explaining::{explain, explain_by, explain_date, explain_with};
pub use fields::Fields;
pub use lists::{lines, lines_by, read_list, read_list_by, read_list_by_into, Columns, Line, Lines, Rows};
pub use mending::{mend, mend_with, undo, Change, Mending, Misfit};
pub use names::Names;
pub use prepared::{NotPrepared, Prepared};
pub use reading::{parse_offset, read, read_by, read_date, read_with, ParseUnit, Reading};
pub use refusal::Refusal;
pub use splitting::{split, Kind, Part};
pub use stamps::{explain_stamp, read_stamp, write_stamp, write_stamp_into, Stamp};
pub use units::{units, PartUnit};
pub use writing::{write, write_by, write_by_into, write_date, write_date_into, write_into};
