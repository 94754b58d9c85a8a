//! The oracle: the Rust's modules for formatting, parsing and the calendar, built unchanged, with everything
//! around them that asks, generates and compares.

mod below;
mod calendar;
mod errors;
mod guard;
mod util;

pub mod answer;
pub mod book;
pub mod check;
pub mod choices;
pub mod days;
pub mod differences;
pub mod expected;
pub mod generator;
pub mod gregorian;
pub mod limits;
pub mod lists;
pub mod mending;
mod minus;
pub mod names;
pub mod op;
pub mod options;
mod part;
mod pluses;
pub mod prepared;
pub mod printing;
pub mod request;
pub mod running;
mod second;
pub mod stamps;
mod strict;
pub mod tally;
pub mod walk;

pub use calendar::Fields;
pub(crate) use calendar::{Date, DateUtilities};
