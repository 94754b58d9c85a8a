//! Calls into the Rust, which may panic.

use crate::errors::AstrolabeError;
use std::cell::Cell;
use std::panic::{catch_unwind, set_hook, take_hook, AssertUnwindSafe};
use std::sync::Once;

/// Why the Rust gave no answer.
#[derive(Debug, PartialEq, Eq)]
pub enum Cause {
    /// An error, with its wording.
    Error(String),
    Panic,
}

thread_local! {
    static IN_THE_RUST: Cell<bool> = const { Cell::new(false) };
}

static QUIET: Once = Once::new();

/// Answers as the call does; a panic is caught and prints nothing.
pub(crate) fn guarded<T>(call: impl FnOnce() -> Result<T, AstrolabeError>) -> Result<T, Cause> {
    QUIET.call_once(silence_panics_in_the_rust);
    IN_THE_RUST.set(true);
    let outcome = catch_unwind(AssertUnwindSafe(call));
    IN_THE_RUST.set(false);
    match outcome {
        Ok(Ok(answer)) => Ok(answer),
        Ok(Err(AstrolabeError::InvalidFormat(error))) => Err(Cause::Error(error.to_string())),
        Ok(Err(AstrolabeError::OutOfRange(wording))) => Err(Cause::Error(wording)),
        Err(_) => Err(Cause::Panic),
    }
}

fn silence_panics_in_the_rust() {
    let usual = take_hook();
    set_hook(Box::new(move |panic| {
        if !IN_THE_RUST.get() {
            usual(panic);
        }
    }));
}
