//! Answers requests for the library: one line of standard input each, one line of standard output each, to the end of the
//! input. The README beside this file has the protocol.

mod answers;
mod books;
mod checking;
mod days;
mod hex;
mod lines;
mod lists;
mod marks;
mod mending;
mod pair;
mod prepared;
mod reader;
mod reading;
mod splitting;
mod stamps;
mod words;
mod writer;
mod writing;

use std::io::{self, ErrorKind};
use std::process::ExitCode;

fn main() -> ExitCode {
    if std::env::args_os().len() > 1 {
        eprintln!("usage: ask <REQUESTS >ANSWERS");
        return ExitCode::from(2);
    }
    match lines::answer_all(io::stdin().lock(), io::stdout().lock(), answers::answer) {
        // A reader that has enough may close the pipe.
        Err(error) if error.kind() != ErrorKind::BrokenPipe => {
            eprintln!("ask: {error}");
            ExitCode::FAILURE
        }
        _ => ExitCode::SUCCESS,
    }
}
