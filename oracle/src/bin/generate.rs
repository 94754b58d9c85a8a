//! Prints generated requests, the same for the same options.

use harness::printing::print_lines;
use std::process::ExitCode;

fn main() -> ExitCode {
    print_lines("generate", |options| {
        options.generated().map(|request| request.to_string())
    })
}
