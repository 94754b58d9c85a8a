//! Prints generated requests, each with the line that is expected for it below it.

use harness::expected::expected;
use harness::printing::print_lines;
use std::process::ExitCode;

fn main() -> ExitCode {
    print_lines("record", |options| {
        options.generated().flat_map(|request| {
            let answer = expected(&request).line().to_string();
            [request.to_string(), answer]
        })
    })
}
