//! Puts patterns to a program's check, and holds its answers against trying records on the Rust.

use harness::check::CheckTally;
use harness::options::Options;
use harness::running::Comparer;
use std::process::ExitCode;

const COMPARE_CHECK: Comparer = Comparer {
    name: "compare_check",
    usage: "usage: compare_check [--seed S] [--count N] [--every K] [--edition first|second] \
        [--books english|random] [--requests FILE] -- PROGRAM [ARGS..]",
};

fn main() -> ExitCode {
    let options = Options::of_checks(std::env::args().skip(1));
    let generated = |options: &Options| {
        let requests = options.generated_checks();
        requests.map(|request| request.to_string())
    };
    COMPARE_CHECK.run(options, generated, |options| CheckTally::new(options.seed))
}
