//! Puts the same requests to the Rust and to a program, and holds their answers side by side; or each to the program twice, with the
//! word `prepared` and without it.

use harness::options::Options;
use harness::prepared::PreparedTally;
use harness::running::Comparer;
use harness::tally::Tally;
use std::process::ExitCode;

const COMPARE: Comparer = Comparer {
    name: "compare",
    usage:
        "usage: compare [--seed S] [--count N] [--every K] [--ops OP,OP.. | --lists | --mends | --stamps] \
        [--books english|random] [--requests FILE] -- PROGRAM [ARGS..]\n\
        or: compare --prepared [--seed S] [--count N] [--every K] -- PROGRAM [ARGS..]",
};

fn main() -> ExitCode {
    let options = Options::of_requests(std::env::args().skip(1));
    if options.as_ref().is_ok_and(|options| options.prepared) {
        return COMPARE.run(options, Options::generated_prepared, |_| {
            PreparedTally::default()
        });
    }
    let generated = |options: &Options| options.generated().map(|request| request.to_string());
    COMPARE.run(options, generated, |_| Tally::default())
}
