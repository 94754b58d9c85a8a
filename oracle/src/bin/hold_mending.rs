//! Has a program mend patterns, and holds what it answers to what has to hold of each.

use harness::generator::Generator;
use harness::mending::{Ask, MendingTally};
use harness::options::Options;
use harness::request::{Op, Request};
use std::io::{self, BufRead, BufReader, Lines, Write};
use std::process::{Child, ChildStdin, ChildStdout, Command, ExitCode, Stdio};
use std::thread;

const USAGE: &str = "usage: hold_mending [--seed S] [--count N] -- PROGRAM [ARGS..]";
/// More than 200,000 of them are not refused.
const COUNT: usize = 250_000;
const AT_ONCE: usize = 1000;

/// A program that is asked again and again.
struct Program {
    running: Child,
    input: ChildStdin,
    output: Lines<BufReader<ChildStdout>>,
}

impl Program {
    fn start(words: &[String]) -> io::Result<Program> {
        let mut running = Command::new(&words[0])
            .args(&words[1..])
            .stdin(Stdio::piped())
            .stdout(Stdio::piped())
            .spawn()?;
        let input = running.stdin.take().expect("standard input is piped");
        let output = running.stdout.take().expect("standard output is piped");
        Ok(Program {
            running,
            input,
            output: BufReader::new(output).lines(),
        })
    }

    fn end(mut self) -> io::Result<bool> {
        drop(self.input);
        let unasked = self.output.next().is_some();
        Ok(self.running.wait()?.success() && !unasked)
    }
}

impl Ask for Program {
    /// The answers are read while requests are still written: a pipe holds less than all of them.
    fn answers(&mut self, requests: Vec<String>) -> io::Result<Vec<String>> {
        let count = requests.len();
        let Program { input, output, .. } = self;
        thread::scope(|scope| {
            let lines: String = requests
                .iter()
                .map(|request| format!("{request}\n"))
                .collect();
            let written = scope.spawn(move || input.write_all(lines.as_bytes()));
            let answers: Vec<String> = output.by_ref().take(count).collect::<io::Result<_>>()?;
            written.join().expect("writing does not panic")?;
            match answers.len() == count {
                true => Ok(answers),
                false => Err(io::Error::other("the program has no answer to a request")),
            }
        })
    }
}

fn main() -> ExitCode {
    let options = match Options::of_requests(std::env::args().skip(1)) {
        Ok(options) if !options.program.is_empty() && options.ops.is_none() => options,
        Ok(_) => return misused("a program is named, and no ops are"),
        Err(error) => return misused(&error),
    };
    match held(&options) {
        Ok(true) => ExitCode::SUCCESS,
        Ok(false) => ExitCode::FAILURE,
        Err(error) => {
            eprintln!("hold_mending: {error}");
            ExitCode::FAILURE
        }
    }
}

fn misused(error: &str) -> ExitCode {
    eprintln!("hold_mending: {error}\n{USAGE}");
    ExitCode::from(2)
}

/// Whether nothing that has to hold does not.
fn held(options: &Options) -> io::Result<bool> {
    let mut program = Program::start(&options.program)?;
    let mut tally = MendingTally::default();
    let count = options.count.unwrap_or(COUNT);
    let generated = Generator::new(options.seed, Op::MENDS.to_vec()).step_by(options.every.get());
    let mut left = generated.take(count).peekable();
    while left.peek().is_some() {
        let mends: Vec<Request> = left.by_ref().take(AT_ONCE).collect();
        tally.hold(&mut program, &mends)?;
    }
    print!("{tally}");
    Ok(program.end()? && tally.faults() == 0)
}
