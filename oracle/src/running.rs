//! Runs a program on requests, and holds its answers as they come.

use crate::options::Options;
use crate::tally::Hold;
use std::fs::File;
use std::io::{self, BufRead, BufReader, BufWriter, Write};
use std::process::{ChildStdin, Command, ExitCode, Stdio};
use std::sync::mpsc::{channel, Sender};
use std::thread;

/// A program that compares, by its name and its usage.
pub struct Comparer {
    pub name: &'static str,
    pub usage: &'static str,
}

impl Comparer {
    /// Compares on the requests of the options' file or else on the generated ones, and prints the tally.
    pub fn run<Generated, Tally>(
        &self,
        options: Result<Options, String>,
        generated: impl Fn(&Options) -> Generated,
        tally: impl Fn(&Options) -> Tally,
    ) -> ExitCode
    where
        Generated: Iterator<Item = String> + Send + 'static,
        Tally: Hold,
    {
        let options = match options {
            Ok(options) if !options.program.is_empty() => options,
            Ok(_) => return self.misused("no program is named"),
            Err(error) => return self.misused(&error),
        };
        let requests = match &options.requests {
            Some(path) => lines_of(path),
            None => Ok(Box::new(generated(&options).map(Ok)) as Lines),
        };
        match requests.and_then(|requests| compare(&options.program, requests, tally(&options))) {
            Ok(true) => ExitCode::SUCCESS,
            Ok(false) => ExitCode::FAILURE,
            Err(error) => {
                eprintln!("{}: {error}", self.name);
                ExitCode::FAILURE
            }
        }
    }

    fn misused(&self, error: &str) -> ExitCode {
        eprintln!("{}: {error}\n{}", self.name, self.usage);
        ExitCode::from(2)
    }
}

type Lines = Box<dyn Iterator<Item = io::Result<String>> + Send>;

fn lines_of(path: &str) -> io::Result<Lines> {
    let file = File::open(path).map_err(|error| about(path, error))?;
    Ok(Box::new(BufReader::new(file).lines()))
}

/// Whether the program answered every request as expected, and nothing else.
fn compare(program: &[String], requests: Lines, mut tally: impl Hold) -> io::Result<bool> {
    let mut running = Command::new(&program[0])
        .args(&program[1..])
        .stdin(Stdio::piped())
        .stdout(Stdio::piped())
        .spawn()
        .map_err(|error| about(&program[0], error))?;
    let input = running.stdin.take().expect("standard input is piped");
    let output = running.stdout.take().expect("standard output is piped");

    let (sent, requests_sent) = channel();
    let feeder = thread::spawn(move || feed(requests, input, sent));
    let mut answers = BufReader::new(output).lines();
    for request in requests_sent {
        match answers.next().transpose()? {
            Some(answer) => tally.hold(&request, &answer),
            None => tally.differences().note_unanswered(),
        }
    }
    tally.differences().note_unasked(answers.count());
    feeder.join().expect("the feeder does not panic")?;
    let status = running.wait()?;

    print!("{tally}");
    if !status.success() {
        println!("the program ended with {status}");
    }
    Ok(tally.differences().are_none() && status.success())
}

fn about(name: &str, error: io::Error) -> io::Error {
    io::Error::new(error.kind(), format!("{name}: {error}"))
}

/// Feeds the program, and hands each request on; a program that stops reading is fed no more.
fn feed(requests: Lines, input: ChildStdin, sent: Sender<String>) -> io::Result<()> {
    let mut input = Some(BufWriter::new(input));
    for request in requests {
        let request = request?;
        let fed = input.as_mut().map(|input| writeln!(input, "{request}"));
        if !matches!(fed, Some(Ok(()))) {
            input = None;
        }
        if sent.send(request).is_err() {
            break;
        }
    }
    Ok(())
}
