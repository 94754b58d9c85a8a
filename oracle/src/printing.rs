//! What the programs that print generated requests share.

use crate::options::Options;
use std::io::{self, BufWriter, ErrorKind, Write};
use std::process::ExitCode;

/// Prints the lines that the options ask for; a reader that has enough may close the pipe.
pub fn print_lines<Lines>(program: &str, lines: impl Fn(&Options) -> Lines) -> ExitCode
where
    Lines: Iterator<Item = String>,
{
    let options = match options() {
        Ok(options) => options,
        Err(error) => return misused(program, &error),
    };
    match print(lines(&options)) {
        Err(error) if error.kind() != ErrorKind::BrokenPipe => {
            eprintln!("{program}: {error}");
            ExitCode::FAILURE
        }
        _ => ExitCode::SUCCESS,
    }
}

fn options() -> Result<Options, String> {
    let options = Options::of_requests(std::env::args().skip(1))?;
    if options.requests.is_some() || !options.program.is_empty() {
        return Err("only the comparer reads requests or runs a program".to_string());
    }
    Ok(options)
}

fn misused(program: &str, error: &str) -> ExitCode {
    eprintln!("{program}: {error}");
    eprintln!("usage: {program} [--seed S] [--count N] [--every K] [--ops OP,OP.. | --lists | --mends | --stamps] [--books english|random]");
    ExitCode::from(2)
}

fn print(lines: impl Iterator<Item = String>) -> io::Result<()> {
    let mut output = BufWriter::new(io::stdout().lock());
    for line in lines {
        writeln!(output, "{line}")?;
    }
    output.flush()
}
