//! Answers requests from standard input as the Rust does, one line each.

use harness::answer::answer;
use std::io::{self, BufRead, BufReader, BufWriter, Write};

fn main() -> io::Result<()> {
    let mut input = BufReader::new(io::stdin().lock());
    let mut output = BufWriter::new(io::stdout().lock());
    let mut line = Vec::new();
    while input.read_until(b'\n', &mut line)? > 0 {
        let request = line.strip_suffix(b"\n").unwrap_or(&line);
        writeln!(output, "{}", answer(&String::from_utf8_lossy(request)))?;
        line.clear();
        // Someone may be waiting for the answer before the next request.
        if input.buffer().is_empty() {
            output.flush()?;
        }
    }
    output.flush()
}
