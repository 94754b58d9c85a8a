//! The program `ask`, as another program uses it.

use std::io::{Read, Write};
use std::process::{Child, Command, Stdio};
use std::thread;

pub fn start() -> Child {
    Command::new(env!("CARGO_BIN_EXE_ask"))
        .stdin(Stdio::piped())
        .stdout(Stdio::piped())
        .spawn()
        .expect("the program starts")
}

/// All that it answers to all of these bytes.
pub fn answers(requests: &[u8]) -> Vec<u8> {
    let mut program = start();
    let mut input = program.stdin.take().expect("standard input is piped");
    let mut output = program.stdout.take().expect("standard output is piped");
    let mut answers = Vec::new();
    // The program may have answered more than a pipe holds before all is asked.
    thread::scope(|scope| {
        scope.spawn(move || input.write_all(requests).expect("the program reads all"));
        output.read_to_end(&mut answers).expect("the program answers");
    });
    assert!(program.wait().expect("the program ends").success());
    answers
}
