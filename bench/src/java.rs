//! java.time, by a program of its own that warms up, measures and tells; none where bench/run found no JDK.

use std::env;
use std::process::Command;

pub const NAME: &str = "java.time";

/// What it tells of one op: the least ns a call, and the sum over all that is asked.
pub struct Told {
    pub op: String,
    pub nanos: f64,
    pub sum: u64,
}

/// Runs a program that the folder JAVA_CLASSES has.
pub fn told(program: &str, seed: u64, count: usize) -> Vec<Told> {
    let Some(folder) = env::var_os("JAVA_CLASSES").filter(|folder| !folder.is_empty()) else {
        return Vec::new();
    };
    let run = Command::new("java")
        .arg("-cp")
        .arg(folder)
        .args([program, &seed.to_string(), &count.to_string()])
        .output();
    let printed = run.map(|run| String::from_utf8_lossy(&run.stdout).into_owned());
    printed.unwrap_or_default().lines().filter_map(line).collect()
}

fn line(line: &str) -> Option<Told> {
    let words: Vec<&str> = line.split(' ').collect();
    let [op, nanos, sum] = words[..] else {
        return None;
    };
    Some(Told {
        op: op.to_string(),
        nanos: nanos.parse().ok()?,
        sum: sum.parse().ok()?,
    })
}
