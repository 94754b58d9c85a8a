//! What a run is made on, and when.

use crate::glibc::local_fields;
use std::env::consts::{ARCH, OS};
use std::fs;
use std::thread::available_parallelism;
use std::time::{SystemTime, UNIX_EPOCH};

/// The processor, how many of it there are, and the day by UTC.
pub fn machine_and_day() -> String {
    let count = available_parallelism().map_or(1, |count| count.get());
    let many = if count == 1 { "" } else { "s" };
    format!("{}, {count} core{many}, {ARCH} with {OS}, {}", processor(), day())
}

/// As the system names it, where it does.
fn processor() -> String {
    let names = fs::read_to_string("/proc/cpuinfo").unwrap_or_default();
    let name = names
        .lines()
        .find_map(|line| line.strip_prefix("model name")?.split_once(": "));
    name.map_or("a processor with no name", |(_, name)| name.trim())
        .to_string()
}

fn day() -> String {
    let since = SystemTime::now().duration_since(UNIX_EPOCH).unwrap_or_default();
    let tm = local_fields(since.as_secs() as i64);
    format!("{}-{:02}-{:02}", tm.year + 1900, tm.mon + 1, tm.mday)
}
