//! The Rust, by the oracle's walk through its part functions.

use crate::contender::Contender;
use crate::records::{Record, CURRENT_YEAR, RECORDS};
use harness::walk::{self, Pair};
use std::hint::black_box;

pub struct Rust<'a> {
    pattern: &'a str,
    records: &'a [Record],
    texts: Vec<String>,
}

impl<'a> Rust<'a> {
    pub fn new(pattern: &'a str, records: &'a [Record]) -> Option<Self> {
        let texts = records
            .iter()
            .map(|record| walk::write(Pair::Full, pattern, &record.fields).ok())
            .collect::<Option<_>>()?;
        Some(Rust {
            pattern,
            records,
            texts,
        })
    }
}

impl Contender for Rust<'_> {
    fn text(&mut self, record: usize) -> Option<Vec<u8>> {
        Some(self.texts[record].clone().into_bytes())
    }

    fn write_calls(&mut self, calls: usize) {
        for call in 0..calls {
            let fields = &self.records[call % RECORDS].fields;
            let _ = black_box(walk::write(Pair::Full, black_box(self.pattern), black_box(fields)));
        }
    }

    fn read_calls(&mut self, calls: usize) {
        for call in 0..calls {
            let text = &self.texts[call % RECORDS];
            let _ = black_box(walk::read(
                Pair::Full,
                black_box(self.pattern),
                black_box(text),
                CURRENT_YEAR,
            ));
        }
    }
}
