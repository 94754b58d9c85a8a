//! chrono's items and time's format descriptions, each made of its format once, by the library that bench/others makes of the crates.

use crate::contender::Contender;
use crate::records::Record;
use crate::stamps::Stamp;
use std::ffi::c_void;
use std::ptr::NonNull;

type Prepare = unsafe extern "C" fn(*const u8, usize, *const Stamp, usize) -> *mut c_void;
type Text = unsafe extern "C" fn(*const c_void, usize, *mut u8, usize) -> usize;
type Calls = unsafe extern "C" fn(*const c_void, usize);

extern "C" {
    fn chrono_prepare(format: *const u8, length: usize, stamps: *const Stamp, count: usize) -> *mut c_void;
    fn chrono_prepared_text(held: *const c_void, record: usize, out: *mut u8, room: usize) -> usize;
    fn chrono_prepared_write(held: *const c_void, calls: usize);
    fn chrono_prepared_read(held: *const c_void, calls: usize);
    fn time_prepare(description: *const u8, length: usize, stamps: *const Stamp, count: usize) -> *mut c_void;
    fn time_prepared_text(held: *const c_void, record: usize, out: *mut u8, room: usize) -> usize;
    fn time_prepared_write(held: *const c_void, calls: usize);
    fn time_prepared_read(held: *const c_void, calls: usize);
}

/// What a crate keeps of a pattern and of the records, as long as the program runs, and its functions for it.
pub struct Peer {
    held: NonNull<c_void>,
    text: Text,
    write: Calls,
    read: Calls,
}

pub fn chrono(format: &str, records: &[Record]) -> Option<Peer> {
    Some(Peer {
        held: prepared(chrono_prepare, format, records)?,
        text: chrono_prepared_text,
        write: chrono_prepared_write,
        read: chrono_prepared_read,
    })
}

pub fn time(description: &str, records: &[Record]) -> Option<Peer> {
    Some(Peer {
        held: prepared(time_prepare, description, records)?,
        text: time_prepared_text,
        write: time_prepared_write,
        read: time_prepared_read,
    })
}

fn prepared(prepare: Prepare, format: &str, records: &[Record]) -> Option<NonNull<c_void>> {
    let stamps: Vec<Stamp> = records.iter().map(stamp).collect();
    // SAFETY: each pointer goes with the length of what it comes from.
    NonNull::new(unsafe { prepare(format.as_ptr(), format.len(), stamps.as_ptr(), stamps.len()) })
}

fn stamp(record: &Record) -> Stamp {
    let fields = &record.fields;
    Stamp {
        year: fields.year,
        month: fields.month,
        day: fields.day,
        offset: fields.offset,
        nanos: fields.nanoseconds,
    }
}

impl Contender for Peer {
    fn text(&mut self, record: usize) -> Option<Vec<u8>> {
        let mut out = vec![0; 4096];
        // SAFETY: what is held is kept, and the output has the room that is named; and likewise below.
        let length = unsafe { (self.text)(self.held.as_ptr(), record, out.as_mut_ptr(), out.len()) };
        out.truncate(length);
        Some(out)
    }

    fn write_calls(&mut self, calls: usize) {
        unsafe { (self.write)(self.held.as_ptr(), calls) }
    }

    fn read_calls(&mut self, calls: usize) {
        unsafe { (self.read)(self.held.as_ptr(), calls) }
    }
}
