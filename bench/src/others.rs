//! chrono and time, by the library that bench/others makes of them.

use crate::days::Ymd;
use crate::stamps::{Stamp, Texts};
use std::ffi::c_void;

extern "C" {
    fn chrono_days(numbers: *const i32, count: usize) -> u64;
    fn chrono_numbers(dates: *const Ymd, count: usize) -> u64;
    fn time_days(numbers: *const i32, count: usize) -> u64;
    fn time_numbers(dates: *const Ymd, count: usize) -> u64;
    fn chrono_read(texts: Texts) -> u64;
    fn time_read(texts: Texts) -> u64;
    fn chrono_stamps(stamps: *const Stamp, count: usize) -> *const c_void;
    fn time_stamps(stamps: *const Stamp, count: usize) -> *const c_void;
    fn chrono_write(stamps: *const c_void, from: usize, count: usize, out: *mut u8, length: usize);
    fn time_write(stamps: *const c_void, from: usize, count: usize, out: *mut u8, length: usize);
}

/// Writes so many of some stamps, from a place on, as the crate that made them.
type Writer = unsafe extern "C" fn(*const c_void, usize, usize, *mut u8, usize);

pub fn chrono_by_slices(numbers: &[i32]) -> u64 {
    // SAFETY: the pointer goes with the length of the slice that it comes from; and likewise below.
    unsafe { chrono_days(numbers.as_ptr(), numbers.len()) }
}

pub fn chrono_of_slices(dates: &[Ymd]) -> u64 {
    unsafe { chrono_numbers(dates.as_ptr(), dates.len()) }
}

pub fn time_by_slices(numbers: &[i32]) -> u64 {
    unsafe { time_days(numbers.as_ptr(), numbers.len()) }
}

pub fn time_of_slices(dates: &[Ymd]) -> u64 {
    unsafe { time_numbers(dates.as_ptr(), dates.len()) }
}

pub fn chrono_reader() -> Box<dyn Fn(Texts) -> u64> {
    Box::new(|texts| unsafe { chrono_read(texts) })
}

pub fn time_reader() -> Box<dyn Fn(Texts) -> u64> {
    Box::new(|texts| unsafe { time_read(texts) })
}

/// The crates hold the stamps in their own form, which is made once.
pub fn chrono_writer(stamps: &[Stamp]) -> Box<dyn Fn(usize, &mut [u8], usize)> {
    let held = unsafe { chrono_stamps(stamps.as_ptr(), stamps.len()) };
    writer(chrono_write, held)
}

pub fn time_writer(stamps: &[Stamp]) -> Box<dyn Fn(usize, &mut [u8], usize)> {
    let held = unsafe { time_stamps(stamps.as_ptr(), stamps.len()) };
    writer(time_write, held)
}

fn writer(write: Writer, held: *const c_void) -> Box<dyn Fn(usize, &mut [u8], usize)> {
    Box::new(move |from, out, length| {
        // SAFETY: what is written from that place on is asked to be no more than there are.
        unsafe { write(held, from, out.len() / length, out.as_mut_ptr(), length) }
    })
}
