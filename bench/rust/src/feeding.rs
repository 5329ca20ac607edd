//! A run of bytes fed to the Rust's decoder, and what is heard added up as crates/bench_loops does.
use std::slice;

use hart_protocol::Decoder;

const FRAME: u64 = 1 << 44;
const REFUSAL: u64 = 1 << 28;

/// What one byte adds to the sum.
fn heard(decoder: &mut Decoder, byte: u8) -> u64 {
    match decoder.feed(byte) {
        Ok(None) => 0,
        Ok(Some(frame)) => {
            let length = frame.data.len();
            let middle = frame.data.get(length / 2).copied().unwrap_or(0);
            FRAME + u64::from(frame.command) + length as u64 + u64::from(middle)
        }
        Err(_) => REFUSAL,
    }
}

/// # Safety
/// `run` is good for `n` bytes.
#[export_name = concat!(env!("NAMES"), "_feed")]
pub unsafe extern "C" fn feed(run: *const u8, n: usize) -> u64 {
    let mut decoder = Decoder::new();
    let mut sum: u64 = 0;
    for &byte in slice::from_raw_parts(run, n) {
        sum = sum.wrapping_add(heard(&mut decoder, byte));
    }
    sum
}

/// What the last thing heard adds, or 0 where nothing is.
///
/// # Safety
/// `run` is good for `n` bytes.
#[export_name = concat!(env!("NAMES"), "_last")]
pub unsafe extern "C" fn last(run: *const u8, n: usize) -> u64 {
    let mut decoder = Decoder::new();
    slice::from_raw_parts(run, n)
        .iter()
        .map(|&byte| heard(&mut decoder, byte))
        .filter(|&heard| heard != 0)
        .last()
        .unwrap_or(0)
}
