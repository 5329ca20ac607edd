//! Frames written by the Rust's encoder to the front of the same room, as crates/bench_loops does.
use std::slice;

use hart_protocol::{encode_frame, Address, FrameType, MasterRole};

fn address_of(long: bool) -> Address {
    if long {
        Address::Long {
            master: MasterRole::Primary,
            burst: false,
            manufacturer_id: 38,
            device_type: 6,
            device_id: 123_456,
        }
    } else {
        Address::Short { master: MasterRole::Primary, burst: false, poll_address: 9 }
    }
}

/// # Safety
/// `data` is good for `n` bytes, `room` for `size`, and they do not overlap.
#[export_name = concat!(env!("NAMES"), "_write")]
pub unsafe extern "C" fn write(
    long: bool,
    data: *const u8,
    n: usize,
    preambles: u8,
    frames: u32,
    room: *mut u8,
    size: usize,
) -> u64 {
    let data = slice::from_raw_parts(data, n);
    let room = slice::from_raw_parts_mut(room, size);
    let address = address_of(long);
    let mut sum: u64 = 0;
    for number in 0..frames {
        let command = (number % 256) as u8;
        let outcome = encode_frame(FrameType::Response, &address, command, data, preambles, room);
        if let Ok(count) = outcome {
            sum = sum.wrapping_add(count as u64);
        }
    }
    sum
}
