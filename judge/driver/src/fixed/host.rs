//! Decoders by their value and state blocks, which document 01 adds: those that a run leads to, and
//! their neighbours.

use crate::cases::{Case, DecoderValue, FrameType, Way, FRAME_TYPES, HELD_BYTES};
use crate::generate::Sheet;
use crate::rules::{block_behind, frame_bytes, value_behind};

use super::{frame, ramp};

/// The bytes of a block, of its header, and of the room that a record is asked.
const BLOCK: usize = 266;
const HEADER: usize = 6;
const RECORD_ROOM: usize = 263;
/// The lowest bit of each field of the header, counted from its highest bit on.
const LOWEST_BITS: [usize; 10] = [2, 4, 5, 8, 11, 19, 27, 35, 43, 47];

pub fn host(sheet: &mut Sheet) {
    values_of_runs(sheet);
    neighbours(sheet);
    blocks_of_runs(sheet);
    records(sheet);
    rooms_and_lengths(sheet);
    flipped_blocks(sheet);
    stale_blocks(sheet);
    clearing(sheet);
}

/// Blocks at each byte of frames of each type, with each bit of the header turned, and with each byte
/// of address and data changed.
pub fn every_flipped_block(sheet: &mut Sheet) {
    for run in runs() {
        for cut in 0..run.len() {
            let block = block_behind(&run[..cut]);
            each_bit_turned(sheet, &block);
        }
        let block = block_behind(&run[..run.len() - 1]);
        for place in HEADER..BLOCK {
            stale(sheet, &block, place);
        }
    }
}

/// Frames of each type and their preambles.
fn runs() -> [Vec<u8>; 3] {
    [
        frame_bytes(&frame(FrameType::Request, false, 0, Vec::new()), 5),
        frame_bytes(&frame(FrameType::Response, true, 9, vec![0x00, 0x47]), 5),
        frame_bytes(&frame(FrameType::Burst, false, 3, vec![0xFF, 0x00, 0x01]), 5),
    ]
}

// Values.

fn values_of_runs(sheet: &mut Sheet) {
    sheet.remark(
        "A decoder's value at each byte of a frame: reachable, and it takes the rest of the frame",
    );
    for run in runs() {
        (0..run.len()).for_each(|cut| taken_on_at(sheet, &run, cut));
    }
    sheet.remark(
        "A decoder that has 254 of 255 data bytes, and one that waits for the check behind 255",
    );
    let longest = frame_bytes(&frame(FrameType::Response, true, 0, ramp(255)), 5);
    taken_on_at(sheet, &longest, longest.len() - 2);
    taken_on_at(sheet, &longest, longest.len() - 1);
}

/// A decoder becomes what it would be at this byte of a run, and is fed the rest.
fn taken_on_at(sheet: &mut Sheet, run: &[u8], cut: usize) {
    let (front, back) = run.split_at(cut);
    sheet.case(&Case::New);
    sheet.case(&Case::Become(value_behind(front)));
    feed_both(sheet, back);
}

fn feed_both(sheet: &mut Sheet, bytes: &[u8]) {
    for way in [Way::Value, Way::Lent] {
        sheet.case(&Case::Feed(way, bytes.to_vec()));
    }
}

/// Each field of a value beside what it is, one at a time; the decoder is then fed.
fn neighbours(sheet: &mut Sheet) {
    sheet.remark("Decoders' values with another count, check, command, expected, type or long");
    sheet.case(&Case::New);
    let [_, long, short] = runs();
    let preambles = [0, 1, 4, 5].map(|cut| &long[..cut]);
    let in_long = [6, 7, 10, 11, 12, 13, 14, 15].map(|cut| &long[..cut]);
    let in_short = [6, 7, 8, 9, 11, 12].map(|cut| &short[..cut]);
    for front in preambles.iter().chain(&in_long).chain(&in_short) {
        changed_numbers(&value_behind(front)).iter().for_each(|value| given(sheet, value));
    }
    sheet.remark("Decoders' values with a byte of address or data that is not yet read");
    for front in [&long[..0], &long[..5]].iter().chain(&in_long).chain(&in_short) {
        for place in [0, 1, 4, 5, 6, 7, 8] {
            given(sheet, &with_byte_changed(value_behind(front), place));
        }
    }
    sheet.remark(
        "Decoders' values with the last byte of all changed, and with all bytes said to be zero",
    );
    for cut in [0, 5, 12, 14] {
        let value = value_behind(&long[..cut]);
        given(sheet, &with_byte_changed(value.clone(), HELD_BYTES - 1));
        given(sheet, &DecoderValue { bytes: vec![0; HELD_BYTES], ..value });
    }
}

fn given(sheet: &mut Sheet, value: &DecoderValue) {
    sheet.case(&Case::Become(value.clone()));
    feed_both(sheet, &[0x01, 0xFF]);
}

fn changed_numbers(value: &DecoderValue) -> Vec<DecoderValue> {
    let mut changed = Vec::new();
    for count in [0, 1, 4, 5, 6, 255, value.count.wrapping_add(1), value.count.wrapping_sub(1)] {
        changed.push(DecoderValue { count, ..value.clone() });
    }
    for expected in [0, 1, 255, value.expected.wrapping_add(1), value.expected.wrapping_sub(1)] {
        changed.push(DecoderValue { expected, ..value.clone() });
    }
    for check in [value.check ^ 0x01, value.check ^ 0x80] {
        changed.push(DecoderValue { check, ..value.clone() });
    }
    changed.push(DecoderValue { command: value.command ^ 0x10, ..value.clone() });
    changed.push(DecoderValue { long: !value.long, ..value.clone() });
    for frame_type in FRAME_TYPES.into_iter().filter(|&other| other != value.frame_type) {
        changed.push(DecoderValue { frame_type, ..value.clone() });
    }
    changed
}

fn with_byte_changed(mut value: DecoderValue, place: usize) -> DecoderValue {
    value.bytes.resize(value.bytes.len().max(place + 1), 0);
    value.bytes[place] ^= 0x01;
    value
}

// Blocks.

fn fed(sheet: &mut Sheet, block: &[u8], room: usize, byte: u8) {
    sheet.case(&Case::FeedBlock { room, byte, block: block.to_vec() });
}

/// Without room a block that is accepted gets 1002 and another 1008: a short way to see which it is.
fn looked_at(sheet: &mut Sheet, block: &[u8]) {
    fed(sheet, block, 0, 0xFF);
}

fn blocks_of_runs(sheet: &mut Sheet) {
    sheet.remark("The block at each byte of a long response, fed the next one, up to its record");
    let [short, long, burst] = runs();
    for cut in 0..long.len() {
        fed(sheet, &block_behind(&long[..cut]), RECORD_ROOM, long[cut]);
    }
    sheet.remark(
        "The block at each byte behind the preamble of a short request and a short burst frame",
    );
    for run in [&short, &burst] {
        for cut in 5..run.len() {
            fed(sheet, &block_behind(&run[..cut]), RECORD_ROOM, run[cut]);
        }
    }
    sheet.remark("The block of 0, 1, 4 and 5 FF, fed FF, a delimiter and what is none");
    for (preambles, byte) in [(0, 0x02), (1, 0x02), (4, 0x03), (5, 0xFF), (5, 0x03), (5, 0x86)] {
        fed(sheet, &block_behind(&vec![0xFF; preambles]), RECORD_ROOM, byte);
    }
}

fn records(sheet: &mut Sheet) {
    sheet.remark("Wrong checks, FF among them: the record has expected and actual");
    let [short, ..] = runs();
    let waiting = block_behind(&short[..short.len() - 1]);
    for check in [0x00, 0xFF] {
        fed(sheet, &waiting, RECORD_ROOM, check);
    }
    sheet.remark("The longest record: 255 data bytes and a long address fill the room");
    let longest = frame_bytes(&frame(FrameType::Request, true, 0xFE, ramp(255)), 5);
    for cut in [longest.len() - 2, longest.len() - 1] {
        fed(sheet, &block_behind(&longest[..cut]), RECORD_ROOM, longest[cut]);
    }
}

fn rooms_and_lengths(sheet: &mut Sheet) {
    let [short, ..] = runs();
    let (check, front) = short.split_last().expect("a frame has a check");
    sheet.remark("Rooms of 0, 262, 263 and 264 bytes, for a record and for silence");
    for room in [0, RECORD_ROOM - 1, RECORD_ROOM, RECORD_ROOM + 1] {
        fed(sheet, &block_behind(front), room, *check);
        fed(sheet, &block_behind(&[]), room, 0xFF);
    }
    sheet.remark("Blocks of 0, 265 and 267 bytes get 8, and before 2 where the room is short too");
    for (length, room) in [(0, RECORD_ROOM), (0, 0), (BLOCK - 1, RECORD_ROOM), (BLOCK + 1, 0)] {
        fed(sheet, &vec![0; length], room, 0xFF);
    }
}

fn flipped_blocks(sheet: &mut Sheet) {
    sheet.remark("A block in the data phase, each bit of its header turned");
    let [_, long, _] = runs();
    each_bit_turned(sheet, &block_behind(&long[..14]));
    sheet.remark("The block of hunting, the lowest bit of each field of its header turned");
    for bit in LOWEST_BITS {
        bit_turned(sheet, &block_behind(&[]), bit);
    }
}

fn each_bit_turned(sheet: &mut Sheet, block: &[u8]) {
    for bit in 0..8 * HEADER {
        bit_turned(sheet, block, bit);
    }
}

fn bit_turned(sheet: &mut Sheet, block: &[u8], bit: usize) {
    let mut turned = block.to_vec();
    turned[bit / 8] ^= 0x80 >> (bit % 8);
    looked_at(sheet, &turned);
}

fn stale_blocks(sheet: &mut Sheet) {
    sheet.remark(
        "Blocks with a byte of address or data that is not yet read, or another than was read",
    );
    let [short, long, _] = runs();
    for (front, places) in [
        (&long[..0], &[6, 265][..]),
        (&long[..5], &[6]),
        (&long[..8], &[6, 8, 11]),
        (&short[..7], &[7, 11]),
        (&long[..14], &[11, 12, 265]),
        (&long[..15], &[12, 13]),
    ] {
        for &place in places {
            stale(sheet, &block_behind(front), place);
        }
    }
}

fn stale(sheet: &mut Sheet, block: &[u8], place: usize) {
    let mut changed = block.to_vec();
    changed[place] ^= 0x01;
    looked_at(sheet, &changed);
}

fn clearing(sheet: &mut Sheet) {
    sheet.remark("Clearing blocks of 0, 265, 266 and 267 bytes, whatever is in them");
    for length in [0, 1, BLOCK - 1, BLOCK, BLOCK + 1] {
        sheet.case(&Case::ClearBlock(ramp(length)));
    }
    sheet.case(&Case::ClearBlock(vec![0; BLOCK]));
}
