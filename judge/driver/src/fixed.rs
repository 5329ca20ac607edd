//! Cases that are always the same. `fixed` is each boundary of document 01 and the values beside it,
//! the list that is kept with the program `replay`; `exhaustive` is every short input of some calls.
//! What documents 01 and 02 add to the Rust is in the files of the folder.

mod carried;
mod device;
mod dumped;
pub mod examples;
mod host;
mod odd_lines;
mod standard;

use crate::cases::{
    Address, Case, Frame, FrameType, Mode, TagDescriptorDate, FRAME_TYPES, MODES, MOST_BYTES,
    MOST_ROOM, WAYS,
};
use crate::generate::{
    total, with_check_ff, Part, Sheet, FLOATS, GROUP_LENGTHS, MANUFACTURERS, NUMBERS, POLLINGS,
};
use crate::rules::frame_bytes;

use examples::Example;

const DELIMITERS: [u8; 6] = [0x01, 0x02, 0x06, 0x81, 0x82, 0x86];

pub fn fixed(sheet: &mut Sheet) {
    by_hand(sheet);
    odd_lines::odd_lines(sheet);
    addresses(sheet);
    frames_written(sheet);
    crate_text(sheet);
    standard::text(sheet);
    statuses(sheet);
    identities(sheet);
    command_9(sheet);
    command_11(sheet);
    command_18(sheet);
    standard::commands(sheet);
    carried::carried(sheet);
    device::device(sheet);
    pieces(sheet);
    frames_heard(sheet);
    long_preambles(sheet);
    runs_in_parts(sheet);
    host::host(sheet);
    dumped::dumped(sheet);
}

pub fn exhaustive(sheet: &mut Sheet) {
    most_bytes(sheet);
    every_status(sheet);
    for mode in MODES {
        text(sheet, mode, 21, 17);
        characters(sheet, mode, |_, _, _| true);
    }
    every_frame_room(sheet);
    every_short_run(sheet);
    carried::every_reading(sheet);
    device::every_place(sheet);
    host::every_flipped_block(sheet);
    dumped::far_places(sheet);
}

/// Bytes that are all different up to 256 of them, so that a byte in the wrong place shows.
fn ramp(length: usize) -> Vec<u8> {
    (0..length).map(|place| (0x11 + 0x25 * place) as u8).collect()
}

/// A text of plain characters, all different up to 64 of them.
fn plain_text(length: usize) -> Vec<u8> {
    (0..length).map(|place| 0x20 + (0x13 + 0x25 * place) as u8 % 64).collect()
}

fn short_address(polling: u8) -> Address {
    Address::Short { primary: true, burst: false, polling }
}

fn long_address(manufacturer: u8, number: u32) -> Address {
    Address::Long { primary: true, burst: false, manufacturer, device_type: 0x0A, number }
}

fn frame(frame_type: FrameType, long: bool, command: u8, data: Vec<u8>) -> Frame {
    let address = if long { long_address(38, 0x01_02_03) } else { short_address(3) };
    Frame { frame_type, address, command, data }
}

// The fixed list.

fn by_hand(sheet: &mut Sheet) {
    for example in examples::examples() {
        match example {
            Example::Remark(remark) => sheet.remark(remark),
            Example::Cases(cases, _) => cases.iter().for_each(|case| sheet.line(case)),
        }
    }
}

fn addresses(sheet: &mut Sheet) {
    sheet.remark("Addresses of every kind into 0 to 6 bytes");
    let each_kind = [(false, false), (true, false), (false, true), (true, true)];
    for (primary, burst) in each_kind {
        for room in 0..=6 {
            let short = Address::Short { primary, burst, polling: 9 };
            let (manufacturer, device_type, number) = (38, 0x5A, 0x01_02_03);
            let long = Address::Long { primary, burst, manufacturer, device_type, number };
            sheet.case(&Case::WriteAddress(short, room));
            sheet.case(&Case::WriteAddress(long, room));
        }
    }
    sheet.remark("Fields of an address at and above their limits: the higher bits are dropped");
    for polling in POLLINGS {
        sheet.case(&Case::WriteAddress(short_address(polling), 2));
    }
    for (manufacturer, number) in MANUFACTURERS.into_iter().flat_map(|m| NUMBERS.map(|n| (m, n))) {
        sheet.case(&Case::WriteAddress(long_address(manufacturer, number), 6));
    }
    sheet.case(&Case::WriteAddress(long_address(1, 2), 255));
    sheet.remark("Addresses read: every first byte, short and long");
    for first in 0..=255 {
        let rest = [0x0A, 0x01, 0x02, 0x03];
        sheet.case(&Case::ReadAddress { long: false, bytes: vec![first] });
        sheet.case(&Case::ReadAddress { long: true, bytes: [&[first], &rest[..]].concat() });
    }
    sheet.remark("Addresses read from 0 to 7 bytes");
    for length in 0..=7 {
        for long in [false, true] {
            sheet.case(&Case::ReadAddress { long, bytes: ramp(length) });
        }
    }
}

fn frames_written(sheet: &mut Sheet) {
    sheet.remark(
        "Frames of every type with few data, into no room, a byte too few, enough and one more",
    );
    let around_total = |sheet: &mut Sheet, frame: &Frame, preambles| {
        let total = total(frame, preambles);
        for room in [0, total - 1, total, total + 1] {
            let frame = frame.clone();
            sheet.case(&Case::WriteFrame { frame, preambles, room });
        }
    };
    for (frame_type, long) in FRAME_TYPES.into_iter().flat_map(|t| [(t, false), (t, true)]) {
        for (data_length, preambles) in [(0, 0), (0, 5), (1, 4), (2, 5), (3, 20)] {
            around_total(sheet, &frame(frame_type, long, 9, ramp(data_length)), preambles);
        }
    }
    sheet.remark("The same with 254, 255 and 256 data bytes, of which 256 are too many");
    for (long, preambles) in [(false, 0), (true, 20), (true, 255)] {
        for data_length in [254, 255, 256] {
            around_total(
                sheet,
                &frame(FrameType::Response, long, 255, ramp(data_length)),
                preambles,
            );
        }
    }
    sheet.remark("The same with address fields at and above their limits");
    for address in
        POLLINGS.map(short_address).into_iter().chain(MANUFACTURERS.map(|m| long_address(m, 7)))
    {
        let frame = Frame { frame_type: FrameType::Burst, address, command: 3, data: ramp(2) };
        around_total(sheet, &frame, 5);
    }
    for number in NUMBERS {
        let frame = Frame {
            frame_type: FrameType::Request,
            address: long_address(38, number),
            command: 0,
            data: Vec::new(),
        };
        around_total(sheet, &frame, 5);
    }
    let largest = frame(FrameType::Request, true, 0, ramp(255));
    sheet.case(&Case::WriteFrame { frame: largest, preambles: 255, room: MOST_ROOM });
}

fn crate_text(sheet: &mut Sheet) {
    sheet.remark(
        "Packed text, crate mode: 0 to 9 characters, 0 to 8 packed bytes, each with every room",
    );
    text(sheet, Mode::Crate, 9, 8);
    sheet.remark("Packed text, crate mode: every character and every packed byte");
    characters(sheet, Mode::Crate, in_turn);
}

/// Texts and packed bytes up to so many, each with every room up to just past what it needs.
fn text(sheet: &mut Sheet, mode: Mode, longest_text: usize, longest_packed: usize) {
    for length in 0..=longest_text {
        for room in 0..=length.div_ceil(4) * 3 + 1 {
            sheet.case(&Case::Pack { mode, room, text: plain_text(length) });
        }
    }
    for length in 0..=longest_packed {
        for room in 0..=length / 3 * 4 + 1 {
            sheet.case(&Case::Unpack { mode, room, packed: ramp(length) });
        }
    }
    sheet.case(&Case::Pack { mode, room: MOST_ROOM, text: plain_text(65) });
    sheet.case(&Case::Unpack { mode, room: MOST_ROOM, packed: ramp(51) });
}

/// Each character and each packed byte at each wanted place of a group of so many.
fn characters(sheet: &mut Sheet, mode: Mode, wanted: fn(usize, usize, u8) -> bool) {
    for (place, character) in (0..4).flat_map(|place| (0..=255).map(move |c| (place, c))) {
        if wanted(4, place, character) {
            let mut text = *b"TEST";
            text[place] = character;
            sheet.case(&Case::Pack { mode, room: 4, text: text.to_vec() });
        }
    }
    for (place, byte) in (0..3).flat_map(|place| (0..=255).map(move |b| (place, b))) {
        if wanted(3, place, byte) {
            let mut packed = [0xD2, 0x5C, 0xF4];
            packed[place] = byte;
            sheet.case(&Case::Unpack { mode, room: 5, packed: packed.to_vec() });
        }
    }
}

/// Each byte at one place of a group, one place after the other.
fn in_turn(group: usize, place: usize, byte: u8) -> bool {
    usize::from(byte) % group == place
}

fn statuses(sheet: &mut Sheet) {
    sheet.remark("The response status: every value of each of its two bytes");
    for byte in 0..=255 {
        sheet.case(&Case::Status([0, byte]));
        sheet.case(&Case::Status([byte, 0x50]));
    }
}

fn identities(sheet: &mut Sheet) {
    sheet.remark("Identities, by themselves and as the response of command 11: 0 to 14 bytes");
    for length in 0..=14 {
        sheet.case(&Case::Identity(ramp(length)));
        sheet.case(&Case::ReadIdentityByTag(ramp(length)));
    }
    sheet.remark("Identities: values of the byte that hardware revision and signalling share");
    for byte in (0..=255).step_by(7) {
        let mut data = [0xFE; 12];
        data[7] = byte;
        sheet.case(&Case::Identity(data.to_vec()));
        sheet.case(&Case::ReadIdentityByTag(data.to_vec()));
    }
}

fn command_9(sheet: &mut Sheet) {
    sheet.remark("Command 9, request: 0 to 10 codes into 0 to 10 bytes, and many");
    for codes in 0..=10 {
        for room in 0..=10 {
            sheet.case(&Case::WriteCodes { room, codes: ramp(codes) });
        }
    }
    sheet.case(&Case::WriteCodes { room: 255, codes: ramp(8) });
    sheet.case(&Case::WriteCodes { room: 255, codes: ramp(255) });
    sheet.remark("Command 9, response, crate mode: lengths around whole groups");
    for length in GROUP_LENGTHS {
        sheet.case(&Case::ReadVariables(Mode::Crate, ramp(length)));
    }
    sheet.remark(
        "Command 9, response, crate mode: every unit; floats that are easily changed on the way",
    );
    for unit in 0..=255 {
        sheet.case(&Case::ReadVariables(Mode::Crate, vec![1, 2, unit, 0x41, 0x20, 0, 0, 0xC0]));
    }
    for float in FLOATS {
        let bytes = float.to_be_bytes();
        let group = [&[0, 0, 0], &bytes[..], &[0]].concat();
        sheet.case(&Case::ReadVariables(Mode::Crate, group));
    }
}

fn command_11(sheet: &mut Sheet) {
    sheet.remark(
        "Command 11, crate mode: the request into rooms around 6 bytes, odd characters, tags read",
    );
    for room in [0, 1, 5, 6, 7, 255] {
        sheet.case(&Case::WriteTag { mode: Mode::Crate, room, tag: *b"TT-101  " });
    }
    for tag in [*b"tank-007", *b"\x00\x1F\x20\x5F\x60\x7F\x80\xFF", [0xFF; 8], [0; 8]] {
        sheet.case(&Case::WriteTag { mode: Mode::Crate, room: 7, tag });
    }
    for packed in [[0; 6], [0xFF; 6], [0xD2, 0x5C, 0xF4, 0x01, 0x02, 0x03]] {
        sheet.case(&Case::ReadTag(Mode::Crate, packed));
    }
}

fn command_18(sheet: &mut Sheet) {
    sheet.remark("Command 18, crate mode: the request into rooms around its texts and it all");
    let plain = TagDescriptorDate {
        tag: *b"TT-101  ",
        descriptor: *b"TANK 7, TOP FEED",
        date: [31, 12, 126],
    };
    let odd = TagDescriptorDate {
        tag: *b"\x00\x1F\x20\x5F\x60\x7F\x80\xFF",
        descriptor: *b"abcdefghijklmno\xFF",
        date: [0, 255, 255],
    };
    for fields in [plain, odd] {
        for room in [0, 6, 18, 20, 21, 22, 255] {
            let fields = fields.clone();
            sheet.case(&Case::WriteTagDescriptorDate { mode: Mode::Crate, room, fields });
        }
    }
    sheet.remark("Command 18, crate mode: the response at lengths around 21 bytes");
    for length in [0, 1, 6, 18, 20, 21, 22, 30] {
        sheet.case(&Case::ReadTagDescriptorDate(Mode::Crate, ramp(length)));
    }
}

/// Every delimiter and what is none, behind few and enough preamble bytes.
fn pieces(sheet: &mut Sheet) {
    sheet.remark("Every byte behind five FF, in the three ways to feed");
    for byte in 0..=255 {
        sheet.run_of(&[&[0xFF; 5], &[byte]]);
    }
    sheet.remark("Delimiters and what is none behind 0 to 4 FF, and behind 6, 7 and 20");
    for preambles in [0, 1, 2, 3, 4, 6, 7, 20] {
        for byte in DELIMITERS.into_iter().chain([0x00, 0x03, 0xFE]) {
            sheet.run_of(&[&vec![0xFF; preambles], &[byte], b"\x80\x00\x00", &[byte ^ 0x80]]);
        }
    }
    sheet.run_of(&[b"\x00\x7F\xFE\x02\x80\x00\x00\x82"]);
}

/// Frames of each type, and what may stand at their ends: right and wrong checks, FF as a check, the
/// next preamble right behind.
fn frames_heard(sheet: &mut Sheet) {
    sheet.remark(
        "Frames heard: few and many data, each byte damaged, cut at each byte, FF as a check",
    );
    for (frame_type, long) in FRAME_TYPES.into_iter().flat_map(|t| [(t, false), (t, true)]) {
        for data_length in [0, 1, 2, 7, 254, 255] {
            let good = frame_bytes(&frame(frame_type, long, 9, ramp(data_length)), 5);
            sheet.run_of(&[&good]);
        }
        let good = frame_bytes(&frame(frame_type, long, 11, ramp(3)), 5);
        for place in 5..good.len() {
            let mut damaged = good.clone();
            damaged[place] ^= 0x10;
            sheet.run_of(&[&damaged, &good, &good]);
        }
        for length in 0..good.len() {
            sheet.run_of(&[&good[..length], &good, &good]);
        }
        let check_ff = frame_bytes(&with_check_ff(frame(frame_type, long, 0, ramp(2))), 5);
        sheet.run_of(&[&check_ff, &[0xFF; 4], &[0x02, 0x80], &good]);
        sheet.run_of(&[&check_ff, &good]);
        let front = &good[..good.len() - 1];
        sheet.run_of(&[front, &[0xFF], &[0xFF; 4], &[0x02, 0x80], &good]);
        sheet.run_of(&[front, &[0xFF], &good]);
    }
    sheet.remark("Data of one frame do not come back in the next, and data may look like a frame");
    let long_data = frame_bytes(&frame(FrameType::Response, true, 9, vec![0xEE; 40]), 5);
    let short_data = frame_bytes(&frame(FrameType::Request, false, 9, vec![1]), 5);
    let inner = frame_bytes(&frame(FrameType::Burst, false, 1, short_data.clone()), 6);
    sheet.run_of(&[&long_data, &short_data, &inner, &short_data]);
    sheet.remark("First address bytes, short and long");
    for first in (0..=255).step_by(5) {
        sheet.run_of(&[&[0xFF; 5], &[0x06, first, 0, 0, 0x06 ^ first]]);
        let long = [0x86, first, 0x0A, 0xFF, 0xFF, 0xFF, 0x01, 0x00];
        sheet.run_of(&[&[0xFF; 5], &long, &[long.iter().fold(0, |check, byte| check ^ byte)]]);
    }
}

fn long_preambles(sheet: &mut Sheet) {
    sheet.remark(
        "254 to 517 FF before a frame and before what is no delimiter: the count stays at 5",
    );
    let shortest = b"\x02\x80\x00\x00\x82";
    for preambles in [254, 255, 256, 257, 260, 261, 300, 512, 516, 517] {
        sheet.run_of(&[&vec![0xFF; preambles], shortest]);
        sheet.run_of(&[&vec![0xFF; preambles], &[0x03], &[0xFF; 5], shortest]);
    }
}

/// What a decoder holds lives on from line to line, until a reset; after a stop of the Rust too.
fn runs_in_parts(sheet: &mut Sheet) {
    sheet.remark(
        "A frame over two lines, cut at each byte, without and with a reset; a byte to a line",
    );
    let whole = frame_bytes(&frame(FrameType::Response, true, 9, ramp(4)), 6);
    let bytes = |bytes: &[u8]| Part::Bytes(bytes.to_vec());
    for cut in 0..=whole.len() {
        let (front, back) = whole.split_at(cut);
        sheet.run(&[bytes(front), bytes(back)]);
        sheet.run(&[bytes(front), Part::Reset, bytes(back), bytes(&whole)]);
    }
    sheet.run(&whole.iter().map(|&byte| bytes(&[byte])).collect::<Vec<_>>());
    sheet.run(&[bytes(&[0xFF; 256]), bytes(&whole), Part::Reset, bytes(&whole)]);
}

// Every input of a kind.

fn most_bytes(sheet: &mut Sheet) {
    sheet.case(&Case::New);
    for length in [MOST_BYTES, MOST_BYTES + 1] {
        sheet.case(&Case::Feed(WAYS[0], vec![0x55; length]));
        for mode in MODES {
            sheet.case(&Case::ReadVariables(mode, ramp(length)));
            sheet.case(&Case::Pack { mode, room: MOST_ROOM, text: plain_text(length - 2) });
            sheet.case(&Case::Unpack { mode, room: MOST_ROOM, packed: ramp(length - 2) });
        }
        sheet.case(&Case::Dump(vec![0x55; length]));
        let frame = frame(FrameType::Request, false, 0, ramp(length - 12));
        sheet.case(&Case::WriteFrame { frame, preambles: 5, room: MOST_ROOM });
    }
    sheet.case(&Case::WriteCodes { room: 9, codes: ramp(MOST_BYTES - 1) });
    sheet.case(&Case::ClearBlock(ramp(MOST_ROOM)));
    sheet.case(&Case::FeedBlock { room: MOST_ROOM, byte: 0, block: ramp(MOST_ROOM) });
}

fn every_status(sheet: &mut Sheet) {
    for [first, second] in (0..=u16::MAX).map(u16::to_be_bytes) {
        sheet.case(&Case::Status([first, second]));
    }
}

fn every_frame_room(sheet: &mut Sheet) {
    for (frame_type, long) in FRAME_TYPES.into_iter().flat_map(|t| [(t, false), (t, true)]) {
        for (data_length, preambles) in [(0, 0), (0, 5), (5, 7)] {
            let frame = frame(frame_type, long, 0xFF, ramp(data_length));
            for room in 0..=total(&frame, preambles) + 2 {
                sheet.case(&Case::WriteFrame { frame: frame.clone(), preambles, room });
            }
        }
    }
    for preambles in 0..=255 {
        let frame = frame(FrameType::Request, false, 0, ramp(1));
        let room = total(&frame, preambles);
        sheet.case(&Case::WriteFrame { frame, preambles, room });
    }
    for data_length in 0..=256 {
        let frame = frame(FrameType::Burst, true, 1, ramp(data_length));
        let room = total(&frame, 5);
        sheet.case(&Case::WriteFrame { frame, preambles: 5, room });
    }
}

/// Behind four and five preamble bytes, five more out of those that matter most.
fn every_short_run(sheet: &mut Sheet) {
    const ALPHABET: [u8; 5] = [0x00, 0x01, 0x02, 0x03, 0xFF];
    for number in 0..ALPHABET.len().pow(5) {
        let digit = |place| ALPHABET[number / ALPHABET.len().pow(place) % ALPHABET.len()];
        let five: Vec<u8> = (0..5).map(digit).collect();
        sheet.run_of(&[&[0xFF; 4], &five]);
        sheet.run_of(&[&[0xFF; 5], &five]);
    }
}
