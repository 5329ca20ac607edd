//! Cases from a seed: calls with values around each boundary, and runs of bytes with all that a line
//! does to frames.

mod added;
mod device;

use crate::cases::{
    Address, Case, Frame, Mode, TagDescriptorDate, FRAME_TYPES, MODES, MOST_BYTES, MOST_ROOM,
};
use crate::generate::{
    total, with_check_ff, Part, Sheet, FLOATS, GROUP_LENGTHS, MANUFACTURERS, NUMBERS, POLLINGS,
};
use crate::random::Random;
use crate::rules::frame_bytes;

/// Preamble counts at which eight bits run over, and beside them.
const LONG_PREAMBLES: [usize; 17] =
    [254, 255, 256, 257, 258, 259, 260, 261, 300, 511, 512, 513, 514, 515, 516, 517, 700];

pub fn from_seed(sheet: &mut Sheet, seed: u64, cases: usize, runs: usize) {
    let random = &mut Random::new(seed);
    for _ in 0..cases {
        let case = random_case(random);
        sheet.case(&case);
    }
    for _ in 0..runs {
        let parts = random_run(random);
        sheet.run(&parts);
        if random.once_in(4) {
            added::dump(sheet, &parts);
        }
        if random.once_in(4) {
            added::given_decoder(sheet, random);
        }
    }
}

fn random_address(random: &mut Random, long: bool) -> Address {
    let (primary, burst) = (random.flag(), random.flag());
    let any = random.byte();
    if long {
        Address::Long {
            primary,
            burst,
            manufacturer: if random.flag() { any } else { random.one_of(&MANUFACTURERS) },
            device_type: random.byte(),
            number: if random.flag() { random.word() } else { random.one_of(&NUMBERS) },
        }
    } else {
        let polling = if random.flag() { any } else { random.one_of(&POLLINGS) };
        Address::Short { primary, burst, polling }
    }
}

/// Data as lines carry them: any bytes, or many of those that framing stumbles over.
fn random_data(random: &mut Random, length: usize) -> Vec<u8> {
    if random.once_in(4) {
        let odd = [0xFF, 0xFF, 0xFF, 0xFF, 0xFF, 0x01, 0x02, 0x06, 0x82, 0x00];
        (0..length).map(|_| random.one_of(&odd)).collect()
    } else {
        random.bytes(length)
    }
}

fn random_frame(random: &mut Random, data_length: usize) -> Frame {
    let long = random.flag();
    let frame = Frame {
        frame_type: random.one_of(&FRAME_TYPES),
        address: random_address(random, long),
        command: random.byte(),
        data: random_data(random, data_length),
    };
    if data_length <= 255 && random.once_in(10) {
        with_check_ff(frame)
    } else {
        frame
    }
}

fn random_case(random: &mut Random) -> Case {
    let mode = random.one_of(&MODES);
    match random.below(26) {
        0 => {
            let long = random.flag();
            let address = random_address(random, long);
            Case::WriteAddress(address, random.near(if long { 5 } else { 1 }))
        }
        1 => {
            let long = random.flag();
            let length = random.near(if long { 5 } else { 1 });
            Case::ReadAddress { long, bytes: random.bytes(length) }
        }
        2 => random_frame_case(random),
        3 => {
            let length = random.below(40);
            let room = random.near(length.div_ceil(4) * 3);
            Case::Pack { mode, room, text: random_text(random, mode, length) }
        }
        4 => {
            let length = random.below(40);
            let room = random.near(length / 3 * 4);
            Case::Unpack { mode, room, packed: random.bytes(length) }
        }
        5 => Case::Status(random.array()),
        6 => {
            let length = random.near(12);
            Case::Identity(random.bytes(length))
        }
        7 => {
            let codes = random.below(11);
            let room = random.near(codes);
            Case::WriteCodes { room, codes: random.bytes(codes) }
        }
        8 => random_variables(random, mode),
        9 => {
            let tag = random_text_of(random, mode);
            Case::WriteTag { mode, room: random.near(6), tag }
        }
        10 => {
            let length = random.near(12);
            Case::ReadIdentityByTag(random.bytes(length))
        }
        11 => Case::ReadTag(mode, random.array()),
        12 => {
            let (tag, descriptor) = (random_text_of(random, mode), random_text_of(random, mode));
            let fields = TagDescriptorDate { tag, descriptor, date: random.array() };
            Case::WriteTagDescriptorDate { mode, room: random.near(21), fields }
        }
        13 => {
            let length = random.near(21);
            Case::ReadTagDescriptorDate(mode, random.bytes(length))
        }
        14..=17 => added::random_case(random),
        _ => device::random_case(random),
    }
}

/// In crate mode any characters. In standard mode those that have a code, now and then one without.
fn random_text(random: &mut Random, mode: Mode, length: usize) -> Vec<u8> {
    let mut text = random.bytes(length);
    if mode == Mode::Standard {
        text.iter_mut().for_each(|character| *character = 0x20 + *character % 64);
        if length > 0 && random.once_in(3) {
            let place = random.below(length);
            text[place] = random.byte();
        }
    }
    text
}

fn random_text_of<const N: usize>(random: &mut Random, mode: Mode) -> [u8; N] {
    random_text(random, mode, N).try_into().expect("the text has so many characters")
}

fn random_frame_case(random: &mut Random) -> Case {
    let data_length = match random.below(8) {
        0 => random.near(255),
        1 => random.below(300),
        _ => random.below(12),
    };
    let preambles =
        if random.flag() { random.one_of(&[0, 4, 5, 20, 255]) } else { random.byte() % 32 };
    let frame = random_frame(random, data_length);
    let room = random.near(total(&frame, preambles)).min(MOST_ROOM);
    Case::WriteFrame { frame, preambles, room }
}

fn random_variables(random: &mut Random, mode: Mode) -> Case {
    let length = if random.flag() { random.one_of(&GROUP_LENGTHS) } else { random.below(80) };
    let mut data = random.bytes(length);
    if length >= 8 && random.flag() {
        data[3..7].copy_from_slice(&random.one_of(&FLOATS).to_be_bytes());
    }
    Case::ReadVariables(mode, data)
}

/// Pieces one behind another, now and then a reset, cut into lines anywhere.
fn random_run(random: &mut Random) -> Vec<Part> {
    let pieces = if random.once_in(200) { 100 } else { 1 + random.below(4) };
    let mut parts = Vec::new();
    let mut bytes = Vec::new();
    for _ in 0..pieces {
        if random.once_in(15) {
            parts.extend(cut_into_lines(random, std::mem::take(&mut bytes)));
            parts.push(Part::Reset);
        }
        bytes.extend(random_piece(random));
    }
    parts.extend(cut_into_lines(random, bytes));
    parts
}

fn cut_into_lines(random: &mut Random, mut bytes: Vec<u8>) -> Vec<Part> {
    let mut lines = Vec::new();
    while bytes.len() > MOST_BYTES || (bytes.len() > 1 && random.once_in(3)) {
        let behind = bytes.split_off(1 + random.below(bytes.len().min(MOST_BYTES) - 1));
        lines.push(Part::Bytes(bytes));
        bytes = behind;
    }
    lines.push(Part::Bytes(bytes));
    lines
}

fn random_piece(random: &mut Random) -> Vec<u8> {
    match random.below(12) {
        0 => {
            let length = random.below(12);
            random_data(random, length)
        }
        1 => vec![0xFF; 1 + random.below(6)],
        2 => {
            let preambles = 5 + random.below(3);
            [vec![0xFF; preambles], vec![random.byte()]].concat()
        }
        3..=6 => damaged(random),
        _ => frame_on_a_line(random),
    }
}

fn frame_on_a_line(random: &mut Random) -> Vec<u8> {
    let data_length = match random.below(40) {
        0 => random.one_of(&[254, 255]),
        1 => random.below(256),
        2..=8 => random.below(40),
        _ => random.below(9),
    };
    let preambles = match random.below(120) {
        0 => random.one_of(&LONG_PREAMBLES),
        1..=12 => random.below(5),
        13..=20 => 20,
        _ => 5 + random.below(3),
    };
    let frame = random_frame(random, data_length);
    frame_bytes(&frame, preambles)
}

/// A frame with one bit turned, one byte lost, doubled or made FF, or its end cut off.
fn damaged(random: &mut Random) -> Vec<u8> {
    let mut bytes = frame_on_a_line(random);
    let place = random.below(bytes.len());
    match random.below(6) {
        0 | 1 => bytes[place] ^= 1 << random.below(8),
        2 => {
            bytes.remove(place);
        }
        3 => bytes.insert(place, bytes[place]),
        4 => {
            let last = bytes.len() - 1;
            bytes[last] = 0xFF;
        }
        _ => bytes.truncate(place),
    }
    bytes
}
