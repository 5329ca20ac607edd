//! Cases from a seed of the calls that document 01 adds: at random, and near what is accepted.

use crate::cases::{
    Carrier, Case, Command, DecoderValue, FrameType, Way, COMMANDS, FRAME_TYPES, HELD_BYTES, MODES,
};
use crate::generate::{Part, Sheet, FLOATS};
use crate::random::Random;
use crate::rules::{block_behind, value_behind};

use super::random_piece;

pub fn random_case(random: &mut Random) -> Case {
    match random.below(16) {
        0..=3 => random_worth(random),
        4..=7 => {
            let length = random.below(6);
            Case::Payload(random.one_of(&FRAME_TYPES), random_data(random, length))
        }
        8..=13 => random_typed(random),
        14 => random_block(random),
        _ => {
            let length = random.near(266);
            Case::ClearBlock(random.bytes(length))
        }
    }
}

fn random_worth(random: &mut Random) -> Case {
    let mut group: [u8; 8] = random.array();
    if random.flag() {
        group[3..7].copy_from_slice(&random.one_of(&FLOATS).to_be_bytes());
    }
    Case::Worth(group)
}

/// A frame's data of so many bytes behind the two of the status, which mostly tell no error.
fn random_data(random: &mut Random, length: usize) -> Vec<u8> {
    let mut data = random.bytes(2 + length);
    if !random.once_in(4) {
        data[0] = 0;
    }
    if random.once_in(8) {
        data.truncate(random.below(3));
    }
    data
}

fn random_typed(random: &mut Random) -> Case {
    let reader = random.one_of(&COMMANDS);
    let length = match reader {
        Command::ReadVariables => random.below(80),
        Command::ReadIdentity | Command::ReadIdentityByTag => random.near(12),
        Command::ReadTagDescriptorDate | Command::WriteTagDescriptorDate => random.near(21),
    };
    let frame_type =
        if random.once_in(3) { random.one_of(&FRAME_TYPES) } else { FrameType::Response };
    let command = if random.once_in(6) { random.byte() } else { reader.number() };
    let data = random_data(random, length);
    Case::ReadFrame(random.one_of(&MODES), reader, Carrier { frame_type, command, data })
}

/// A piece cut in two, anywhere.
fn cut_piece(random: &mut Random) -> (Vec<u8>, Vec<u8>) {
    let mut front = random_piece(random);
    let back = front.split_off(random.below(front.len() + 1));
    (front, back)
}

/// The block of a run, or one beside it, and a byte that goes on with that run, or any.
fn random_block(random: &mut Random) -> Case {
    let (front, back) = cut_piece(random);
    let mut block = block_behind(&front);
    if random.flag() {
        change_block(random, &mut block);
    }
    let any = random.one_of(&[0xFF, 0x02, 0x00, 0x03]);
    let byte = back.first().copied().filter(|_| !random.once_in(4)).unwrap_or(any);
    Case::FeedBlock { room: random.near(263), byte, block }
}

fn change_block(random: &mut Random, block: &mut Vec<u8>) {
    match random.below(8) {
        0..=4 => {
            let bit = random.below(8 * 6);
            block[bit / 8] ^= 0x80 >> (bit % 8);
        }
        5 => {
            let place = 6 + random.below(8);
            block[place] ^= 1 << random.below(8);
        }
        6 => {
            let place = 6 + random.below(HELD_BYTES);
            block[place] = random.byte();
        }
        _ => block.resize(random.near(266), 0),
    }
}

/// A decoder becomes the value of a run, or one beside it; then it is fed what goes on with that run.
pub fn given_decoder(sheet: &mut Sheet, random: &mut Random) {
    let (front, back) = cut_piece(random);
    let mut value = value_behind(&front);
    if random.flag() {
        change_value(random, &mut value);
    }
    sheet.case(&Case::New);
    sheet.case(&Case::Become(value));
    for way in [Way::Value, Way::Lent] {
        sheet.case(&Case::Feed(way, back.clone()));
    }
}

fn change_value(random: &mut Random, value: &mut DecoderValue) {
    let near = |random: &mut Random, byte: u8| match random.below(4) {
        0 => byte.wrapping_add(1),
        1 => byte.wrapping_sub(1),
        2 => random.one_of(&[0, 1, 5, 6, 255]),
        _ => random.byte(),
    };
    match random.below(8) {
        0 | 1 => value.count = near(random, value.count),
        2 => value.expected = near(random, value.expected),
        3 => value.check ^= 1 << random.below(8),
        4 => value.command = near(random, value.command),
        5 => value.long = !value.long,
        6 => value.frame_type = random.one_of(&FRAME_TYPES),
        _ => {
            let place = random.below(12);
            value.bytes.resize(value.bytes.len().max(place + 1), 0);
            value.bytes[place] ^= 1 << random.below(8);
        }
    }
}

/// A dump takes the bytes of a run, a read for each part.
pub fn dump(sheet: &mut Sheet, parts: &[Part]) {
    for part in parts {
        if let Part::Bytes(bytes) = part {
            sheet.case(&Case::Dump(bytes.clone()));
        }
    }
    sheet.case(&Case::EndOfDump);
}
