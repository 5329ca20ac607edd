//! Cases from a seed of the device's side, which document 02 adds: at random, and near each refusal.

use crate::cases::{
    Carrier, Case, Command, Field, FrameType, Identity, Mode, Response, TagDescriptorDate,
    COMMANDS, FRAME_TYPES, HANDED, MODES, MOST_FIELDS, MOST_GROUPS, MOST_PUT, MOST_ROOM,
    WITHOUT_DATA,
};
use crate::generate::{FLOATS, NUMBERS};
use crate::random::Random;

use super::random_text_of;

pub fn random_case(random: &mut Random) -> Case {
    match random.below(24) {
        0 | 1 => {
            let length = random.near(12);
            Case::ReadIdentity(random.bytes(length))
        }
        2 | 3 => {
            let length = random.near(21);
            Case::ReadStoredText(random.one_of(&MODES), random.bytes(length))
        }
        4 => Case::WriteNoData(random.one_of(&WITHOUT_DATA), random.below(40)),
        5..=8 => random_request(random),
        9..=13 => random_response(random),
        14..=18 => random_put(random),
        _ => random_whole(random),
    }
}

fn random_request(random: &mut Random) -> Case {
    let reader = random.one_of(&COMMANDS);
    let length = match reader {
        Command::ReadIdentity | Command::ReadTagDescriptorDate => random.below(4),
        Command::ReadVariables => random.below(12),
        Command::ReadIdentityByTag => random.near(6),
        Command::WriteTagDescriptorDate => random.near(21),
    };
    let frame_type =
        if random.once_in(6) { random.one_of(&FRAME_TYPES) } else { FrameType::Request };
    let command = match random.below(12) {
        0 => random.byte(),
        1 => random.one_of(&COMMANDS).number(),
        _ => reader.number(),
    };
    let carrier = Carrier { frame_type, command, data: random.bytes(length) };
    Case::ReadRequest(random.one_of(&HANDED), random.one_of(&MODES), reader, carrier)
}

fn random_response(random: &mut Random) -> Case {
    let command = random.one_of(&COMMANDS);
    let (response, total) = match command {
        Command::ReadIdentity | Command::ReadIdentityByTag => {
            (Response::Identity(random_identity(random)), 14)
        }
        Command::ReadVariables => {
            let count = match random.below(8) {
                0 => random.byte(),
                1 => random.one_of(&[8, 9]),
                _ => random.below(9) as u8,
            };
            let groups = (0..random.below(MOST_GROUPS + 1)).map(|_| random_group(random)).collect();
            let total = 3 + 8 * usize::from(count.min(9));
            (Response::Variables { extended: random.byte(), count, groups }, total)
        }
        Command::ReadTagDescriptorDate | Command::WriteTagDescriptorDate => {
            let mode = random.one_of(&MODES);
            let (tag, descriptor) = (random_text_of(random, mode), random_text_of(random, mode));
            let fields = TagDescriptorDate { tag, descriptor, date: random.array() };
            (Response::Text(mode, fields), 23)
        }
    };
    let room = if random.once_in(3) { random.near(total) } else { total + random.below(3) };
    Case::WriteResponse { command, room, status: random.array(), response }
}

fn random_identity(random: &mut Random) -> Identity {
    Identity {
        expansion: random.byte(),
        device_type: random.word() as u16,
        minimum_preambles: random.byte(),
        hart_revision: random.byte(),
        device_revision: random.byte(),
        software_revision: random.byte(),
        hardware_revision: if random.flag() { random.byte() } else { random.byte() % 34 },
        signalling: if random.flag() { random.byte() } else { random.byte() % 10 },
        flags: random.byte(),
        number: if random.flag() { random.word() } else { random.one_of(&NUMBERS) },
    }
}

fn random_group(random: &mut Random) -> [u8; 8] {
    let mut group: [u8; 8] = random.array();
    if random.once_in(4) {
        group[3..7].copy_from_slice(&random.one_of(&FLOATS).to_be_bytes());
    }
    group
}

/// Any field; a text of standard mode has a bad character now and then.
fn random_field(random: &mut Random) -> Field {
    let mode = random.one_of(&MODES);
    match random.below(10) {
        0 => Field::Status(random.array()),
        1 => Field::Byte(random.byte()),
        2..=4 => Field::Group(random_group(random)),
        5 => Field::Identity(random.array()),
        6 | 7 => Field::Tag(mode, random_text_of(random, mode)),
        8 => Field::Descriptor(mode, random_text_of(random, mode)),
        _ => Field::Date(random.array()),
    }
}

/// Fields as a response has them, or any; or many groups, up to one too many.
fn random_fields(random: &mut Random, most: usize) -> Vec<Field> {
    match random.below(8) {
        0 | 1 => {
            let mode = random.one_of(&MODES);
            vec![
                Field::Status(random.array()),
                Field::Tag(mode, random_text_of(random, mode)),
                Field::Descriptor(mode, random_text_of(random, mode)),
                Field::Date(random.array()),
            ]
        }
        2 => vec![Field::Status(random.array()), Field::Identity(random.array())],
        3 | 4 => {
            let groups = random.near(8).min(most - 2);
            let head = [Field::Status(random.array()), Field::Byte(random.byte())];
            let head = &head[..random.below(3)];
            let mut fields = head.to_vec();
            fields.extend((0..groups).map(|_| Field::Group(random_group(random))));
            fields
        }
        _ => (0..random.below(most + 1)).map(|_| random_field(random)).collect(),
    }
}

fn length(field: &Field) -> usize {
    match field {
        Field::Status(_) => 2,
        Field::Byte(_) => 1,
        Field::Group(_) => 8,
        Field::Tag(..) => 6,
        Field::Identity(_) | Field::Descriptor(..) => 12,
        Field::Date(_) => 3,
    }
}

/// Fields in turn: mostly from the front; else near what ends them, or anywhere.
fn random_put(random: &mut Random) -> Case {
    let fields = random_fields(random, MOST_PUT);
    let total: usize = fields.iter().map(length).sum();
    let first = fields.first().map_or(0, length);
    let start = match random.below(12) {
        0..=5 => random.below(4) as u64,
        6 | 7 => near_end(random, 255, first),
        8 => near_end(random, 67, first),
        9 => near_end(random, 255, total),
        10 => 0u64.wrapping_sub(random.below(30) as u64),
        _ => u64::from(random.word()) << random.below(33),
    };
    let near = match random.below(6) {
        0 => 255,
        1 => 67,
        2 => random.below(total + 1),
        _ => total,
    };
    let behind = if start < 400 && random.flag() { start as usize + near } else { near };
    let room = random.near(behind).min(MOST_ROOM);
    Case::PutFields { room, start, fields }
}

/// A place from which so many bytes end at this one, or a few places before or behind it.
fn near_end(random: &mut Random, end: u64, length: usize) -> u64 {
    (end + random.below(5) as u64).saturating_sub(2 + length as u64)
}

fn random_whole(random: &mut Random) -> Case {
    let mut fields = random_fields(random, MOST_FIELDS);
    // A response of standard text alone, of which one character is bad, or none.
    if random.once_in(4) {
        fields = vec![
            Field::Tag(Mode::Standard, random_text_of(random, Mode::Standard)),
            Field::Tag(Mode::Crate, random.array()),
            Field::Descriptor(Mode::Standard, random_text_of(random, Mode::Standard)),
        ];
    }
    let total = fields.iter().map(length).sum();
    let room = if random.flag() { random.near(total) } else { total + random.below(3) };
    Case::WriteFields { room, fields }
}
