//! 'Commands': identities, device variables, what a response carries.

use crate::answers::{Answer, Reading, Refusal, Variable};
use crate::cases::{Carrier, Command, FrameType, Identity, Mode, TagDescriptorDate};

use super::array;
use super::text::unpacked;

/// The response of command 9. HART's extended status byte is skipped in standard mode.
pub fn variables(mode: Mode, data: &[u8]) -> Answer {
    let groups = match (mode, data) {
        (Mode::Crate, groups) | (Mode::Standard, [_, groups @ ..]) => groups,
        (Mode::Standard, []) => return Answer::Refused(Refusal::BufferTooShort),
    };
    Answer::Variables(groups.chunks_exact(8).take(8).map(variable_of).collect())
}

/// The response of command 11; and, by document 02, of command 0.
pub fn identity(data: &[u8]) -> Answer {
    read(data, 12, |data| Answer::Identity(identity_of(data)))
}

/// The response of command 18; and, by document 02, of command 13.
pub fn tag_descriptor_date(mode: Mode, data: &[u8]) -> Answer {
    read(data, 21, |data| {
        Answer::TagDescriptorDate(TagDescriptorDate {
            tag: array(&unpacked(mode, &data[..6])),
            descriptor: array(&unpacked(mode, &data[6..18])),
            date: array(&data[18..21]),
        })
    })
}

/// What a response or burst frame carries behind its two status bytes.
pub fn payload(frame_type: FrameType, data: &[u8]) -> Result<&[u8], Refusal> {
    if frame_type == FrameType::Request {
        return Err(Refusal::WrongFrame);
    }
    let &[first, _, ref part @ ..] = data else {
        return Err(Refusal::BufferTooShort);
    };
    match first {
        128.. => Err(Refusal::CommError(first)),
        1.. => Err(Refusal::ResponseCode(first)),
        0 => Ok(part),
    }
}

/// A typed reading. Another command is refused before the payload is looked at.
pub fn typed(mode: Mode, reader: Command, carrier: &Carrier) -> Answer {
    if carrier.command != reader.number() {
        return Answer::Refused(Refusal::WrongFrame);
    }
    match (reader, payload(carrier.frame_type, &carrier.data)) {
        (_, Err(refusal)) => Answer::Refused(refusal),
        (Command::ReadVariables, Ok(part)) => variables(mode, part),
        (Command::ReadIdentity | Command::ReadIdentityByTag, Ok(part)) => identity(part),
        (Command::ReadTagDescriptorDate | Command::WriteTagDescriptorDate, Ok(part)) => {
            tag_descriptor_date(mode, part)
        }
    }
}

/// What a variable is worth, by bits 7 and 6 of its status and its float's exponent.
pub fn worth(variable: &Variable) -> Reading {
    let exponent = variable.value / 2u32.pow(23) % 256;
    match (variable.status / 64, exponent) {
        (0b00, _) => Reading::Bad,
        (_, 255) => Reading::Absent,
        (0b11, _) => Reading::Good(variable.value),
        (0b01, _) => Reading::Poor(variable.value),
        _ => Reading::Fixed(variable.value),
    }
}

fn read(data: &[u8], least: usize, reading: impl FnOnce(&[u8]) -> Answer) -> Answer {
    if data.len() < least {
        Answer::Refused(Refusal::BufferTooShort)
    } else {
        reading(data)
    }
}

fn identity_of(data: &[u8]) -> Identity {
    Identity {
        expansion: data[0],
        device_type: u16::from_be_bytes([data[1], data[2]]),
        minimum_preambles: data[3],
        hart_revision: data[4],
        device_revision: data[5],
        software_revision: data[6],
        hardware_revision: data[7] / 8,
        signalling: data[7] % 8,
        flags: data[8],
        number: u32::from_be_bytes([0, data[9], data[10], data[11]]),
    }
}

pub fn variable_of(group: &[u8]) -> Variable {
    Variable {
        code: group[0],
        class: group[1],
        unit: group[2],
        value: u32::from_be_bytes([group[3], group[4], group[5], group[6]]),
        status: group[7],
    }
}

/// 01 takes the response status from the source without a word on its bits. These are HART's.
pub fn status_flags(first: u8, second: u8) -> [bool; 6] {
    let bit = |number: u32| second / 2u8.pow(number) % 2 == 1;
    [first != 0, bit(7), bit(6), bit(5), bit(4), bit(3)]
}
