//! What a frame carries, which document 01 adds: the payload, typed readings, and what a device
//! variable is worth.

use crate::cases::{
    Carrier, Case, Command, FrameType, Mode, COMMANDS, FRAME_TYPES, MODES, WITHOUT_DATA,
};
use crate::generate::Sheet;

use super::ramp;

/// Zeros of both signs, numbers with and without a leading one at the ends of their ranges,
/// infinities and NaNs.
const FLOATS: [u32; 14] = [
    0x0000_0000,
    0x8000_0000,
    0x0000_0001,
    0x007F_FFFF,
    0x0080_0000,
    0x3FC0_0000,
    0x7F7F_FFFF,
    0xFF7F_FFFF,
    0x7F80_0000,
    0xFF80_0000,
    0x7F80_0001,
    0x7FA0_0000,
    0x7FC0_0000,
    0xFFFF_FFFF,
];
/// The first and the last status byte of each pair of high bits.
const STATUSES: [u8; 8] = [0x00, 0x3F, 0x40, 0x7F, 0x80, 0xBF, 0xC0, 0xFF];

pub fn carried(sheet: &mut Sheet) {
    readings(sheet);
    payloads(sheet);
    sheet.remark(
        "Typed readings: each reader, mode and type; data short, refused, whole; other commands",
    );
    for reader in COMMANDS {
        for (mode, frame_type) in MODES.into_iter().flat_map(|m| FRAME_TYPES.map(|t| (m, t))) {
            typed_readings(sheet, mode, reader, frame_type);
        }
    }
}

/// Every status byte with every float.
pub fn every_reading(sheet: &mut Sheet) {
    for (status, float) in (0..=255).flat_map(|status| FLOATS.map(|float| (status, float))) {
        reading(sheet, float, status);
    }
}

fn readings(sheet: &mut Sheet) {
    sheet.remark("Readings: every status byte with a number and with a NaN");
    for status in 0..=255 {
        reading(sheet, 0x3FC0_0000, status);
        reading(sheet, 0x7FA0_0000, status);
    }
    sheet.remark(
        "Readings: floats at the ends of their ranges, infinities and NaNs, each kind of status",
    );
    for (float, status) in FLOATS.into_iter().flat_map(|float| STATUSES.map(|s| (float, s))) {
        reading(sheet, float, status);
    }
}

fn reading(sheet: &mut Sheet, float: u32, status: u8) {
    let [f0, f1, f2, f3] = float.to_be_bytes();
    sheet.case(&Case::Worth([0xF7, 0x40, 0x20, f0, f1, f2, f3, status]));
}

fn payloads(sheet: &mut Sheet) {
    sheet.remark("Payloads of 0 to 3 bytes, and of many, for each type of frame");
    for frame_type in FRAME_TYPES {
        for data in
            [&[][..], &[0x00], &[0x80], &[0x01], &[0, 0], &[0, 0x40, 0x07], &[0, 0xFF, 7, 8]]
        {
            sheet.case(&Case::Payload(frame_type, data.to_vec()));
        }
        let many = [&[0, 0x40], &ramp(253)[..]].concat();
        sheet.case(&Case::Payload(frame_type, many));
    }
    sheet.remark("Payloads with every first status byte, for each type of frame");
    for (frame_type, first) in FRAME_TYPES.into_iter().flat_map(|t| (0..=255).map(move |b| (t, b)))
    {
        sheet.case(&Case::Payload(frame_type, vec![first, 0x40, 0x07]));
    }
}

fn typed_readings(sheet: &mut Sheet, mode: Mode, reader: Command, frame_type: FrameType) {
    let mut read = |command: u8, status: &[u8], payload: &[u8]| {
        let data = [status, payload].concat();
        sheet.case(&Case::ReadFrame(mode, reader, Carrier { frame_type, command, data }));
    };
    let command = reader.number();
    let whole = ramp(whole_response(mode, reader));
    read(command, &[], &[]);
    read(command, &[0x00], &[]);
    read(command, &[0x00, 0x40], &[]);
    read(command, &[0x00, 0x40], &whole[..1]);
    read(command, &[0x00, 0x40], &whole[..whole.len() - 1]);
    read(command, &[0x00, 0x40], &whole);
    read(command, &[0x00, 0x40], &ramp(whole.len() + 1));
    for status in [[0x80, 0x40], [0xFF, 0x00], [0x7F, 0x40], [0x01, 0x00]] {
        read(command, &status, &whole);
    }
    // Another command is refused before the mode is looked at.
    if mode == Mode::Crate && WITHOUT_DATA.contains(&reader) {
        return;
    }
    for other in [0, 9, 11, 13, 18, command + 1].into_iter().filter(|&other| other != command) {
        read(other, &[], &[]);
        read(other, &[0x80, 0x00], &whole);
        read(other, &[0x00, 0x00], &whole);
    }
}

/// The bytes of the shortest payload that gives something.
fn whole_response(mode: Mode, reader: Command) -> usize {
    match (reader, mode) {
        (Command::ReadVariables, Mode::Crate) => 8,
        (Command::ReadVariables, Mode::Standard) => 9,
        (Command::ReadIdentity | Command::ReadIdentityByTag, _) => 12,
        (Command::ReadTagDescriptorDate | Command::WriteTagDescriptorDate, _) => 21,
    }
}
