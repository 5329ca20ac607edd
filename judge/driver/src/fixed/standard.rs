//! Standard mode, which document 01 adds: packed text, and commands 9, 11 and 18.

use crate::cases::{Case, Mode, TagDescriptorDate};
use crate::generate::{Sheet, GROUP_LENGTHS};

use super::{characters, in_turn, ramp};

pub const TAG: [u8; 8] = *b"TT-101  ";
pub const DESCRIPTOR: [u8; 16] = *b"LEVEL 7 TANK 12 ";
/// The characters beside those with a code, and others without.
pub const NO_CODE: [u8; 6] = [0x1F, 0x60, 0x00, 0x61, 0x7F, 0xFF];

pub fn text(sheet: &mut Sheet) {
    sheet.remark(
        "Packed text, standard mode: 0 to 9 characters, 0 to 8 packed bytes, each with every room",
    );
    super::text(sheet, Mode::Standard, 9, 8);
    sheet.remark("Packed text, standard mode: every character and every packed byte");
    characters(sheet, Mode::Standard, in_turn);
    sheet.remark(
        "Packed text, standard mode: a bad character at each place; the first of two counts",
    );
    for place in 0..9 {
        let mut text = *b"TANK 7 OK";
        text[place] = NO_CODE[place % NO_CODE.len()];
        sheet.case(&Case::Pack { mode: Mode::Standard, room: 9, text: text.to_vec() });
        text[8] = b'k';
        sheet.case(&Case::Pack { mode: Mode::Standard, room: 9, text: text.to_vec() });
    }
    sheet.remark("Packed text, standard mode: a bad place above 255");
    let text = [&[b'A'; 300][..], b"a"].concat();
    sheet.case(&Case::Pack { mode: Mode::Standard, room: 228, text });
}

pub fn commands(sheet: &mut Sheet) {
    sheet.remark("Command 9, response, standard mode: lengths around whole groups behind one byte");
    for length in GROUP_LENGTHS {
        sheet.case(&Case::ReadVariables(Mode::Standard, ramp(length)));
    }
    command_11(sheet);
    command_18(sheet);
}

fn command_11(sheet: &mut Sheet) {
    let mode = Mode::Standard;
    sheet.remark(
        "Command 11, standard mode: the request into rooms around 6 bytes, good and bad tags",
    );
    for tag in [TAG, *b"tt-101 a"] {
        for room in [0, 1, 5, 6, 7, 255] {
            sheet.case(&Case::WriteTag { mode, room, tag });
        }
    }
    sheet.remark("Command 11, standard mode: a bad character at each place");
    for (place, no_code) in (0..8).flat_map(|place| NO_CODE.map(|no_code| (place, no_code))) {
        let mut tag = TAG;
        tag[place] = no_code;
        sheet.case(&Case::WriteTag { mode, room: 6, tag });
    }
    sheet.remark("Command 11, standard mode: tags with every character that has a code, and back");
    for first in (0x20..0x60).step_by(8) {
        let tag = std::array::from_fn(|place| first + place as u8);
        sheet.case(&Case::WriteTag { mode, room: 6, tag });
    }
    for packed in [[0; 6], [0xFF; 6], [0x51, 0x4B, 0x71, 0xC3, 0x18, 0x20]] {
        sheet.case(&Case::ReadTag(mode, packed));
    }
    for first in (0..=255).step_by(6) {
        sheet.case(&Case::ReadTag(mode, std::array::from_fn(|place| first + place as u8 % 4)));
    }
}

fn command_18(sheet: &mut Sheet) {
    let mode = Mode::Standard;
    let good = TagDescriptorDate { tag: TAG, descriptor: DESCRIPTOR, date: [15, 11, 126] };
    let bad = TagDescriptorDate { tag: *b"TT-101 a", ..good.clone() };
    sheet.remark("Command 18, standard mode: the request into rooms around its texts and it all");
    for fields in [&good, &bad] {
        for room in [0, 6, 18, 20, 21, 22, 255] {
            let fields = fields.clone();
            sheet.case(&Case::WriteTagDescriptorDate { mode, room, fields });
        }
    }
    sheet.remark(
        "Command 18, standard mode: a bad character at each place 0 to 23; then the first of two",
    );
    for place in 0..24 {
        let mut fields = good.clone();
        let no_code = NO_CODE[place % NO_CODE.len()];
        *character(&mut fields, place) = no_code;
        sheet.case(&Case::WriteTagDescriptorDate { mode, room: 21, fields: fields.clone() });
        *character(&mut fields, 23) = b'z';
        sheet.case(&Case::WriteTagDescriptorDate { mode, room: 21, fields });
    }
    sheet.remark("Command 18, standard mode: the response at lengths around 21 bytes");
    for length in [0, 1, 6, 18, 20, 21, 22, 30] {
        sheet.case(&Case::ReadTagDescriptorDate(mode, ramp(length)));
    }
}

/// A character by its place in the tag, then the descriptor.
pub fn character(fields: &mut TagDescriptorDate, place: usize) -> &mut u8 {
    match place.checked_sub(8) {
        None => &mut fields.tag[place],
        Some(place) => &mut fields.descriptor[place],
    }
}
