//! The device's side, which document 02 adds (1/12): requests read, responses written, fields put in
//! turn; and the host's readers of responses 0 and 13.

use std::collections::BTreeSet;

use crate::cases::{
    Carrier, Case, Command, Field, FrameType, Handed, Identity, Mode, Response, TagDescriptorDate,
    COMMANDS, HANDED, MODES, MOST_DATA, MOST_FIELDS, MOST_PUT, MOST_ROOM, WITHOUT_DATA,
};
use crate::generate::{Sheet, FLOATS};

use super::standard::{character, DESCRIPTOR, NO_CODE, TAG};
use super::{plain_text, ramp};

const GROUP: [u8; 8] = [0x00, 0x41, 0x27, 0x3F, 0x80, 0x00, 0x00, 0xC0];
const PLAIN: Identity = Identity {
    expansion: 0xFE,
    device_type: 0x260A,
    minimum_preambles: 5,
    hart_revision: 5,
    device_revision: 1,
    software_revision: 2,
    hardware_revision: 4,
    signalling: 1,
    flags: 0,
    number: 0x01_02_03,
};
const PLAIN_ON_THE_LINE: [u8; 12] =
    [0xFE, 0x26, 0x0A, 0x05, 0x05, 0x01, 0x02, 0x21, 0x00, 0x01, 0x02, 0x03];
const TEXT: TagDescriptorDate =
    TagDescriptorDate { tag: TAG, descriptor: DESCRIPTOR, date: [15, 11, 126] };
/// The responses of command 9 with as many groups, to and with the eighth.
const WITH_GROUPS: [(u8, usize); 5] = [(0, 3), (1, 11), (2, 19), (7, 59), (8, 67)];

pub fn device(sheet: &mut Sheet) {
    responses_read(sheet);
    requests_written(sheet);
    requests_read(sheet);
    identities_written(sheet);
    variables_written(sheet);
    texts_written(sheet);
    fields_alone(sheet);
    late_fields(sheet);
    far_fields(sheet);
    bad_characters(sheet);
    fields_in_turn(sheet);
    whole_responses(sheet);
}

/// A field of each kind at each place that it may have and behind it, with room for all, room up to its
/// end, and a byte too few; then every number that loses bits.
pub fn every_place(sheet: &mut Sheet) {
    for (start, (field, length)) in (0..=260).flat_map(|s| each_kind().map(|kind| (s, kind))) {
        let end = (start + length) as usize;
        for room in [end - 1, end, 280] {
            put(sheet, room, start, std::slice::from_ref(&field));
        }
    }
    for byte in 0..=255 {
        let hardware = Identity { hardware_revision: byte, ..PLAIN };
        let signalling = Identity { signalling: byte, ..PLAIN };
        for identity in [hardware, signalling] {
            answer_with(sheet, Command::ReadIdentity, 14, &Response::Identity(identity));
        }
        answer_with(
            sheet,
            Command::ReadVariables,
            67,
            &Response::Variables { extended: 7, count: byte, groups: groups(8) },
        );
    }
}

fn responses_read(sheet: &mut Sheet) {
    sheet.remark("Document 02, 1/12: the response of command 0 at lengths around 12 bytes");
    for length in [0, 1, 11, 12, 13, 14, 255] {
        sheet.case(&Case::ReadIdentity(ramp(length)));
    }
    for shared in [0x00, 0x07, 0x08, 0x21, 0xF8, 0xFF] {
        let mut data = PLAIN_ON_THE_LINE;
        data[7] = shared;
        sheet.case(&Case::ReadIdentity(data.to_vec()));
    }
    sheet.remark("The response of command 13 at lengths around 21 bytes, both modes");
    for (mode, length) in
        MODES.into_iter().flat_map(|m| [0, 1, 6, 18, 20, 21, 22, 255].map(|l| (m, l)))
    {
        sheet.case(&Case::ReadStoredText(mode, ramp(length)));
    }
    for mode in MODES {
        sheet.case(&Case::ReadStoredText(mode, vec![0x00; 21]));
        sheet.case(&Case::ReadStoredText(mode, vec![0xFF; 21]));
    }
}

fn requests_written(sheet: &mut Sheet) {
    sheet.remark("Requests 0 and 13 write nothing, whatever the room");
    for (command, room) in
        WITHOUT_DATA.into_iter().flat_map(|c| [0, 1, 2, 21, MOST_ROOM].map(|room| (c, room)))
    {
        sheet.case(&Case::WriteNoData(command, room));
    }
}

/// The fewest bytes of a request that a device reads.
fn whole_request(reader: Command) -> usize {
    match reader {
        Command::ReadIdentity | Command::ReadTagDescriptorDate => 0,
        Command::ReadVariables => 1,
        Command::ReadIdentityByTag => 6,
        Command::WriteTagDescriptorDate => 21,
    }
}

fn requests_read(sheet: &mut Sheet) {
    let read = |sheet: &mut Sheet, mode, reader, frame_type, command, data: &[u8]| {
        for handed in HANDED {
            let carrier = Carrier { frame_type, command, data: data.to_vec() };
            sheet.case(&Case::ReadRequest(handed, mode, reader, carrier));
        }
    };
    sheet.remark("Requests read by a device, each of a whole frame and of its parts: each reader, mode and type, at the lengths of its layout");
    for reader in COMMANDS {
        let (command, whole) = (reader.number(), whole_request(reader));
        for mode in MODES {
            let request = FrameType::Request;
            let lengths = [0, 1, whole.saturating_sub(1), whole, whole + 1, MOST_DATA];
            for length in BTreeSet::from(lengths) {
                read(sheet, mode, reader, request, command, &ramp(length));
            }
            for frame_type in [FrameType::Response, FrameType::Burst] {
                for length in [0, whole + 2] {
                    read(sheet, mode, reader, frame_type, command, &vec![0; length]);
                }
            }
        }
    }
    sheet.remark("Requests of other commands, with and without data, for each reader");
    for reader in COMMANDS {
        let command = reader.number();
        let others = [0, 9, 11, 13, 18, command + 1, command ^ 0x80];
        for other in others.into_iter().filter(|&other| other != command) {
            read(sheet, Mode::Standard, reader, FrameType::Request, other, &[]);
            read(sheet, Mode::Standard, reader, FrameType::Request, other, &ramp(21));
        }
        read(sheet, Mode::Standard, reader, FrameType::Response, command + 1, &ramp(21));
    }
    sheet.remark("Parts of a frame with more data than a frame holds: 256 and 257 bytes");
    for (reader, length) in
        COMMANDS.into_iter().flat_map(|c| [MOST_DATA + 1, MOST_DATA + 2].map(|l| (c, l)))
    {
        let (frame_type, command) = (FrameType::Request, reader.number());
        let carrier = Carrier { frame_type, command, data: ramp(length) };
        sheet.case(&Case::ReadRequest(Handed::InParts, Mode::Standard, reader, carrier));
    }
    sheet.remark(
        "Requests of 3 to 10 codes, beside the 0, 1, 2 and 255 above: the first eight count",
    );
    for codes in 3..=10 {
        let (reader, request) = (Command::ReadVariables, FrameType::Request);
        read(sheet, Mode::Standard, reader, request, reader.number(), &ramp(codes));
    }
    sheet
        .remark("Requests with a tag, and with tag, descriptor and date: characters of both modes");
    for (mode, first) in
        MODES.into_iter().flat_map(|m| [0x00, 0x2B, 0x80, 0xD4, 0xFF].map(|b| (m, b)))
    {
        for reader in [Command::ReadIdentityByTag, Command::WriteTagDescriptorDate] {
            let data: Vec<u8> =
                (0..whole_request(reader)).map(|place| first ^ (9 * place) as u8).collect();
            read(sheet, mode, reader, FrameType::Request, reader.number(), &data);
        }
    }
}

fn answer_with(sheet: &mut Sheet, command: Command, room: usize, response: &Response) {
    let (status, response) = ([0x00, 0x40], response.clone());
    sheet.case(&Case::WriteResponse { command, room, status, response });
}

fn identities_written(sheet: &mut Sheet) {
    sheet.remark("Responses 0 and 11 into rooms around the status and it all; any status");
    let commands = [Command::ReadIdentity, Command::ReadIdentityByTag];
    for command in commands {
        for room in [0, 1, 2, 3, 12, 13, 14, 15, 255, MOST_ROOM] {
            answer_with(sheet, command, room, &Response::Identity(PLAIN));
        }
        for status in
            [[0, 0], [0, 0xFF], [5, 0], [8, 0], [0x7F, 1], [0x80, 0], [0x88, 0], [0xFF; 2]]
        {
            let response = Response::Identity(PLAIN);
            sheet.case(&Case::WriteResponse { command, room: 15, status, response });
        }
    }
    sheet.remark("Identities at and above the bits of their fields: the higher ones are lost");
    let with = |change: &dyn Fn(&mut Identity)| {
        let mut identity = PLAIN;
        change(&mut identity);
        identity
    };
    let mut identities = Vec::new();
    for revision in [0, 1, 15, 16, 30, 31, 32, 33, 63, 64, 128, 255] {
        identities.push(with(&|identity| identity.hardware_revision = revision));
    }
    for signalling in [0, 3, 6, 7, 8, 9, 15, 16, 128, 255] {
        identities.push(with(&|identity| identity.signalling = signalling));
    }
    for number in [0, 1, 0xFF, 0x100, 0xFFFF, 0x1_0000, 0xFF_FFFF, 0x100_0000, 0x101_0203, u32::MAX]
    {
        identities.push(with(&|identity| identity.number = number));
    }
    for device_type in [0, 0x00FF, 0x0102, 0xFF00, 0xFFFF] {
        identities.push(with(&|identity| identity.device_type = device_type));
    }
    identities.push(Identity { hardware_revision: 33, signalling: 9, number: 0x101_0203, ..PLAIN });
    identities.push(Identity {
        expansion: 0x11,
        minimum_preambles: 0x22,
        hart_revision: 0x33,
        device_revision: 0x44,
        software_revision: 0x55,
        flags: 0x66,
        ..PLAIN
    });
    identities.push(Identity { hart_revision: 7, ..PLAIN });
    identities.push(Identity {
        expansion: 255,
        device_type: 0xFFFF,
        minimum_preambles: 255,
        hart_revision: 255,
        device_revision: 255,
        software_revision: 255,
        hardware_revision: 255,
        signalling: 255,
        flags: 255,
        number: u32::MAX,
    });
    for (place, identity) in identities.into_iter().enumerate() {
        answer_with(sheet, commands[place % 2], 14, &Response::Identity(identity));
    }
}

/// So many groups that are all different.
fn groups(count: usize) -> Vec<[u8; 8]> {
    let bytes = ramp(8 * count);
    bytes.chunks_exact(8).map(|group| group.try_into().expect("a group has 8 bytes")).collect()
}

fn variables_written(sheet: &mut Sheet) {
    let command = Command::ReadVariables;
    let variables =
        |count: u8, given: usize| Response::Variables { extended: 7, count, groups: groups(given) };
    sheet.remark("Response 9 with 0, 1, 2, 7 and 8 groups into rooms around it all");
    for (count, total) in WITH_GROUPS {
        for room in [0, 1, 2, 3, total - 1, total, total + 1] {
            answer_with(sheet, command, room, &variables(count, usize::from(count)));
        }
    }
    sheet.remark(
        "Response 9 with more than 8 groups is refused with 1, also where there is no room",
    );
    for count in [9, 10, 128, 255] {
        for room in [0, 66, 67, 75] {
            answer_with(sheet, command, room, &variables(count, 8));
        }
    }
    sheet.remark("Response 9 with fewer and more groups handed over than are counted");
    for (count, given) in [(0, 1), (0, 8), (1, 0), (1, 2), (2, 1), (7, 8), (8, 0), (8, 7), (9, 0)] {
        answer_with(sheet, command, 68, &variables(count, given));
    }
    sheet.remark("Response 9: any status and extended status; floats as their bits");
    for status in [[0, 0], [0, 0xFF], [5, 0], [30, 0x40], [0x80, 0], [0xFF; 2]] {
        for extended in [0x00, 0x80, 0xFF] {
            let response = Response::Variables { extended, count: 1, groups: vec![GROUP] };
            sheet.case(&Case::WriteResponse { command, room: 11, status, response });
        }
    }
    for float in FLOATS {
        let mut group = GROUP;
        group[3..7].copy_from_slice(&float.to_be_bytes());
        let response = Response::Variables { extended: 0, count: 1, groups: vec![group] };
        answer_with(sheet, command, 12, &response);
    }
}

fn texts_written(sheet: &mut Sheet) {
    let commands = [Command::ReadTagDescriptorDate, Command::WriteTagDescriptorDate];
    let bad = TagDescriptorDate { tag: *b"TT-101 a", ..TEXT };
    sheet.remark(
        "Responses 13 and 18, both modes, good and bad, into rooms around the parts and it all",
    );
    for (command, mode) in commands.into_iter().flat_map(|c| MODES.map(|mode| (c, mode))) {
        for fields in [&TEXT, &bad] {
            for room in [0, 2, 21, 22, 23, 24] {
                answer_with(sheet, command, room, &Response::Text(mode, fields.clone()));
            }
        }
    }
    sheet.remark("Responses 13 and 18: a bad character at each place 0 to 23, both modes; then the first of two");
    for (place, mode) in (0..24).flat_map(|place| MODES.map(|mode| (place, mode))) {
        let command = commands[place % 2];
        let mut fields = TEXT;
        *character(&mut fields, place) = NO_CODE[place % NO_CODE.len()];
        answer_with(sheet, command, 23, &Response::Text(mode, fields.clone()));
        if mode == Mode::Standard {
            *character(&mut fields, 23) = b'z';
            answer_with(sheet, command, 24, &Response::Text(mode, fields));
        }
    }
    sheet.remark("Responses 13 and 18: every character with a code, and any status");
    for (command, first) in commands.into_iter().flat_map(|c| [0x20, 0x38, 0x48].map(|f| (c, f))) {
        let mut fields = TagDescriptorDate { date: [0, 255, 255], ..TEXT };
        for place in 0..24 {
            *character(&mut fields, place) = first + place as u8;
        }
        for (mode, status) in MODES.into_iter().flat_map(|m| [[0, 0], [0x20, 0xFF]].map(|s| (m, s)))
        {
            let response = Response::Text(mode, fields.clone());
            sheet.case(&Case::WriteResponse { command, room: 23, status, response });
        }
    }
}

/// A field of each kind, and the bytes that it takes.
fn each_kind() -> [(Field, u64); 9] {
    let [tag, descriptor] = [8, 16].map(plain_text);
    let tag: [u8; 8] = tag.try_into().expect("a tag has 8 characters");
    let descriptor: [u8; 16] = descriptor.try_into().expect("a descriptor has 16 characters");
    [
        (Field::Status([0x00, 0x40]), 2),
        (Field::Byte(0x07), 1),
        (Field::Group(GROUP), 8),
        (Field::Identity(PLAIN_ON_THE_LINE), 12),
        (Field::Tag(Mode::Crate, tag), 6),
        (Field::Tag(Mode::Standard, tag), 6),
        (Field::Descriptor(Mode::Crate, descriptor), 12),
        (Field::Descriptor(Mode::Standard, descriptor), 12),
        (Field::Date([31, 12, 126]), 3),
    ]
}

fn put(sheet: &mut Sheet, room: usize, start: u64, fields: &[Field]) {
    sheet.case(&Case::PutFields { room, start, fields: fields.to_vec() });
}

fn fields_alone(sheet: &mut Sheet) {
    sheet
        .remark("No field; then a field of each kind at places 0 and 3, into rooms around its end");
    for (room, start) in [(0, 0), (3, 0), (3, 3), (3, 4), (0, u64::MAX)] {
        put(sheet, room, start, &[]);
    }
    for (field, length) in each_kind() {
        for start in [0, 3] {
            let end = (start + length) as usize;
            for room in [end - 1, end, end + 1] {
                put(sheet, room, start, std::slice::from_ref(&field));
            }
        }
        put(sheet, 0, 0, &[field]);
    }
}

fn late_fields(sheet: &mut Sheet) {
    sheet.remark(
        "A field of each kind that ends at place 255 and one later, which is 1, with room or without",
    );
    for (field, length) in each_kind() {
        for (end, room) in [255, 256].into_iter().flat_map(|e| [0, 254, 255, 300].map(|r| (e, r))) {
            put(sheet, room, end - length, std::slice::from_ref(&field));
        }
    }
    sheet
        .remark("Groups that end at places 66 to 69 and later: past 67 is 1, with room or without");
    for start in [58, 59, 60, 61, 66, 67, 247, 248] {
        for room in [0, 66, 67, 80] {
            put(sheet, room, start, &[Field::Group(GROUP)]);
        }
    }
    sheet.remark("Places at the room and past it: 2 up to place 255, then 1");
    for start in [2, 3, 4, 66, 67, 68, 252, 253, 254, 255, 256, 300] {
        put(sheet, 3, start, &[Field::Byte(7), Field::Status([0, 0x40]), Field::Date([1, 2, 3])]);
    }
    put(sheet, MOST_ROOM, 253, &[Field::Byte(7), Field::Byte(8), Field::Byte(9), Field::Byte(10)]);
}

fn far_fields(sheet: &mut Sheet) {
    sheet.remark("Places far behind, up to the last of 64 bits: 1, and nothing runs over");
    for (field, length) in each_kind() {
        for start in [
            1 << 16,
            (1 << 32) - length,
            1 << 32,
            1 << 63,
            0u64.wrapping_sub(length + 1),
            0u64.wrapping_sub(length),
            u64::MAX,
        ] {
            put(sheet, 20, start, &[field.clone(), Field::Byte(7)]);
        }
    }
}

/// The character at this place of a tag or a descriptor made another.
fn with_character(field: &Field, place: usize, character: u8) -> Field {
    let mut field = field.clone();
    match &mut field {
        Field::Tag(_, tag) => tag[place] = character,
        Field::Descriptor(_, descriptor) => descriptor[place] = character,
        _ => {}
    }
    field
}

/// Tags and descriptors of a mode, with their characters and bytes.
fn texts(mode: Mode) -> [(Field, usize, usize); 2] {
    [(Field::Tag(mode, TAG), 8, 6), (Field::Descriptor(mode, DESCRIPTOR), 16, 12)]
}

fn bad_characters(sheet: &mut Sheet) {
    sheet.remark(
        "A bad character at each place of a tag and a descriptor, both modes, between two fields",
    );
    for (field, characters, length) in MODES.into_iter().flat_map(texts) {
        for place in 0..characters {
            let field = with_character(&field, place, NO_CODE[place % NO_CODE.len()]);
            put(sheet, length + 4, 0, &[Field::Byte(7), field, Field::Status([5, 0])]);
        }
    }
    sheet.remark("Bad characters: 1 before 2 before 7, and the first of two");
    for (field, characters, length) in MODES.into_iter().flat_map(texts) {
        let bad = with_character(&field, characters - 1, b'z');
        for (room, start) in [(length - 1, 0), (length, 0), (length, 1), (300, 255 - length as u64)]
        {
            put(sheet, room, start, std::slice::from_ref(&bad));
        }
        put(sheet, 300, 256 - length as u64, std::slice::from_ref(&bad));
        put(sheet, 0, 256 - length as u64, std::slice::from_ref(&bad));
        put(sheet, length, 0, &[with_character(&bad, 2, 0x60)]);
    }
}

/// Response 9 as fields, the groups all different.
fn variables_as_fields(count: usize) -> Vec<Field> {
    let head = [Field::Status([0x00, 0x40]), Field::Byte(0x07)];
    head.into_iter().chain(groups(count).into_iter().map(Field::Group)).collect()
}

/// Response 13 or 18 as fields.
fn text_as_fields(mode: Mode, fields: &TagDescriptorDate) -> Vec<Field> {
    vec![
        Field::Status([0x00, 0x40]),
        Field::Tag(mode, fields.tag),
        Field::Descriptor(mode, fields.descriptor),
        Field::Date(fields.date),
    ]
}

fn fields_in_turn(sheet: &mut Sheet) {
    sheet.remark(
        "Response 9 field by field: eight groups, a ninth that is refused with 1, a byte behind it",
    );
    for room in [0, 1, 2, 3, 10, 11, 66, 67, 68, 80] {
        let fields = [variables_as_fields(9), vec![Field::Byte(0x55)]].concat();
        put(sheet, room, 0, &fields);
    }
    sheet
        .remark("The other responses field by field, into rooms at which one of their fields ends");
    for room in [0, 1, 2, 13, 14, 15] {
        put(sheet, room, 0, &[Field::Status([0, 0]), Field::Identity(PLAIN_ON_THE_LINE)]);
    }
    for (mode, room) in
        MODES.into_iter().flat_map(|m| [2, 7, 8, 19, 20, 22, 23, 24].map(|r| (m, r)))
    {
        put(sheet, room, 0, &text_as_fields(mode, &TEXT));
    }
    sheet.remark("Fields behind a refused one: it wrote nothing and moved no place");
    let bad = Field::Tag(Mode::Standard, *b"TT-101 a");
    let [status, byte, date] =
        [Field::Status([5, 0]), Field::Byte(0xEE), Field::Date([0x1F, 0x0C, 0x7E])];
    put(sheet, 9, 0, &[status.clone(), bad.clone(), byte.clone(), bad.clone(), date.clone()]);
    put(sheet, 3, 0, &[status.clone(), date.clone(), byte.clone(), byte.clone()]);
    put(sheet, 4, 1, &[Field::Group(GROUP), date.clone(), bad.clone(), byte.clone()]);
    put(sheet, 255, 252, &[date.clone(), byte.clone(), bad.clone()]);
    put(sheet, 255, 253, &[date.clone(), status.clone(), byte.clone()]);
    put(sheet, 255, 60, &[Field::Group(GROUP), byte.clone(), Field::Group(GROUP), date.clone()]);
    put(sheet, 67, 58, &[byte.clone(), Field::Group(GROUP), byte.clone(), Field::Group(GROUP)]);
    put(sheet, 8, u64::MAX, &[byte.clone(), byte.clone(), bad.clone()]);
    sheet.remark("Twelve fields, and one more, which is no case");
    for count in [MOST_PUT, MOST_PUT + 1] {
        put(sheet, 14, 0, &vec![byte.clone(); count]);
        put(sheet, 300, 100, &vec![Field::Identity(PLAIN_ON_THE_LINE); count]);
    }
    for (field, _) in each_kind() {
        put(sheet, 255, 3, &vec![field; MOST_PUT]);
    }
}

fn whole_responses(sheet: &mut Sheet) {
    let write = |sheet: &mut Sheet, room: usize, fields: &[Field]| {
        sheet.case(&Case::WriteFields { room, fields: fields.to_vec() });
    };
    sheet.remark("A response of no fields; one of one field of each kind, into rooms around it");
    for room in [0, 1, 3] {
        write(sheet, room, &[]);
    }
    for (field, length) in each_kind() {
        for room in [0, length as usize - 1, length as usize, length as usize + 1] {
            write(sheet, room, std::slice::from_ref(&field));
        }
    }
    sheet.remark(
        "Responses of fields: those of the commands, into rooms around the parts and it all",
    );
    for (count, total) in WITH_GROUPS {
        for room in [2, 3, total - 1, total, total + 1] {
            write(sheet, room, &variables_as_fields(usize::from(count)));
        }
    }
    for room in [1, 2, 13, 14, 15] {
        write(sheet, room, &[Field::Status([0, 0]), Field::Identity(PLAIN_ON_THE_LINE)]);
    }
    for (mode, room) in MODES.into_iter().flat_map(|m| [2, 8, 20, 22, 23, 24].map(|r| (m, r))) {
        write(sheet, room, &text_as_fields(mode, &TEXT));
    }
    sheet.remark(
        "Groups that end at 66 to 68 and later: past 67 is 1 for all, with room or without",
    );
    let byte = Field::Byte(0xEE);
    let identities = vec![Field::Identity(PLAIN_ON_THE_LINE); 4];
    let texts = vec![Field::Tag(Mode::Standard, TAG), Field::Date([1, 2, 3])];
    for (bytes, room) in (1..=3).flat_map(|b| [0, 66, 67, 68, 80].map(|room| (b, room))) {
        let front = [identities.clone(), texts.clone(), vec![byte.clone(); bytes]].concat();
        write(sheet, room, &[front.clone(), vec![Field::Group(GROUP)]].concat());
        write(sheet, room, &[vec![Field::Group(GROUP)], front].concat());
    }
    for room in [0, 71, 72, 80] {
        write(sheet, room, &vec![Field::Group(GROUP); 9]);
        write(sheet, room, &[vec![Field::Group(GROUP); 8], vec![byte.clone(); 2]].concat());
    }
    sheet.remark("A late group and a bad character: 1 before 2 before 7");
    let bad = Field::Tag(Mode::Standard, *b"TT-101 a");
    for room in [0, 59, 60, 68, 80] {
        let front = [identities.clone(), vec![bad.clone(), bad.clone()]].concat();
        write(sheet, room, &[front.clone(), vec![Field::Group(GROUP)]].concat());
        write(sheet, room, &front);
    }
    sheet.remark("Ten fields, and one more, which is no case");
    for count in [MOST_FIELDS, MOST_FIELDS + 1] {
        for (field, length) in each_kind() {
            write(sheet, MOST_FIELDS * length as usize, &vec![field; count]);
        }
    }
    write(sheet, 119, &vec![Field::Identity(PLAIN_ON_THE_LINE); MOST_FIELDS]);
    sheet.remark(
        "The place of a bad character runs through the characters of all texts, of both modes",
    );
    for (place, mode) in (0..24).flat_map(|place| MODES.map(|mode| (place, mode))) {
        let mut fields = TEXT;
        *character(&mut fields, place) = NO_CODE[place % NO_CODE.len()];
        write(sheet, 23, &text_as_fields(mode, &fields));
    }
    let [tag, descriptor] = [
        Field::Tag(Mode::Crate, *b"tank\x00\x60\xFFz"),
        Field::Descriptor(Mode::Crate, *b"abcdefghijklmno\xFF"),
    ];
    for (place, bad_place) in (0..5).flat_map(|place| [0, 7].map(|bad| (place, bad))) {
        let mut fields = vec![tag.clone(), Field::Date([1, 2, 3]), descriptor.clone(), tag.clone()];
        fields.insert(place, with_character(&Field::Tag(Mode::Standard, TAG), bad_place, b'a'));
        write(sheet, 40, &fields);
        fields.push(bad.clone());
        write(sheet, 60, &fields);
    }
    let last = with_character(&Field::Descriptor(Mode::Standard, DESCRIPTOR), 15, 0x7F);
    let descriptors = vec![Field::Descriptor(Mode::Standard, DESCRIPTOR); MOST_FIELDS - 1];
    write(sheet, 120, &[descriptors.clone(), vec![last.clone()]].concat());
    write(sheet, 119, &[descriptors, vec![last]].concat());
}
