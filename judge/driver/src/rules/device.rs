//! Document 02, 'The device's side': requests read, responses written, fields added in turn.

use crate::answers::{Answer, Refusal};
use crate::cases::{fresh_room, Carrier, Command, Field, FrameType, Identity, Mode, Response};

use super::commands::tag_descriptor_date;
use super::text::{packed, packed_length, unpacked};
use super::{array, write};

/// The data of a frame end here at the latest, and the eighth group of command 9 does, behind two
/// status bytes and the extended one.
const DATA_END: usize = 255;
const GROUPS_END: usize = 2 + 1 + 8 * 8;

/// A request as a device reads it: 6 for a wrong type or command, then 3. Bytes past its layout are
/// ignored.
pub fn request(mode: Mode, reader: Command, carrier: &Carrier) -> Answer {
    if carrier.frame_type != FrameType::Request || carrier.command != reader.number() {
        return Answer::Refused(Refusal::WrongFrame);
    }
    let too_short = Answer::Refused(Refusal::BufferTooShort);
    match (reader, &carrier.data[..]) {
        // Requests 0 and 13 carry no data.
        (Command::ReadIdentity | Command::ReadTagDescriptorDate, _) => Answer::Done,
        // At least one code, and the first eight count.
        (Command::ReadVariables, []) => too_short,
        (Command::ReadVariables, codes) => Answer::Codes(codes.iter().take(8).copied().collect()),
        (Command::ReadIdentityByTag, data) => match data.get(..6) {
            Some(tag) => Answer::Tag(array(&unpacked(mode, tag))),
            None => too_short,
        },
        // Command 18 has one layout both ways.
        (Command::WriteTagDescriptorDate, data) => tag_descriptor_date(mode, data),
    }
}

/// A whole response: two status bytes, then the payload. 1, then 2, then 7, whose place runs through
/// the tag, then the descriptor.
pub fn write_response(room: usize, status: [u8; 2], response: &Response) -> Answer {
    let payload = match response {
        Response::Identity(identity) => Ok(identity_bytes(identity).to_vec()),
        Response::Variables { count, .. } if *count > 8 => Err(Refusal::DataTooLong),
        Response::Variables { extended, count, groups } => {
            let zeros = [[0; 8]; 8];
            let first = groups.iter().chain(&zeros).take(usize::from(*count)).flatten();
            Ok([extended].into_iter().chain(first).copied().collect())
        }
        Response::Text(..) if 2 + 21 > room => Err(Refusal::BufferTooSmall),
        Response::Text(mode, fields) => {
            let text = [&fields.tag[..], &fields.descriptor].concat();
            packed(*mode, &text).map(|text| [&text[..], &fields.date].concat())
        }
    };
    write(room, payload.map(|payload| [&status[..], &payload].concat()))
}

/// The 12 bytes of an identity, of which numbers that are too large lose their high bits.
fn identity_bytes(identity: &Identity) -> [u8; 12] {
    let [type_high, type_low] = identity.device_type.to_be_bytes();
    let [_, number_high, number_middle, number_low] = identity.number.to_be_bytes();
    [
        identity.expansion,
        type_high,
        type_low,
        identity.minimum_preambles,
        identity.hart_revision,
        identity.device_revision,
        identity.software_revision,
        identity.hardware_revision % 32 * 8 + identity.signalling % 8,
        identity.flags,
        number_high,
        number_middle,
        number_low,
    ]
}

/// Fields added in turn, from a place on. A refused one writes nothing and moves no place.
pub fn put_fields(room: usize, start: u64, fields: &[Field]) -> Answer {
    let mut buffer = fresh_room(room);
    let mut place = start;
    let mut outcomes = Vec::new();
    for field in fields {
        let end = u128::from(place) + length(field) as u128;
        let outcome = placed(field, end, room);
        if let Ok(bytes) = &outcome {
            let end = end as usize;
            buffer[end - bytes.len()..end].copy_from_slice(bytes);
            place += bytes.len() as u64;
        }
        outcomes.push((outcome.map(|bytes| bytes.len()), place));
    }
    Answer::Put(outcomes, buffer)
}

/// The bytes of a field that would end at this place: 1 where that is too late for it, then 2, then 7
/// with the place in its own text.
fn placed(field: &Field, end: u128, room: usize) -> Result<Vec<u8>, Refusal> {
    if end > latest_end(field) as u128 {
        return Err(Refusal::DataTooLong);
    }
    if end > room as u128 {
        return Err(Refusal::BufferTooSmall);
    }
    bytes(field)
}

/// A whole response of any fields: the same order over all of them, the place of 7 running through
/// all their characters; and nothing is written where one of them is refused.
pub fn write_fields(room: usize, fields: &[Field]) -> Answer {
    let ends = fields.iter().scan(0, |end, field| {
        *end += length(field);
        Some(*end)
    });
    if fields.iter().zip(ends).any(|(field, end)| end > latest_end(field)) {
        return write(room, Err(Refusal::DataTooLong));
    }
    if fields.iter().map(length).sum::<usize>() > room {
        return write(room, Err(Refusal::BufferTooSmall));
    }
    let mut all = Vec::new();
    let mut characters = 0;
    for field in fields {
        match bytes(field) {
            Ok(bytes) => all.extend(bytes),
            Err(Refusal::BadCharacter(place)) => {
                return write(room, Err(Refusal::BadCharacter(characters + place)));
            }
            Err(refusal) => return write(room, Err(refusal)),
        }
        characters += text_of(field).map_or(0, |(_, text)| text.len() as u16);
    }
    write(room, Ok(all))
}

fn latest_end(field: &Field) -> usize {
    match field {
        Field::Group(_) => GROUPS_END,
        _ => DATA_END,
    }
}

/// The text of a field that is one.
fn text_of(field: &Field) -> Option<(Mode, &[u8])> {
    match field {
        Field::Tag(mode, tag) => Some((*mode, tag)),
        Field::Descriptor(mode, descriptor) => Some((*mode, descriptor)),
        _ => None,
    }
}

/// The bytes that a field takes.
fn length(field: &Field) -> usize {
    match field {
        Field::Status(_) => 2,
        Field::Byte(_) => 1,
        Field::Group(_) => 8,
        Field::Identity(_) => 12,
        Field::Tag(_, tag) => packed_length(tag),
        Field::Descriptor(_, descriptor) => packed_length(descriptor),
        Field::Date(_) => 3,
    }
}

/// What a field writes, its text packed.
fn bytes(field: &Field) -> Result<Vec<u8>, Refusal> {
    match field {
        Field::Status(status) => Ok(status.to_vec()),
        Field::Byte(byte) => Ok(vec![*byte]),
        Field::Group(group) => Ok(group.to_vec()),
        Field::Identity(identity) => Ok(identity.to_vec()),
        Field::Tag(mode, tag) => packed(*mode, tag),
        Field::Descriptor(mode, descriptor) => packed(*mode, descriptor),
        Field::Date(date) => Ok(date.to_vec()),
    }
}
