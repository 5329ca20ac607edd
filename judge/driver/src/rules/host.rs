//! 'For the C host': the state block and the call for one byte. A block or a decoder's value is
//! accepted if a run leads to it. Its fields tell the only tail that can; the fields of that tail are
//! then held against it. So nothing here says of a field what values it may have.

use crate::answers::{Answer, Heard, Refusal};
use crate::cases::{fresh_room, DecoderValue, FrameType, Phase};

use super::line::{
    address_bytes, address_length, check, delimited, delimiter, Run, ENOUGH_PREAMBLES, PREAMBLE,
};

/// The bytes of a state block, and of the room that a record is asked.
const BLOCK: usize = 266;
const RECORD_ROOM: usize = 263;
/// The header's fields in bits, the highest first: phase, type, long, preamble count, address bytes
/// received, data expected, data received, command, running check, zero.
const WIDTHS: [u32; 10] = [3, 2, 1, 3, 3, 8, 8, 8, 8, 4];
const HEADER: usize = 6;

/// What a decoder holds. Whatever isn't yet read is zero.
#[derive(PartialEq)]
struct Held {
    phase: Phase,
    frame_type: FrameType,
    long: bool,
    preambles: u8,
    address_received: u8,
    expected: u8,
    received: u8,
    command: u8,
    check: u8,
    address: [u8; 5],
    data: [u8; 255],
}

const HUNTING: Held = Held {
    phase: Phase::Hunting,
    frame_type: FrameType::Request,
    long: false,
    preambles: 0,
    address_received: 0,
    expected: 0,
    received: 0,
    command: 0,
    check: 0,
    address: [0; 5],
    data: [0; 255],
};

impl Held {
    /// What a decoder holds at the end of a run with this tail.
    fn of_tail(tail: &[u8]) -> Held {
        let preambles = tail.iter().take_while(|&&byte| byte == PREAMBLE).count();
        match tail[preambles..] {
            [] if preambles == 0 => HUNTING,
            [] => Held {
                phase: Phase::Preamble,
                preambles: preambles.min(ENOUGH_PREAMBLES) as u8,
                ..HUNTING
            },
            [first, ref behind @ ..] => Held::of_frame(first, behind),
        }
    }

    /// The same of a tail that has its delimiter, from there on.
    fn of_frame(first: u8, behind: &[u8]) -> Held {
        let (frame_type, long) =
            delimited(first).expect("in a tail a delimiter follows the preamble");
        let (address, rest) = behind.split_at(behind.len().min(address_length(long)));
        let mut held = Held {
            phase: Phase::Address,
            frame_type,
            long,
            address_received: address.len() as u8,
            check: first ^ check(behind),
            ..HUNTING
        };
        held.address[..address.len()].copy_from_slice(address);
        if address.len() < address_length(long) {
            return held;
        }
        match *rest {
            [] => Held { phase: Phase::Command, ..held },
            [command] => Held { phase: Phase::ByteCount, command, ..held },
            [command, expected, ref data @ ..] => {
                held.data[..data.len()].copy_from_slice(data);
                let received = data.len() as u8;
                let phase = if received < expected { Phase::Data } else { Phase::Check };
                Held { phase, command, expected, received, ..held }
            }
        }
    }

    /// What a fresh decoder holds that then took these bytes.
    fn behind(bytes: &[u8]) -> Held {
        let mut run = Run::default();
        run.take(bytes);
        Held::of_tail(run.tail())
    }

    /// The run that leads here, if one does. It has no more preamble bytes than it needs.
    fn run(&self) -> Option<Run> {
        let run = Run::of_tail(self.only_tail()?)?;
        (*self == Held::of_tail(run.tail())).then_some(run)
    }

    /// No other tail than this one, but for more preamble bytes, can lead here.
    fn only_tail(&self) -> Option<Vec<u8>> {
        match self.phase {
            Phase::Hunting => return Some(Vec::new()),
            Phase::Preamble => return Some(vec![PREAMBLE; usize::from(self.preambles)]),
            _ => {}
        }
        let mut tail = vec![PREAMBLE; ENOUGH_PREAMBLES];
        tail.push(delimiter(self.frame_type, self.long));
        tail.extend(self.address.get(..usize::from(self.address_received))?);
        if self.phase > Phase::Command {
            tail.push(self.command);
        }
        if self.phase > Phase::ByteCount {
            tail.push(self.expected);
            tail.extend(&self.data[..usize::from(self.received)]);
        }
        Some(tail)
    }

    fn of_block(block: &[u8]) -> Option<Held> {
        let block: &[u8; BLOCK] = block.try_into().ok()?;
        let (header, bytes) = block.split_at(HEADER);
        let fields = fields_of(header);
        let held = Held {
            phase: Phase::from_number(fields[0])?,
            frame_type: FrameType::from_number(fields[1])?,
            long: fields[2] == 1,
            preambles: fields[3],
            address_received: fields[4],
            expected: fields[5],
            received: fields[6],
            command: fields[7],
            check: fields[8],
            ..HUNTING.with_bytes(bytes)
        };
        // What no field has, the zero bits, must be equal too.
        (held.block() == block).then_some(held)
    }

    fn block(&self) -> Vec<u8> {
        let header = header_of([
            self.phase as u8,
            self.frame_type.number(),
            u8::from(self.long),
            self.preambles,
            self.address_received,
            self.expected,
            self.received,
            self.command,
            self.check,
            0,
        ]);
        [&header[..], &self.address, &self.data].concat()
    }

    /// A decoder's value has the fields of its phase; the others follow from these.
    fn of_value(value: &DecoderValue) -> Held {
        let mut held = Held { phase: value.phase, ..HUNTING.with_bytes(&value.bytes) };
        if value.phase == Phase::Preamble {
            held.preambles = value.count;
        }
        if value.phase >= Phase::Address {
            held.frame_type = value.frame_type;
            held.long = value.long;
            held.check = value.check;
            held.address_received = address_length(value.long) as u8;
        }
        if value.phase == Phase::Address {
            held.address_received = value.count;
        }
        if value.phase > Phase::Command {
            held.command = value.command;
        }
        if value.phase > Phase::ByteCount {
            held.expected = value.expected;
            held.received = if value.phase == Phase::Data { value.count } else { value.expected };
        }
        held
    }

    /// As a value; its bytes without the zeros at their end.
    fn value(&self) -> DecoderValue {
        let mut bytes = [&self.address[..], &self.data].concat();
        bytes.truncate(bytes.iter().rposition(|&byte| byte != 0).map_or(0, |last| last + 1));
        DecoderValue {
            phase: self.phase,
            frame_type: self.frame_type,
            long: self.long,
            check: self.check,
            count: match self.phase {
                Phase::Preamble => self.preambles,
                Phase::Address => self.address_received,
                Phase::Data => self.received,
                _ => 0,
            },
            command: self.command,
            expected: self.expected,
            bytes,
        }
    }

    /// With these bytes of address and data, and zeros where there are no more.
    fn with_bytes(self, bytes: &[u8]) -> Held {
        let mut held = self;
        let places = held.address.iter_mut().chain(&mut held.data);
        places.zip(bytes).for_each(|(place, byte)| *place = *byte);
        held
    }
}

/// The block of a fresh decoder that then took these bytes.
pub fn block_behind(bytes: &[u8]) -> Vec<u8> {
    Held::behind(bytes).block()
}

/// The value of a fresh decoder that then took these bytes.
pub fn value_behind(bytes: &[u8]) -> DecoderValue {
    Held::behind(bytes).value()
}

/// The run that leads a fresh decoder to this value, if one does.
pub fn run_to(value: &DecoderValue) -> Option<Run> {
    Held::of_value(value).run()
}

/// One byte in: the block, then the room, then the byte.
pub fn feed(block: &[u8], room: usize, byte: u8) -> Answer {
    let mut room = fresh_room(room);
    let refused = |refusal: Refusal, room| Answer::Fed {
        returned: 1000 + usize::from(refusal.number()),
        block: block.to_vec(),
        room,
    };
    let Some(mut run) = Held::of_block(block).and_then(|held| held.run()) else {
        return refused(Refusal::BadState, room);
    };
    if room.len() < RECORD_ROOM {
        return refused(Refusal::BufferTooSmall, room);
    }
    let record = run.take(&[byte]).first().map_or(Vec::new(), |(_, heard)| record_of(heard));
    room[..record.len()].copy_from_slice(&record);
    Answer::Fed { returned: record.len(), block: Held::of_tail(run.tail()).block(), room }
}

/// Clearing a block.
pub fn clear(block: &[u8]) -> Answer {
    if block.len() == BLOCK {
        return Answer::Cleared { returned: 0, block: vec![0; BLOCK] };
    }
    let returned = 1000 + usize::from(Refusal::BadState.number());
    Answer::Cleared { returned, block: block.to_vec() }
}

/// The record of what was heard. Its first byte: kind 2 bits, type 2, long 1, zero 3.
fn record_of(heard: &Heard) -> Vec<u8> {
    match heard {
        Heard::Frame(frame) => {
            let head = frame.frame_type.number() * 16 + u8::from(frame.address.is_long()) * 8;
            let command_and_count = [frame.command, frame.data.len() as u8];
            [&[head], &address_bytes(&frame.address)[..], &command_and_count, &frame.data].concat()
        }
        Heard::Refused(Refusal::InvalidDelimiter(byte)) => vec![64, *byte],
        Heard::Refused(Refusal::ChecksumMismatch { expected, actual }) => {
            vec![128, *expected, *actual]
        }
        Heard::Refused(_) => unreachable!("a line is refused with 4 or 5 alone"),
    }
}

fn fields_of(header: &[u8]) -> [u8; WIDTHS.len()] {
    let bits = header.iter().fold(0, |bits, &byte| 256 * bits + u64::from(byte));
    let mut below = 8 * HEADER as u32;
    WIDTHS.map(|width| {
        below -= width;
        ((bits >> below) % (1 << width)) as u8
    })
}

fn header_of(fields: [u8; WIDTHS.len()]) -> [u8; HEADER] {
    let with_field = |bits: u64, (width, field): (u32, u8)| (bits << width) + u64::from(field);
    let bits = WIDTHS.into_iter().zip(fields).fold(0, with_field);
    super::array(&bits.to_be_bytes()[8 - HEADER..])
}
