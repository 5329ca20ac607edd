//! 'Wire layout' and 'How a run of bytes is cut'.

use crate::answers::{Heard, Refusal};
use crate::cases::{Address, Frame, FrameType, FRAME_TYPES};

pub const PREAMBLE: u8 = 0xFF;
/// So many preamble bytes at least stand before a frame.
pub const ENOUGH_PREAMBLES: usize = 5;

/// The unfinished tail of a run, to which the next bytes are added.
#[derive(Clone, Default)]
pub struct Run {
    tail: Vec<u8>,
}

impl Run {
    /// The run that is this tail. One that has whole pieces in it is none.
    pub fn of_tail(tail: Vec<u8>) -> Option<Run> {
        first_piece(&tail).is_none().then_some(Run { tail })
    }

    pub fn tail(&self) -> &[u8] {
        &self.tail
    }

    /// The pieces that end in these bytes say what is heard, each at its last byte. What is left is
    /// the tail, with which the next bytes go on.
    pub fn take(&mut self, bytes: &[u8]) -> Vec<(usize, Heard)> {
        let before = self.tail.len();
        self.tail.extend(bytes);
        let mut events = Vec::new();
        let mut cut = 0;
        while let Some((piece, length)) = first_piece(&self.tail[cut..]) {
            cut += length;
            if let Some(heard) = said_by(piece) {
                events.push((cut - 1 - before, heard));
            }
        }
        self.tail.drain(..cut);
        events
    }
}

enum Piece {
    Noise,
    ShortRun,
    BadDelimiter(u8),
    Frame(Frame),
    BadCheck { expected: u8, actual: u8 },
}

/// The first piece of a run and its length; none where the run is empty or an unfinished tail.
fn first_piece(run: &[u8]) -> Option<(Piece, usize)> {
    let preambles = run.iter().take_while(|&&byte| byte == PREAMBLE).count();
    let behind = &run[preambles..];
    let &byte = behind.first()?;
    if preambles == 0 {
        return Some((Piece::Noise, 1));
    }
    if preambles < ENOUGH_PREAMBLES {
        return Some((Piece::ShortRun, preambles + 1));
    }
    let Some((frame_type, long)) = delimited(byte) else {
        return Some((Piece::BadDelimiter(byte), preambles + 1));
    };
    let (piece, length) = framed(frame_type, long, behind)?;
    Some((piece, preambles + length))
}

/// The piece from its delimiter to its check, and its length without preamble, where it is all there.
fn framed(frame_type: FrameType, long: bool, bytes: &[u8]) -> Option<(Piece, usize)> {
    let command_place = if long { 6 } else { 2 };
    let count = usize::from(*bytes.get(command_place + 1)?);
    let check_place = command_place + 2 + count;
    let actual = *bytes.get(check_place)?;
    let expected = check(&bytes[..check_place]);
    let piece = if actual == expected {
        Piece::Frame(Frame {
            frame_type,
            address: address_of(&bytes[1..command_place]),
            command: bytes[command_place],
            data: bytes[command_place + 2..check_place].to_vec(),
        })
    } else {
        Piece::BadCheck { expected, actual }
    };
    Some((piece, check_place + 1))
}

fn said_by(piece: Piece) -> Option<Heard> {
    match piece {
        Piece::Noise | Piece::ShortRun => None,
        Piece::BadDelimiter(byte) => Some(Heard::Refused(Refusal::InvalidDelimiter(byte))),
        Piece::Frame(frame) => Some(Heard::Frame(frame)),
        Piece::BadCheck { expected, actual } => {
            Some(Heard::Refused(Refusal::ChecksumMismatch { expected, actual }))
        }
    }
}

/// The bytes of an address.
pub fn address_length(long: bool) -> usize {
    if long {
        5
    } else {
        1
    }
}

pub fn delimiter(frame_type: FrameType, long: bool) -> u8 {
    match (frame_type, long) {
        (FrameType::Request, false) => 0x02,
        (FrameType::Request, true) => 0x82,
        (FrameType::Response, false) => 0x06,
        (FrameType::Response, true) => 0x86,
        (FrameType::Burst, false) => 0x01,
        (FrameType::Burst, true) => 0x81,
    }
}

pub fn delimited(byte: u8) -> Option<(FrameType, bool)> {
    let heads =
        FRAME_TYPES.into_iter().flat_map(|frame_type| [(frame_type, false), (frame_type, true)]);
    heads.into_iter().find(|&(frame_type, long)| delimiter(frame_type, long) == byte)
}

pub fn check(bytes: &[u8]) -> u8 {
    bytes.iter().fold(0, |check, byte| check ^ byte)
}

/// A frame with its preamble and its check. The data are at most 255 bytes.
pub fn frame_bytes(frame: &Frame, preambles: usize) -> Vec<u8> {
    let mut body = vec![delimiter(frame.frame_type, frame.address.is_long())];
    body.extend(address_bytes(&frame.address));
    body.push(frame.command);
    body.push(frame.data.len() as u8);
    body.extend(&frame.data);
    body.push(check(&body));
    [vec![PREAMBLE; preambles], body].concat()
}

/// A field that is too large loses its high bits.
pub fn address_bytes(address: &Address) -> Vec<u8> {
    let first = |primary, burst, low| 128 * u8::from(primary) + 64 * u8::from(burst) + low;
    match *address {
        Address::Short { primary, burst, polling } => vec![first(primary, burst, polling % 16)],
        Address::Long { primary, burst, manufacturer, device_type, number } => {
            let [_, high, middle, low] = number.to_be_bytes();
            vec![first(primary, burst, manufacturer % 64), device_type, high, middle, low]
        }
    }
}

/// The address in one byte or in five.
pub fn address_of(bytes: &[u8]) -> Address {
    let first = bytes[0];
    let (primary, burst) = (first / 128 == 1, first / 64 % 2 == 1);
    if bytes.len() == 1 {
        return Address::Short { primary, burst, polling: first % 16 };
    }
    Address::Long {
        primary,
        burst,
        manufacturer: first % 64,
        device_type: bytes[1],
        number: u32::from_be_bytes([0, bytes[2], bytes[3], bytes[4]]),
    }
}
