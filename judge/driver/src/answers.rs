//! The answers that the programs under comparison share: line k answers line k of the cases.
//! judge/README.md says it in words.

use std::fmt;

use crate::cases::{hex, hex_or_dash, Address, Frame, Identity, TagDescriptorDate};

/// A refusal, by document 01's names, with what it carries ('What comes back').
#[derive(Clone, Copy, Debug, PartialEq)]
pub enum Refusal {
    DataTooLong,
    BufferTooSmall,
    BufferTooShort,
    InvalidDelimiter(u8),
    ChecksumMismatch {
        expected: u8,
        actual: u8,
    },
    WrongFrame,
    /// The first place.
    BadCharacter(u16),
    BadState,
    CommError(u8),
    ResponseCode(u8),
}

/// What a decoder says at one byte of a line.
#[derive(Clone, Debug, PartialEq)]
pub enum Heard {
    Frame(Frame),
    Refused(Refusal),
}

/// How a call that writes into a buffer ended.
#[derive(Clone, Copy, Debug, PartialEq)]
pub enum Ending {
    Count(usize),
    Refused(Refusal),
    Stops,
}

/// A device variable; the value as the 32 bits of its float.
#[derive(Clone, Debug, PartialEq)]
pub struct Variable {
    pub code: u8,
    pub class: u8,
    pub unit: u8,
    pub value: u32,
    pub status: u8,
}

/// What a device variable is worth; the value as the 32 bits of its float.
#[derive(Clone, Copy, Debug, PartialEq)]
pub enum Reading {
    Good(u32),
    Poor(u32),
    Fixed(u32),
    Bad,
    Absent,
}

#[derive(Clone, Debug, PartialEq)]
pub enum Answer {
    /// To a remark.
    Remark,
    /// New decoders, or reset ones; a request that carries nothing to tell.
    Done,
    /// What was heard, each with the place of its byte in the line, and whether the next call stopped.
    Heard {
        events: Vec<(usize, Heard)>,
        stops: bool,
    },
    /// Whether some run of bytes leads to the value.
    Reachable(bool),
    /// The ending of a call and the whole buffer after it.
    Written(Ending, Vec<u8>),
    /// Each field's count or refusal with the place reached behind it, and the whole buffer after all.
    Put(Vec<(Result<usize, Refusal>, u64)>, Vec<u8>),
    /// The bytes used, and the address.
    Address(usize, Address),
    /// Error, malfunction, configuration changed, cold start, more status, out of limits.
    Status([bool; 6]),
    Identity(Identity),
    Variables(Vec<Variable>),
    Worth(Reading),
    /// The codes of device variables that a request asks for.
    Codes(Vec<u8>),
    Tag([u8; 8]),
    TagDescriptorDate(TagDescriptorDate),
    /// The part that is handed back beside the verdict; the empty one where it is refused.
    Payload(Result<Vec<u8>, Refusal>),
    /// What a C call returned, and its block and room after it.
    Fed {
        returned: usize,
        block: Vec<u8>,
        room: Vec<u8>,
    },
    Cleared {
        returned: usize,
        block: Vec<u8>,
    },
    Constants(Vec<u16>),
    /// The lines that the dump printed.
    Lines(Vec<String>),
    /// The dump's last line.
    LastLine(String),
    Refused(Refusal),
    /// The call did not complete, or the program's types have no such call.
    Stops,
    /// The line is no case.
    NoCase,
}

impl Refusal {
    pub fn number(self) -> u8 {
        match self {
            Refusal::DataTooLong => 1,
            Refusal::BufferTooSmall => 2,
            Refusal::BufferTooShort => 3,
            Refusal::InvalidDelimiter(_) => 4,
            Refusal::ChecksumMismatch { .. } => 5,
            Refusal::WrongFrame => 6,
            Refusal::BadCharacter(_) => 7,
            Refusal::BadState => 8,
            Refusal::CommError(_) => 9,
            Refusal::ResponseCode(_) => 10,
        }
    }

    fn carried(self) -> Vec<u8> {
        match self {
            Refusal::InvalidDelimiter(byte)
            | Refusal::CommError(byte)
            | Refusal::ResponseCode(byte) => vec![byte],
            Refusal::ChecksumMismatch { expected, actual } => vec![expected, actual],
            Refusal::BadCharacter(place) => place.to_be_bytes().to_vec(),
            _ => Vec::new(),
        }
    }
}

impl fmt::Display for Refusal {
    fn fmt(&self, f: &mut fmt::Formatter) -> fmt::Result {
        write!(f, "!{}", self.number())?;
        let carried = self.carried();
        if carried.is_empty() {
            return Ok(());
        }
        write!(f, ":{}", hex(&carried))
    }
}

impl Variable {
    fn as_bytes(&self) -> Vec<u8> {
        let mut bytes = vec![self.code, self.class, self.unit];
        bytes.extend(self.value.to_be_bytes());
        bytes.push(self.status);
        bytes
    }
}

impl fmt::Display for Reading {
    fn fmt(&self, f: &mut fmt::Formatter) -> fmt::Result {
        match self {
            Reading::Good(value) => write!(f, "good {value:08X}"),
            Reading::Poor(value) => write!(f, "poor {value:08X}"),
            Reading::Fixed(value) => write!(f, "fixed {value:08X}"),
            Reading::Bad => f.write_str("bad"),
            Reading::Absent => f.write_str("absent"),
        }
    }
}

impl Answer {
    /// Whether the program completed the call.
    pub fn is_whole(&self) -> bool {
        let stopped = matches!(
            self,
            Answer::Stops | Answer::Heard { stops: true, .. } | Answer::Written(Ending::Stops, _)
        );
        !stopped
    }
}

impl fmt::Display for Answer {
    fn fmt(&self, f: &mut fmt::Formatter) -> fmt::Result {
        match self {
            Answer::Remark => f.write_str("#"),
            Answer::Done => f.write_str("."),
            Answer::Heard { events, stops } => show_heard(f, events, *stops),
            Answer::Reachable(reachable) => write!(f, "{}", u8::from(*reachable)),
            Answer::Written(Ending::Count(count), room) => {
                write!(f, "{count} {}", hex_or_dash(room))
            }
            Answer::Written(Ending::Refused(refusal), room) => {
                write!(f, "{refusal} {}", hex_or_dash(room))
            }
            Answer::Written(Ending::Stops, room) => write!(f, "stops {}", hex_or_dash(room)),
            Answer::Put(fields, room) => {
                for (outcome, place) in fields {
                    match outcome {
                        Ok(count) => write!(f, "{count}@{place} ")?,
                        Err(refusal) => write!(f, "{refusal}@{place} ")?,
                    }
                }
                f.write_str(&hex_or_dash(room))
            }
            Answer::Address(used, address) => write!(f, "{used} {}", hex(&address.as_seven())),
            Answer::Status(flags) => {
                flags.iter().try_for_each(|&flag| f.write_str(if flag { "1" } else { "0" }))
            }
            Answer::Identity(identity) => f.write_str(&hex(&identity.as_bytes())),
            Answer::Variables(variables) => {
                let bytes: Vec<u8> = variables.iter().flat_map(Variable::as_bytes).collect();
                write!(f, "{} {}", variables.len(), hex_or_dash(&bytes))
            }
            Answer::Worth(reading) => write!(f, "{reading}"),
            Answer::Codes(codes) => write!(f, "{} {}", codes.len(), hex_or_dash(codes)),
            Answer::Tag(tag) => f.write_str(&hex(tag)),
            Answer::TagDescriptorDate(fields) => f.write_str(&hex(&fields.as_bytes())),
            Answer::Payload(Ok(part)) => write!(f, ". {}", hex_or_dash(part)),
            Answer::Payload(Err(refusal)) => write!(f, "{refusal} -"),
            Answer::Fed { returned, block, room } => {
                write!(f, "{returned} {} {}", hex_or_dash(block), hex_or_dash(room))
            }
            Answer::Cleared { returned, block } => write!(f, "{returned} {}", hex_or_dash(block)),
            Answer::Constants(values) => show_constants(f, values),
            Answer::Lines(lines) if lines.is_empty() => f.write_str("."),
            Answer::Lines(lines) => lines.iter().try_for_each(|line| write!(f, "{line};")),
            Answer::LastLine(line) => f.write_str(line),
            Answer::Refused(refusal) => write!(f, "{refusal}"),
            Answer::Stops => f.write_str("stops"),
            Answer::NoCase => f.write_str("?"),
        }
    }
}

fn show_heard(f: &mut fmt::Formatter, events: &[(usize, Heard)], stops: bool) -> fmt::Result {
    let mut tokens: Vec<String> =
        events.iter().map(|(place, heard)| token(*place, heard)).collect();
    if stops {
        tokens.push("stops".into());
    } else if tokens.is_empty() {
        tokens.push(".".into());
    }
    f.write_str(&tokens.join(" "))
}

fn token(place: usize, heard: &Heard) -> String {
    match heard {
        Heard::Frame(frame) => {
            let head = [frame.command, frame.data.len() as u8];
            let bytes =
                [&[frame.frame_type.number()], &frame.address.as_seven()[..], &head, &frame.data];
            format!("F{place}:{}", hex(&bytes.concat()))
        }
        Heard::Refused(Refusal::InvalidDelimiter(byte)) => format!("D{place}:{byte:02X}"),
        Heard::Refused(Refusal::ChecksumMismatch { expected, actual }) => {
            format!("C{place}:{expected:02X}{actual:02X}")
        }
        Heard::Refused(refusal) => format!("X{place}:{:02X}", refusal.number()),
    }
}

/// Each as a byte, or as two where it is above 255.
fn show_constants(f: &mut fmt::Formatter, values: &[u16]) -> fmt::Result {
    let shown = |&value: &u16| match u8::try_from(value) {
        Ok(byte) => format!("{byte:02X}"),
        Err(_) => format!("{value:04X}"),
    };
    f.write_str(&values.iter().map(shown).collect::<Vec<_>>().join(" "))
}
