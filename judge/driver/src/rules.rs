//! The answers of document 01, and of what document 02 adds, written from their text alone: a third
//! opinion beside the Rust's code and ours. It is made to be read beside them, not to be fast. A run of
//! bytes is cut into pieces as 'How a run of bytes is cut' says; no byte machine stands behind it.

mod commands;
mod device;
mod dump;
mod host;
mod line;
mod text;

use crate::answers::{Answer, Ending, Heard, Refusal};
use crate::cases::{fresh_room, lines_of, parse, Case, Mode, Way};

use dump::Dump;
use line::{address_bytes, address_length, address_of, Run};
use text::{packed, packed_length, unpacked, whole_groups};

pub use host::{block_behind, value_behind};
pub use line::frame_bytes;

/// 'Modules': the numbers of consts.rs but the UART times. 01 has the wire's numbers in its text;
/// those of the commands, and 20 and 10 preamble bytes, are HART's.
const FRAME_NUMBERS: [u16; 6] = [0xFF, 5, 20, 10, 255, 284];
const DELIMITERS_AND_LONG_BIT: [u16; 7] = [0x02, 0x82, 0x06, 0x86, 0x01, 0x81, 0x80];
const ADDRESS_BITS: [u16; 4] = [0x80, 0x40, 0x0F, 0x3F];
const COMMANDS: [u16; 22] =
    [0, 1, 2, 3, 6, 7, 8, 9, 11, 12, 13, 14, 15, 16, 17, 18, 19, 20, 21, 22, 38, 48];

/// What document 01 says, with the run of each way to feed and that of the dump. A decoder has no run
/// where it was given a value that none leads to.
pub struct Rules {
    runs: [Option<Run>; 3],
    dump: Dump,
}

impl Rules {
    pub fn new() -> Self {
        Rules { runs: fresh_runs(), dump: Dump::default() }
    }

    pub fn answer(&mut self, case: &Case) -> Answer {
        match case {
            Case::Remark => Answer::Remark,
            Case::New => {
                *self = Rules::new();
                Answer::Done
            }
            // A reset ends the run, and takes any value.
            Case::Reset => {
                self.runs = fresh_runs();
                Answer::Done
            }
            Case::Feed(way, bytes) => feed(&mut self.runs[*way as usize], bytes),
            Case::Become(value) => {
                let run = host::run_to(value);
                let reachable = run.is_some();
                self.runs[Way::Value as usize] = run.clone();
                self.runs[Way::Lent as usize] = run;
                Answer::Reachable(reachable)
            }
            Case::WriteAddress(address, room) => write(*room, Ok(address_bytes(address))),
            Case::ReadAddress { long, bytes } => read_address(*long, bytes),
            Case::WriteFrame { frame, preambles, room } => write(
                *room,
                at_most(255, &frame.data).map(|()| frame_bytes(frame, usize::from(*preambles))),
            ),
            Case::Pack { mode: Mode::Crate, room, text } => {
                let fitting = |bytes: Vec<u8>| whole_groups(&bytes, 3, *room);
                write(*room, packed(Mode::Crate, text).map(fitting))
            }
            Case::Pack { mode: Mode::Standard, room, text } => {
                write_text(Mode::Standard, *room, text, &[])
            }
            Case::Unpack { mode: Mode::Crate, room, packed } => {
                write(*room, Ok(whole_groups(&unpacked(Mode::Crate, packed), 4, *room)))
            }
            Case::Unpack { mode: Mode::Standard, room, packed } => {
                let left_over = packed.len() % 3 != 0;
                let characters = unpacked(Mode::Standard, packed);
                write(*room, if left_over { Err(Refusal::BufferTooShort) } else { Ok(characters) })
            }
            Case::Status([first, second]) => {
                Answer::Status(commands::status_flags(*first, *second))
            }
            Case::Identity(data) | Case::ReadIdentityByTag(data) | Case::ReadIdentity(data) => {
                commands::identity(data)
            }
            Case::WriteCodes { room, codes } => {
                write(*room, at_most(8, codes).map(|()| codes.clone()))
            }
            Case::ReadVariables(mode, data) => commands::variables(*mode, data),
            Case::Worth(group) => Answer::Worth(commands::worth(&commands::variable_of(group))),
            Case::WriteTag { mode, room, tag } => write_text(*mode, *room, tag, &[]),
            Case::ReadTag(mode, data) => Answer::Tag(array(&unpacked(*mode, data))),
            Case::WriteTagDescriptorDate { mode, room, fields } => {
                let text = [&fields.tag[..], &fields.descriptor].concat();
                write_text(*mode, *room, &text, &fields.date)
            }
            Case::ReadTagDescriptorDate(mode, data) | Case::ReadStoredText(mode, data) => {
                commands::tag_descriptor_date(*mode, data)
            }
            Case::Payload(frame_type, data) => {
                Answer::Payload(commands::payload(*frame_type, data).map(<[u8]>::to_vec))
            }
            Case::ReadFrame(mode, reader, carrier) => commands::typed(*mode, *reader, carrier),
            // Requests 0 and 13 carry no data.
            Case::WriteNoData(_, room) => write(*room, Ok(Vec::new())),
            // The document knows one reading, however the frame is handed over.
            Case::ReadRequest(_, mode, reader, carrier) => device::request(*mode, *reader, carrier),
            Case::WriteResponse { room, status, response, .. } => {
                device::write_response(*room, *status, response)
            }
            Case::PutFields { room, start, fields } => device::put_fields(*room, *start, fields),
            Case::WriteFields { room, fields } => device::write_fields(*room, fields),
            Case::FeedBlock { room, byte, block } => host::feed(block, *room, *byte),
            Case::ClearBlock(block) => host::clear(block),
            Case::Constants => Answer::Constants(
                [&FRAME_NUMBERS[..], &DELIMITERS_AND_LONG_BIT, &ADDRESS_BITS, &COMMANDS].concat(),
            ),
            Case::Dump(bytes) => Answer::Lines(self.dump.take(bytes)),
            Case::EndOfDump => Answer::LastLine(self.dump.last_line()),
        }
    }
}

/// The answers to a whole text of cases.
pub fn answers(cases: &[u8]) -> Vec<Vec<u8>> {
    let mut rules = Rules::new();
    let answer = |line: &Vec<u8>| parse(line).map_or(Answer::NoCase, |case| rules.answer(&case));
    lines_of(cases).iter().map(answer).map(|answer| answer.to_string().into_bytes()).collect()
}

fn fresh_runs() -> [Option<Run>; 3] {
    std::array::from_fn(|_| Some(Run::default()))
}

/// What is heard in these bytes: 8 at each of them where no run leads to the decoder, which stays so.
fn feed(run: &mut Option<Run>, bytes: &[u8]) -> Answer {
    let events = match run {
        Some(run) => run.take(bytes),
        None => (0..bytes.len()).map(|place| (place, Heard::Refused(Refusal::BadState))).collect(),
    };
    Answer::Heard { events, stops: false }
}

fn read_address(long: bool, bytes: &[u8]) -> Answer {
    let used = address_length(long);
    match bytes.get(..used) {
        Some(bytes) => Answer::Address(used, address_of(bytes)),
        None => Answer::Refused(Refusal::BufferTooShort),
    }
}

// 'What comes back': a refused call writes nothing, and bytes past what is written stay as they were.

/// 1 for more than so many, which is tested before 2.
fn at_most(most: usize, bytes: &[u8]) -> Result<(), Refusal> {
    if bytes.len() > most {
        Err(Refusal::DataTooLong)
    } else {
        Ok(())
    }
}

/// Packed text and what stands behind it. 2 for the whole layout comes before 7.
fn write_text(mode: Mode, room: usize, text: &[u8], behind: &[u8]) -> Answer {
    if packed_length(text) + behind.len() > room {
        return write(room, Err(Refusal::BufferTooSmall));
    }
    write(room, packed(mode, text).map(|packed| [&packed, behind].concat()))
}

fn write(room: usize, bytes: Result<Vec<u8>, Refusal>) -> Answer {
    let mut buffer = fresh_room(room);
    let ending = match bytes {
        Err(refusal) => Ending::Refused(refusal),
        Ok(bytes) if bytes.len() > room => Ending::Refused(Refusal::BufferTooSmall),
        Ok(bytes) => {
            buffer[..bytes.len()].copy_from_slice(&bytes);
            Ending::Count(bytes.len())
        }
    };
    Answer::Written(ending, buffer)
}

/// A list of known length as an array.
fn array<const N: usize>(bytes: &[u8]) -> [u8; N] {
    bytes.try_into().expect("a layout has its length")
}
