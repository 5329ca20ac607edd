//! The dump, as 'Examples' has it: the lines of a run's pieces, and the totals.

use crate::answers::{Heard, Refusal};
use crate::cases::{hex, hex_or_dash, Frame, FrameType};

use super::line::{address_bytes, Run};

#[derive(Default)]
pub struct Dump {
    run: Run,
    bytes: usize,
    frames: usize,
    refusals: usize,
}

impl Dump {
    /// The lines of the pieces that end in these bytes. Places count from the first byte of all.
    pub fn take(&mut self, bytes: &[u8]) -> Vec<String> {
        let mut lines = Vec::new();
        for (place, heard) in self.run.take(bytes) {
            match heard {
                Heard::Frame(_) => self.frames += 1,
                Heard::Refused(_) => self.refusals += 1,
            }
            lines.push(line(self.bytes + place, &heard));
        }
        self.bytes += bytes.len();
        lines
    }

    pub fn last_line(&self) -> String {
        format!("end {} {} {}", self.bytes, self.frames, self.refusals)
    }
}

fn line(place: usize, heard: &Heard) -> String {
    match heard {
        Heard::Frame(frame) => frame_line(place, frame),
        Heard::Refused(Refusal::InvalidDelimiter(byte)) => format!("D {place} {byte:02X}"),
        Heard::Refused(Refusal::ChecksumMismatch { expected, actual }) => {
            format!("C {place} {expected:02X} {actual:02X}")
        }
        Heard::Refused(_) => unreachable!("a line is refused with 4 or 5 alone"),
    }
}

fn frame_line(place: usize, frame: &Frame) -> String {
    let letter = match frame.frame_type {
        FrameType::Request => 'Q',
        FrameType::Response => 'R',
        FrameType::Burst => 'B',
    };
    let address = hex(&address_bytes(&frame.address));
    format!("F {place} {letter} {address} {} {}", frame.command, hex_or_dash(&frame.data))
}
