//! What the makers of cases share: the sheet they write on, and the values at the boundaries of
//! document 01.

use std::io::Write;

use crate::cases::{Case, Frame, WAYS};
use crate::rules::frame_bytes;

pub const POLLINGS: [u8; 6] = [0, 1, 15, 16, 0x5A, 255];
pub const MANUFACTURERS: [u8; 6] = [0, 1, 38, 63, 64, 255];
pub const NUMBERS: [u32; 6] = [0, 1, 0x01_02_03, 0xFF_FFFF, 0x0100_0000, 0xFFFF_FFFF];
/// Lengths of a command 9 response at which the count of variables changes, and beside them.
pub const GROUP_LENGTHS: [usize; 15] = [0, 1, 7, 8, 9, 15, 16, 17, 55, 56, 63, 64, 65, 72, 73];
/// Floats that are easily changed on the way: infinities, quiet and signalling NaNs, minus zero, the
/// smallest of all, and a plain one.
pub const FLOATS: [u32; 8] = [
    0x7F80_0000,
    0xFF80_0000,
    0x7FC0_0000,
    0x7F80_0001,
    0xFFBF_FFFF,
    0x8000_0000,
    0x0000_0001,
    0x4120_0000,
];

/// Where cases are written.
pub struct Sheet<'a>(pub &'a mut dyn Write);

impl Sheet<'_> {
    pub fn line(&mut self, line: &str) {
        writeln!(self.0, "{line}").expect("the cases cannot be written");
    }

    /// A line for people, in front of what it is about.
    pub fn remark(&mut self, text: &str) {
        self.line(&format!("# {text}"));
    }

    pub fn case(&mut self, case: &Case) {
        self.line(&case.to_string());
    }

    /// A run: new decoders, and each part fed in all three ways.
    pub fn run(&mut self, parts: &[Part]) {
        self.case(&Case::New);
        for part in parts {
            match part {
                Part::Reset => self.case(&Case::Reset),
                Part::Bytes(bytes) => {
                    for way in WAYS {
                        self.case(&Case::Feed(way, bytes.clone()));
                    }
                }
            }
        }
    }

    pub fn run_of(&mut self, parts: &[&[u8]]) {
        self.run(&[Part::Bytes(parts.concat())]);
    }
}

/// A line's worth of bytes, or a reset between two.
pub enum Part {
    Bytes(Vec<u8>),
    Reset,
}

pub fn total(frame: &Frame, preambles: u8) -> usize {
    let address_length = if frame.address.is_long() { 5 } else { 1 };
    usize::from(preambles) + 4 + address_length + frame.data.len()
}

/// The frame with a command such that its check is FF.
pub fn with_check_ff(mut frame: Frame) -> Frame {
    let check = *frame_bytes(&frame, 0).last().expect("a frame has a check");
    frame.command ^= check ^ 0xFF;
    frame
}
