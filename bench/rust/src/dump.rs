//! The lines that our dump prints, made with the Rust's decoder: standard input to standard output.
use std::fs::File;
use std::io::{self, Read, Write};
use std::mem::ManuallyDrop;
use std::os::fd::FromRawFd;

use hart_protocol::{DecodeError, Decoder, FrameType, RawFrame};

const SIZE: usize = 65536;

fn push_hex(lines: &mut Vec<u8>, bytes: &[u8]) {
    const DIGITS: &[u8; 16] = b"0123456789ABCDEF";
    for &byte in bytes {
        lines.push(DIGITS[usize::from(byte >> 4)]);
        lines.push(DIGITS[usize::from(byte & 15)]);
    }
}

fn push_frame(lines: &mut Vec<u8>, place: u64, frame: &RawFrame) -> io::Result<()> {
    let kind = match frame.frame_type {
        FrameType::Request => 'Q',
        FrameType::Response => 'R',
        FrameType::Burst => 'B',
    };
    write!(lines, "F {place} {kind} ")?;
    let mut address = [0u8; 5];
    let length = frame.address.encode(&mut address);
    push_hex(lines, &address[..length]);
    write!(lines, " {} ", frame.command)?;
    if frame.data.is_empty() {
        lines.push(b'-');
    }
    push_hex(lines, &frame.data);
    lines.push(b'\n');
    Ok(())
}

fn push_refusal(lines: &mut Vec<u8>, place: u64, error: &DecodeError) -> io::Result<()> {
    match error {
        DecodeError::InvalidDelimiter(byte) => writeln!(lines, "D {place} {byte:02X}"),
        DecodeError::ChecksumMismatch { expected, actual } => {
            writeln!(lines, "C {place} {expected:02X} {actual:02X}")
        }
        DecodeError::BufferTooShort => Ok(()),
    }
}

fn dump(mut input: impl Read, mut output: impl Write) -> io::Result<()> {
    let mut decoder = Decoder::new();
    let (mut bytes, mut frames, mut refusals) = (0u64, 0u64, 0u64);
    let mut read = vec![0u8; SIZE];
    let mut lines = Vec::with_capacity(SIZE);
    loop {
        let n = input.read(&mut read)?;
        if n == 0 {
            break;
        }
        for &byte in &read[..n] {
            match decoder.feed(byte) {
                Ok(None) => {}
                Ok(Some(frame)) => {
                    frames += 1;
                    push_frame(&mut lines, bytes, &frame)?;
                }
                Err(error) => {
                    refusals += 1;
                    push_refusal(&mut lines, bytes, &error)?;
                }
            }
            bytes += 1;
        }
        output.write_all(&lines)?;
        lines.clear();
    }
    writeln!(output, "end {bytes} {frames} {refusals}")
}

/// 0, or 1 where it could not read or write.
#[export_name = concat!(env!("NAMES"), "_dump")]
pub extern "C" fn dump_all() -> i32 {
    // SAFETY: the two are open as long as the program runs, and are not closed here.
    let (input, output) = unsafe { (File::from_raw_fd(0), File::from_raw_fd(1)) };
    let (input, output) = (ManuallyDrop::new(input), ManuallyDrop::new(output));
    i32::from(dump(&*input, &*output).is_err())
}
