// SPDX-License-Identifier: Apache-2.0
#[link(name = "hart", kind = "static")]
unsafe extern "C" {
    fn hart_feed(
        block: *mut u8,
        block_length: usize,
        room: *mut u8,
        room_length: usize,
        byte: u8,
    ) -> u32;
}

/// One line: what is known of it so far, and where a record goes.
struct Line {
    block: [u8; 266],
    room: [u8; 263],
}

impl Line {
    /// With no byte yet: a cleared block is zeros.
    fn new() -> Line {
        Line { block: [0; 266], room: [0; 263] }
    }

    /// The record of what ends with this byte, if anything does.
    fn feed(&mut self, byte: u8) -> Option<&[u8]> {
        let Line { block, room } = self;
        // SAFETY: two arrays that do not overlap, each with its length, borrowed for this call.
        let number = unsafe {
            hart_feed(block.as_mut_ptr(), block.len(), room.as_mut_ptr(), room.len(), byte)
        };
        assert!(number < 1000, "no block of ours, or too little room: {number}");
        if number == 0 { None } else { Some(&room[..number as usize]) }
    }
}

fn main() {
    // A request of command 1, the response to it, and the response again with one bit turned.
    let bytes = b"\xFF\xFF\xFF\xFF\xFF\x02\x80\x01\x00\x83\
        \xFF\xFF\xFF\xFF\xFF\x06\x80\x01\x07\x00\x00\x27\x41\x20\x00\x00\xC6\
        \xFF\xFF\xFF\xFF\xFF\x06\x80\x01\x07\x00\x00\x27\x41\x21\x00\x00\xC6";
    let types = ["request", "response", "burst frame"];
    let mut line = Line::new();
    for (place, &byte) in bytes.iter().enumerate() {
        match line.feed(byte) {
            None => {} // silence
            // hart.h has every record bit by bit; only a refused line has one of 2 or 3 bytes.
            Some([_, byte]) => println!("{place}: no delimiter: {byte:02X}"),
            Some([_, expected, actual]) => {
                println!("{place}: wrong check: {expected:02X} expected, {actual:02X} came")
            }
            Some(frame) => {
                let kind = types[usize::from(frame[0] >> 4 & 3)];
                let address_length = if frame[0] >> 3 & 1 == 1 { 5 } else { 1 };
                let (command, count) = (frame[1 + address_length], frame[2 + address_length]);
                println!("{place}: {kind}, command {command}, {count} data bytes");
            }
        }
    }
}
