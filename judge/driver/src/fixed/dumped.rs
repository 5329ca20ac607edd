//! The dump's lines and totals, which document 01 adds.

use crate::cases::{Case, FrameType, FRAME_TYPES, MOST_BYTES, WAYS};
use crate::generate::Sheet;
use crate::rules::frame_bytes;

use super::{frame, ramp};

pub fn dumped(sheet: &mut Sheet) {
    sheet.remark("The dump of nothing, and of an empty read");
    dump_of(sheet, &[]);
    dump_of(sheet, &[&[]]);
    sheet.remark(
        "The dump of frames of each type, short and long, with 0 to 3 and with 255 data bytes",
    );
    for (frame_type, long) in FRAME_TYPES.into_iter().flat_map(|t| [(t, false), (t, true)]) {
        for data_length in 0..=3 {
            dump_of(sheet, &[&frame_bytes(&frame(frame_type, long, 9, ramp(data_length)), 5)]);
        }
    }
    dump_of(sheet, &[&frame_bytes(&frame(FrameType::Burst, true, 255, ramp(255)), 5)]);
    one_read(sheet);
    over_several_reads(sheet);
    beside_decoders(sheet);
}

/// Places of more than four digits.
pub fn far_places(sheet: &mut Sheet) {
    let noise = vec![0x55; MOST_BYTES];
    let good = frame_bytes(&frame(FrameType::Request, false, 0, Vec::new()), 5);
    dump_of(sheet, &[&noise, &good, &noise, &good, &noise, &[0xFF; 5], &[0x03], &noise]);
}

/// A new dump takes these reads; its last line is asked for behind each.
fn dump_of(sheet: &mut Sheet, reads: &[&[u8]]) {
    sheet.case(&Case::New);
    sheet.case(&Case::EndOfDump);
    for read in reads {
        sheet.case(&Case::Dump(read.to_vec()));
        sheet.case(&Case::EndOfDump);
    }
}

fn one_read(sheet: &mut Sheet) {
    sheet.remark(
        "The dump of an address with bits 5 and 4 set; of commands of one, two and three digits",
    );
    dump_of(sheet, &[b"\xFF\xFF\xFF\xFF\xFF\x06\xB3\x01\x02\x00\x40\xF6"]);
    for command in [9, 10, 99, 100] {
        dump_of(sheet, &[&frame_bytes(&frame(FrameType::Request, false, command, ramp(1)), 5)]);
    }
    sheet.remark(
        "The dump of noise, short runs, bad delimiters, bad checks, frames, and a tail at the end",
    );
    let good = frame_bytes(&frame(FrameType::Response, true, 9, ramp(4)), 7);
    let (check, front) = good.split_last().expect("a frame has a check");
    let pieces: [&[u8]; 12] = [
        &[0x00, 0x02, 0x80],
        &good,
        &[0xFF, 0x02],
        &[0xFF, 0xFF, 0xFF, 0xFF, 0x03],
        &[0xFF, 0xFF, 0xFF, 0xFF, 0xFF, 0x03],
        front,
        &[check ^ 1],
        &good,
        front,
        &[0xFF],
        &good,
        front,
    ];
    dump_of(sheet, &[&pieces.concat()]);
    for length in [1, 5, 6, 7, front.len()] {
        dump_of(sheet, &[&good[..length]]);
    }
    sheet.remark("The dump of 300 FF and a frame: places of three digits");
    dump_of(sheet, &[&[&vec![0xFF; 300], &good[7..]].concat()]);
}

fn over_several_reads(sheet: &mut Sheet) {
    sheet.remark(
        "The dump of a frame over two reads, cut at each byte, and over a read for each byte",
    );
    let good = frame_bytes(&frame(FrameType::Request, true, 9, ramp(2)), 5);
    for cut in 0..=good.len() {
        let (front, back) = good.split_at(cut);
        dump_of(sheet, &[front, back]);
    }
    dump_of(sheet, &good.chunks(1).collect::<Vec<_>>());
    dump_of(sheet, &[&good, &good, &[0xFF; 5], &[0x03], &good]);
}

fn beside_decoders(sheet: &mut Sheet) {
    sheet.remark("The dump lives on over a reset, and beside decoders that are fed");
    let good = frame_bytes(&frame(FrameType::Burst, false, 3, ramp(2)), 5);
    let (front, back) = good.split_at(7);
    sheet.case(&Case::New);
    sheet.case(&Case::Dump(front.to_vec()));
    sheet.case(&Case::Reset);
    for way in WAYS {
        sheet.case(&Case::Feed(way, back.to_vec()));
    }
    sheet.case(&Case::Dump(back.to_vec()));
    sheet.case(&Case::EndOfDump);
}
