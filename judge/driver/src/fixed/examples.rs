//! Document 01's examples, and the boundaries beside them, by hand: cases with their answers; then
//! those of what document 02 adds. They are in the fixed list, and the self-test holds `rules` against
//! them.
//!
//! In examples.txt a line is a remark (`#`), a case, or the answer to the case before it (`=`).
//! Spaces are for the reader, but in the answers of the dump and of `W`. `FF*256` is 256 bytes FF, and
//! `6~263` an untouched room's bytes from place 6 up to place 263; `+` joins two of these without a
//! space. A line of `vlb` is fed in all three ways, each to a new decoder.

use crate::cases::{fresh_room, hex};

const TEXT: &str = include_str!("examples.txt");

pub enum Example {
    Remark(&'static str),
    /// Cases that all have this answer, but `n`; none where it is not looked at.
    Cases(Vec<String>, Option<String>),
}

pub fn examples() -> Vec<Example> {
    let mut examples = Vec::new();
    for line in TEXT.lines() {
        if let Some(remark) = line.strip_prefix("# ") {
            examples.push(Example::Remark(remark));
        } else if let Some(answer) = line.strip_prefix("= ") {
            let Some(Example::Cases(_, wanted)) = examples.last_mut() else {
                panic!("an answer to no case: {line}");
            };
            *wanted = Some(written_out(answer));
        } else {
            examples.push(Example::Cases(cases_of(&written_out(line)), None));
        }
    }
    examples
}

fn cases_of(line: &str) -> Vec<String> {
    match line.strip_prefix("vlb") {
        Some(bytes) => {
            let ways = ["v", "l", "b"].map(|letter| format!("{letter}{bytes}"));
            ["n".into()].into_iter().chain(ways).collect()
        }
        None => vec![line.into()],
    }
}

fn written_out(line: &str) -> String {
    let part_out = |part: &str| {
        if let Some((byte, times)) = part.split_once('*') {
            byte.repeat(number(times))
        } else if let Some((from, to)) = part.split_once('~') {
            hex(&fresh_room(number(to))[number(from)..])
        } else {
            part.into()
        }
    };
    let word_out = |word: &str| word.split('+').map(part_out).collect::<String>();
    line.split(' ').map(word_out).collect::<Vec<_>>().join(" ")
}

fn number(digits: &str) -> usize {
    digits.parse().expect("examples.txt has a number there")
}
