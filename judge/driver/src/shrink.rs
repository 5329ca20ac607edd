//! The smallest input that still shows a difference. Bytes and lines are dropped and bytes lowered,
//! many candidates to one start of the programs, until no candidate shows the difference any more.

use std::fmt;
use std::io::Write;
use std::ops::Range;
use std::process::{Command, Stdio};

use crate::cases::{hex, letter_and_bytes, lines_of, parts_of};
use crate::compare::{differences, takes_runs, Answers, Check, Kind};
use crate::rules;

/// A program: cases in, answers out, a line each.
pub type Program<'a> = Box<dyn Fn(&[u8]) -> Vec<Vec<u8>> + 'a>;

pub struct Programs<'a> {
    pub ours: Program<'a>,
    pub debug: Program<'a>,
    pub release: Program<'a>,
}

/// A shell command as a program.
pub fn command(line: String) -> Program<'static> {
    Box::new(move |cases| {
        let mut child = Command::new("sh")
            .args(["-c", &line])
            .stdin(Stdio::piped())
            .stdout(Stdio::piped())
            .spawn()
            .unwrap_or_else(|error| panic!("{line}: {error}"));
        let mut input = child.stdin.take().expect("its input is a pipe");
        let cases = cases.to_vec();
        // A program that ends early leaves lines without an answer, which the comparison sees.
        let feeding = std::thread::spawn(move || input.write_all(&cases).is_ok());
        let output = child.wait_with_output().unwrap_or_else(|error| panic!("{line}: {error}"));
        feeding.join().expect("writing to a pipe ends");
        lines_of(&output.stdout)
    })
}

/// A line of an input: a letter and bytes.
#[derive(Clone, Debug, PartialEq, Eq, PartialOrd, Ord)]
pub struct Line {
    letter: u8,
    bytes: Vec<u8>,
}

/// An input that starts from new decoders; its last line shows the difference.
pub type Input = Vec<Line>;

/// The lines as an input, unless one of them has no bytes to speak of.
fn input_of(lines: &[Vec<u8>]) -> Option<Input> {
    let line_of =
        |line: &Vec<u8>| letter_and_bytes(line).map(|(letter, bytes)| Line { letter, bytes });
    lines.iter().map(line_of).collect()
}

/// The smallest input of this kind that can be reached from these lines; none where the lines by
/// themselves do not show it.
pub fn smallest(kind: &Kind, lines: &[Vec<u8>], programs: &Programs) -> Option<Input> {
    let mut input = input_of(lines)?;
    if !showing(kind, std::slice::from_ref(&input), programs)[0] {
        return None;
    }
    loop {
        let Some(next) = next_smaller(kind, dropped(&input), programs)
            .or_else(|| next_smaller(kind, mended(&input), programs))
            .or_else(|| next_smaller(kind, lowered(&input), programs))
        else {
            return Some(input);
        };
        input = next;
    }
}

fn next_smaller(kind: &Kind, candidates: Vec<Input>, programs: &Programs) -> Option<Input> {
    let shows = showing(kind, &candidates, programs);
    let showing = candidates.into_iter().zip(shows).filter(|(_, shows)| *shows);
    showing.map(|(candidate, _)| candidate).min_by_key(size)
}

/// Fewer bytes are smaller, then fewer lines, then lower bytes further in front.
fn size(input: &Input) -> (usize, usize, Input) {
    (input.iter().map(|line| line.bytes.len()).sum(), input.len(), input.clone())
}

/// Which inputs show a difference of this kind in their last line.
fn showing(kind: &Kind, inputs: &[Input], programs: &Programs) -> Vec<bool> {
    let cases: Vec<u8> = inputs.iter().map(as_cases).collect::<String>().into_bytes();
    let rules = rules::answers(&cases);
    let none = Vec::new();
    let (ours, debug, release) = match kind.check {
        Check::OursIsRules => ((programs.ours)(&cases), none.clone(), none),
        Check::DebugIsRules => (none.clone(), (programs.debug)(&cases), none),
        _ => (none, (programs.debug)(&cases), (programs.release)(&cases)),
    };
    let mut end = 0;
    let shows = |input: &Input| {
        end += 1 + input.len();
        let last = |answers: &'_ [Vec<u8>]| answers.get(end - 1).cloned();
        let (rules, ours, debug, release) =
            (last(&rules), last(&ours), last(&debug), last(&release));
        let answers = Answers {
            rules: rules.as_deref(),
            ours: ours.as_deref(),
            debug: debug.as_deref(),
            release: release.as_deref(),
        };
        let lines: Vec<Vec<u8>> = input.iter().map(|line| line.to_string().into_bytes()).collect();
        differences(&lines, &answers).contains(kind)
    };
    inputs.iter().map(shows).collect()
}

/// The input with a line, a stretch of bytes, a field or the border of two lines left out.
fn dropped(input: &Input) -> Vec<Input> {
    let mut candidates = Vec::new();
    for place in 0..input.len() - 1 {
        let mut candidate = input.clone();
        candidate.remove(place);
        candidates.push(candidate);
        if takes_runs(char::from(input[place].letter))
            && input[place].letter == input[place + 1].letter
        {
            let mut candidate = input.clone();
            let behind = candidate.remove(place + 1);
            candidate[place].bytes.extend(behind.bytes);
            candidates.push(candidate);
        }
    }
    for (place, line) in input.iter().enumerate() {
        let left_out = |range: Range<usize>| {
            let mut candidate = input.clone();
            candidate[place].bytes.drain(range);
            candidate
        };
        candidates.extend(stretches(line.bytes.len()).map(left_out));
        candidates.extend(parts_of(line.letter, &line.bytes).into_iter().map(left_out));
        // Equal bytes in a row are shortened to every length.
        let mut start = 0;
        for equal in line.bytes.chunk_by(|one, next| one == next) {
            candidates.extend((1..=equal.len()).map(|count| left_out(start..start + count)));
            start += equal.len();
        }
    }
    candidates
}

/// All of so many bytes, then each half, quarter and so on, down to two bytes.
fn stretches(length: usize) -> impl Iterator<Item = Range<usize>> {
    let sizes = std::iter::successors(Some(length), |size| Some(size / 2));
    sizes.take_while(|&size| size > 1).flat_map(move |size| {
        (0..=length - size).step_by(size).map(move |start| start..start + size)
    })
}

/// Of equal bytes in a row it is enough to try the first.
fn is_first_of_equal(bytes: &[u8], place: usize) -> bool {
    place == 0 || bytes[place - 1] != bytes[place]
}

/// The input with a stretch of bytes left out and a frame mended around it: one of the two bytes in
/// front is made to fit, as a count that is lowered or as the delimiter of a short address, and so is
/// the last byte of the line, as the check.
fn mended(input: &Input) -> Vec<Input> {
    let mut candidates = Vec::new();
    let fed = |line: &Line| takes_runs(char::from(line.letter));
    for (place, line) in input.iter().enumerate().filter(|(_, line)| fed(line)) {
        for front in (0..line.bytes.len()).filter(|&front| line.bytes[front] != 0xFF) {
            for stretch in [1, 2, 4, 8, 16, 32, 64, 128] {
                for start in [front + 1, front + 2] {
                    candidates.extend(mended_at(input, place, front, start..start + stretch));
                }
            }
        }
    }
    candidates
}

fn mended_at(input: &Input, place: usize, front: usize, stretch: Range<usize>) -> Vec<Input> {
    let old = input[place].bytes[front];
    if stretch.end >= input[place].bytes.len() {
        return Vec::new();
    }
    let with_front = |new: u8| {
        let mut candidate = input.clone();
        let bytes = &mut candidate[place].bytes;
        bytes[front] = new;
        let lost = bytes.drain(stretch.clone()).fold(old ^ new, |lost, byte| lost ^ byte);
        *bytes.last_mut().expect("the check is behind the stretch") ^= lost;
        candidate
    };
    vec![with_front(old.saturating_sub(stretch.len() as u8)), with_front(old & 0x7F)]
}

/// The input with a stretch of zeros; with one byte lower; and the same with the last byte of its line
/// turned by the same bits, which keeps a frame's check right.
fn lowered(input: &Input) -> Vec<Input> {
    let mut candidates = Vec::new();
    for (place, line) in input.iter().enumerate() {
        let is_zero =
            |range: &Range<usize>| line.bytes[range.clone()].iter().all(|&byte| byte == 0);
        for range in stretches(line.bytes.len()).filter(|range| !is_zero(range)) {
            let mut candidate = input.clone();
            candidate[place].bytes[range].fill(0);
            candidates.push(candidate);
        }
        for start in (0..line.bytes.len()).filter(|&start| is_first_of_equal(&line.bytes, start)) {
            let byte = line.bytes[start];
            let choices = [0, 1, 2, byte / 2, byte.saturating_sub(1)];
            for lower in choices.into_iter().filter(|&lower| lower < byte) {
                let mut candidate = input.clone();
                candidate[place].bytes[start] = lower;
                candidates.push(candidate.clone());
                if start + 1 < line.bytes.len() {
                    *candidate[place].bytes.last_mut().expect("there is a byte") ^= byte ^ lower;
                    candidates.push(candidate);
                }
            }
        }
    }
    candidates
}

/// An input for people: many equal bytes in a row are written once, with their number.
pub fn shown(input: &Input) -> String {
    let line_shown = |line: &Line| {
        let mut words = vec![char::from(line.letter).to_string()];
        for equal in line.bytes.chunk_by(|one, next| one == next) {
            let byte = hex(&equal[..1]);
            match equal.len() {
                count @ 6.. => words.push(format!("{byte}*{count}")),
                count => words.extend(vec![byte; count]),
            }
        }
        words.join(" ")
    };
    input.iter().map(line_shown).collect::<Vec<_>>().join(", ")
}

/// An input as cases, from new decoders on.
pub fn as_cases(input: &Input) -> String {
    format!("n\n{}", input.iter().map(|line| format!("{line}\n")).collect::<String>())
}

impl fmt::Display for Line {
    fn fmt(&self, f: &mut fmt::Formatter) -> fmt::Result {
        write!(f, "{} {}", char::from(self.letter), hex(&self.bytes))
    }
}
