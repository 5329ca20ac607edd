//! The comparison, line by line: ours against document 01 on every line, the debug build of the Rust
//! against 01 wherever it completes, the release build against the debug one there. Where the debug
//! build does not complete and is known not to, the release build is set beside 01 and what differs
//! is counted; that is no failure. Calls that 01 adds the Rust does not have: there ours is held
//! against 01 alone, and these lines are counted by themselves.

use std::collections::BTreeMap;
use std::io::{self, BufRead};

use crate::cases::{next_line, parse, Case, Mode, Way};

/// The letters of calls that documents 01 and 02 add: the Rust has none of them.
const ADDED: &str = "PUTKDHGmyfzocAEQRWF";

/// What is held against what.
#[derive(Clone, Copy, Debug, PartialEq, Eq, PartialOrd, Ord)]
pub enum Check {
    OursIsRules,
    DebugIsRules,
    ReleaseIsDebug,
    ReleaseBesideRules,
}

/// Differences of one kind look alike: the same check and letter, and the same sort of answer in the
/// place of the same other sort.
#[derive(Clone, Debug, PartialEq, Eq, PartialOrd, Ord)]
pub struct Kind {
    pub check: Check,
    pub letter: char,
    pub expected: &'static str,
    pub got: &'static str,
}

/// One line's answers; none where a program wrote no such line.
#[derive(Clone, Copy)]
pub struct Answers<'a> {
    pub rules: Option<&'a [u8]>,
    pub ours: Option<&'a [u8]>,
    pub debug: Option<&'a [u8]>,
    pub release: Option<&'a [u8]>,
}

/// How often a kind of difference was seen, where first, and the smallest lines that led to one: for
/// a decoder or the dump its run from new ones on, for another call its line.
pub struct Seen {
    pub count: usize,
    pub first_line: usize,
    pub lines: Vec<Vec<u8>>,
}

#[derive(Default)]
pub struct Tally {
    pub lines: usize,
    pub calls: usize,
    pub runs: usize,
    /// Lines that the debug build did not complete, by letter, and the runs among them.
    pub stopped: BTreeMap<char, usize>,
    pub stopped_runs: usize,
    /// Of these, what the release build did not complete either.
    pub release_stopped: usize,
    /// Lines that document 01 alone judged, by letter.
    pub only_rules: BTreeMap<char, usize>,
    pub seen: BTreeMap<Kind, Seen>,
}

impl Tally {
    pub fn count(&self, check: Check) -> usize {
        self.seen.iter().filter(|(kind, _)| kind.check == check).map(|(_, seen)| seen.count).sum()
    }

    /// The differences that must not be.
    pub fn failures(&self) -> usize {
        [Check::OursIsRules, Check::DebugIsRules, Check::ReleaseIsDebug]
            .map(|check| self.count(check))
            .iter()
            .sum()
    }
}

/// The lines of the cases, and of each program's answers to them.
pub struct Texts<R> {
    pub cases: R,
    pub rules: R,
    pub ours: R,
    pub debug: R,
    pub release: R,
}

/// The lines that brought the decoders and the dump to where they are.
#[derive(Default)]
struct Run {
    lines: Vec<Vec<u8>>,
    stopped: bool,
}

pub fn compare<R: BufRead>(mut texts: Texts<R>) -> io::Result<Tally> {
    let mut tally = Tally::default();
    let mut run = Run::default();
    loop {
        let case = next_line(&mut texts.cases)?;
        let rules = next_line(&mut texts.rules)?;
        let ours = next_line(&mut texts.ours)?;
        let debug = next_line(&mut texts.debug)?;
        let release = next_line(&mut texts.release)?;
        let answers = Answers {
            rules: rules.as_deref(),
            ours: ours.as_deref(),
            debug: debug.as_deref(),
            release: release.as_deref(),
        };
        let over = [answers.rules, answers.ours, answers.debug, answers.release] == [None; 4];
        if case.is_none() && over {
            return Ok(tally);
        }
        // Answers behind the last case are compared too: one program has some and another has none.
        tally.take(&mut run, case.as_deref().unwrap_or_default(), &answers);
    }
}

impl Tally {
    fn take(&mut self, run: &mut Run, line: &[u8], answers: &Answers) {
        let case = parse(line);
        self.lines += 1;
        self.calls += calls_of(case.as_ref());
        match case {
            Some(Case::New) => {
                self.runs += 1;
                *run = Run::default();
            }
            Some(Case::Reset | Case::Feed(..) | Case::Become(_) | Case::Dump(_)) => {
                run.lines.push(line.to_vec());
            }
            _ => {}
        }
        if answers.differ() {
            let lines = run.leading_to(line);
            if stops(answers.debug) {
                self.count_stop(run, &lines, answers);
            }
            for kind in differences(&lines, answers) {
                self.note(kind, lines.clone());
            }
        }
    }

    fn count_stop(&mut self, run: &mut Run, lines: &[Vec<u8>], answers: &Answers) {
        let letter = letter_of(lines);
        if has_no_call(lines) {
            *self.only_rules.entry(letter).or_default() += 1;
            return;
        }
        *self.stopped.entry(letter).or_default() += 1;
        self.release_stopped += usize::from(stops(answers.release));
        if is_feed(letter) && !run.stopped {
            run.stopped = true;
            self.stopped_runs += 1;
        }
    }

    fn note(&mut self, kind: Kind, lines: Vec<Vec<u8>>) {
        let first_line = self.lines;
        let length = |lines: &[Vec<u8>]| lines.iter().map(Vec::len).sum::<usize>();
        let seen =
            self.seen.entry(kind).or_insert(Seen { count: 0, first_line, lines: lines.clone() });
        seen.count += 1;
        if length(&lines) < length(&seen.lines) {
            seen.lines = lines;
        }
    }
}

impl Run {
    /// For a decoder its own lines of this run, the resets and the values that it was given, up to
    /// this line; for the dump its own lines; for another call the line alone.
    fn leading_to(&self, line: &[u8]) -> Vec<Vec<u8>> {
        let of_letters = |letters: &[u8]| {
            let wanted = |earlier: &&Vec<u8>| letters.contains(&earlier[0]);
            self.lines.iter().filter(wanted).cloned().collect::<Vec<_>>()
        };
        match parse(line) {
            Some(Case::Feed(Way::Block, _)) => of_letters(b"rb"),
            Some(Case::Feed(..)) => of_letters(&[b'r', b'z', line[0]]),
            Some(Case::Dump(_)) => of_letters(b"A"),
            Some(Case::EndOfDump) => [of_letters(b"A"), vec![line.to_vec()]].concat(),
            _ => vec![line.to_vec()],
        }
    }
}

impl Answers<'_> {
    fn differ(&self) -> bool {
        [self.ours, self.debug, self.release] != [self.rules; 3]
    }
}

/// A fed byte is a call, and so is a field that is put, and every other case but a remark.
fn calls_of(case: Option<&Case>) -> usize {
    match case {
        Some(Case::Feed(_, bytes)) => bytes.len(),
        Some(Case::PutFields { fields, .. }) => fields.len(),
        None | Some(Case::Remark) => 0,
        Some(_) => 1,
    }
}

/// The letter of the last of these lines.
fn letter_of(lines: &[Vec<u8>]) -> char {
    let first = lines.last().and_then(|line| line.first());
    first.map_or(' ', |&letter| char::from(letter))
}

pub fn is_feed(letter: char) -> bool {
    matches!(letter, 'v' | 'l' | 'b')
}

/// Whether a line of this letter goes on with the run of the one before.
pub fn takes_runs(letter: char) -> bool {
    is_feed(letter) || letter == 'A'
}

fn tokens(answer: &[u8]) -> Vec<&[u8]> {
    answer.split(|&byte| byte == b' ').collect()
}

fn stops(answer: Option<&[u8]>) -> bool {
    answer.is_some_and(|answer| tokens(answer).contains(&&b"stops"[..]))
}

/// Where a call did not complete, what was heard before it must be right all the same.
fn right_until_it_stops(rules: Option<&[u8]>, debug: Option<&[u8]>) -> bool {
    let (Some(rules), Some(debug)) = (rules, debug) else {
        return false;
    };
    let (rules, debug) = (tokens(rules), tokens(debug));
    let heard = debug.iter().take_while(|&&token| token != b"stops").count();
    rules.starts_with(&debug[..heard])
}

/// Whether the last of these lines is a call that the Rust does not have, one of `J` in standard mode
/// too, or feeds a decoder that was given a value, which it cannot be there.
fn has_no_call(lines: &[Vec<u8>]) -> bool {
    let letter = letter_of(lines);
    let is_value = |line: &Vec<u8>| line.first() == Some(&b'z');
    let last = lines.last().and_then(|line| parse(line));
    ADDED.contains(letter)
        || matches!(last, Some(Case::ReadStoredText(Mode::Standard, _)))
        || (is_feed(letter) && lines.iter().any(is_value))
}

/// Where the Rust is known to stop: an address that does not fit, more codes than its types take, and
/// a decoder that was fed 256 FF in a row.
fn is_known_to_stop(lines: &[Vec<u8>]) -> bool {
    let cases: Vec<Option<Case>> = lines.iter().map(|line| parse(line)).collect();
    match cases.last() {
        Some(Some(Case::WriteAddress(address, room))) => {
            *room < if address.is_long() { 5 } else { 1 }
        }
        Some(Some(Case::WriteCodes { codes, .. })) => codes.len() > 8,
        Some(Some(Case::Feed(..))) => {
            let mut longest = 0;
            let mut count = 0;
            for case in cases.iter().flatten() {
                let Case::Feed(_, bytes) = case else {
                    count = 0;
                    continue;
                };
                for &byte in bytes {
                    count = if byte == 0xFF { count + 1 } else { 0 };
                    longest = longest.max(count);
                }
            }
            longest >= 256
        }
        _ => false,
    }
}

/// What differs in the last of these lines, which started from new decoders.
pub fn differences(lines: &[Vec<u8>], answers: &Answers) -> Vec<Kind> {
    let Answers { rules, ours, debug, release } = *answers;
    let letter = letter_of(lines);
    // The Rust has one way to feed: its three decoders are of one kind.
    let rust_letter = if is_feed(letter) { 'v' } else { letter };
    let mut found = Vec::new();
    if ours != rules {
        found.push(kind(Check::OursIsRules, letter, rules, ours));
    }
    if stops(debug) && has_no_call(lines) {
        if release != debug {
            found.push(kind(Check::ReleaseIsDebug, rust_letter, debug, release));
        }
    } else if stops(debug) {
        if !is_known_to_stop(lines) || !right_until_it_stops(rules, debug) {
            found.push(kind(Check::DebugIsRules, rust_letter, rules, debug));
        }
        if !stops(release) && release != rules {
            found.push(kind(Check::ReleaseBesideRules, rust_letter, rules, release));
        }
    } else {
        if debug != rules {
            found.push(kind(Check::DebugIsRules, rust_letter, rules, debug));
        }
        if release != debug {
            found.push(kind(Check::ReleaseIsDebug, rust_letter, debug, release));
        }
    }
    found
}

fn kind(check: Check, letter: char, expected: Option<&[u8]>, got: Option<&[u8]>) -> Kind {
    let (Some(expected), Some(got)) = (expected, got) else {
        let presence = |answer: Option<&[u8]>| if answer.is_some() { "a line" } else { "no line" };
        return Kind { check, letter, expected: presence(expected), got: presence(got) };
    };
    let (expected, got) = (tokens(expected), tokens(got));
    let same = expected.iter().zip(&got).take_while(|(expected, got)| expected == got).count();
    let (expected, got) = (expected.get(same).copied(), got.get(same).copied());
    // Of two events at different places the earlier one stands against silence.
    let (expected, got) = match (place_of(letter, expected), place_of(letter, got)) {
        (Some(early), Some(late)) if early < late => (expected, None),
        (Some(late), Some(early)) if early < late => (None, got),
        _ => (expected, got),
    };
    Kind { check, letter, expected: sort_of(letter, expected), got: sort_of(letter, got) }
}

/// The place in a decoder's line at which an event was heard.
fn place_of(letter: char, token: Option<&[u8]>) -> Option<usize> {
    let place = token?.get(1..)?.split(|&byte| byte == b':').next()?;
    std::str::from_utf8(place).ok()?.parse().ok().filter(|_| is_feed(letter))
}

fn sort_of(letter: char, token: Option<&[u8]>) -> &'static str {
    let first = token.and_then(|token| token.first());
    match (first, is_feed(letter)) {
        (Some(b's'), _) => "a stop",
        (Some(b'?'), _) => "no case",
        (Some(b'!'), _) => "a refusal",
        (None, true) | (Some(b'.'), _) => "silence",
        (Some(b'F'), true) => "a frame",
        (Some(b'D'), true) => "refusal 4",
        (Some(b'C'), true) => "refusal 5",
        (Some(b'X'), true) => "another refusal",
        (None, false) => "nothing more",
        _ => "an answer",
    }
}
