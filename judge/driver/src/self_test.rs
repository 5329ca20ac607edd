//! The comparison must be able to fail. Wrong answers of several sorts are planted in a copy of right
//! ones, each alone, and each must be found where it stands; the smallest input that shows a known
//! fault must come out of a large one; and `rules` must give the answers that were written by hand.

use std::process::ExitCode;

use crate::cases::lines_of;
use crate::compare::{compare, Check, Kind, Tally, Texts};
use crate::fixed;
use crate::fixed::examples::{examples, Example};
use crate::generate::Sheet;
use crate::rules;
use crate::shrink::{shown, smallest, Programs};

#[derive(Clone, Copy, PartialEq)]
enum Whose {
    Ours,
    Debug,
    Release,
}

/// A wrong answer: whose, on the first line of these letters that can be made wrong in this way, and
/// the check that must find it.
struct Plant {
    name: &'static str,
    whose: Whose,
    letters: &'static str,
    wrong: fn(&str) -> Option<String>,
    found_by: Check,
}

const PLANTS: [Plant; 93] = [
    ours("a frame with another last byte", "v", |answer| {
        in_frame(answer, last_digit_turned(answer))
    }),
    ours("a frame that is lost", "l", |answer| in_frame(answer, Some(".".into()))),
    ours("a frame one byte late", "b", |answer| in_frame(answer, replaced(answer, "F9:", "F10:"))),
    ours("a frame twice", "v", |answer| in_frame(answer, Some(format!("{answer} {answer}")))),
    ours("a refusal out of nothing", "l", |answer| replaced(answer, ".", "D0:00")),
    ours("a refusal that is lost", "b", |answer| answer.starts_with('D').then(|| ".".into())),
    ours("another byte refused", "v", |answer| {
        answer.starts_with('D').then(|| last_digit_turned(answer))?
    }),
    ours("another check", "b", |answer| {
        answer.starts_with('C').then(|| last_digit_turned(answer))?
    }),
    ours("one byte too many", "e", |answer| replaced(answer, "10 ", "11 ")),
    ours("a byte past the end", "e", |answer| done(answer, last_digit_turned(answer))),
    ours("a refused call that wrote", "e", |answer| replaced(answer, "!2 A0", "!2 FF")),
    ours("another refusal", "w", |answer| replaced(answer, "!2", "!1")),
    ours("no refusal", "a", |answer| replaced(answer, "!3", "1 00000000000000")),
    ours("another address", "a", |answer| done(answer, last_digit_turned(answer))),
    ours("another character", "p", |answer| done(answer, last_digit_turned(answer))),
    ours("a group too few", "u", |answer| replaced(answer, "8 ", "4 ")),
    ours("another flag", "s", |answer| replaced(answer, "000000", "000001")),
    ours("another identity", "ij", last_digit_turned),
    ours("a variable too few", "g", |answer| replaced(answer, "2 ", "1 ")),
    ours("an empty line", "k", |_| Some(String::new())),
    ours("a case taken for none", "h", |answer| done(answer, Some("?".into()))),
    ours("a remark that is answered", "#", |_| Some("?".into())),
    ours("a bad character one place on", "P", |answer| replaced(answer, "!7:0000", "!7:0001")),
    ours("a bad character without its place", "P", |answer| replaced(answer, "!7:0000", "!7")),
    ours("a bad character that is taken", "P", |answer| replaced(answer, "!7:0000", "3")),
    ours("a left-over that is read", "U", |answer| replaced(answer, "!3", "4")),
    ours("7 before 2", "TD", |answer| replaced(answer, "!2", "!7:0000")),
    ours("another character of a tag", "K", last_digit_turned),
    ours("another date", "H", last_digit_turned),
    ours("the status byte taken for a group", "G", |answer| replaced(answer, "0 -", "1 ")),
    ours("a poor reading that is good", "m", |answer| replaced(answer, "poor", "good")),
    ours("another float", "m", |answer| replaced(answer, "fixed 4", "fixed C")),
    ours("an absent value that is bad", "m", |answer| replaced(answer, "absent", "bad")),
    ours("a payload with its status", "y", |answer| replaced(answer, ". 07", ". 400007")),
    ours("an error without its byte", "y", |answer| replaced(answer, "!9:80", "!9")),
    ours("3 before 6", "f", |answer| replaced(answer, "!6", "!3")),
    ours("an unreachable value that is taken", "z", |answer| replaced(answer, "0", "1")),
    ours("a reachable value that is not", "z", |answer| replaced(answer, "1", "0")),
    ours("silence at an unreachable value", "vl", |answer| replaced(answer, "X0:08", ".")),
    ours("a refused call that took the byte", "o", |answer| replaced(answer, "1002 C", "1002 8")),
    ours("a record one byte longer", "o", |answer| replaced(answer, "2 ", "3 ")),
    ours("a byte behind the record", "o", |answer| done(answer, last_digit_turned(answer))),
    ours("a block that is not cleared", "c", |answer| replaced(answer, "0 00", "0 40")),
    ours("another constant", "x", |answer| replaced(answer, "FF 05", "FF 04")),
    ours("a line of the dump one place late", "A", |answer| replaced(answer, "F 9", "F 10")),
    ours("another total of the dump", "E", last_digit_turned),
    ours("another identity of command 0", "I", last_digit_turned),
    ours("an identity of 11 bytes that is read", "I", |answer| {
        replaced(answer, "!3", &"00".repeat(14))
    }),
    ours("another date of command 13", "J", last_digit_turned),
    ours("the modes of command 13 exchanged", "J", |answer| replaced(answer, "4040", "2020")),
    ours("a request without data that writes", "O", |answer| replaced(answer, "0 A0", "0 00")),
    ours("a request without data that is refused", "O", |answer| replaced(answer, "0 -", "!2 -")),
    ours("an empty request that is too short", "Q", |answer| replaced(answer, ".", "!3")),
    ours("3 before 6 in a request", "Q", |answer| replaced(answer, "!6", "!3")),
    ours("a response taken for a request", "Q", |answer| replaced(answer, "!6", ".")),
    ours("a ninth code", "Q", |answer| replaced(answer, "8 ", "9 ")),
    ours("another code", "Q", |answer| done(answer, last_digit_turned(answer))),
    ours("no codes that are taken", "Q", |answer| replaced(answer, "!3", "0 -")),
    ours("high bits that are kept", "R", |answer| {
        replaced(answer, "14 0000FE260A0505010209", "14 0000FE260A0505010211")
    }),
    ours("a response one byte short", "R", |answer| replaced(answer, "11 ", "10 ")),
    ours("a ninth group", "R", |answer| replaced(answer, "!1", "!2")),
    ours("a response without its status", "R", |answer| replaced(answer, "14 0000FE", "12 FE")),
    ours("a refused response that wrote its status", "R", |answer| {
        replaced(answer, "!7:0007 A0A1", "!7:0007 0000")
    }),
    ours("the place in the descriptor alone", "R", |answer| replaced(answer, "!7:0017", "!7:000F")),
    ours("7 before 2 in a response", "R", |answer| replaced(answer, "!2", "!7:0000")),
    ours("a byte past a response", "R", |answer| done(answer, last_digit_turned(answer))),
    ours("a refused field that moves on", "W", |answer| replaced(answer, "!2@0", "!2@2")),
    ours("a field that moves no place", "W", |answer| replaced(answer, "2@2", "2@0")),
    ours("a refused field that wrote", "W", |answer| replaced(answer, "!2@0 A0", "!2@0 00")),
    ours("a later field's refusal", "W", |answer| {
        answer.contains(" !7:0004@2").then(|| answer.replacen(" !7:0004@2", " !7:0005@2", 1))
    }),
    ours("a field past place 255", "W", |answer| replaced(answer, "!1@244", "12@256")),
    ours("2 before 1 of a late field", "W", |answer| replaced(answer, "!1@60", "!2@60")),
    ours("a place that runs over", "W", |answer| {
        replaced(answer, "!1@18446744073709551615", "1@0")
    }),
    ours("a field too few", "W", |answer| replaced(answer, "2@2 1@3 ", "2@2 ")),
    ours("a buffer that is left out", "W", |answer| replaced(answer, "-", "")),
    ours("a status alone that is refused", "F", |answer| replaced(answer, "2 0500", "!2 0500")),
    ours("a late group that is too small", "F", |answer| replaced(answer, "!1", "!2")),
    ours("the place in the last text alone", "F", |answer| replaced(answer, "!7:0008", "!7:0000")),
    ours("a refused response that left fields behind", "F", |answer| {
        replaced(answer, "!7:0008 A0", "!7:0008 D2")
    }),
    ours("another last byte of fields", "F", |answer| done(answer, last_digit_turned(answer))),
    debug("another identity of the debug Rust", "I", last_digit_turned),
    debug("another date of the debug Rust", "J", last_digit_turned),
    debug("a request of the debug Rust that writes", "O", |answer| {
        replaced(answer, "0 A0", "0 00")
    }),
    debug("a stop at the response of command 0", "I", |_| Some("stops".into())),
    debug("a stop at a request without data", "O", |_| Some("stops".into())),
    release("another identity of the release Rust", "I", last_digit_turned),
    debug("another answer of the debug Rust", "d", last_digit_turned),
    debug("another frame before it stops", "v", |answer| {
        in_frame(answer, last_digit_turned(answer).map(|answer| answer + " stops"))
    }),
    debug("a stop where none is known", "e", |_| Some("stops".into())),
    debug("an answer of the debug Rust to a call that it has not", "P", last_digit_turned),
    debug("another constant of the debug Rust", "x", last_digit_turned),
    release("another answer of the release Rust", "q", last_digit_turned),
    release("a frame that the release Rust loses", "v", |answer| {
        in_frame(answer, Some(".".into()))
    }),
];

const fn ours(
    name: &'static str,
    letters: &'static str,
    wrong: fn(&str) -> Option<String>,
) -> Plant {
    Plant { name, whose: Whose::Ours, letters, wrong, found_by: Check::OursIsRules }
}

const fn debug(
    name: &'static str,
    letters: &'static str,
    wrong: fn(&str) -> Option<String>,
) -> Plant {
    Plant { name, whose: Whose::Debug, letters, wrong, found_by: Check::DebugIsRules }
}

const fn release(
    name: &'static str,
    letters: &'static str,
    wrong: fn(&str) -> Option<String>,
) -> Plant {
    Plant { name, whose: Whose::Release, letters, wrong, found_by: Check::ReleaseIsDebug }
}

fn replaced(answer: &str, old: &str, new: &str) -> Option<String> {
    answer.starts_with(old).then(|| answer.replacen(old, new, 1))
}

fn in_frame(answer: &str, wrong: Option<String>) -> Option<String> {
    answer.starts_with("F9:").then_some(wrong)?
}

fn done(answer: &str, wrong: Option<String>) -> Option<String> {
    answer.starts_with(|first: char| first.is_ascii_digit()).then_some(wrong)?
}

fn last_digit_turned(answer: &str) -> Option<String> {
    let last = answer.chars().last()?;
    let turned = if last == '0' { '1' } else { '0' };
    last.is_ascii_hexdigit().then(|| format!("{}{turned}", &answer[..answer.len() - 1]))
}

/// Right answers of all four to the fixed list.
struct Right {
    cases: Vec<u8>,
    answers: Vec<Vec<u8>>,
}

impl Right {
    fn compared(&self, whose: Whose, answers: &[Vec<u8>]) -> Tally {
        let right = text_of(&self.answers);
        let other = text_of(answers);
        let of = |wanted: Whose| if wanted == whose { &other[..] } else { &right[..] };
        let (ours, debug, release) = (of(Whose::Ours), of(Whose::Debug), of(Whose::Release));
        let texts = Texts { cases: &self.cases[..], rules: &right[..], ours, debug, release };
        compare(texts).expect("memory can be read")
    }

    fn finds_plant(&self, plant: &Plant) -> bool {
        let wanted =
            |case: &Vec<u8>| case.first().is_some_and(|&l| plant.letters.contains(char::from(l)));
        let wrong_at = |place: usize| (plant.wrong)(&String::from_utf8_lossy(&self.answers[place]));
        let cases = lines_of(&self.cases);
        let mut places = (0..cases.len()).filter(|&place| wanted(&cases[place]));
        let Some((place, wrong)) = places.find_map(|place| Some((place, wrong_at(place)?))) else {
            return false;
        };
        let mut answers = self.answers.clone();
        answers[place] = wrong.into_bytes();
        let tally = self.compared(plant.whose, &answers);
        tally.failures() > 0
            && tally.seen.iter().any(|(kind, seen)| {
                kind.check == plant.found_by && seen.first_line == place + 1 && seen.count == 1
            })
    }

    fn finds_other_length(&self, change: fn(&mut Vec<Vec<u8>>)) -> bool {
        let mut answers = self.answers.clone();
        change(&mut answers);
        self.compared(Whose::Ours, &answers).count(Check::OursIsRules) == 1
    }
}

fn text_of(lines: &[Vec<u8>]) -> Vec<u8> {
    lines.iter().flat_map(|line| [&line[..], b"\n"].concat()).collect()
}

/// The number of answers by hand, and the cases that `rules` answers in another way.
fn held_against_hand() -> (usize, Vec<String>) {
    let mut asked = Vec::new();
    for example in examples() {
        if let Example::Cases(cases, wanted) = example {
            asked.extend(cases.into_iter().map(|case| (case, wanted.clone())));
        }
    }
    let cases: String = asked.iter().map(|(case, _)| format!("{case}\n")).collect();
    let mut by_hand = 0;
    let mut other = Vec::new();
    for ((case, wanted), answer) in asked.into_iter().zip(rules::answers(cases.as_bytes())) {
        let Some(wanted) = wanted.filter(|_| case != "n") else {
            continue;
        };
        by_hand += 1;
        let answer = String::from_utf8_lossy(&answer).into_owned();
        if !is_as_by_hand(&case, &answer, &wanted) {
            other.push(format!("{case}: {answer}"));
        }
    }
    (by_hand, other)
}

/// Spaces are for the reader, but in the dump's lines and between fields, which are to the letter.
fn is_as_by_hand(case: &str, answer: &str, wanted: &str) -> bool {
    if case.starts_with(['A', 'E', 'W']) {
        answer == wanted
    } else {
        answer.replace(' ', "") == wanted.replace(' ', "")
    }
}

/// On a line where the debug Rust stops and is known to, the release one is set beside 01.
fn release_is_set_beside() -> bool {
    let cases = format!("n\nv {}03\n", "FF".repeat(256));
    let right = b".\nD256:03\n";
    let (debug, release) = (b".\nstops\n", b".\n.\n");
    let texts = Texts {
        cases: cases.as_bytes(),
        rules: &right[..],
        ours: &right[..],
        debug: &debug[..],
        release: &release[..],
    };
    let tally = compare(texts).expect("memory can be read");
    tally.failures() == 0 && tally.count(Check::ReleaseBesideRules) == 1 && tally.stopped_runs == 1
}

/// The cases of which document 01 is the only judge: the Rust has no such calls, and its decoders are
/// gone behind a value, but for the one of the block.
const ONLY_RULES: &str = "n\nP 000354455354\nz 01000000050000\nv 03\nl 02\nb 03\nJ 01\nJ 00\n";

fn only_rules_tally(debug: &[u8], release: &[u8]) -> Tally {
    let right = text_of(&rules::answers(ONLY_RULES.as_bytes()));
    let texts =
        Texts { cases: ONLY_RULES.as_bytes(), rules: &right[..], ours: &right[..], debug, release };
    compare(texts).expect("memory can be read")
}

/// Lines of calls that the Rust does not have are no failures, and are counted by letter.
fn only_rules_are_counted() -> bool {
    let rust = b".\nstops\nstops\nstops\nstops\n.\nstops\n!3\n";
    let tally = only_rules_tally(rust, rust);
    let counted: Vec<(char, usize)> = tally.only_rules.into_iter().collect();
    tally.seen.is_empty()
        && tally.stopped.is_empty()
        && counted == [('J', 1), ('P', 1), ('l', 1), ('v', 1), ('z', 1)]
}

/// There the two builds of the Rust stop alike; the block's decoder and crate mode have no reason to.
fn odd_stops_are_found() -> bool {
    let rust = b".\nstops\nstops\nstops\nstops\n.\nstops\n!3\n";
    let release_answers = b".\n3 5054D4\nstops\nstops\nstops\n.\nstops\n!3\n";
    let block_stops = b".\nstops\nstops\nstops\nstops\nstops\nstops\n!3\n";
    let crate_mode_stops = b".\nstops\nstops\nstops\nstops\n.\nstops\nstops\n";
    only_rules_tally(rust, release_answers).count(Check::ReleaseIsDebug) == 1
        && only_rules_tally(block_stops, block_stops).count(Check::DebugIsRules) == 1
        && only_rules_tally(crate_mode_stops, crate_mode_stops).count(Check::DebugIsRules) == 1
}

/// What shrinking makes of a large input, for a program that never says a word of this letter's.
fn smallest_unheard(letter: char, expected: &'static str, lines: &[&str]) -> String {
    let silent = |cases: &[u8]| {
        let hushed = |(case, answer): (Vec<u8>, Vec<u8>)| {
            if char::from(case[0]) == letter {
                b".".to_vec()
            } else {
                answer
            }
        };
        lines_of(cases).into_iter().zip(rules::answers(cases)).map(hushed).collect()
    };
    let programs = Programs {
        ours: Box::new(silent),
        debug: Box::new(rules::answers),
        release: Box::new(rules::answers),
    };
    let kind = Kind { check: Check::OursIsRules, letter, expected, got: "silence" };
    let lines: Vec<Vec<u8>> = lines.iter().map(|line| line.as_bytes().to_vec()).collect();
    smallest(&kind, &lines, &programs).map_or("none".into(), |input| shown(&input))
}

pub fn run() -> ExitCode {
    let mut cases = Vec::new();
    fixed::fixed(&mut Sheet(&mut cases));
    let right = Right { answers: rules::answers(&cases), cases };
    let mut tried = 0;
    let mut unseen = Vec::new();
    let mut see = |name, seen: bool| {
        tried += 1;
        if !seen {
            unseen.push(name);
        }
    };
    let (by_hand, other) = held_against_hand();
    other.iter().for_each(|case| println!("judge: self-test: not as by hand: {case}"));
    see("the answers by hand", other.is_empty() && by_hand > 0);
    for plant in &PLANTS {
        see(plant.name, right.finds_plant(plant));
    }
    see("a last line that is missing", right.finds_other_length(|answers| drop(answers.pop())));
    see("a line too many", right.finds_other_length(|answers| answers.push(b".".to_vec())));
    let none = right.compared(Whose::Ours, &right.answers);
    see(
        "that equal answers do not differ",
        none.seen.is_empty() && none.lines == right.answers.len(),
    );
    see("the release Rust beside 01", release_is_set_beside());
    see("lines that 01 alone judges", only_rules_are_counted());
    see("odd stops of the Rust", odd_stops_are_found());
    // Both have their bytes in the second line, behind noise and a reset.
    let frame = ["v 0055FFFFFF", "r", "v 11FFFFFFFFFFFFFF86A60A01020309020001208899"];
    let smallest_frame = "v FF FF FF FF FF 01 00 00 00 01";
    see(
        "the smallest input with a frame",
        smallest_unheard('v', "a frame", &frame) == smallest_frame,
    );
    let delimiter = ["v FFFFFFFFFFFF02800000", "v 82FFFFFF", "v FFFFFFFF7A0102"];
    let smallest_delimiter = "v FF FF FF FF FF 00";
    see(
        "the smallest bad delimiter",
        smallest_unheard('v', "refusal 4", &delimiter) == smallest_delimiter,
    );
    let unreachable =
        ["v 00FF", "z 05010183040901 8301020304050600", "r", "z 01020155090707", "v 0102"];
    see(
        "the smallest unreachable value",
        smallest_unheard('v', "another refusal", &unreachable) == "z 01 00*6, v 00",
    );
    let dumped = ["A 00FFFF", "A FFFFFFFFFF", "A 0280000082FF", "A FFFFFFFFFFFF7A0102"];
    let fields = ["W 0001 0000000000000003 02 0041273F800000C0 00 0040 01 07 05 5445535420202020"];
    see(
        "the smallest refused field",
        smallest_unheard('W', "a refusal", &fields) == "W 00*10 01 00",
    );
    let groups = ["R 09 0004 0040 07 02 0041273F800000C0 0141273F800000C0 0241273F800000C0"];
    see(
        "the smallest refused response",
        smallest_unheard('R', "a refusal", &groups) == "R 09 00*6",
    );
    see(
        "the smallest line of the dump",
        smallest_unheard('A', "an answer", &dumped) == "A FF FF FF FF FF 00",
    );
    for name in &unseen {
        println!("judge: self-test: NOT SEEN: {name}");
    }
    println!(
        "judge: self-test: {} of {tried} things seen, {by_hand} answers by hand",
        tried - unseen.len()
    );
    if unseen.is_empty() {
        ExitCode::SUCCESS
    } else {
        ExitCode::FAILURE
    }
}
