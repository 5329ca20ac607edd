//! What a comparison found, in some ten lines.

use std::fmt::Write as _;

use crate::compare::{Check, Kind, Seen, Tally};
use crate::shrink::{as_cases, shown, smallest, Programs};

/// The report, and the smallest inputs as cases, to be fed again.
pub fn report(tally: &Tally, programs: &Programs) -> (String, String) {
    let mut text = String::new();
    let mut cases = String::new();
    let only_rules = tally.only_rules.values().sum::<usize>();
    let completed = tally.lines - only_rules - tally.stopped.values().sum::<usize>();
    let mut section = |head: String, check: Check| {
        writeln!(text, "{head}").expect("a string takes all");
        for (kind, seen) in tally.seen.iter().filter(|(kind, _)| kind.check == check) {
            let (line, smallest) = difference(kind, seen, programs);
            writeln!(text, "  {line}").expect("a string takes all");
            cases.push_str(&smallest);
        }
    };
    let [ours, debug, release, beside] =
        [Check::OursIsRules, Check::DebugIsRules, Check::ReleaseIsDebug, Check::ReleaseBesideRules]
            .map(|check| tally.count(check));
    section(
        format!("ours against document 01: {ours} differences in {} lines", tally.lines),
        Check::OursIsRules,
    );
    section(
        format!(
            "the debug Rust against 01: {debug} differences in {completed} lines that it completes"
        ),
        Check::DebugIsRules,
    );
    section(
        format!("the release Rust against the debug one: {release} differences in these"),
        Check::ReleaseIsDebug,
    );
    section(
        format!(
            "not completed by the debug Rust: {}; the release Rust stops at {} of them, and differs from 01 in {beside}",
            stopped(tally),
            tally.release_stopped,
        ),
        Check::ReleaseBesideRules,
    );
    let judged = only_rules_by_letter(tally);
    writeln!(
        text,
        "of calls that the Rust does not have, judged by 01 alone: {only_rules} lines{judged}"
    )
    .expect("a string takes all");
    let (calls, lines, runs) = (tally.calls, tally.lines, tally.runs);
    let failures = tally.failures();
    writeln!(text, "judge: {calls} calls in {lines} lines, {runs} runs: {failures} differences")
        .expect("a string takes all");
    (text, cases)
}

/// Lines by letter; those of the decoders are behind a `z`.
fn only_rules_by_letter(tally: &Tally) -> String {
    let part = |(&letter, lines): (&char, &usize)| {
        let behind = if crate::compare::is_feed(letter) { " behind z" } else { "" };
        format!("{letter}{behind} {lines}")
    };
    let parts: Vec<String> = tally.only_rules.iter().map(part).collect();
    if parts.is_empty() {
        return String::new();
    }
    format!(" ({})", parts.join(", "))
}

/// Lines by letter; those of the decoders together, with the number of their runs.
fn stopped(tally: &Tally) -> String {
    let mut parts = Vec::new();
    let mut fed = 0;
    for (&letter, &lines) in &tally.stopped {
        if crate::compare::is_feed(letter) {
            fed += lines;
        } else {
            parts.push(format!("{letter} {lines} lines"));
        }
    }
    if fed > 0 {
        parts.push(format!("v, l, b {fed} lines of {} runs", tally.stopped_runs));
    }
    if parts.is_empty() {
        return "nothing".into();
    }
    parts.join(", ")
}

fn difference(kind: &Kind, seen: &Seen, programs: &Programs) -> (String, String) {
    let Kind { letter, expected, got, check } = kind;
    let whose = if *check == Check::ReleaseIsDebug { "the debug one" } else { "01" };
    let what = if got == expected {
        format!("{got}, but not that of {whose}")
    } else {
        format!("{got} where {whose} has {expected}")
    };
    let head = format!("{letter}: {what}, {} lines", seen.count);
    match smallest(kind, &seen.lines, programs) {
        Some(input) => (format!("{head}; smallest: {}", shown(&input)), as_cases(&input)),
        None => {
            (format!("{head}; first at line {}, and not by itself", seen.first_line), String::new())
        }
    }
}
