//! The Rust as a judge: answers of the crate hart-protocol and of document 01 to cases in a shared
//! format, cases from a seed, and the comparison. judge/run calls it; judge/README.md explains.

mod answers;
mod cases;
mod compare;
mod crate_answers;
mod fixed;
mod from_seed;
mod generate;
mod random;
mod report;
mod rules;
mod self_test;
mod shrink;

use std::fs::{self, File};
use std::io::{self, BufReader, BufWriter, Write};
use std::path::Path;
use std::process::ExitCode;

use answers::Answer;
use cases::{next_line, parse, Case};
use compare::{compare, Texts};
use crate_answers::Crate;
use generate::Sheet;
use rules::Rules;
use shrink::{command, Programs};

const USAGE: &str = "usage:
  judge answer     cases in, the crate's answers out
  judge rules      cases in, document 01's answers out
  judge expected   cases in, the crate's answers out, 01's where the crate does not complete
  judge fixed      the fixed list of cases out
  judge generate SEED CASES RUNS
  judge compare FOLDER OURS DEBUG RELEASE
                   FOLDER/cases with FOLDER/rules, ours, debug, release; the programs for shrinking
  judge self-test  plants wrong answers and sees each found";

fn main() -> ExitCode {
    let arguments: Vec<String> = std::env::args().skip(1).collect();
    let arguments: Vec<&str> = arguments.iter().map(String::as_str).collect();
    match run(&arguments) {
        Ok(code) => code,
        Err(error) => {
            eprintln!("judge: {error}");
            ExitCode::from(2)
        }
    }
}

fn run(arguments: &[&str]) -> io::Result<ExitCode> {
    match arguments {
        ["answer"] => {
            let mut rust = Crate::new();
            answer_input(|case| rust.answer(case))
        }
        ["rules"] => {
            let mut rules = Rules::new();
            answer_input(|case| rules.answer(case))
        }
        ["expected"] => {
            let (mut rust, mut rules) = (Crate::new(), Rules::new());
            answer_input(|case| {
                let (said, expected) = (rust.answer(case), rules.answer(case));
                if said.is_whole() {
                    said
                } else {
                    expected
                }
            })
        }
        ["fixed"] => {
            let mut out = BufWriter::new(io::stdout().lock());
            fixed::fixed(&mut Sheet(&mut out));
            out.flush()?;
            Ok(ExitCode::SUCCESS)
        }
        ["generate", seed, cases, runs] => {
            let mut out = BufWriter::new(io::stdout().lock());
            let sheet = &mut Sheet(&mut out);
            fixed::fixed(sheet);
            fixed::exhaustive(sheet);
            from_seed::from_seed(sheet, number(seed)?, number(cases)?, number(runs)?);
            out.flush()?;
            Ok(ExitCode::SUCCESS)
        }
        ["compare", folder, ours, debug, release] => {
            compare_files(Path::new(folder), &[ours, debug, release])
        }
        ["self-test"] => Ok(self_test::run()),
        _ => {
            eprintln!("{USAGE}");
            Ok(ExitCode::from(2))
        }
    }
}

fn number<T: std::str::FromStr>(text: &str) -> io::Result<T> {
    text.parse().map_err(|_| io::Error::other(format!("{text} is no number that will do")))
}

/// Answers the cases of standard input, a line each.
fn answer_input(mut answer: impl FnMut(&Case) -> Answer) -> io::Result<ExitCode> {
    let mut cases = io::stdin().lock();
    let mut answers = BufWriter::new(io::stdout().lock());
    while let Some(line) = next_line(&mut cases)? {
        let said = parse(&line).map_or(Answer::NoCase, |case| answer(&case));
        writeln!(answers, "{said}")?;
    }
    answers.flush()?;
    Ok(ExitCode::SUCCESS)
}

fn compare_files(folder: &Path, commands: &[&str; 3]) -> io::Result<ExitCode> {
    let open = |name: &str| File::open(folder.join(name)).map(BufReader::new);
    let tally = compare(Texts {
        cases: open("cases")?,
        rules: open("rules")?,
        ours: open("ours")?,
        debug: open("debug")?,
        release: open("release")?,
    })?;
    let [ours, debug, release] = commands.map(|line| command(line.to_string()));
    let (text, smallest) = report::report(&tally, &Programs { ours, debug, release });
    fs::write(folder.join("smallest"), smallest)?;
    print!("{text}");
    Ok(if tally.failures() == 0 { ExitCode::SUCCESS } else { ExitCode::FAILURE })
}
