//! Measures one program on several last words, and prints what each takes more than the first, divided by a number.
//!
//! `measure ROUNDS PROGRAM COMMON.. -- DIVISOR:NAME..`: in each round the program runs once for each NAME, on the words
//! COMMON with the one that is `@` replaced by NAME. A line is printed for each NAME after the first: the median over
//! the rounds of the processor time that it takes more than the first NAME does in the same round, in nanoseconds and
//! divided by DIVISOR, then the ratio of the medians of both times, and the median of its own in milliseconds.

#[allow(dead_code)] // whole times and memory are for the measure of two programs
#[path = "../common/running.rs"]
mod running;

use running::{median, run_once};
use std::env;
use std::io;
use std::process::ExitCode;

/// What one name is measured by.
struct Case<'a> {
    divisor: f64,
    name: &'a str,
    seconds: Vec<f64>,
}

fn case_of(word: &str) -> Option<Case<'_>> {
    let (divisor, name) = word.split_once(':')?;
    Some(Case {
        divisor: divisor.parse().ok()?,
        name,
        seconds: Vec::new(),
    })
}

fn measure(
    rounds: usize,
    program: &str,
    common: &[&str],
    cases: &mut [Case<'_>],
) -> io::Result<()> {
    for _ in 0..rounds {
        for case in cases.iter_mut() {
            let put =
                |word: &&str| -> String { if *word == "@" { case.name } else { *word }.into() };
            let words: Vec<String> = common.iter().map(put).collect();
            let words: Vec<&str> = words.iter().map(String::as_str).collect();
            case.seconds
                .push(run_once(program, &words)?.processor.as_secs_f64());
        }
    }
    Ok(())
}

fn print(first: &Case<'_>, case: &Case<'_>) {
    let both = first.seconds.iter().zip(&case.seconds);
    let more = median(both.map(|(before, after)| after - before).collect());
    let (before, after) = (median(first.seconds.clone()), median(case.seconds.clone()));
    println!(
        "{:.0} {:.2} {:.1}",
        more * 1e9 / case.divisor,
        after / before,
        after * 1e3
    );
}

fn main() -> ExitCode {
    let words: Vec<String> = env::args().skip(1).collect();
    let words: Vec<&str> = words.iter().map(String::as_str).collect();
    let parts = words
        .iter()
        .position(|word| *word == "--")
        .map(|at| words.split_at(at));
    let Some(([rounds, program, common @ ..], [_, names @ ..])) = parts else {
        eprintln!("usage: measure ROUNDS PROGRAM COMMON.. -- DIVISOR:NAME..");
        return ExitCode::from(2);
    };
    let cases: Option<Vec<Case<'_>>> = names.iter().map(|word| case_of(word)).collect();
    let (Ok(rounds @ 1..), Some(mut cases)) = (rounds.parse(), cases) else {
        eprintln!("measure: no number of rounds, or no divisor before a name");
        return ExitCode::from(2);
    };
    if let Err(error) = measure(rounds, program, common, &mut cases) {
        eprintln!("measure: {error}");
        return ExitCode::FAILURE;
    }
    let Some((first, others)) = cases.split_first() else {
        return ExitCode::from(2);
    };
    for case in others {
        print(first, case);
    }
    ExitCode::SUCCESS
}
