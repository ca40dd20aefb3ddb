//! Runs a program and its yardstick in turn on both hosts, and prints the median time and the peak memory of each.
//!
//! `hosts ROUNDS REPEATS PROGRAM YARDSTICK WORDS..`. The word that is `@` stands for the host. In each turn both
//! programs run on `listed` and then on `interned`; a round is REPEATS turns, its times are medians, and the times that
//! are printed are the medians of the rounds. Without a yardstick its word is `-`. A line is printed for each host: its
//! name, then milliseconds and KiB of the program, and those of the yardstick if there is one.
//!
//! Whole processes are measured, from before their start to after their end. What they write goes to /dev/null. Peak
//! memory is the largest resident set, as the system counts it; it is never under this small program's own.

#[allow(dead_code)] // processor time is for the measure of points
#[path = "running.rs"]
mod running;

use running::{median, run_once};
use std::env;
use std::io;
use std::process::ExitCode;
use std::time::Duration;

const HOSTS: [&str; 2] = ["listed", "interned"];

/// A program on a host, the times of its rounds, and its peak memory.
struct Case<'a> {
    host: &'static str,
    program: &'a str,
    words: Vec<&'a str>,
    turns: Vec<Duration>,
    rounds: Vec<Duration>,
    peak_kib: i64,
}

impl<'a> Case<'a> {
    fn new(host: &'static str, program: &'a str, words: &[&'a str]) -> Self {
        let put = |word: &&'a str| if *word == "@" { host } else { *word };
        Case {
            host,
            program,
            words: words.iter().map(put).collect(),
            turns: Vec::new(),
            rounds: Vec::new(),
            peak_kib: 0,
        }
    }

    fn run(&mut self) -> io::Result<()> {
        let run = run_once(self.program, &self.words)?;
        self.turns.push(run.time);
        self.peak_kib = self.peak_kib.max(run.peak_kib);
        Ok(())
    }

    fn end_round(&mut self) {
        self.rounds.push(median(std::mem::take(&mut self.turns)));
    }

    fn ms(&self) -> f64 {
        median(self.rounds.clone()).as_secs_f64() * 1000.0
    }
}

fn measure(rounds: usize, repeats: usize, cases: &mut [Case<'_>]) -> io::Result<()> {
    for _ in 0..rounds {
        for turn in 0..repeats * cases.len() {
            cases[turn % cases.len()].run()?;
        }
        cases.iter_mut().for_each(Case::end_round);
    }
    Ok(())
}

fn print(cases: &[Case<'_>]) {
    for host in HOSTS {
        print!("{host}");
        for case in cases.iter().filter(|case| case.host == host) {
            print!(" {:.2} {}", case.ms(), case.peak_kib);
        }
        println!();
    }
}

/// At least one.
fn number(word: &str) -> Option<usize> {
    word.parse().ok().filter(|number| *number > 0)
}

fn main() -> ExitCode {
    let words: Vec<String> = env::args().skip(1).collect();
    let words: Vec<&str> = words.iter().map(String::as_str).collect();
    let [rounds, repeats, program, yardstick, words @ ..] = words.as_slice() else {
        eprintln!("usage: hosts ROUNDS REPEATS PROGRAM YARDSTICK WORDS..");
        return ExitCode::from(2);
    };
    let (Some(rounds), Some(repeats)) = (number(rounds), number(repeats)) else {
        eprintln!("hosts: no number of rounds or repeats: {rounds} {repeats}");
        return ExitCode::from(2);
    };
    let programs = [*program, *yardstick].into_iter().filter(|program| *program != "-");
    let of_host = |host| programs.clone().map(move |program| Case::new(host, program, words));
    let mut cases: Vec<Case<'_>> = HOSTS.into_iter().flat_map(of_host).collect();
    match measure(rounds, repeats, &mut cases) {
        Ok(()) => {
            print(&cases);
            ExitCode::SUCCESS
        }
        Err(error) => {
            eprintln!("hosts: {error}");
            ExitCode::FAILURE
        }
    }
}
