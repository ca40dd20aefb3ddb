//! Runs two programs in turn on the same words and prints the median time and the peak memory of each.
//!
//! `measure LABEL ROUNDS PROGRAM YARDSTICK WORDS..`. A round is REPEATS runs of each program, one after the other in
//! turn, and its time is their median; the time that is printed is the median of the rounds. Whole processes are measured,
//! from before their start to after their end. What they write goes to /dev/null.
//!
//! Peak memory is the largest resident set, as the system counts it; it is never under this small program's own.

#[allow(dead_code)] // processor time is for the measure of points
mod running;

use running::{median, run_once, Run};
use std::env;
use std::io;
use std::process::ExitCode;
use std::time::Duration;

const REPEATS: usize = 5;

/// The times of the rounds of one program, and its peak memory.
#[derive(Default)]
struct Measured {
    rounds: Vec<Duration>,
    peak_kib: i64,
}

impl Measured {
    fn add_round(&mut self, runs: &[Run]) {
        self.rounds
            .push(median(runs.iter().map(|run| run.time).collect()));
        let peak = runs.iter().map(|run| run.peak_kib).max();
        self.peak_kib = self.peak_kib.max(peak.unwrap_or(0));
    }

    fn ms(&self) -> f64 {
        median(self.rounds.clone()).as_secs_f64() * 1000.0
    }
}

fn measure(rounds: usize, programs: [&str; 2], words: &[&str]) -> io::Result<[Measured; 2]> {
    let mut measured = [Measured::default(), Measured::default()];
    for _ in 0..rounds {
        let mut runs = [Vec::new(), Vec::new()];
        for _ in 0..REPEATS {
            for (program, runs) in programs.into_iter().zip(&mut runs) {
                runs.push(run_once(program, words)?);
            }
        }
        for (measured, runs) in measured.iter_mut().zip(&runs) {
            measured.add_round(runs);
        }
    }
    Ok(measured)
}

fn main() -> ExitCode {
    let words: Vec<String> = env::args().skip(1).collect();
    let words: Vec<&str> = words.iter().map(String::as_str).collect();
    let [label, rounds, program, yardstick, words @ ..] = words.as_slice() else {
        eprintln!("usage: measure LABEL ROUNDS PROGRAM YARDSTICK WORDS..");
        return ExitCode::from(2);
    };
    let Ok(rounds @ 1..) = rounds.parse() else {
        eprintln!("measure: no number of rounds: {rounds}");
        return ExitCode::from(2);
    };
    match measure(rounds, [program, yardstick], words) {
        Ok([ours, theirs]) => {
            println!(
                "{label} xbgp {:.2} ms, yardstick {:.2} ms, ratio {:.2}, peak memory {} KiB and {} KiB",
                ours.ms(),
                theirs.ms(),
                ours.ms() / theirs.ms(),
                ours.peak_kib,
                theirs.peak_kib,
            );
            ExitCode::SUCCESS
        }
        Err(error) => {
            eprintln!("measure: {error}");
            ExitCode::FAILURE
        }
    }
}
