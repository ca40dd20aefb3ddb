//! Writes an event log to standard output, the same at each run, of at most so many octets:
//! `logs mixed OCTETS` one with octets of peers in six lines of ten, of up to 300 octets each, and other lines between them;
//! `logs short OCTETS` one of short lines without octets;
//! `logs long OCTETS` one of lines with 4,096 octets each.

#[allow(dead_code)]
#[path = "../common/making.rs"]
mod making;

use making::Draws;
use std::env;
use std::io::{self, Write};
use std::process::ExitCode;

const PEERS: u32 = 64;

fn octets_line(draws: &mut Draws, least: u32, most: u32) -> String {
    let peer = draws.between(1, PEERS);
    let count = draws.between(least, most);
    let octets = draws.octets(count);
    let digits: String = octets.iter().map(|octet| format!("{octet:02x}")).collect();
    format!("in {peer} {digits}\n")
}

fn short_line(draws: &mut Draws, clock: &mut u32) -> String {
    let peer = draws.between(1, PEERS);
    match draws.below(10) {
        0 => format!("start {peer}\n"),
        1 => format!("stop {peer}\n"),
        2 => format!("up {peer}\n"),
        3 => format!("down {peer}\n"),
        4 => format!("drain {peer}\n"),
        5 => format!("room {peer} {}\n", draws.between(1, 100_000)),
        6 => "rescan\n".to_owned(),
        7 => format!("# after {clock} seconds\n"),
        _ => {
            *clock += draws.below(30);
            format!("time {clock}\n")
        }
    }
}

fn filled(most: usize, mut next: impl FnMut() -> String) -> String {
    let mut log = String::new();
    loop {
        let line = next();
        if log.len() + line.len() > most {
            return log;
        }
        log.push_str(&line);
    }
}

fn main() -> ExitCode {
    let words: Vec<String> = env::args().skip(1).collect();
    let [kind, most] = words.as_slice() else {
        return ExitCode::from(2);
    };
    let Ok(most) = most.parse() else {
        return ExitCode::from(2);
    };
    let (mut draws, mut clock) = (Draws(1), 0);
    let log = match kind.as_str() {
        "mixed" => filled(most, || match draws.below(10) {
            0..6 => octets_line(&mut draws, 19, 300),
            _ => short_line(&mut draws, &mut clock),
        }),
        "short" => filled(most, || short_line(&mut draws, &mut clock)),
        "long" => filled(most, || octets_line(&mut draws, 4096, 4096)),
        _ => return ExitCode::from(2),
    };
    match io::stdout().write_all(log.as_bytes()) {
        Ok(()) => ExitCode::SUCCESS,
        Err(_) => ExitCode::FAILURE,
    }
}
