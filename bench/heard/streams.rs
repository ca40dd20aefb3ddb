//! Writes a stream of BGP messages to standard output, the same at each run:
//! `streams dense OCTETS` one of at most so many octets, with long attributes, withdrawals and prefixes announced again;
//! `streams plain COUNT` one that announces so many prefixes once each, with few attributes.

#[path = "../common/making.rs"]
mod making;

use making::{
    any_prefix, attributes, beginning, filled, section, spelled, update, write, Attribute, Draws,
    Prefix,
};
use std::env;
use std::process::ExitCode;

/// An UPDATE: half withdraw up to four of the prefixes that came before, and a quarter of what is announced came before.
fn dense_update(draws: &mut Draws, known: &mut Vec<Prefix>) -> Vec<u8> {
    let mut withdrawn = Vec::new();
    if !known.is_empty() && draws.one_in(2) {
        for _ in 0..draws.between(1, 4) {
            let place = draws.below(known.len() as u32) as usize;
            withdrawn.push(known.swap_remove(place));
            if known.is_empty() {
                break;
            }
        }
    }
    let mut announced = Vec::new();
    for _ in 0..draws.between(1, 12) {
        if !known.is_empty() && draws.one_in(4) {
            announced.push(known[draws.below(known.len() as u32) as usize]);
        } else {
            let prefix = any_prefix(draws);
            known.push(prefix);
            announced.push(prefix);
        }
    }
    update(
        &spelled(&withdrawn),
        &section(&attributes(draws, 2)),
        &spelled(&announced),
    )
}

fn dense(most: usize) -> Vec<u8> {
    let mut draws = Draws(1);
    let mut known = Vec::new();
    filled(most, || dense_update(&mut draws, &mut known))
}

/// The places from 0 to 2^24 in an order of its own, each once: an odd factor permutes them.
fn scattered(place: u32) -> u32 {
    place.wrapping_mul(0x9e37_79b1) & 0x00ff_ffff
}

fn plain(count: u32) -> Vec<u8> {
    const IN_ONE: usize = 1000;
    let attributes = section(&[
        Attribute::new(0x40, 1, [0]),
        Attribute::new(0x40, 2, [2, 1, 0xfd, 0xe9]),
        Attribute::new(0x40, 3, [192, 0, 2, 1]),
    ]);
    let prefixes: Vec<Prefix> = (0..count)
        .map(|place| Prefix {
            addr: scattered(place) << 8,
            len: 24,
        })
        .collect();
    let mut stream = beginning();
    for some in prefixes.chunks(IN_ONE) {
        stream.extend(update(&[], &attributes, &spelled(some)));
    }
    stream
}

fn main() -> ExitCode {
    let words: Vec<String> = env::args().skip(1).collect();
    let words: Vec<&str> = words.iter().map(String::as_str).collect();
    let stream = match words[..] {
        ["dense", octets] => octets.parse().ok().map(dense),
        ["plain", count] => count.parse().ok().map(plain),
        _ => None,
    };
    write(stream, "streams dense OCTETS | streams plain COUNT")
}
