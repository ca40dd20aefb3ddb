//! Writes the event log of a replay to standard output, the same at each run: `logs COUNT` one of that many UPDATEs
//! from four peers, with a drain of each peer after every hundredth and at the end.
//!
//! Each UPDATE comes from one of the peers and is about one of 4,096 prefixes: a withdrawal of it one time in four,
//! else its announcement with a random ORIGIN and a short random AS_PATH. speaker.toml is the configuration that fits.

#[allow(dead_code)]
#[path = "../common/making.rs"]
mod making;
#[path = "../common/sessions.rs"]
mod sessions;

use making::{section, spelled, update, write, Attribute, Draws, Prefix};
use sessions::{address, push_drains, push_octets, push_start};
use std::env;
use std::process::ExitCode;

/// The AS of each peer; the last one is the speaker's own.
const PEERS: [u16; 4] = [65001, 65002, 65003, 65000];

const INTERNAL: u32 = 4;

/// The value of an AS_PATH: the peer's AS if it is external, then the AS numbers that are drawn.
fn path(draws: &mut Draws, peer: u32) -> Vec<u8> {
    let drawn = draws.below(4);
    let mut numbers = Vec::new();
    if peer != INTERNAL {
        numbers.push(PEERS[peer as usize - 1]);
    }
    numbers.extend((0..drawn).map(|_| 1 + draws.below(64_000) as u16));
    if numbers.is_empty() {
        return Vec::new();
    }
    let mut value = vec![2, numbers.len() as u8];
    value.extend(numbers.iter().flat_map(|number| number.to_be_bytes()));
    value
}

fn attributes(draws: &mut Draws, peer: u32) -> Vec<Attribute> {
    let mut attributes = vec![
        Attribute::new(0x40, 1, [draws.below(3) as u8]),
        Attribute::new(0x40, 2, path(draws, peer)),
        Attribute::new(0x40, 3, address(peer)),
    ];
    if peer == INTERNAL {
        let preference = 100 + 10 * draws.below(3);
        attributes.push(Attribute::new(0x40, 5, preference.to_be_bytes()));
    }
    attributes
}

/// The next UPDATE and its peer.
fn next_update(draws: &mut Draws) -> (u32, Vec<u8>) {
    let peer = 1 + draws.below(4);
    let addr = 172 << 24 | (16 + draws.below(16)) << 16 | draws.below(256) << 8;
    let prefix = spelled(&[Prefix { addr, len: 24 }]);
    if draws.below(4) == 0 {
        return (peer, update(&prefix, &[], &[]));
    }
    let section = section(&attributes(draws, peer));
    (peer, update(&[], &section, &prefix))
}

fn log_of(count: u32) -> String {
    let mut draws = Draws(1);
    let mut log = String::new();
    for peer in 1..=4 {
        push_start(&mut log, peer, PEERS[peer as usize - 1]);
    }
    for turn in 1..=count {
        let (peer, octets) = next_update(&mut draws);
        push_octets(&mut log, peer, &octets);
        if turn % 100 == 0 || turn == count {
            push_drains(&mut log, 4);
        }
    }
    log
}

fn main() -> ExitCode {
    let words: Vec<String> = env::args().skip(1).collect();
    let log = match words.as_slice() {
        [count] => count.parse().ok().map(|count| log_of(count).into_bytes()),
        _ => None,
    };
    write(log, "logs COUNT")
}
