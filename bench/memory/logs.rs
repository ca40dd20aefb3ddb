//! Writes the event log of a replay to standard output, the same at each run: `logs short|long SOURCES PREFIXES
//! SECTIONS`. Each prefix is announced by SOURCES of four peers, 1 or 4, with one of the sections of its peer, which
//! has a quarter of SECTIONS. bench/replay/speaker.toml is the configuration that fits.
//!
//! A long section has the attributes of a route from a large network, a short one ORIGIN, AS_PATH and NEXT_HOP alone.
//! An UPDATE has up to 100 prefixes of one section, which lie anywhere in the table; the peers are drained after every
//! tenth of each peer and at the end.

#[allow(dead_code)]
#[path = "../common/making.rs"]
mod making;
#[path = "../common/sessions.rs"]
mod sessions;

use making::{any_prefix, attributes, section, spelled, update, write, Draws, Prefix};
use sessions::{push_drains, push_octets, push_start};
use std::collections::HashSet;
use std::env;
use std::process::ExitCode;

const PEERS: [u16; 4] = [65001, 65002, 65003, 65000];

const UPDATE_PREFIXES: usize = 100;

const UPDATES_PER_DRAIN: usize = 10;

/// So many prefixes, each once, in no order.
fn prefixes(draws: &mut Draws, count: usize) -> Vec<Prefix> {
    let mut seen = HashSet::new();
    let mut prefixes = Vec::new();
    while prefixes.len() < count {
        let Prefix { addr, len } = any_prefix(draws);
        let addr = addr & u32::MAX << (32 - len);
        if seen.insert((addr, len)) {
            prefixes.push(Prefix { addr, len });
        }
    }
    prefixes
}

/// So many sections, each once.
fn sections(draws: &mut Draws, long: bool, count: usize) -> Vec<Vec<u8>> {
    let mut seen = HashSet::new();
    while seen.len() < count {
        let mut attributes = attributes(draws, 2);
        if !long {
            attributes.truncate(3);
        }
        seen.insert(section(&attributes));
    }
    let mut sections: Vec<Vec<u8>> = seen.into_iter().collect();
    sections.sort();
    sections
}

/// The UPDATEs of a peer: each of the prefixes with one of the sections.
fn updates(draws: &mut Draws, prefixes: &[Prefix], sections: &[Vec<u8>]) -> Vec<Vec<u8>> {
    let mut chosen = vec![Vec::new(); sections.len()];
    for prefix in prefixes {
        chosen[draws.below(sections.len() as u32) as usize].push(*prefix);
    }
    let mut updates = Vec::new();
    for (section, prefixes) in sections.iter().zip(&chosen) {
        for some in prefixes.chunks(UPDATE_PREFIXES) {
            updates.push(update(&[], section, &spelled(some)));
        }
    }
    updates
}

/// The UPDATEs of each peer.
fn all_updates(long: bool, sources: usize, count: usize, sections_count: usize) -> [Vec<Vec<u8>>; 4] {
    let mut draws = Draws(1);
    let prefixes = prefixes(&mut draws, count);
    [0, 1, 2, 3].map(|peer| {
        let own: Vec<Prefix> = match sources {
            1 => prefixes.iter().skip(peer).step_by(4).copied().collect(),
            _ => prefixes.clone(),
        };
        let sections = sections(&mut draws, long, sections_count / 4);
        updates(&mut draws, &own, &sections)
    })
}

fn log_of(updates: &[Vec<Vec<u8>>; 4]) -> String {
    let mut log = String::new();
    for (peer, asn) in (1..).zip(PEERS) {
        push_start(&mut log, peer, asn);
    }
    let turns = updates.iter().map(Vec::len).max().unwrap_or(0);
    for turn in 0..turns {
        for (peer, updates) in (1..).zip(updates) {
            if let Some(octets) = updates.get(turn) {
                push_octets(&mut log, peer, octets);
            }
        }
        if (turn + 1) % UPDATES_PER_DRAIN == 0 || turn + 1 == turns {
            push_drains(&mut log, 4);
        }
    }
    log
}

fn log_for(words: &[String]) -> Option<Vec<u8>> {
    let [kind, sources, prefixes, sections] = words else { return None };
    let long = match kind.as_str() {
        "long" => true,
        "short" => false,
        _ => return None,
    };
    let sources = sources.parse().ok().filter(|sources| matches!(sources, 1 | 4))?;
    let updates = all_updates(long, sources, prefixes.parse().ok()?, sections.parse().ok()?);
    Some(log_of(&updates).into_bytes())
}

fn main() -> ExitCode {
    let words: Vec<String> = env::args().skip(1).collect();
    write(log_for(&words), "logs short|long SOURCES PREFIXES SECTIONS")
}
