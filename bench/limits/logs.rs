//! Writes to standard output, the same at each run: `logs config` a configuration at its limits, with 64 peers, 1,024
//! local networks and 1,024 interior costs; `logs log PREFIXES OCTETS` an event log for it of at most so many octets.
//!
//! One peer in four is internal. After the sessions have come up each UPDATE announces the next one of so many
//! prefixes, again and again, from a peer that is drawn, with the attributes of a route from a large network and one
//! more that no speaker knows; one UPDATE in 32 withdraws a prefix in its place. All peers are drained after every
//! thousandth UPDATE and at the end. At 671 octets a prefix, as in run, each prefix is announced once, some twice.

#[allow(dead_code)]
#[path = "../common/making.rs"]
mod making;
#[path = "../common/sessions.rs"]
mod sessions;

use making::{attributes, section, spelled, update, write, Attribute, Draws, Prefix};
use sessions::{push_drains, push_octets, push_start};
use std::env;
use std::fmt::Write;
use std::process::ExitCode;

const PEERS: u32 = 64;
const NETWORKS: u32 = 1024;
const COSTS: u32 = 1024;
const OWN_AS: u16 = 65000;
const UPDATES_PER_DRAIN: u32 = 1000;

fn as_of(peer: u32) -> u16 {
    if peer % 4 == 0 {
        OWN_AS
    } else {
        OWN_AS + peer as u16
    }
}

fn config() -> String {
    let networks: Vec<String> = (0..NETWORKS)
        .map(|i| format!("\"100.{}.{}.0/24\"", 64 + i / 256, i % 256))
        .collect();
    let mut text = format!(
        "[speaker]\nas = {OWN_AS}\nid = \"10.0.0.254\"\naddress = \"10.0.0.254\"\nhold = 0\nnetworks = [{}]\n",
        networks.join(", ")
    );
    for peer in 1..=PEERS {
        let _ = write!(text, "\n[[peer]]\nas = {}\naddress = \"10.0.0.{peer}\"\n", as_of(peer));
    }
    // The next hops of the log, which begin with 192.0.2, are among them.
    for i in 0..COSTS {
        let _ = write!(text, "\n[[cost]]\nnext_hop = \"192.0.{}.{}\"\ncost = {}\n", i / 256, i % 256, i % 7);
    }
    text
}

/// The prefix of a number up to 2^20.
fn prefix(number: u32) -> Vec<u8> {
    spelled(&[Prefix { addr: 1 << 28 | number << 8, len: 24 }])
}

/// Draws UPDATEs, each with its peer.
struct Maker {
    draws: Draws,
    prefixes: u32,
    announced: u32,
    /// The last peer that announced each prefix so far.
    sources: Vec<u32>,
}

impl Maker {
    fn withdrawal(&mut self) -> (u32, Vec<u8>) {
        let number = self.draws.below(self.sources.len() as u32);
        let peer = self.sources[number as usize];
        (peer, update(&prefix(number), &[], &[]))
    }

    fn announcement(&mut self) -> (u32, Vec<u8>) {
        let peer = 1 + self.draws.below(PEERS);
        let number = self.announced % self.prefixes;
        self.announced += 1;
        match self.sources.get_mut(number as usize) {
            Some(source) => *source = peer,
            None => self.sources.push(peer),
        }
        let mut attributes = attributes(&mut self.draws, 2);
        let unknown = self.draws.below(256);
        attributes.push(Attribute::new(0xe0, 241, self.draws.octets(unknown)));
        (peer, update(&[], &section(&attributes), &prefix(number)))
    }

    fn next(&mut self) -> (u32, Vec<u8>) {
        if !self.sources.is_empty() && self.draws.one_in(32) {
            self.withdrawal()
        } else {
            self.announcement()
        }
    }
}

fn log_of(prefixes: u32, octets: usize) -> String {
    let mut maker = Maker {
        draws: Draws(1),
        prefixes,
        announced: 0,
        sources: Vec::new(),
    };
    let mut log = String::with_capacity(octets);
    for peer in 1..=PEERS {
        push_start(&mut log, peer, as_of(peer));
    }
    let mut drains = String::new();
    push_drains(&mut drains, PEERS);
    let mut turn = 0;
    loop {
        let (peer, message) = maker.next();
        // The longest line has `in 64 ` before its octets.
        if log.len() + 7 + 2 * message.len() + 2 * drains.len() > octets {
            log.push_str(&drains);
            return log;
        }
        push_octets(&mut log, peer, &message);
        turn += 1;
        if turn % UPDATES_PER_DRAIN == 0 {
            log.push_str(&drains);
        }
    }
}

fn main() -> ExitCode {
    let words: Vec<String> = env::args().skip(1).collect();
    let words: Vec<&str> = words.iter().map(String::as_str).collect();
    let text = match words.as_slice() {
        ["config"] => Some(config()),
        ["log", prefixes, octets] => match (prefixes.parse(), octets.parse()) {
            (Ok(prefixes @ 1..=1_048_576), Ok(octets)) => Some(log_of(prefixes, octets)),
            _ => None,
        },
        _ => None,
    };
    write(text.map(String::into_bytes), "logs config, or logs log PREFIXES OCTETS")
}
