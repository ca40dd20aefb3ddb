//! The yardstick of `xbgp work NUMBER COUNT HOST`: the same events, the same decision and the same packing in plain
//! Rust, with the same text. There are no sessions and no programs: an UPDATE is read from its octets, decided,
//! exported to the four peers and packed for them at each drain.
//!
//! All prefixes are 172.16.0.0/24 to 172.31.255.0/24, so tables are arrays that a prefix's two middle octets index.
//! `yardstick log NUMBER COUNT` writes the same events as a log instead.

use std::collections::{BTreeSet, HashMap};
use std::io::{self, BufWriter, Write};
use std::process::ExitCode;
use std::rc::Rc;

const PEERS: usize = 4;
const INTERNAL: usize = 3;
const PEER_AS: [u16; PEERS] = [65001, 65002, 65003, 65000];
const SPEAKER_AS: u16 = 65000;
const SPEAKER: [u8; 4] = [10, 0, 0, 254];
const PREFIXES: usize = 16 * 256;
const UPDATES_PER_DRAIN: u32 = 100;
const MOST_OCTETS: usize = 4096;
const EMPTY_UPDATE: usize = 23;
const PREFIX_OCTETS: usize = 4;
const HEADER: [u8; 19] = [
    255, 255, 255, 255, 255, 255, 255, 255, 255, 255, 255, 255, 255, 255, 255, 255, 0, 0, 2,
];
/// What a session sends before its first UPDATE: an OPEN with the capability of four octets, and a KEEPALIVE.
const OPENING: u64 = 37 + 19;

const ORIGIN: u8 = 1;
const AS_PATH: u8 = 2;
const NEXT_HOP: u8 = 3;
const LOCAL_PREF: u8 = 5;
const AS_SEQUENCE: u8 = 2;
const DEFAULT_LOCAL_PREF: u32 = 100;

struct Generator(u64);

impl Generator {
    fn draw(&mut self, bound: u64) -> u64 {
        self.0 = self
            .0
            .wrapping_mul(6_364_136_223_846_793_005)
            .wrapping_add(1_442_695_040_888_963_407);
        (self.0 >> 33) % bound
    }
}

fn push_attribute(out: &mut Vec<u8>, code: u8, value: &[u8]) {
    out.extend_from_slice(&[0x40, code, value.len() as u8]);
    out.extend_from_slice(value);
}

fn set_length(message: &mut [u8]) {
    let len = message.len() as u16;
    message[16..18].copy_from_slice(&len.to_be_bytes());
}

/// Replaces the message by the next UPDATE, and returns the peer that sends it, from 0.
fn next_update(generator: &mut Generator, message: &mut Vec<u8>, path: &mut Vec<u8>) -> usize {
    let peer = generator.draw(PEERS as u64) as usize;
    let (a, b) = (16 + generator.draw(16) as u8, generator.draw(256) as u8);
    message.clear();
    message.extend_from_slice(&HEADER);
    if generator.draw(4) == 0 {
        message.extend_from_slice(&[0, 4, 24, 172, a, b, 0, 0]);
        set_length(message);
        return peer;
    }
    message.extend_from_slice(&[0, 0, 0, 0]);
    push_attribute(message, ORIGIN, &[generator.draw(3) as u8]);
    let drawn = generator.draw(4) as u8;
    let count = drawn + u8::from(peer != INTERNAL);
    path.clear();
    if count > 0 {
        path.extend_from_slice(&[AS_SEQUENCE, count]);
    }
    if peer != INTERNAL {
        path.extend_from_slice(&PEER_AS[peer].to_be_bytes());
    }
    for _ in 0..drawn {
        path.extend_from_slice(&(1 + generator.draw(64_000) as u16).to_be_bytes());
    }
    push_attribute(message, AS_PATH, path);
    push_attribute(message, NEXT_HOP, &[10, 0, 0, peer as u8 + 1]);
    if peer == INTERNAL {
        let preference = 100 + 10 * generator.draw(3) as u32;
        push_attribute(message, LOCAL_PREF, &preference.to_be_bytes());
    }
    let section = (message.len() - EMPTY_UPDATE) as u16;
    message[21..23].copy_from_slice(&section.to_be_bytes());
    message.extend_from_slice(&[24, 172, a, b]);
    set_length(message);
    peer
}

/// A route as it was received.
struct Route {
    degree: u32,
    hops: u8,
    origin: u8,
    path: Vec<u8>,
    next_hop: [u8; 4],
}

fn read_section(section: &[u8], peer: usize) -> Route {
    let mut route = Route {
        degree: DEFAULT_LOCAL_PREF,
        hops: 0,
        origin: 0,
        path: Vec::new(),
        next_hop: [0; 4],
    };
    let mut rest = section;
    while let [_, code, len, after @ ..] = rest {
        let (value, others) = after.split_at(usize::from(*len));
        match *code {
            ORIGIN => route.origin = value[0],
            AS_PATH => {
                route.hops = value.get(1).copied().unwrap_or(0);
                route.path.extend_from_slice(value);
            }
            NEXT_HOP => route.next_hop.copy_from_slice(value),
            LOCAL_PREF if peer == INTERNAL => {
                route.degree = u32::from_be_bytes([value[0], value[1], value[2], value[3]]);
            }
            _ => {}
        }
        rest = others;
    }
    route
}

/// The section with which a route goes to external peers.
fn to_external(route: &Route) -> Rc<[u8]> {
    let mut path = vec![AS_SEQUENCE, route.hops + 1];
    path.extend_from_slice(&SPEAKER_AS.to_be_bytes());
    path.extend_from_slice(route.path.get(2..).unwrap_or(&[]));
    let mut section = Vec::with_capacity(40);
    push_attribute(&mut section, ORIGIN, &[route.origin]);
    push_attribute(&mut section, AS_PATH, &path);
    push_attribute(&mut section, NEXT_HOP, &SPEAKER);
    section.into()
}

/// The section with which a route goes to the internal peer.
fn to_internal(route: &Route) -> Rc<[u8]> {
    let mut section = Vec::with_capacity(40);
    push_attribute(&mut section, ORIGIN, &[route.origin]);
    push_attribute(&mut section, AS_PATH, &route.path);
    push_attribute(&mut section, NEXT_HOP, &route.next_hop);
    push_attribute(&mut section, LOCAL_PREF, &route.degree.to_be_bytes());
    section.into()
}

/// What a peer is advertised and was told, and the prefixes at which they differ.
struct Told {
    advertised: Vec<Option<Rc<[u8]>>>,
    told: Vec<Option<Rc<[u8]>>>,
    pending: BTreeSet<usize>,
    octets: u64,
}

impl Told {
    fn new() -> Told {
        Told {
            advertised: vec![None; PREFIXES],
            told: vec![None; PREFIXES],
            pending: BTreeSet::new(),
            octets: OPENING,
        }
    }

    fn set(&mut self, prefix: usize, section: Option<Rc<[u8]>>) {
        if section == self.told[prefix] {
            self.pending.remove(&prefix);
        } else {
            self.pending.insert(prefix);
        }
        self.advertised[prefix] = section;
    }

    /// Notes that all is told that waits. Returns the prefixes to withdraw, and those to announce with their sections,
    /// both by rising order.
    fn take_pending(&mut self) -> (Vec<usize>, Vec<(usize, Rc<[u8]>)>) {
        let (mut gone, mut kept) = (Vec::new(), Vec::new());
        for prefix in std::mem::take(&mut self.pending) {
            self.told[prefix].clone_from(&self.advertised[prefix]);
            match &self.advertised[prefix] {
                Some(section) => kept.push((prefix, section.clone())),
                None => gone.push(prefix),
            }
        }
        (gone, kept)
    }

    fn send(&mut self, section: &[u8], prefixes: &[usize], message: &mut Vec<u8>) {
        let room = (MOST_OCTETS - EMPTY_UPDATE - section.len()) / PREFIX_OCTETS;
        for some in prefixes.chunks(room) {
            write_message(section, some, message);
            self.octets += message.len() as u64;
        }
    }

    fn drain(&mut self, grouped: bool, message: &mut Vec<u8>) {
        let (gone, kept) = self.take_pending();
        self.send(&[], &gone, message);
        let runs = if grouped { groups_of(&kept) } else { runs_of(&kept) };
        for (section, prefixes) in runs {
            self.send(section, &prefixes, message);
        }
    }
}

/// A section and prefixes that are announced with it.
type Announced<'a> = (&'a [u8], Vec<usize>);

/// Prefixes that follow one another with one section.
fn runs_of(kept: &[(usize, Rc<[u8]>)]) -> Vec<Announced<'_>> {
    kept.chunk_by(|a, b| a.1 == b.1)
        .map(|same| (&*same[0].1, same.iter().map(|(prefix, _)| *prefix).collect()))
        .collect()
}

/// All prefixes of a section, the sections by rising order of their first prefixes.
fn groups_of(kept: &[(usize, Rc<[u8]>)]) -> Vec<Announced<'_>> {
    let mut places = HashMap::new();
    let mut groups: Vec<Announced<'_>> = Vec::new();
    for (prefix, section) in kept {
        let place = *places.entry(section).or_insert(groups.len());
        if place == groups.len() {
            groups.push((section, Vec::new()));
        }
        groups[place].1.push(*prefix);
    }
    groups
}

/// Replaces the message by an UPDATE that withdraws the prefixes, if the section is empty, or announces them.
fn write_message(section: &[u8], prefixes: &[usize], message: &mut Vec<u8>) {
    let octets = (prefixes.len() * PREFIX_OCTETS) as u16;
    let withdrawn = if section.is_empty() { octets } else { 0 };
    message.clear();
    message.extend_from_slice(&HEADER);
    message.extend_from_slice(&withdrawn.to_be_bytes());
    if !section.is_empty() {
        message.extend_from_slice(&(section.len() as u16).to_be_bytes());
        message.extend_from_slice(section);
    }
    for prefix in prefixes {
        message.extend_from_slice(&[24, 172, 16 + (prefix >> 8) as u8, *prefix as u8]);
    }
    if section.is_empty() {
        message.extend_from_slice(&[0, 0]);
    }
    set_length(message);
}

struct Speaker {
    /// Each peer's route, by prefix.
    routes: Vec<[Option<Route>; PEERS]>,
    /// The peer of the best route.
    best: Vec<Option<usize>>,
    told: Vec<Told>,
}

impl Speaker {
    fn new() -> Speaker {
        Speaker {
            routes: (0..PREFIXES).map(|_| [None, None, None, None]).collect(),
            best: vec![None; PREFIXES],
            told: (0..PEERS).map(|_| Told::new()).collect(),
        }
    }

    fn take(&mut self, peer: usize, message: &[u8]) {
        let withdrawn = usize::from(u16::from_be_bytes([message[19], message[20]]));
        let (prefix, route) = if withdrawn > 0 {
            (&message[21..25], None)
        } else {
            let section = usize::from(u16::from_be_bytes([message[21], message[22]]));
            let (section, nlri) = message[EMPTY_UPDATE..].split_at(section);
            (nlri, Some(read_section(section, peer)))
        };
        let prefix = (usize::from(prefix[2]) - 16) << 8 | usize::from(prefix[3]);
        self.routes[prefix][peer] = route;
        self.decide(prefix);
        self.export(prefix);
    }

    /// There is no MED, so that routes are in one order: by degree, hops, origin, kind of peer and address.
    fn decide(&mut self, prefix: usize) {
        self.best[prefix] = (self.routes[prefix].iter().enumerate())
            .filter_map(|(peer, route)| {
                let route = route.as_ref()?;
                let key = (u32::MAX - route.degree, route.hops, route.origin, peer == INTERNAL);
                Some((key, peer))
            })
            .min()
            .map(|(_, peer)| peer);
    }

    fn export(&mut self, prefix: usize) {
        let best = self.best[prefix];
        let route = best.and_then(|peer| self.routes[prefix][peer].as_ref());
        let external = route.map(to_external);
        let internal = route.filter(|_| best != Some(INTERNAL)).map(to_internal);
        for (peer, told) in self.told.iter_mut().enumerate() {
            let section = match peer {
                _ if best == Some(peer) => None,
                INTERNAL => internal.clone(),
                _ => external.clone(),
            };
            told.set(prefix, section);
        }
    }
}

fn work(number: u64, count: u32, grouped: bool, out: &mut impl Write) -> io::Result<()> {
    let mut generator = Generator(number);
    let mut speaker = Speaker::new();
    let (mut message, mut path, mut wire) = (Vec::new(), Vec::new(), Vec::new());
    for done in 1..=count {
        let peer = next_update(&mut generator, &mut message, &mut path);
        speaker.take(peer, &message);
        if done % UPDATES_PER_DRAIN == 0 || done == count {
            for told in &mut speaker.told {
                told.drain(grouped, &mut wire);
            }
        }
    }
    writeln!(out, "updates {count}\nroutes {}", speaker.best.iter().flatten().count())?;
    for (peer, told) in speaker.told.iter().enumerate() {
        let advertised = told.advertised.iter().flatten().count();
        writeln!(out, "peer {} {advertised} {}", peer + 1, told.octets)?;
    }
    writeln!(out, "end")
}

fn write_octets(peer: usize, octets: &[u8], out: &mut impl Write) -> io::Result<()> {
    write!(out, "in {} ", peer + 1)?;
    for octet in octets {
        write!(out, "{octet:02x}")?;
    }
    writeln!(out)
}

fn write_drains(out: &mut impl Write) -> io::Result<()> {
    (1..=PEERS).try_for_each(|peer| writeln!(out, "drain {peer}"))
}

fn write_log(number: u64, count: u32, out: &mut impl Write) -> io::Result<()> {
    for (peer, asn) in PEER_AS.into_iter().enumerate() {
        let mut open = HEADER.to_vec();
        open[18] = 1;
        open.push(4);
        open.extend_from_slice(&asn.to_be_bytes());
        open.extend_from_slice(&[0, 0, 10, 0, 0, peer as u8 + 1, 0]);
        set_length(&mut open);
        let mut keepalive = HEADER.to_vec();
        keepalive[18] = 4;
        set_length(&mut keepalive);
        writeln!(out, "start {}\nup {}", peer + 1, peer + 1)?;
        write_octets(peer, &open, out)?;
        write_octets(peer, &keepalive, out)?;
    }
    let mut generator = Generator(number);
    let (mut message, mut path) = (Vec::new(), Vec::new());
    for done in 1..=count {
        let peer = next_update(&mut generator, &mut message, &mut path);
        write_octets(peer, &message, out)?;
        if done % UPDATES_PER_DRAIN == 0 {
            write_drains(out)?;
        }
    }
    write_drains(out)
}

fn main() -> ExitCode {
    let words: Vec<String> = std::env::args().skip(1).collect();
    let words: Vec<&str> = words.iter().map(String::as_str).collect();
    let mut out = BufWriter::new(io::stdout().lock());
    let numbers = |number: &str, count: &str| Some((number.parse().ok()?, count.parse().ok()?));
    let done = match words.as_slice() {
        ["work", number, count, host @ ("interned" | "listed")] => numbers(number, count)
            .map(|(number, count)| work(number, count, *host == "interned", &mut out)),
        ["log", number, count] => {
            numbers(number, count).map(|(number, count)| write_log(number, count, &mut out))
        }
        _ => None,
    };
    match done.map(|written| written.and_then(|()| out.flush())) {
        Some(Ok(())) => ExitCode::SUCCESS,
        Some(Err(_)) => ExitCode::FAILURE,
        None => {
            eprintln!("usage: yardstick work NUMBER COUNT interned|listed, or yardstick log NUMBER COUNT");
            ExitCode::from(2)
        }
    }
}
