//! The yardstick of `xbgp replay HOST CONFIG - LOG`: the same job in plain Rust, with the same text, for the logs that
//! logs.rs makes. `yardstick runs CONFIG LOG` counts how often chains of programs run at each point.
//!
//! One map has all that is known of a prefix: each peer's route, the best of them, and what each peer is advertised and
//! was told. So an event of a prefix costs one search of it. A route is kept as its parts, AS numbers in four octets;
//! what goes to peers of one kind is made once and shared. An UPDATE is judged in full. What logs.rs never makes ends
//! the program with status 70: sessions that close, timers, rests, AS numbers of four octets in a session, attributes
//! beyond the first seven.

#[allow(dead_code)]
#[path = "../common/reading.rs"]
mod reading;

use reading::{push_decimal, push_hex, Output};
use std::collections::{BTreeMap, BTreeSet, HashMap};
use std::io;
use std::process::{exit, ExitCode};
use std::rc::Rc;

const MARKER: [u8; 16] = [0xff; 16];
const MOST_OCTETS: usize = 4096;
const MOST_SECTION: usize = 4068;
const TRANSITIVE: u8 = 0x40;
const LONG: u8 = 0x10;

/// What this program does not do.
fn unsupported(what: &str) -> ! {
    eprintln!("yardstick: {what} is not supported");
    exit(70)
}

/// A prefix as one number, which orders by address and then by length.
type Prefix = u64;

fn push_prefix(text: &mut Vec<u8>, prefix: Prefix) {
    let addr = (prefix >> 8) as u32;
    for (i, octet) in addr.to_be_bytes().into_iter().enumerate() {
        if i > 0 {
            text.push(b'.');
        }
        push_decimal(text, u64::from(octet));
    }
    text.push(b'/');
    push_decimal(text, prefix & 0xff);
}

/// The prefix at the beginning of the octets, and those after it.
fn take_prefix(octets: &[u8]) -> (Prefix, &[u8]) {
    let len = octets[0];
    let width = usize::from(len.div_ceil(8));
    if len > 32 || octets.len() <= width {
        unsupported("a bad prefix");
    }
    let mut addr = [0; 4];
    addr[..width].copy_from_slice(&octets[1..=width]);
    let mask = u32::MAX.checked_shl(32 - u32::from(len)).unwrap_or(0);
    let addr = u32::from_be_bytes(addr) & mask;
    (u64::from(addr) << 8 | u64::from(len), &octets[1 + width..])
}

fn push_attribute(out: &mut Vec<u8>, flags: u8, code: u8, value: &[u8]) {
    match u8::try_from(value.len()) {
        Ok(len) => out.extend_from_slice(&[flags & !LONG, code, len]),
        Err(_) => {
            out.extend_from_slice(&[flags | LONG, code]);
            out.extend_from_slice(&(value.len() as u16).to_be_bytes());
        }
    }
    out.extend_from_slice(value);
}

#[derive(Clone, Copy, PartialEq, Eq)]
enum Kind {
    External,
    Internal,
}

#[derive(Clone, Copy, PartialEq, Eq, PartialOrd)]
enum State {
    Idle,
    Connect,
    OpenSent,
    OpenConfirm,
    Established,
}

struct Peer {
    asn: u32,
    address: u32,
    kind: Kind,
    id: u32,
    state: State,
    input: Vec<u8>,
    pending: BTreeSet<Prefix>,
}

/// The attributes of a route, AS numbers in four octets.
struct Route {
    origin: u8,
    path: Vec<u8>,
    next_hop: [u8; 4],
    med: Option<u32>,
    local_pref: Option<u32>,
    atomic: bool,
    aggregator: Option<[u8; 8]>,
    hops: u32,
    neighbour: u32,
}

/// The AS numbers of a path as RFC 4271 counts them, and the first of a leading sequence.
fn measure_path(path: &[u8]) -> (u32, Option<u32>) {
    let (mut hops, mut first, mut at) = (0, None, 0);
    while at < path.len() {
        let (set, count) = (path[at] == 1, u32::from(path[at + 1]));
        if at == 0 && !set {
            first = path[2..].first_chunk().map(|number| u32::from_be_bytes(*number));
        }
        hops += if set { 1 } else { count };
        at += 2 + 4 * count as usize;
    }
    (hops, first)
}

/// A path with numbers of two octets, as it is with four; `None` if it is damaged.
fn widened(path: &[u8]) -> Option<Vec<u8>> {
    let mut wide = Vec::with_capacity(2 * path.len());
    let mut rest = path;
    while let [kind @ (1 | 2), count, others @ ..] = rest {
        if *count == 0 {
            return None;
        }
        let (numbers, others) = others.split_at_checked(2 * usize::from(*count))?;
        wide.extend_from_slice(&[*kind, *count]);
        for number in numbers.chunks_exact(2) {
            wide.extend_from_slice(&[0, 0, number[0], number[1]]);
        }
        rest = others;
    }
    rest.is_empty().then_some(wide)
}

fn narrowed(path: &[u8]) -> Vec<u8> {
    let mut narrow = Vec::with_capacity(path.len());
    let mut at = 0;
    while at < path.len() {
        let end = at + 2 + 4 * usize::from(path[at + 1]);
        narrow.extend_from_slice(&path[at..at + 2]);
        for number in path[at + 2..end].chunks_exact(4) {
            if number[..2] != [0, 0] {
                unsupported("an AS number of four octets");
            }
            narrow.extend_from_slice(&number[2..]);
        }
        at = end;
    }
    narrow
}

fn is_host(address: &[u8; 4]) -> bool {
    !matches!(address[0], 0 | 127 | 224..)
}

/// Judges the section of an UPDATE that announces prefixes and takes its route; `None` if it has a fault.
fn judge(section: &[u8], internal: bool) -> Option<Route> {
    let mut route = Route {
        origin: 0,
        path: Vec::new(),
        next_hop: [0; 4],
        med: None,
        local_pref: None,
        atomic: false,
        aggregator: None,
        hops: 0,
        neighbour: 0,
    };
    let (mut seen, mut rest) = (0u8, section);
    while !rest.is_empty() {
        let [flags, code, ..] = *rest else { return None };
        let (len, others) = match flags & LONG {
            0 => (usize::from(*rest.get(2)?), rest.get(3..)?),
            _ => (usize::from(u16::from_be_bytes(*rest.get(2..)?.first_chunk()?)), rest.get(4..)?),
        };
        let (value, others) = others.split_at_checked(len)?;
        rest = others;
        if !(1..=7).contains(&code) {
            unsupported("an attribute beyond the first seven");
        }
        let wanted = match code {
            4 => 0x80,
            7 => 0xc0,
            _ => 0x40,
        };
        if flags & 0xc0 != wanted || (code != 7 && flags & 0x20 != 0) || seen & (1 << code) != 0 {
            return None;
        }
        seen |= 1 << code;
        match code {
            1 => match value {
                [origin @ 0..=2] => route.origin = *origin,
                _ => return None,
            },
            2 => route.path = widened(value)?,
            3 => {
                route.next_hop = value.try_into().ok()?;
                if !is_host(&route.next_hop) {
                    return None;
                }
            }
            4 => route.med = Some(u32::from_be_bytes(value.try_into().ok()?)),
            5 => {
                let preference = u32::from_be_bytes(value.try_into().ok()?);
                route.local_pref = internal.then_some(preference);
            }
            6 => {
                if !value.is_empty() {
                    return None;
                }
                route.atomic = true;
            }
            _ => {
                let [a, b, rest @ ..] = *<&[u8; 6]>::try_from(value).ok()?;
                let mut wide = [0, 0, a, b, 0, 0, 0, 0];
                wide[4..].copy_from_slice(&rest);
                route.aggregator = Some(wide);
            }
        }
    }
    if seen & 0b1110 != 0b1110 {
        return None;
    }
    Some(route)
}

/// A route's canonical section, with AS numbers of four octets.
fn canonical(route: &Route) -> Vec<u8> {
    let mut out = Vec::with_capacity(64);
    push_attribute(&mut out, TRANSITIVE, 1, &[route.origin]);
    push_attribute(&mut out, TRANSITIVE, 2, &route.path);
    push_attribute(&mut out, TRANSITIVE, 3, &route.next_hop);
    if let Some(med) = route.med {
        push_attribute(&mut out, 0x80, 4, &med.to_be_bytes());
    }
    if let Some(preference) = route.local_pref {
        push_attribute(&mut out, TRANSITIVE, 5, &preference.to_be_bytes());
    }
    push_end(&mut out, route, 8);
    out
}

/// The attributes that no export changes, the AGGREGATOR's AS in so many octets less than eight.
fn push_end(out: &mut Vec<u8>, route: &Route, octets: usize) {
    if route.atomic {
        push_attribute(out, TRANSITIVE, 6, &[]);
    }
    if let Some(aggregator) = &route.aggregator {
        push_attribute(out, 0xc0, 7, &aggregator[8 - octets..]);
    }
}

/// What every prefix has.
struct Entry {
    routes: Vec<Option<Rc<Route>>>,
    best: Option<usize>,
    adv: Vec<Option<Rc<[u8]>>>,
    told: Vec<Option<Rc<[u8]>>>,
}

/// How announcements are packed: SORTED by `listed`, GROUPED by `interned`.
#[derive(Clone, Copy)]
enum Packing {
    Sorted,
    Grouped,
}

struct Speaker {
    asn: u32,
    id: u32,
    address: u32,
    hold: u16,
    local_pref: u32,
    packing: Packing,
    peers: Vec<Peer>,
    table: BTreeMap<Prefix, Entry>,
    runs: Runs,
}

/// How often a chain of programs would run at each point, if none of them changed anything.
#[derive(Default)]
struct Runs {
    receive: u64,
    inbound: u64,
    decision: u64,
    outbound: u64,
    encode: u64,
}

impl Speaker {
    fn rank(&self, peer: usize, route: &Route) -> impl Ord {
        let from = &self.peers[peer];
        let degree = route.local_pref.unwrap_or(self.local_pref);
        let internal = from.kind == Kind::Internal;
        (!degree, route.hops, route.origin, internal, from.id, from.address)
    }

    /// The best of the routes: MED counts among routes of one neighbour alone.
    fn best(&self, routes: &[Option<Rc<Route>>]) -> Option<usize> {
        let has_med = routes.iter().flatten().any(|route| route.med.is_some());
        if has_med {
            unsupported("MED");
        }
        let there = routes.iter().enumerate();
        let there = there.filter_map(|(peer, route)| route.as_ref().map(|route| (peer, route)));
        there.min_by_key(|(peer, route)| self.rank(*peer, route)).map(|(peer, _)| peer)
    }

    fn external_section(&self, route: &Route) -> Rc<[u8]> {
        let mut path = vec![2, 1];
        path.extend_from_slice(&(self.asn as u16).to_be_bytes());
        let old = narrowed(&route.path);
        match old.first_chunk() {
            Some([2, count @ 0..=254]) => {
                path[1] += count;
                path.extend_from_slice(&old[2..]);
            }
            _ => path.extend_from_slice(&old),
        }
        let mut out = Vec::with_capacity(64);
        push_attribute(&mut out, TRANSITIVE, 1, &[route.origin]);
        push_attribute(&mut out, TRANSITIVE, 2, &path);
        push_attribute(&mut out, TRANSITIVE, 3, &self.address.to_be_bytes());
        push_end(&mut out, route, 6);
        out.into()
    }

    fn internal_section(&self, route: &Route) -> Rc<[u8]> {
        let mut out = Vec::with_capacity(64);
        push_attribute(&mut out, TRANSITIVE, 1, &[route.origin]);
        push_attribute(&mut out, TRANSITIVE, 2, &narrowed(&route.path));
        push_attribute(&mut out, TRANSITIVE, 3, &route.next_hop);
        let preference = route.local_pref.unwrap_or(self.local_pref);
        push_attribute(&mut out, TRANSITIVE, 5, &preference.to_be_bytes());
        push_end(&mut out, route, 6);
        out.into()
    }

    /// Decides a prefix and exports it to the peers that are Established.
    fn settle(&mut self, prefix: Prefix, mut entry: Entry) {
        entry.best = self.best(&entry.routes);
        let candidates = entry.routes.iter().flatten().count() as u64;
        self.runs.decision += candidates.saturating_sub(1);
        let route = entry.best.and_then(|peer| entry.routes[peer].clone());
        let mut made: [Option<Rc<[u8]>>; 2] = [None, None];
        for peer in 0..self.peers.len() {
            if self.peers[peer].state != State::Established {
                continue;
            }
            let kind = self.peers[peer].kind;
            self.runs.outbound += u64::from(route.is_some());
            let section = match (&route, entry.best) {
                (Some(route), Some(source)) if self.is_exported(source, peer) => {
                    self.runs.encode += 1;
                    let made = &mut made[usize::from(kind == Kind::Internal)];
                    let section = made.get_or_insert_with(|| match kind {
                        Kind::External => self.external_section(route),
                        Kind::Internal => self.internal_section(route),
                    });
                    (section.len() <= MOST_SECTION).then(|| section.clone())
                }
                _ => None,
            };
            entry.adv[peer] = section;
            if entry.adv[peer] == entry.told[peer] {
                self.peers[peer].pending.remove(&prefix);
            } else {
                self.peers[peer].pending.insert(prefix);
            }
        }
        self.table.insert(prefix, entry);
    }

    fn is_exported(&self, source: usize, peer: usize) -> bool {
        let both = |kind| self.peers[source].kind == kind && self.peers[peer].kind == kind;
        source != peer && !both(Kind::Internal)
    }

    /// Sets or removes a peer's route of a prefix, and settles it.
    fn place(&mut self, peer: usize, prefix: Prefix, route: Option<Rc<Route>>) {
        let count = self.peers.len();
        let mut entry = self.table.remove(&prefix).unwrap_or_else(|| Entry {
            routes: vec![None; count],
            best: None,
            adv: vec![None; count],
            told: vec![None; count],
        });
        entry.routes[peer] = route;
        self.settle(prefix, entry);
    }

    /// Whether a path has the speaker's own AS.
    fn loops(&self, path: &[u8]) -> bool {
        let mut at = 0;
        while at < path.len() {
            let end = at + 2 + 4 * usize::from(path[at + 1]);
            let own = self.asn.to_be_bytes();
            if path[at + 2..end].chunks_exact(4).any(|number| number == own) {
                return true;
            }
            at = end;
        }
        false
    }

    fn update(&mut self, peer: usize, body: &[u8]) {
        let Some(parts) = reading::Update::new(body) else { unsupported("a damaged UPDATE") };
        let (mut withdrawn, mut announced) = (parts.withdrawn, parts.nlri);
        while !withdrawn.is_empty() {
            let (prefix, rest) = take_prefix(withdrawn);
            withdrawn = rest;
            self.place(peer, prefix, None);
        }
        if announced.is_empty() {
            return;
        }
        let internal = self.peers[peer].kind == Kind::Internal;
        let Some(mut route) = judge(parts.section, internal) else { unsupported("a damaged UPDATE") };
        let (hops, first) = measure_path(&route.path);
        route.hops = hops;
        route.neighbour = first.unwrap_or(self.peers[peer].asn);
        self.runs.receive += 1;
        let accepted = !self.loops(&route.path) && route.next_hop != self.address.to_be_bytes();
        let route = accepted.then(|| Rc::new(route));
        while !announced.is_empty() {
            let (prefix, rest) = take_prefix(announced);
            announced = rest;
            self.runs.inbound += 1;
            self.place(peer, prefix, route.clone());
        }
    }

    fn open_message(&self) -> Vec<u8> {
        let mut octets = MARKER.to_vec();
        octets.extend([0, 37, 1, 4]);
        octets.extend((self.asn as u16).to_be_bytes());
        octets.extend(self.hold.to_be_bytes());
        octets.extend(self.id.to_be_bytes());
        octets.extend([8, 2, 6, 65, 4]);
        octets.extend(self.asn.to_be_bytes());
        octets
    }

    fn message(&mut self, peer: usize, kind: u8, body: &[u8], out: &mut Output) -> io::Result<()> {
        match (kind, self.peers[peer].state) {
            (1, State::OpenSent) => {
                if body.len() < 10 || u32::from(u16::from_be_bytes([body[1], body[2]])) != self.peers[peer].asn {
                    unsupported("an OPEN with a fault");
                }
                if body[3..5] != [0, 0] || body[9] != 0 {
                    unsupported("an OPEN with a hold time or parameters");
                }
                self.peers[peer].id = u32::from_be_bytes([body[5], body[6], body[7], body[8]]);
                self.peers[peer].state = State::OpenConfirm;
                sent(out, peer, &KEEPALIVE)
            }
            (4, State::OpenConfirm) => {
                self.peers[peer].state = State::Established;
                out.text.extend_from_slice(b"up ");
                push_decimal(&mut out.text, peer as u64 + 1);
                out.end_line()?;
                let known: Vec<Prefix> = self.table.keys().copied().collect();
                for prefix in known {
                    if let Some(entry) = self.table.remove(&prefix) {
                        self.settle(prefix, entry);
                    }
                }
                Ok(())
            }
            (4, State::Established) => Ok(()),
            (2, State::Established) => {
                self.update(peer, body);
                Ok(())
            }
            _ => unsupported("a message out of its turn"),
        }
    }

    fn octets(&mut self, peer: usize, out: &mut Output) -> io::Result<()> {
        let input = std::mem::take(&mut self.peers[peer].input);
        let mut rest = input.as_slice();
        while let Some(header) = rest.first_chunk::<19>() {
            let len = usize::from(u16::from_be_bytes([header[16], header[17]]));
            if header[..16] != MARKER || !(19..=MOST_OCTETS).contains(&len) {
                unsupported("a damaged header");
            }
            let Some((message, others)) = rest.split_at_checked(len) else { break };
            rest = others;
            self.message(peer, message[18], &message[19..], out)?;
        }
        let mut kept = rest.to_vec();
        if kept.is_empty() {
            kept = input;
            kept.clear();
        }
        self.peers[peer].input = kept;
        Ok(())
    }

    /// Notes that a peer is told all that waits for it. Returns the prefixes to withdraw, and those to announce with
    /// their sections, both by rising order.
    fn take_pending(&mut self, peer: usize) -> (Vec<Prefix>, Vec<(Prefix, Rc<[u8]>)>) {
        let (mut gone, mut kept) = (Vec::new(), Vec::new());
        for prefix in std::mem::take(&mut self.peers[peer].pending) {
            let Some(entry) = self.table.get_mut(&prefix) else { continue };
            entry.told[peer].clone_from(&entry.adv[peer]);
            match &entry.adv[peer] {
                Some(section) => kept.push((prefix, section.clone())),
                None => gone.push(prefix),
            }
        }
        (gone, kept)
    }

    fn drain(&mut self, peer: usize, wire: &mut Vec<u8>, out: &mut Output) -> io::Result<()> {
        let (gone, kept) = self.take_pending(peer);
        let mut rest = gone.as_slice();
        while !rest.is_empty() {
            rest = write_message(wire, &[], rest);
            sent(out, peer, wire)?;
        }
        let runs = match self.packing {
            Packing::Sorted => runs_of(&kept),
            Packing::Grouped => groups_of(&kept),
        };
        for (section, prefixes) in runs {
            write_message(wire, section, &prefixes);
            sent(out, peer, wire)?;
        }
        Ok(())
    }

    fn print_tables(&self, out: &mut Output) -> io::Result<()> {
        for (prefix, entry) in &self.table {
            let Some(peer) = entry.best else { continue };
            let Some(route) = &entry.routes[peer] else { continue };
            out.text.extend_from_slice(b"route ");
            push_prefix(&mut out.text, *prefix);
            out.text.push(b' ');
            push_decimal(&mut out.text, peer as u64 + 1);
            out.text.push(b' ');
            push_hex(&mut out.text, &canonical(route));
            out.end_line()?;
        }
        for peer in 0..self.peers.len() {
            for (prefix, entry) in &self.table {
                let Some(section) = &entry.adv[peer] else { continue };
                out.text.extend_from_slice(b"adv ");
                push_decimal(&mut out.text, peer as u64 + 1);
                out.text.push(b' ');
                push_prefix(&mut out.text, *prefix);
                out.text.push(b' ');
                push_hex(&mut out.text, section);
                out.end_line()?;
            }
        }
        for (peer, state) in self.peers.iter().enumerate() {
            if state.state == State::Established && state.pending.is_empty() {
                out.text.extend_from_slice(b"drained ");
                push_decimal(&mut out.text, peer as u64 + 1);
                out.end_line()?;
            }
        }
        out.text.extend_from_slice(b"end");
        out.end_line()
    }
}

const KEEPALIVE: [u8; 19] = {
    let mut octets = [0xff; 19];
    octets[16] = 0;
    octets[17] = 19;
    octets[18] = 4;
    octets
};

/// The octets that a prefix takes in a message.
fn width(prefix: Prefix) -> usize {
    1 + ((prefix & 0xff) as usize).div_ceil(8)
}

/// How many of the prefixes fit into one message with the section.
fn fitting(section: &[u8], prefixes: impl IntoIterator<Item = Prefix>) -> usize {
    let mut room = MOST_OCTETS - 23 - section.len();
    let fits = |prefix: &Prefix| {
        let left = room.checked_sub(width(*prefix));
        room = left.unwrap_or(0);
        left.is_some()
    };
    prefixes.into_iter().take_while(fits).count()
}

/// A section, and the prefixes that one message announces with it.
type Announced<'a> = (&'a [u8], Vec<Prefix>);

/// The announcements of `listed`: prefixes that follow one another with one section.
fn runs_of(kept: &[(Prefix, Rc<[u8]>)]) -> Vec<Announced<'_>> {
    let mut runs = Vec::new();
    for same in kept.chunk_by(|a, b| a.1 == b.1) {
        split(&same[0].1, same.iter().map(|(prefix, _)| *prefix).collect(), &mut runs);
    }
    runs
}

/// The announcements of `interned`: all prefixes with one section.
fn groups_of(kept: &[(Prefix, Rc<[u8]>)]) -> Vec<Announced<'_>> {
    let mut places = HashMap::new();
    let mut groups: Vec<Announced<'_>> = Vec::new();
    for (prefix, section) in kept {
        let place = *places.entry(section).or_insert(groups.len());
        if place == groups.len() {
            groups.push((section, Vec::new()));
        }
        groups[place].1.push(*prefix);
    }
    let mut messages = Vec::new();
    for (section, prefixes) in groups {
        split(section, prefixes, &mut messages);
    }
    messages.sort_unstable_by_key(|(_, prefixes)| prefixes[0]);
    messages
}

/// Cuts the prefixes of one section into as few messages as they fit into.
fn split<'a>(section: &'a [u8], mut prefixes: Vec<Prefix>, messages: &mut Vec<Announced<'a>>) {
    loop {
        let rest = prefixes.split_off(fitting(section, prefixes.iter().copied()));
        messages.push((section, prefixes));
        if rest.is_empty() {
            return;
        }
        prefixes = rest;
    }
}

/// Writes an UPDATE that withdraws the prefixes, if the section is empty, or announces them. Returns those that
/// didn't fit.
fn write_message<'a>(wire: &mut Vec<u8>, section: &[u8], prefixes: &'a [Prefix]) -> &'a [Prefix] {
    let (named, rest) = prefixes.split_at(fitting(section, prefixes.iter().copied()));
    let octets: usize = named.iter().map(|prefix| width(*prefix)).sum();
    let withdrawn = if section.is_empty() { octets } else { 0 };
    wire.clear();
    wire.extend_from_slice(&MARKER);
    wire.extend_from_slice(&((23 + section.len() + octets) as u16).to_be_bytes());
    wire.push(2);
    wire.extend_from_slice(&(withdrawn as u16).to_be_bytes());
    if !section.is_empty() {
        wire.extend_from_slice(&(section.len() as u16).to_be_bytes());
        wire.extend_from_slice(section);
    }
    for prefix in named {
        wire.push(*prefix as u8);
        wire.extend_from_slice(&((*prefix >> 8) as u32).to_be_bytes()[..width(*prefix) - 1]);
    }
    if section.is_empty() {
        wire.extend_from_slice(&[0, 0]);
    }
    rest
}

fn sent(out: &mut Output, peer: usize, octets: &[u8]) -> io::Result<()> {
    out.text.extend_from_slice(b"sent ");
    push_decimal(&mut out.text, peer as u64 + 1);
    out.text.push(b' ');
    push_hex(&mut out.text, octets);
    out.end_line()
}

/// The values of the digits; 255 for what is no digit.
const VALUES: [u8; 256] = {
    let mut values = [255; 256];
    let mut digit = 0;
    while digit < 16 {
        values[b"0123456789abcdef"[digit] as usize] = digit as u8;
        values[b"0123456789ABCDEF"[digit] as usize] = digit as u8;
        digit += 1;
    }
    values
};

fn push_octets(octets: &mut Vec<u8>, digits: &[u8]) {
    octets.extend(digits.chunks_exact(2).map(|pair| {
        let (high, low) = (VALUES[usize::from(pair[0])], VALUES[usize::from(pair[1])]);
        if high | low > 15 {
            unsupported("what is no digit");
        }
        high << 4 | low
    }));
}

fn peer_of(word: &[u8], peers: usize) -> usize {
    let number = std::str::from_utf8(word).ok().and_then(|word| word.parse::<usize>().ok());
    match number {
        Some(number) if (1..=peers).contains(&number) => number - 1,
        _ => unsupported("a peer that isn't configured"),
    }
}

fn play_line(speaker: &mut Speaker, line: &[u8], wire: &mut Vec<u8>, out: &mut Output) -> io::Result<()> {
    let count = speaker.peers.len();
    if let Some(rest) = line.strip_prefix(b"in ") {
        let Some(space) = rest.iter().position(|octet| *octet == b' ') else { unsupported("a bad line") };
        let peer = peer_of(&rest[..space], count);
        if speaker.peers[peer].state < State::OpenSent {
            return Ok(());
        }
        push_octets(&mut speaker.peers[peer].input, &rest[space + 1..]);
        return speaker.octets(peer, out);
    }
    if let Some(word) = line.strip_prefix(b"drain ") {
        let peer = peer_of(word, count);
        return speaker.drain(peer, wire, out);
    }
    if let Some(word) = line.strip_prefix(b"start ") {
        speaker.peers[peer_of(word, count)].state = State::Connect;
        return Ok(());
    }
    if let Some(word) = line.strip_prefix(b"up ") {
        let peer = peer_of(word, count);
        speaker.peers[peer].state = State::OpenSent;
        return sent(out, peer, &speaker.open_message());
    }
    if line.is_empty() || line[0] == b'#' {
        return Ok(());
    }
    unsupported("a line of another kind")
}

fn dotted(text: &str) -> Option<u32> {
    let octets: Option<Vec<u8>> = text.split('.').map(|part| part.parse().ok()).collect();
    Some(u32::from_be_bytes(octets?.try_into().ok()?))
}

/// The speaker of a configuration in the form of speaker.toml, a key a line.
fn configured(text: &str, packing: Packing) -> Option<Speaker> {
    let mut speaker = Speaker {
        asn: 0,
        id: 0,
        address: 0,
        hold: 90,
        local_pref: 100,
        packing,
        peers: Vec::new(),
        table: BTreeMap::new(),
        runs: Runs::default(),
    };
    for line in text.lines() {
        let Some((key, value)) = line.split_once(" = ") else {
            if line == "[[peer]]" {
                speaker.peers.push(Peer {
                    asn: 0,
                    address: 0,
                    kind: Kind::External,
                    id: 0,
                    state: State::Idle,
                    input: Vec::new(),
                    pending: BTreeSet::new(),
                });
            }
            continue;
        };
        let value = value.trim_matches('"');
        match (key, speaker.peers.last_mut()) {
            ("as", None) => speaker.asn = value.parse().ok()?,
            ("id", None) => speaker.id = dotted(value)?,
            ("address", None) => speaker.address = dotted(value)?,
            ("hold", None) => speaker.hold = value.parse().ok()?,
            ("local_pref", None) => speaker.local_pref = value.parse().ok()?,
            ("as", Some(peer)) => peer.asn = value.parse().ok()?,
            ("address", Some(peer)) => peer.address = dotted(value)?,
            _ => return None,
        }
    }
    for peer in &mut speaker.peers {
        if peer.asn == speaker.asn {
            peer.kind = Kind::Internal;
        }
    }
    Some(speaker)
}

/// Plays the log, and returns the speaker after it.
fn play(packing: Packing, config: &str, log: &str, out: &mut Output) -> io::Result<Speaker> {
    let Some(mut speaker) = configured(&std::fs::read_to_string(config)?, packing) else {
        unsupported("this configuration")
    };
    let log = std::fs::read(log)?;
    let mut wire = Vec::new();
    for line in log.split(|octet| *octet == b'\n') {
        play_line(&mut speaker, line, &mut wire, out)?;
    }
    Ok(speaker)
}

fn replay(packing: Packing, config: &str, log: &str) -> io::Result<()> {
    let mut out = Output::new();
    play(packing, config, log, &mut out)?.print_tables(&mut out)?;
    out.flush()
}

/// In place of the tables, how often chains run at receive, inbound, decision, outbound and encode.
fn count_runs(config: &str, log: &str) -> io::Result<()> {
    let mut out = Output::new();
    let runs = play(Packing::Sorted, config, log, &mut out)?.runs;
    let counts = [runs.receive, runs.inbound, runs.decision, runs.outbound, runs.encode];
    for (i, count) in counts.into_iter().enumerate() {
        if i > 0 {
            out.text.push(b' ');
        }
        push_decimal(&mut out.text, count);
    }
    out.end_line()?;
    out.flush()
}

fn main() -> ExitCode {
    let words: Vec<String> = std::env::args().skip(1).collect();
    let words: Vec<&str> = words.iter().map(String::as_str).collect();
    let done = match words.as_slice() {
        ["replay", "listed", config, "-", log] => replay(Packing::Sorted, config, log),
        ["replay", "interned", config, "-", log] => replay(Packing::Grouped, config, log),
        ["runs", config, log] => count_runs(config, log),
        _ => {
            eprintln!("usage: yardstick replay listed|interned CONFIG - LOG, or yardstick runs CONFIG LOG");
            return ExitCode::from(2);
        }
    };
    match done {
        Ok(()) => ExitCode::SUCCESS,
        Err(_) => ExitCode::FAILURE,
    }
}
