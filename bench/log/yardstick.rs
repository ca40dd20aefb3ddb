//! A plain Rust program of the job of crates/bench_log: reads an event log and prints how many events and octets its lines
//! say. `file LOG` reads the log once, `memory LOG` parses its lines 64 times over.
//!
//! A line is parsed where it is, in one pass over its words; a file is read by blocks, and only the line that a block cuts
//! is moved.

use std::env;
use std::fs::File;
use std::hint::black_box;
use std::io::{BufRead, Read};
use std::process::ExitCode;

const TIMES: u32 = 64;
const PEERS: u32 = 64;
const LINE_LIMIT: usize = 8400;
const LOG_LIMIT: usize = 67_108_864;

/// How many octets of a file are in memory at once; a line fits in them several times.
const BLOCK: usize = 65_536;

#[allow(dead_code)]
enum Event<'a> {
    Start(u32),
    Stop(u32),
    Up(u32),
    Down(u32),
    Octets(u32, &'a [u8]),
    Time(u32),
    Room(u32, u32),
    Drain(u32),
    Rescan,
}

enum Line<'a> {
    Blank,
    Event(Event<'a>),
}

fn number(text: &[u8], least: u32, most: u32) -> Option<u32> {
    if text.is_empty() || text.len() > 10 || (text.len() > 1 && text[0] == b'0') {
        return None;
    }
    let mut value = 0u64;
    for c in text {
        let digit = c.wrapping_sub(b'0');
        if digit > 9 {
            return None;
        }
        value = 10 * value + u64::from(digit);
    }
    (u64::from(least) <= value && value <= u64::from(most)).then_some(value as u32)
}

/// The text before the first space, and what follows the space.
fn split(text: &[u8]) -> Option<(&[u8], &[u8])> {
    let end = text.iter().position(|c| *c == b' ')?;
    Some((&text[..end], &text[end + 1..]))
}

const BAD: u16 = 0xffff;

/// The octet that each two digits write, by both as one number.
static PAIRS: [u16; 65_536] = {
    let mut pairs = [BAD; 65_536];
    let digits = b"0123456789abcdefABCDEF";
    let mut i = 0;
    while i < 22 {
        let mut j = 0;
        while j < 22 {
            let high = if i < 16 { i } else { i - 6 };
            let low = if j < 16 { j } else { j - 6 };
            pairs[digits[i] as usize + 256 * digits[j] as usize] = (16 * high + low) as u16;
            j += 1;
        }
        i += 1;
    }
    pairs
};

fn read_hex(text: &[u8], octets: &mut Vec<u8>) -> Option<()> {
    octets.clear();
    if text.is_empty() || text.len() % 2 != 0 {
        return None;
    }
    octets.resize(text.len() / 2, 0);
    let mut seen = 0;
    for (octet, pair) in octets.iter_mut().zip(text.chunks_exact(2)) {
        let value = PAIRS[usize::from(u16::from_le_bytes([pair[0], pair[1]]))];
        seen |= value;
        *octet = value as u8;
    }
    (seen < 256).then_some(())
}

fn peer(text: &[u8]) -> Option<u32> {
    number(text, 1, PEERS)
}

fn parse<'a>(line: &[u8], now: u32, octets: &'a mut Vec<u8>) -> Option<Line<'a>> {
    if line.first().is_none_or(|c| *c == b'#') {
        return Some(Line::Blank);
    }
    let Some((word, arguments)) = split(line) else {
        return (line == b"rescan").then_some(Line::Event(Event::Rescan));
    };
    Some(Line::Event(match word {
        b"in" => {
            let (word, digits) = split(arguments)?;
            let peer = peer(word)?;
            read_hex(digits, octets)?;
            Event::Octets(peer, octets)
        }
        b"time" => Event::Time(number(arguments, now, u32::MAX)?),
        b"room" => {
            let (word, count) = split(arguments)?;
            Event::Room(peer(word)?, number(count, 1, u32::MAX)?)
        }
        b"start" => Event::Start(peer(arguments)?),
        b"stop" => Event::Stop(peer(arguments)?),
        b"up" => Event::Up(peer(arguments)?),
        b"down" => Event::Down(peer(arguments)?),
        b"drain" => Event::Drain(peer(arguments)?),
        _ => return None,
    }))
}

#[derive(Default)]
struct Tally {
    events: u64,
    octets: u64,
    clock: u32,
}

impl Tally {
    fn add(&mut self, line: &[u8], octets: &mut Vec<u8>) -> Option<()> {
        if line.len() > LINE_LIMIT {
            return None;
        }
        if let Line::Event(event) = parse(line, self.clock, octets)? {
            self.events += 1;
            match event {
                Event::Octets(_, octets) => self.octets += black_box(octets).len() as u64,
                Event::Time(time) => self.clock = time,
                _ => {}
            }
        }
        Some(())
    }

    /// Adds the whole lines of the text, and returns what is left after them.
    fn add_lines<'a>(&mut self, text: &'a [u8], octets: &mut Vec<u8>) -> Option<&'a [u8]> {
        let mut rest = text;
        loop {
            let mut next = rest;
            let count = next.skip_until(b'\n').ok()?;
            let Some((b'\n', line)) = rest[..count].split_last() else {
                return Some(rest);
            };
            self.add(line, octets)?;
            rest = next;
        }
    }
}

fn read_log(name: &str) -> Option<Tally> {
    let mut file = File::open(name).ok()?;
    let mut block = vec![0; BLOCK];
    let (mut octets, mut tally) = (Vec::new(), Tally::default());
    // The octets of the line that the last block cuts are at the front.
    let (mut kept, mut size) = (0, 0);
    loop {
        let count = file.read(&mut block[kept..]).ok()?;
        size += count;
        let end = kept + count;
        let rest = tally.add_lines(&block[..end], &mut octets)?;
        if count == 0 {
            if !rest.is_empty() {
                tally.add(rest, &mut octets)?;
            }
            return Some(tally);
        }
        kept = rest.len();
        if kept > LINE_LIMIT || size > LOG_LIMIT {
            return None;
        }
        block.copy_within(end - kept..end, 0);
    }
}

fn parse_lines(text: &[u8]) -> Option<Tally> {
    let (mut octets, mut tally) = (Vec::new(), Tally::default());
    for _ in 0..TIMES {
        tally.clock = 0;
        tally.add_lines(text, &mut octets)?;
    }
    Some(tally)
}

fn main() -> ExitCode {
    let words: Vec<String> = env::args().skip(1).collect();
    let [way, name] = words.as_slice() else {
        return ExitCode::from(2);
    };
    let tally = if way == "file" {
        read_log(name)
    } else {
        std::fs::read(name).ok().and_then(|text| parse_lines(&text))
    };
    match tally {
        Some(tally) => {
            println!("{} {}", tally.events, tally.octets);
            ExitCode::SUCCESS
        }
        None => ExitCode::from(7),
    }
}
