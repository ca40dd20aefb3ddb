//! What the makers of streams share: random draws, messages, and the attributes of a route.

use std::io::{self, Write};
use std::process::ExitCode;

/// The most octets of a message.
const MOST_OCTETS: usize = 4096;

/// A row of numbers that looks random: a linear congruence, whose high bits are taken.
pub struct Draws(pub u64);

impl Draws {
    pub fn below(&mut self, bound: u32) -> u32 {
        self.0 = self
            .0
            .wrapping_mul(6_364_136_223_846_793_005)
            .wrapping_add(1_442_695_040_888_963_407);
        ((self.0 >> 33) % u64::from(bound)) as u32
    }

    pub fn one_in(&mut self, bound: u32) -> bool {
        self.below(bound) == 0
    }

    pub fn between(&mut self, least: u32, most: u32) -> u32 {
        least + self.below(most - least + 1)
    }

    pub fn octets(&mut self, count: u32) -> Vec<u8> {
        (0..count).map(|_| self.below(256) as u8).collect()
    }
}

#[derive(Clone, Copy)]
pub struct Prefix {
    pub addr: u32,
    pub len: u8,
}

impl Prefix {
    fn push(self, octets: &mut Vec<u8>) {
        octets.push(self.len);
        octets.extend(&self.addr.to_be_bytes()[..usize::from(self.len.div_ceil(8))]);
    }
}

pub fn spelled(prefixes: &[Prefix]) -> Vec<u8> {
    let mut octets = Vec::new();
    for prefix in prefixes {
        prefix.push(&mut octets);
    }
    octets
}

fn push_counted(octets: &mut Vec<u8>, counted: &[u8]) {
    octets.extend((counted.len() as u16).to_be_bytes());
    octets.extend(counted);
}

pub fn message(kind: u8, body: &[u8]) -> Vec<u8> {
    let len = 19 + body.len();
    assert!(len <= MOST_OCTETS);
    let mut octets = vec![0xff; 16];
    octets.extend((len as u16).to_be_bytes());
    octets.push(kind);
    octets.extend(body);
    octets
}

pub fn update(withdrawn: &[u8], section: &[u8], nlri: &[u8]) -> Vec<u8> {
    let mut body = Vec::new();
    push_counted(&mut body, withdrawn);
    push_counted(&mut body, section);
    body.extend(nlri);
    message(2, &body)
}

/// The OPEN and the KEEPALIVE that a connection begins with.
pub fn beginning() -> Vec<u8> {
    let mut octets = message(1, &[4, 0xfd, 0xe9, 0, 90, 192, 0, 2, 1, 0]);
    octets.extend(message(4, &[]));
    octets
}

/// A connection of as many of the messages as fit into so many octets.
pub fn filled(most: usize, mut next: impl FnMut() -> Vec<u8>) -> Vec<u8> {
    let mut stream = beginning();
    loop {
        let message = next();
        if stream.len() + message.len() > most {
            return stream;
        }
        stream.extend(message);
    }
}

pub struct Attribute {
    pub flags: u8,
    pub code: u8,
    pub value: Vec<u8>,
}

impl Attribute {
    pub fn new(flags: u8, code: u8, value: impl Into<Vec<u8>>) -> Self {
        let value = value.into();
        Attribute { flags, code, value }
    }

    fn push(&self, section: &mut Vec<u8>) {
        match u8::try_from(self.value.len()) {
            Ok(len) => section.extend([self.flags, self.code, len]),
            Err(_) => {
                section.extend([self.flags | 0x10, self.code]);
                section.extend((self.value.len() as u16).to_be_bytes());
            }
        }
        section.extend(&self.value);
    }
}

pub fn section(attributes: &[Attribute]) -> Vec<u8> {
    let mut section = Vec::new();
    for attribute in attributes {
        attribute.push(&mut section);
    }
    section
}

/// An AS_PATH with AS numbers of so many octets: a sequence, and at times a set behind it.
fn path(draws: &mut Draws, width: u32) -> Vec<u8> {
    let hops = draws.between(2, 12);
    let mut value = vec![2, hops as u8];
    value.extend(draws.octets(width * hops));
    if draws.one_in(8) {
        let members = draws.between(2, 5);
        value.extend([1, members as u8]);
        value.extend(draws.octets(width * members));
    }
    value
}

/// The attributes of a route as they come from a large network, with AS numbers of so many octets: communities take
/// most of the room.
pub fn attributes(draws: &mut Draws, width: u32) -> Vec<Attribute> {
    let mut attributes = vec![
        Attribute::new(0x40, 1, [draws.below(3) as u8]),
        Attribute::new(0x40, 2, path(draws, width)),
        Attribute::new(0x40, 3, [192, 0, 2, draws.below(256) as u8]),
    ];
    if draws.one_in(2) {
        attributes.push(Attribute::new(0x80, 4, draws.octets(4)));
    }
    if draws.one_in(8) {
        attributes.push(Attribute::new(0x40, 6, []));
        attributes.push(Attribute::new(0xc0, 7, draws.octets(width + 4)));
    }
    // Communities; one route in sixteen has so many that the length takes two octets.
    let communities = if draws.one_in(16) {
        draws.between(64, 128)
    } else {
        draws.between(1, 24)
    };
    attributes.push(Attribute::new(0xc0, 8, draws.octets(4 * communities)));
    if draws.one_in(2) {
        let extended = draws.between(1, 4);
        attributes.push(Attribute::new(0xc0, 16, draws.octets(8 * extended)));
    }
    if draws.one_in(2) {
        let large = draws.between(1, 6);
        attributes.push(Attribute::new(0xc0, 32, draws.octets(12 * large)));
    }
    if draws.one_in(4) {
        let unknown = draws.between(0, 64);
        attributes.push(Attribute::new(0xe0, 240, draws.octets(unknown)));
    }
    attributes
}

/// A prefix as tables have them, most of length 24; some leave bits behind their length set.
pub fn any_prefix(draws: &mut Draws) -> Prefix {
    let len = match draws.below(8) {
        0 => draws.between(8, 16),
        1 => draws.between(17, 23),
        2 => draws.between(25, 32),
        _ => 24,
    };
    Prefix {
        addr: draws.between(1, 223) << 24 | draws.below(1 << 24),
        len: len as u8,
    }
}

/// Writes a stream to standard output; where the words were none of a stream, tells how the program is used.
pub fn write(stream: Option<Vec<u8>>, usage: &str) -> ExitCode {
    let Some(stream) = stream else {
        eprintln!("usage: {usage}");
        return ExitCode::from(2);
    };
    match io::stdout().write_all(&stream) {
        Ok(()) => ExitCode::SUCCESS,
        Err(_) => ExitCode::FAILURE,
    }
}
