//! Writes a stream of BGP messages to standard output, the same at each run, of at most so many octets:
//! `streams mixed OCTETS` one of UPDATEs with many attributes, one message in twenty of another kind, and one in twenty an
//! UPDATE with a fault, which are all faults in turn;
//! `streams short OCTETS` one of messages with next to no contents;
//! `streams crowded OCTETS` one of clean UPDATEs with more than two hundred attributes each;
//! `streams wide OCTETS` one like the first, with AS numbers of four octets in place of two.

#[path = "../common/making.rs"]
mod making;

use making::{
    any_prefix, attributes, filled, message, section, spelled, update, write, Attribute, Draws,
};
use std::env;
use std::process::ExitCode;

/// What makes a clean UPDATE faulty.
#[derive(Clone, Copy)]
enum Fault {
    /// The length of the withdrawn prefixes passes the body.
    Lengths,
    WithdrawnPrefix,
    AnnouncedPrefix,
    /// One more attribute, which passes the section.
    Overrun,
    /// One more attribute, whose code came before.
    Doubled,
    Missing(u8),
    /// An AGGREGATOR with an AS number of the other width.
    Aggregator,
    /// An attribute, given as flags, code and value, in place of the one of its code.
    Attribute(u8, u8, &'static [u8]),
}

const FAULTS: [Fault; 33] = [
    Fault::Lengths,
    Fault::WithdrawnPrefix,
    Fault::AnnouncedPrefix,
    Fault::Overrun,
    Fault::Doubled,
    Fault::Missing(1),
    Fault::Missing(2),
    Fault::Missing(3),
    // A well-known attribute that nobody knows.
    Fault::Attribute(0x40, 99, &[1, 2, 3]),
    // Wrong flags.
    Fault::Attribute(0xc0, 1, &[0]),
    Fault::Attribute(0x60, 2, &[2, 1, 0xfd, 0xe9]),
    Fault::Attribute(0x00, 3, &[192, 0, 2, 1]),
    Fault::Attribute(0xc0, 4, &[0, 0, 0, 1]),
    Fault::Attribute(0x80, 5, &[0, 0, 0, 100]),
    Fault::Attribute(0x20, 6, &[]),
    Fault::Attribute(0x80, 7, &[0xfd, 0xe9, 192, 0, 2, 1]),
    // Wrong lengths.
    Fault::Attribute(0x40, 1, &[]),
    Fault::Attribute(0x40, 3, &[192, 0, 2]),
    Fault::Attribute(0x80, 4, &[0, 0, 0, 0, 1]),
    Fault::Attribute(0x40, 5, &[100]),
    Fault::Attribute(0x40, 6, &[0]),
    Fault::Aggregator,
    // An ORIGIN of no meaning.
    Fault::Attribute(0x40, 1, &[3]),
    // Paths: a type that is none, none in a segment, fewer than it says, a type alone; and so behind a good segment.
    Fault::Attribute(0x40, 2, &[3, 1, 0xfd, 0xe9]),
    Fault::Attribute(0x40, 2, &[2, 0]),
    Fault::Attribute(0x40, 2, &[2, 2, 0xfd, 0xe9]),
    Fault::Attribute(0x40, 2, &[1]),
    Fault::Attribute(0x40, 2, &[2, 1, 0xfd, 0xe9, 0, 1, 0xfd, 0xea]),
    Fault::Attribute(0x40, 2, &[2, 1, 0xfd, 0xe9, 1, 2, 0xfd, 0xea, 0xfd]),
    // Next hops that are no host.
    Fault::Attribute(0x40, 3, &[0, 0, 0, 0]),
    Fault::Attribute(0x40, 3, &[127, 0, 0, 1]),
    Fault::Attribute(0x40, 3, &[224, 0, 0, 5]),
    Fault::Attribute(0x40, 3, &[255, 255, 255, 255]),
];

/// The attributes of a route, with LOCAL_PREF and with some that few know.
fn many_attributes(draws: &mut Draws, width: u32) -> Vec<Attribute> {
    let mut attributes = attributes(draws, width);
    attributes.push(Attribute::new(0x40, 5, draws.octets(4)));
    for code in 64..64 + draws.below(9) as u8 {
        let len = draws.between(0, 12);
        attributes.push(Attribute::new(0xc0, code, draws.octets(len)));
    }
    attributes
}

/// From `least` to `most` prefixes.
fn prefixes(draws: &mut Draws, least: u32, most: u32) -> Vec<u8> {
    let count = draws.between(least, most);
    let prefixes: Vec<_> = (0..count).map(|_| any_prefix(draws)).collect();
    spelled(&prefixes)
}

fn put(attributes: &mut Vec<Attribute>, other: Attribute) {
    match attributes.iter_mut().find(|one| one.code == other.code) {
        Some(place) => *place = other,
        None => attributes.push(other),
    }
}

/// An UPDATE with that fault alone, or a clean one; AS numbers have so many octets.
fn any_update(draws: &mut Draws, width: u32, fault: Option<Fault>) -> Vec<u8> {
    let mut withdrawn = prefixes(draws, 0, 4);
    let mut attributes = many_attributes(draws, width);
    let mut announced = prefixes(draws, 1, 12);
    let mut overrun: &[u8] = &[];
    match fault {
        None | Some(Fault::Lengths) => {}
        Some(Fault::WithdrawnPrefix) => withdrawn.push(33),
        Some(Fault::AnnouncedPrefix) => announced.extend([24, 10, 0]),
        Some(Fault::Overrun) => overrun = &[0xc0, 99, 2, 1],
        Some(Fault::Doubled) => attributes.push(Attribute::new(0x40, 1, [0])),
        Some(Fault::Missing(code)) => attributes.retain(|one| one.code != code),
        Some(Fault::Aggregator) => {
            // AS 65001 in four octets, of which the last two are it in two.
            let value = &[0, 0, 0xfd, 0xe9, 192, 0, 2, 1][width as usize - 2..];
            put(&mut attributes, Attribute::new(0xc0, 7, value));
        }
        Some(Fault::Attribute(flags, code, value)) => {
            put(&mut attributes, Attribute::new(flags, code, value));
        }
    }
    let section = [&section(&attributes), overrun].concat();
    let mut octets = update(&withdrawn, &section, &announced);
    if let Some(Fault::Lengths) = fault {
        octets[19] = 0x10;
    }
    octets
}

/// A KEEPALIVE, or now and then a NOTIFICATION or an OPEN.
fn other_kind(draws: &mut Draws) -> Vec<u8> {
    match draws.below(8) {
        0 => message(3, &[6, 0]),
        1 => message(1, &[4, 0xfd, 0xe9, 0, 90, 192, 0, 2, 1, 0]),
        _ => message(4, &[]),
    }
}

fn mixed(most: usize, width: u32) -> Vec<u8> {
    let mut draws = Draws(1);
    let mut faults = FAULTS.into_iter().cycle();
    filled(most, || match draws.below(20) {
        0 => any_update(&mut draws, width, faults.next()),
        1 => other_kind(&mut draws),
        _ => any_update(&mut draws, width, None),
    })
}

fn short(most: usize) -> Vec<u8> {
    let mut draws = Draws(1);
    filled(most, || match draws.below(4) {
        0 => message(4, &[]),
        1 => update(&spelled(&[any_prefix(&mut draws)]), &[], &[]),
        _ => update(&[], &[], &[]),
    })
}

fn crowded(most: usize) -> Vec<u8> {
    let mut draws = Draws(1);
    filled(most, || {
        let mut attributes = attributes(&mut draws, 2);
        for code in 33..240 {
            let len = draws.between(0, 12);
            attributes.push(Attribute::new(0xc0, code, draws.octets(len)));
        }
        update(&[], &section(&attributes), &prefixes(&mut draws, 1, 4))
    })
}

fn main() -> ExitCode {
    let words: Vec<String> = env::args().skip(1).collect();
    let words: Vec<&str> = words.iter().map(String::as_str).collect();
    let make: Option<fn(usize) -> Vec<u8>> = match words[..] {
        ["mixed", _] => Some(|most| mixed(most, 2)),
        ["short", _] => Some(short),
        ["crowded", _] => Some(crowded),
        ["wide", _] => Some(|most| mixed(most, 4)),
        _ => None,
    };
    let stream = make.and_then(|make| words[1].parse().ok().map(make));
    write(
        stream,
        "streams mixed OCTETS | streams short OCTETS | streams crowded OCTETS | streams wide OCTETS",
    )
}
