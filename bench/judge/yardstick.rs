//! The yardstick of `xbgp judge FILE` and `xbgp judge4 FILE`: the same jobs in plain Rust, with the same texts and
//! statuses. A width is the octets of an AS number.

#[path = "../common/reading.rs"]
mod reading;

use reading::{push_decimal, push_hex, run, Fault, Messages, Output, Prefixes, Update, UPDATE};
use std::process::ExitCode;

const ORIGIN: u8 = 1;
const AS_PATH: u8 = 2;
const NEXT_HOP: u8 = 3;
const MULTI_EXIT_DISC: u8 = 4;
const LOCAL_PREF: u8 = 5;
const ATOMIC_AGGREGATE: u8 = 6;
const AGGREGATOR: u8 = 7;

/// The attributes that each announcement has, and the data of the notification if one is missing.
const MANDATORY: [[u8; 1]; 3] = [[ORIGIN], [AS_PATH], [NEXT_HOP]];

/// The subcodes of an UPDATE message error.
#[derive(Clone, Copy)]
enum Subcode {
    MalformedAttributeList = 1,
    UnrecognizedWellKnown = 2,
    MissingWellKnown = 3,
    AttributeFlags = 4,
    AttributeLength = 5,
    InvalidOrigin = 6,
    InvalidNextHop = 8,
    InvalidNetwork = 10,
    MalformedPath = 11,
}

/// What is told to the sender of a faulty UPDATE.
#[derive(Clone, Copy)]
struct Notice<'a> {
    subcode: Subcode,
    data: &'a [u8],
}

impl Notice<'_> {
    fn bare(subcode: Subcode) -> Self {
        Notice { subcode, data: &[] }
    }
}

struct Attribute<'a> {
    flags: u8,
    code: u8,
    value: &'a [u8],
    raw: &'a [u8],
}

/// Removes the first attribute from the section, if it doesn't run past the section.
fn take_attribute<'a>(section: &mut &'a [u8]) -> Option<Attribute<'a>> {
    let [flags, code] = *section.first_chunk()?;
    let (head, len) = if flags & 0x10 == 0 {
        (3, usize::from(*section.get(2)?))
    } else {
        let len = [*section.get(2)?, *section.get(3)?];
        (4, usize::from(u16::from_be_bytes(len)))
    };
    let (raw, rest) = section.split_at_checked(head + len)?;
    *section = rest;
    Some(Attribute {
        flags,
        code,
        value: &raw[head..],
        raw,
    })
}

/// Whether the value of AS_PATH is segments, each a set or a sequence of at least one AS number.
fn path_is_good(mut value: &[u8], width: usize) -> bool {
    while !value.is_empty() {
        let &[1 | 2, count @ 1..=255, ref rest @ ..] = value else {
            return false;
        };
        let Some(rest) = rest.get(width * usize::from(count)..) else {
            return false;
        };
        value = rest;
    }
    true
}

/// What is wrong with the attribute by itself.
fn attribute_fault(attribute: &Attribute<'_>, width: usize) -> Option<Subcode> {
    let Attribute { code, value, .. } = *attribute;
    let flags = attribute.flags & 0xe0;
    let (flags_fit, len) = match code {
        ORIGIN => (flags == 0x40, Some(1)),
        AS_PATH => (flags == 0x40, None),
        NEXT_HOP | LOCAL_PREF => (flags == 0x40, Some(4)),
        MULTI_EXIT_DISC => (flags == 0x80, Some(4)),
        ATOMIC_AGGREGATE => (flags == 0x40, Some(0)),
        AGGREGATOR => (flags & 0xc0 == 0xc0, Some(width + 4)),
        _ if flags & 0x80 != 0 => return None,
        _ => return Some(Subcode::UnrecognizedWellKnown),
    };
    if !flags_fit {
        return Some(Subcode::AttributeFlags);
    }
    if len.is_some_and(|len| len != value.len()) {
        return Some(Subcode::AttributeLength);
    }
    match (code, value) {
        (ORIGIN, [3..=255]) => Some(Subcode::InvalidOrigin),
        (NEXT_HOP, [0 | 127 | 224..=255, ..]) => Some(Subcode::InvalidNextHop),
        (AS_PATH, path) if !path_is_good(path, width) => Some(Subcode::MalformedPath),
        _ => None,
    }
}

/// The codes of the attributes so far, one bit each.
struct Codes([u64; 4]);

impl Codes {
    fn contains(&self, code: u8) -> bool {
        self.0[usize::from(code / 64)] >> (code % 64) & 1 != 0
    }

    /// Adds the code; false if it is there already.
    fn insert(&mut self, code: u8) -> bool {
        let is_new = !self.contains(code);
        self.0[usize::from(code / 64)] |= 1 << (code % 64);
        is_new
    }
}

/// Judges the section. A section that can't be read to its end counts before any fault of an attribute by itself.
fn judge_section(mut section: &[u8], announces: bool, width: usize) -> Result<(), Notice<'_>> {
    let mut codes = Codes([0; 4]);
    let mut fault = None;
    while !section.is_empty() {
        let attribute = take_attribute(&mut section)
            .filter(|attribute| codes.insert(attribute.code))
            .ok_or(Notice::bare(Subcode::MalformedAttributeList))?;
        if fault.is_none() {
            fault = attribute_fault(&attribute, width).map(|subcode| Notice {
                subcode,
                data: match subcode {
                    Subcode::MalformedPath => &[],
                    _ => attribute.raw,
                },
            });
        }
    }
    let missing = || {
        let code = MANDATORY.iter().find(|code| !codes.contains(code[0]))?;
        Some(Notice {
            subcode: Subcode::MissingWellKnown,
            data: code,
        })
    };
    match fault.or_else(|| announces.then(missing).flatten()) {
        Some(notice) => Err(notice),
        None => Ok(()),
    }
}

fn judge_prefixes(octets: &[u8]) -> Result<(), Notice<'static>> {
    if Prefixes(octets).all(|prefix| prefix.is_ok()) {
        Ok(())
    } else {
        Err(Notice::bare(Subcode::InvalidNetwork))
    }
}

fn judge(body: &[u8], width: usize) -> Result<(), Notice<'_>> {
    let update = Update::new(body).ok_or(Notice::bare(Subcode::MalformedAttributeList))?;
    judge_prefixes(update.withdrawn)?;
    judge_section(update.section, !update.nlri.is_empty(), width)?;
    judge_prefixes(update.nlri)
}

fn push_verdict(text: &mut Vec<u8>, body: &[u8], width: usize) {
    match judge(body, width) {
        Ok(()) => text.extend_from_slice(b"clean"),
        Err(Notice { subcode, data }) => {
            text.extend_from_slice(b"notice 3 ");
            push_decimal(text, subcode as u64);
            text.push(b' ');
            push_hex(text, data);
        }
    }
}

fn print_judged<const WIDTH: usize>(stream: &[u8], out: &mut Output) -> Result<(), Fault> {
    // A stream that is refused has no other line.
    Messages::new(stream).try_for_each(|message| message.map(drop))?;
    for message in Messages::new(stream) {
        let message = message?;
        push_decimal(&mut out.text, message.at as u64);
        out.text.push(b' ');
        if message.kind == UPDATE {
            push_verdict(&mut out.text, message.body, WIDTH);
        } else {
            out.text.extend_from_slice(b"other");
        }
        out.end_line()?;
    }
    Ok(())
}

fn main() -> ExitCode {
    run(&[("judge", print_judged::<2>), ("judge4", print_judged::<4>)])
}
