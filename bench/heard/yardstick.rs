//! The yardstick of `xbgp heard FILE`: the same job in plain Rust, with the same texts and statuses.
//!
//! All announcements and withdrawals go into one list, which is sorted once; of each prefix the last one counts.

#[path = "../common/reading.rs"]
mod reading;

use reading::{push_hex, run, Fault, Messages, Output, Prefix, Prefixes, Update, UPDATE};
use std::process::ExitCode;

/// The announcement of a prefix with a section of the stream, or its withdrawal.
#[derive(Clone, Copy)]
struct Change {
    prefix: Prefix,
    turn: u32,
    start: u32,
    /// The section's length; `WITHDRAWN` for a withdrawal.
    len: u32,
}

const WITHDRAWN: u32 = u32::MAX;

fn push_changes(changes: &mut Vec<Change>, octets: &[u8], start: u32, len: u32) -> Option<()> {
    for prefix in Prefixes(octets) {
        changes.push(Change {
            prefix: prefix.ok()?,
            turn: changes.len() as u32,
            start,
            len,
        });
    }
    Some(())
}

/// Plays an UPDATE whose body begins at that offset; `None` if its lengths don't fit or a prefix is bad.
fn play_update(changes: &mut Vec<Change>, body: &[u8], at: usize) -> Option<()> {
    let update = Update::new(body)?;
    push_changes(changes, update.withdrawn, 0, WITHDRAWN)?;
    let start = at + 4 + update.withdrawn.len();
    push_changes(changes, update.nlri, start as u32, update.section.len() as u32)
}

/// The last change of each prefix, by rising prefix.
fn heard(stream: &[u8]) -> Result<Vec<Change>, Fault> {
    let mut changes = Vec::new();
    for message in Messages::new(stream) {
        let message = message?;
        if message.kind == UPDATE {
            let body_at = message.at + 19;
            play_update(&mut changes, message.body, body_at).ok_or(Fault::Stream(message.at))?;
        }
    }
    changes.sort_unstable_by_key(|change| (change.prefix, change.turn));
    // `dedup` keeps the first of equal ones, so the list is turned round for it.
    changes.reverse();
    changes.dedup_by_key(|change| change.prefix);
    changes.reverse();
    changes.retain(|change| change.len != WITHDRAWN);
    Ok(changes)
}

fn print_heard(stream: &[u8], out: &mut Output) -> Result<(), Fault> {
    for change in heard(stream)? {
        let start = change.start as usize;
        change.prefix.push_to(&mut out.text);
        out.text.push(b' ');
        push_hex(&mut out.text, &stream[start..start + change.len as usize]);
        out.end_line()?;
    }
    Ok(())
}

fn main() -> ExitCode {
    run(&[("heard", print_heard)])
}
