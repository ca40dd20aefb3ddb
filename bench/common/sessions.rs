//! What the makers of logs share: the lines that begin a peer's session, octets of a peer, and drains.

use crate::making::message;
use std::fmt::Write;

const DIGITS: &[u8; 16] = b"0123456789abcdef";

/// The address of a peer, which is its identifier too.
pub fn address(peer: u32) -> [u8; 4] {
    [10, 0, 0, peer as u8]
}

/// Octets that come from a peer.
pub fn push_octets(log: &mut String, peer: u32, octets: &[u8]) {
    let _ = write!(log, "in {peer} ");
    for octet in octets {
        log.push(char::from(DIGITS[usize::from(octet >> 4)]));
        log.push(char::from(DIGITS[usize::from(octet & 15)]));
    }
    log.push('\n');
}

/// The session of a peer comes up: its OPEN has hold time 0 and no capability.
pub fn push_start(log: &mut String, peer: u32, asn: u16) {
    let mut open = vec![4];
    open.extend(asn.to_be_bytes());
    open.extend([0, 0]);
    open.extend(address(peer));
    open.push(0);
    let _ = write!(log, "start {peer}\nup {peer}\n");
    push_octets(log, peer, &message(1, &open));
    push_octets(log, peer, &message(4, &[]));
}

/// All that waits for the peers 1 to so many is sent.
pub fn push_drains(log: &mut String, peers: u32) {
    for peer in 1..=peers {
        let _ = writeln!(log, "drain {peer}");
    }
}
