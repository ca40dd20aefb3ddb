//! Writes one of the programs that bench/helpers measures, to standard output: `programs attribute`, `update` or
//! `look_up`. Each calls one helper again and again; crates/bench_helpers says what it sees.

use std::env;
use std::io::{self, Write};
use std::process::ExitCode;

type Slot = [u8; 8];

fn slot(opcode: u8, dst: u8, src: u8, offset: i16, imm: i32) -> Slot {
    let [a, b] = offset.to_le_bytes();
    let [c, d, e, f] = imm.to_le_bytes();
    [opcode, src * 16 + dst, a, b, c, d, e, f]
}

/// r`dst` = imm.
fn set(dst: u8, imm: i32) -> Slot {
    slot(0xb7, dst, 0, 0, imm)
}

/// r`dst` = the stack's end less some octets.
fn set_stack(dst: u8, below: i32) -> [Slot; 2] {
    [slot(0xbf, dst, 10, 0, 0), slot(0x07, dst, 0, 0, -below)]
}

fn call(number: i32) -> Slot {
    slot(0x85, 0, 0, 0, number)
}

/// r6 counts down from `times` through a body, which r7 to r9 outlive; then come the slots `after`, and r0 += r9 ends
/// the program.
fn looped(times: i32, before: &[Slot], body: &[Slot], after: &[Slot]) -> Vec<Slot> {
    let mut program = before.to_vec();
    program.push(set(9, 0));
    program.push(set(6, times));
    program.extend(body);
    program.push(slot(0x07, 6, 0, 0, -1));
    program.push(slot(0x55, 6, 0, -(body.len() as i16) - 2, 0));
    program.extend(after);
    program.push(slot(0x0f, 0, 9, 0, 0));
    program.push(slot(0x95, 0, 0, 0, 0));
    program
}

/// Reads LOCAL_PREF 1,024 times and sums its last octet and the lengths.
fn attribute() -> Vec<Slot> {
    let mut body = vec![set(1, 0), set(2, 5)];
    body.extend(set_stack(3, 8));
    body.extend([
        set(4, 8),
        call(2),
        slot(0x0f, 9, 0, 0, 0),  // r9 += r0
        slot(0x71, 1, 10, -5, 0), // r1 = *(u8 *)(r10 - 5)
        slot(0x0f, 9, 1, 0, 0),  // r9 += r1
    ]);
    looped(1024, &[], &body, &[set(0, 0)])
}

/// r7 = 64 times the number of the run, which is in the window.
fn first_entry() -> [Slot; 2] {
    [slot(0x79, 7, 1, 0, 0), slot(0x67, 7, 0, 0, 6)]
}

/// The key of the entry r7 + r6, modulo 10,000, at the stack's end less 8.
fn key() -> [Slot; 7] {
    [
        slot(0xbf, 8, 7, 0, 0),
        slot(0x0f, 8, 6, 0, 0),
        slot(0x97, 8, 0, 0, 10_000),
        slot(0x18, 1, 0, 0, 0x7F4A_7C15),
        slot(0, 0, 0, 0, 0x9E37_79B9_u32 as i32),
        slot(0x2f, 8, 1, 0, 0),
        slot(0x7b, 10, 8, -8, 0),
    ]
}

/// Writes 64 entries, the most that a run may write, sums the results, and adds the number of the run, which it reads
/// back from the last entry.
fn update() -> Vec<Slot> {
    let mut body = key().to_vec();
    body.extend([
        slot(0x7b, 10, 6, -24, 0), // *(u64 *)(r10 - 24) = r6
        slot(0x7b, 10, 7, -16, 0), // *(u64 *)(r10 - 16) = r7
        set(1, 0),
    ]);
    body.extend(set_stack(2, 8));
    body.extend(set_stack(3, 24));
    body.extend([call(10), slot(0x0f, 9, 0, 0, 0)]);
    let mut after = vec![set(1, 0)];
    after.extend(set_stack(2, 8));
    after.extend(set_stack(3, 40));
    after.extend([
        call(9),
        slot(0x79, 1, 10, -32, 0), // r1 = *(u64 *)(r10 - 32)
        slot(0x0f, 0, 1, 0, 0),
    ]);
    looped(64, &first_entry(), &body, &after)
}

/// Reads 1,024 entries and sums the results and an octet of each.
fn look_up() -> Vec<Slot> {
    let mut body = key().to_vec();
    body.push(set(1, 0));
    body.extend(set_stack(2, 8));
    body.extend(set_stack(3, 24));
    body.extend([
        call(9),
        slot(0x0f, 9, 0, 0, 0),
        slot(0x71, 1, 10, -9, 0), // r1 = *(u8 *)(r10 - 9)
        slot(0x0f, 9, 1, 0, 0),
    ]);
    looped(1024, &first_entry(), &body, &[set(0, 0)])
}

fn main() -> ExitCode {
    let program = match env::args().nth(1).as_deref() {
        Some("attribute") => attribute(),
        Some("update") => update(),
        Some("look_up") => look_up(),
        _ => return ExitCode::from(2),
    };
    match io::stdout().write_all(&program.concat()) {
        Ok(()) => ExitCode::SUCCESS,
        Err(_) => ExitCode::FAILURE,
    }
}
