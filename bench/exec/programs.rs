//! Writes one of the programs that bench/exec measures, to standard output: `programs arithmetic`, `memory` or `jumps`.
//! Each goes through a loop of ten instructions 100,000 times.

use std::env;
use std::io::{self, Write};
use std::process::ExitCode;

fn slot(opcode: u8, dst: u8, src: u8, offset: i16, imm: i32) -> [u8; 8] {
    let [a, b] = offset.to_le_bytes();
    let [c, d, e, f] = imm.to_le_bytes();
    [opcode, src * 16 + dst, a, b, c, d, e, f]
}

const TIMES: i32 = 100_000;

/// r6 counts down from 100,000; the body may use r0 to r5 and has eight instructions.
fn looped(body: [[u8; 8]; 8]) -> Vec<[u8; 8]> {
    let mut program = vec![slot(0xb7, 6, 0, 0, TIMES), slot(0xb7, 0, 0, 0, 1), slot(0xb7, 3, 0, 0, 7)];
    program.extend(body);
    program.push(slot(0x07, 6, 0, 0, -1));
    program.push(slot(0x55, 6, 0, -10, 0));
    program.push(slot(0x95, 0, 0, 0, 0));
    program
}

fn main() -> ExitCode {
    let body = match env::args().nth(1).as_deref() {
        Some("arithmetic") => [
            slot(0x0f, 0, 6, 0, 0),  // r0 += r6
            slot(0x27, 0, 0, 0, 31), // r0 *= 31
            slot(0xaf, 0, 3, 0, 0),  // r0 ^= r3
            slot(0xbf, 4, 0, 0, 0),  // r4 = r0
            slot(0x77, 4, 0, 0, 7),  // r4 >>= 7
            slot(0x0c, 3, 4, 0, 0),  // w3 += w4
            slot(0x57, 4, 0, 0, 0xff), // r4 &= 255
            slot(0x1f, 0, 4, 0, 0),  // r0 -= r4
        ],
        Some("memory") => [
            slot(0x7b, 10, 0, -8, 0),  // *(u64 *)(r10 - 8) = r0
            slot(0x79, 3, 10, -8, 0),  // r3 = *(u64 *)(r10 - 8)
            slot(0x63, 10, 6, -16, 0), // *(u32 *)(r10 - 16) = r6
            slot(0x61, 4, 10, -16, 0), // r4 = *(u32 *)(r10 - 16)
            slot(0x73, 10, 4, -17, 0), // *(u8 *)(r10 - 17) = r4
            slot(0x71, 5, 10, -17, 0), // r5 = *(u8 *)(r10 - 17)
            slot(0x0f, 0, 4, 0, 0),    // r0 += r4
            slot(0x69, 4, 10, -8, 0),  // r4 = *(u16 *)(r10 - 8)
        ],
        Some("jumps") => [
            slot(0x15, 6, 0, 1, 0),    // r6 == 0: never
            slot(0x25, 3, 0, 0, 5),    // r3 > 5: always, to the next
            slot(0x2d, 3, 6, 1, 0),    // r3 > r6: seldom
            slot(0x07, 0, 0, 0, 1),    // r0 += 1
            slot(0x45, 6, 0, 1, 1),    // r6 & 1: every second time
            slot(0x05, 0, 0, 0, 0),    // to the next
            slot(0x66, 6, 0, 0, -1),   // w6 > -1, with signs: always
            slot(0x5d, 0, 6, 0, 0),    // r0 != r6: mostly
        ],
        _ => return ExitCode::from(2),
    };
    let octets = looped(body).concat();
    match io::stdout().write_all(&octets) {
        Ok(()) => ExitCode::SUCCESS,
        Err(_) => ExitCode::FAILURE,
    }
}
