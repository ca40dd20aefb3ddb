//! Writes the rows that crates/test_machine tries, to standard output.
//!
//! The expected values are worked out here from the text of RFC 9669, in whole numbers with signs that are cut to their width
//! at the end; nothing is shared with the machine. Section 4.1 has arithmetic, 4.2 the conversions, 4.3 jumps, 5 memory.
//! What the RFC leaves open: the least number divided by -1 gives itself, and memory is little-endian.
//!
//! A line `code HEX NAME` gives the slots that follow two 64-bit loads, of X into r0 and of Y into r2. The lines
//! `X Y WANT` after it say what r0 is at EXIT, in hexadecimal, or `fault` if a load or a store is outside memory.
//!
//! `bench/test_machine/run` shows that the table of crates/test_machine is the one that this program writes.

use std::io::{self, Write};

// Numbers at the edges of 64 bits, and those whose low 32 bits are at the edges of 32.
const WIDE: [u64; 8] = [
    0,
    1,
    0x7fff_ffff,
    0x8000_0000,
    0xffff_ffff,
    i64::MAX as u64,
    1 << 63,
    u64::MAX,
];
const SHORT: [u64; 7] = [
    0,
    1,
    0x7fff_ffff,
    0x8000_0000,
    0xffff_ffff,
    0x1_0000_0000,
    0xffff_ffff_0000_0007,
];
const IMMEDIATES: [i32; 5] = [0, 1, -1, i32::MAX, i32::MIN];
const SHIFTS: [u64; 9] = [0, 1, 31, 32, 63, 64, 65, 0x1_0000_0001, u64::MAX];
const SHIFT_IMMEDIATES: [i32; 7] = [0, 1, 31, 32, 63, 64, -1];
// Numbers around a sign in the low 8 and the low 16 bits.
const SIGNS: [u64; 6] = [0x7f, 0x80, 0x17f, 0x7fff, 0x8000, 0x1_8000];
// Numbers whose octets all differ, without and with a sign in each width.
const PATTERNS: [u64; 2] = [0x8877_6655_4433_2211, 0xf8e7_d6c5_b4a3_9281];

const STACK: u64 = 0x1000_0000;
const HEAP: u64 = 0x2000_0000;
const WINDOW: u64 = 0x3000_0000;

#[derive(Clone, Copy, PartialEq)]
enum Operation {
    Add = 0x0,
    Sub = 0x1,
    Mul = 0x2,
    Div = 0x3,
    Or = 0x4,
    And = 0x5,
    Lsh = 0x6,
    Rsh = 0x7,
    Mod = 0x9,
    Xor = 0xa,
    Mov = 0xb,
    Arsh = 0xc,
}

const OPERATIONS: [(Operation, &str); 12] = [
    (Operation::Add, "add"),
    (Operation::Sub, "sub"),
    (Operation::Mul, "mul"),
    (Operation::Div, "div"),
    (Operation::Or, "or"),
    (Operation::And, "and"),
    (Operation::Lsh, "lsh"),
    (Operation::Rsh, "rsh"),
    (Operation::Mod, "mod"),
    (Operation::Xor, "xor"),
    (Operation::Mov, "mov"),
    (Operation::Arsh, "arsh"),
];

#[derive(Clone, Copy)]
enum Comparison {
    Jeq = 0x1,
    Jgt = 0x2,
    Jge = 0x3,
    Jset = 0x4,
    Jne = 0x5,
    Jsgt = 0x6,
    Jsge = 0x7,
    Jlt = 0xa,
    Jle = 0xb,
    Jslt = 0xc,
    Jsle = 0xd,
}

const COMPARISONS: [(Comparison, &str); 11] = [
    (Comparison::Jeq, "jeq"),
    (Comparison::Jgt, "jgt"),
    (Comparison::Jge, "jge"),
    (Comparison::Jset, "jset"),
    (Comparison::Jne, "jne"),
    (Comparison::Jsgt, "jsgt"),
    (Comparison::Jsge, "jsge"),
    (Comparison::Jlt, "jlt"),
    (Comparison::Jle, "jle"),
    (Comparison::Jslt, "jslt"),
    (Comparison::Jsle, "jsle"),
];

/// A width: the classes of its arithmetic and of its jumps, its bits, and numbers at its edges.
#[derive(Clone, Copy)]
struct Width {
    arithmetic: u8,
    jumps: u8,
    bits: u32,
    edges: &'static [u64],
}

const WIDTHS: [Width; 2] = [
    Width {
        arithmetic: 0x7,
        jumps: 0x5,
        bits: 64,
        edges: &WIDE,
    },
    Width {
        arithmetic: 0x4,
        jumps: 0x6,
        bits: 32,
        edges: &SHORT,
    },
];

/// The sizes of loads and stores: bits of the opcode, octets, and name.
const SIZES: [(u8, usize, &str); 4] = [
    (0x00, 4, "w"),
    (0x08, 2, "h"),
    (0x10, 1, "b"),
    (0x18, 8, "dw"),
];

type Slot = [u8; 8];

const EXIT: Slot = slot(0x95, 0, 0, 0, 0);

const fn slot(opcode: u8, dst: u8, src: u8, offset: i16, imm: i32) -> Slot {
    let [a, b] = offset.to_le_bytes();
    let [c, d, e, f] = imm.to_le_bytes();
    [opcode, src * 16 + dst, a, b, c, d, e, f]
}

/// A row: X, Y and what r0 is at the end, which is nothing at a fault.
type Row = (u64, u64, Option<u64>);

/// The table as it grows.
struct Table {
    text: String,
}

impl Table {
    fn add(&mut self, name: &str, slots: &[Slot], rows: impl IntoIterator<Item = Row>) {
        let octets: String = slots
            .iter()
            .flatten()
            .map(|octet| format!("{octet:02x}"))
            .collect();
        self.text += &format!("code {octets} {name}\n");
        for (x, y, want) in rows {
            let want = want.map_or("fault".to_string(), |number| format!("{number:x}"));
            self.text += &format!("{x:x} {y:x} {want}\n");
        }
    }
}

/// The low bits of a whole number.
fn low(number: i128, bits: u32) -> u64 {
    number.rem_euclid(1 << bits) as u64
}

/// The low bits of a number, read without and with their sign.
fn plain(number: u64, bits: u32) -> i128 {
    i128::from(number) % (1 << bits)
}

fn signed(number: u64, bits: u32) -> i128 {
    let number = plain(number, bits);
    if number < 1 << (bits - 1) {
        number
    } else {
        number - (1 << bits)
    }
}

/// Section 4.1: what the destination is, from what it was and the second operand.
fn arithmetic(operation: Operation, offset: i16, x: u64, y: u64, bits: u32) -> u64 {
    let read = if offset == 1 { signed } else { plain };
    let (a, b) = (read(x, bits), read(y, bits));
    let count = y % u64::from(bits);
    let result = match operation {
        Operation::Add => a + b,
        Operation::Sub => a - b,
        // The low bits of a product are the same with signs, and then it can't pass 128 bits.
        Operation::Mul => signed(x, bits) * signed(y, bits),
        Operation::Div if b == 0 => 0,
        Operation::Div => a / b,
        Operation::Mod if b == 0 => a,
        Operation::Mod => a % b,
        Operation::Or => a | b,
        Operation::And => a & b,
        Operation::Xor => a ^ b,
        Operation::Lsh => a << count,
        Operation::Rsh => a >> count,
        Operation::Arsh => signed(x, bits) >> count,
        Operation::Mov if offset > 1 => signed(y, offset as u32),
        Operation::Mov => b,
    };
    low(result, bits)
}

/// Section 4.3.
fn is_taken(comparison: Comparison, x: u64, y: u64, bits: u32) -> bool {
    let (a, b) = (plain(x, bits), plain(y, bits));
    let (c, d) = (signed(x, bits), signed(y, bits));
    match comparison {
        Comparison::Jeq => a == b,
        Comparison::Jgt => a > b,
        Comparison::Jge => a >= b,
        Comparison::Jset => a & b != 0,
        Comparison::Jne => a != b,
        Comparison::Jsgt => c > d,
        Comparison::Jsge => c >= d,
        Comparison::Jlt => a < b,
        Comparison::Jle => a <= b,
        Comparison::Jslt => c < d,
        Comparison::Jsle => c <= d,
    }
}

/// An immediate as an operand: extended with its sign.
fn extended(imm: i32) -> u64 {
    i64::from(imm) as u64
}

/// All pairs of some numbers with others.
fn pairs<'a>(firsts: &'a [u64], seconds: &'a [u64]) -> impl Iterator<Item = (u64, u64)> + 'a {
    firsts.iter().flat_map(|x| seconds.iter().map(|y| (*x, *y)))
}

/// Numbers at the edges of 64 bits, and the two patterns.
fn numbers() -> Vec<u64> {
    [&WIDE[..], &PATTERNS].concat()
}

/// What an offset makes of an operation, in the row's name.
fn mark(offset: i16) -> String {
    match offset {
        0 => String::new(),
        1 => "-signed".to_string(),
        bits => format!("-{bits}"),
    }
}

fn is_shift(operation: Operation) -> bool {
    matches!(operation, Operation::Lsh | Operation::Rsh | Operation::Arsh)
}

fn add_immediate_forms(table: &mut Table, operation: Operation, name: &str, width: Width) {
    let Width { bits, edges, .. } = width;
    let opcode = operation as u8 * 16 + width.arithmetic;
    let immediates = if is_shift(operation) {
        &SHIFT_IMMEDIATES[..]
    } else {
        &IMMEDIATES
    };
    let offsets: &[i16] = if matches!(operation, Operation::Div | Operation::Mod) {
        &[0, 1]
    } else {
        &[0]
    };
    for &offset in offsets {
        for &imm in immediates {
            let result = |x| arithmetic(operation, offset, x, extended(imm), bits);
            let rows = edges.iter().map(|&x| (x, 0, Some(result(x))));
            let title = format!("{name}{bits}{}-imm", mark(offset));
            table.add(&title, &[slot(opcode, 0, 0, offset, imm), EXIT], rows);
        }
    }
}

fn add_register_forms(table: &mut Table, operation: Operation, name: &str, width: Width) {
    let Width { bits, edges, .. } = width;
    let opcode = operation as u8 * 16 + 8 + width.arithmetic;
    let offsets: &[i16] = match operation {
        Operation::Div | Operation::Mod => &[0, 1],
        Operation::Mov if bits == 64 => &[0, 8, 16, 32],
        Operation::Mov => &[0, 8, 16],
        _ => &[0],
    };
    for &offset in offsets {
        // MOV doesn't read its destination.
        let firsts = if operation == Operation::Mov {
            &[u64::MAX]
        } else {
            edges
        };
        let seconds = match offset {
            0 | 1 if is_shift(operation) => SHIFTS.to_vec(),
            0 | 1 => edges.to_vec(),
            _ => [edges, &SIGNS, &PATTERNS].concat(),
        };
        let result = |x, y| arithmetic(operation, offset, x, y, bits);
        let rows = pairs(firsts, &seconds).map(|(x, y)| (x, y, Some(result(x, y))));
        let title = format!("{name}{bits}{}", mark(offset));
        table.add(&title, &[slot(opcode, 0, 2, offset, 0), EXIT], rows);
    }
}

fn add_arithmetic(table: &mut Table) {
    for width in WIDTHS {
        for (operation, name) in OPERATIONS {
            add_immediate_forms(table, operation, name, width);
            add_register_forms(table, operation, name, width);
        }
        let Width { bits, edges, .. } = width;
        let rows = edges
            .iter()
            .map(|&x| (x, 0, Some(low(-i128::from(x), bits))));
        let slots = [slot(0x80 + width.arithmetic, 0, 0, 0, 0), EXIT];
        table.add(&format!("neg{bits}"), &slots, rows);
    }
}

/// Section 4.2: this machine is little-endian, so a conversion to little-endian only cuts the number.
fn add_conversions(table: &mut Table) {
    for (opcode, name) in [(0xd4, "le"), (0xdc, "be"), (0xd7, "swap")] {
        for bits in [16, 32, 64] {
            let convert = |x: u64| {
                let mut octets = x.to_le_bytes();
                octets[bits / 8..].fill(0);
                if name != "le" {
                    octets[..bits / 8].reverse();
                }
                u64::from_le_bytes(octets)
            };
            let rows = numbers().into_iter().map(|x| (x, 0, Some(convert(x))));
            let slots = [slot(opcode, 0, 0, 0, bits as i32), EXIT];
            table.add(&format!("{name}{bits}"), &slots, rows);
        }
    }
}

/// A jump by two slots: r0 is 1 if it was taken, and 0 if it was not.
fn jump(first: Slot) -> [Slot; 5] {
    [
        first,
        slot(0xb7, 0, 0, 0, 0),
        EXIT,
        slot(0xb7, 0, 0, 0, 1),
        EXIT,
    ]
}

fn add_comparisons(table: &mut Table) {
    for Width {
        jumps, bits, edges, ..
    } in WIDTHS
    {
        for (comparison, name) in COMPARISONS {
            let opcode = comparison as u8 * 16 + jumps;
            let taken = |x, y| Some(u64::from(is_taken(comparison, x, y, bits)));
            for imm in IMMEDIATES {
                let rows = edges.iter().map(|&x| (x, 0, taken(x, extended(imm))));
                table.add(
                    &format!("{name}{bits}-imm"),
                    &jump(slot(opcode, 0, 0, 2, imm)),
                    rows,
                );
            }
            let rows = pairs(edges, edges).map(|(x, y)| (x, y, taken(x, y)));
            table.add(
                &format!("{name}{bits}"),
                &jump(slot(opcode + 8, 0, 2, 2, 0)),
                rows,
            );
        }
    }
}

/// Jumps that are always taken, and jumps back: over the end, then to it.
fn add_jumps(table: &mut Table) {
    let five = slot(0xb7, 0, 0, 0, 5);
    let short = slot(0x05, 0, 0, 1, 0);
    let long = slot(0x06, 0, 0, 0, 1);
    table.add("ja", &jump(slot(0x05, 0, 0, 2, 0)), [(7, 7, Some(1))]);
    table.add("ja-long", &jump(slot(0x06, 0, 0, 0, 2)), [(7, 7, Some(1))]);
    table.add(
        "ja-back",
        &[short, EXIT, five, slot(0x05, 0, 0, -3, 0)],
        [(7, 7, Some(5))],
    );
    table.add(
        "ja-long-back",
        &[long, EXIT, five, slot(0x06, 0, 0, 0, -3)],
        [(7, 7, Some(5))],
    );
    table.add(
        "jne-back",
        &[short, EXIT, five, slot(0x55, 0, 0, -3, 0), EXIT],
        [(7, 7, Some(5))],
    );
}

fn add_ends_and_wide_loads(table: &mut Table) {
    let some = [&WIDE[..], &PATTERNS[..1]].concat();
    table.add("exit", &[EXIT], some.iter().map(|&x| (x, 0, Some(x))));
    for number in some {
        let wide = [
            slot(0x18, 0, 0, 0, number as i32),
            slot(0, 0, 0, 0, (number >> 32) as i32),
        ];
        table.add("wide", &[wide[0], wide[1], EXIT], [(7, 7, Some(number))]);
    }
}

/// Helper 1 adds r1 and r2. After it r1 to r5 are 0, and r6 is what it was.
fn add_calls(table: &mut Table) {
    for added in 1..=6 {
        let slots = [
            slot(0xbf, 1, 0, 0, 0),
            slot(0xbf, 6, 0, 0, 0),
            slot(0x85, 0, 0, 0, 1),
            slot(0x0f, 0, added, 0, 0),
            EXIT,
        ];
        let rows = [(1, 2), (u64::MAX, 1), (PATTERNS[0], PATTERNS[1])].map(|(x, y)| {
            let kept = if added == 6 { x } else { 0 };
            (
                x,
                y,
                Some(low(i128::from(x) + i128::from(y) + i128::from(kept), 64)),
            )
        });
        table.add(&format!("call-{added}"), &slots, rows);
    }
}

/// The offsets of a number of some octets within eight: at both ends, and one octet in.
fn places(size: usize) -> Vec<usize> {
    if size == 8 {
        vec![0]
    } else {
        vec![0, 1, 8 - size]
    }
}

/// The number that some octets are, the lowest first.
fn number_of(octets: &[u8]) -> u64 {
    octets
        .iter()
        .rev()
        .fold(0, |sum, octet| sum * 256 + u64::from(*octet))
}

/// Writes Y into the last eight octets of the stack.
const KEEP: Slot = slot(0x7b, 10, 2, -8, 0);

/// Section 5: loads from the last eight octets of the stack.
fn add_loads_from(table: &mut Table, mode: u8, bits: u8, size: usize, title: &str) {
    for at in places(size) {
        let found = |y: u64| {
            let number = number_of(&y.to_le_bytes()[at..at + size]);
            if mode == 0x81 {
                low(signed(number, 8 * size as u32), 64)
            } else {
                number
            }
        };
        let rows = numbers().into_iter().map(|y| (7, y, Some(found(y))));
        let load = slot(mode + bits, 0, 10, at as i16 - 8, 0);
        table.add(&format!("{title}-{at}"), &[KEEP, load, EXIT], rows);
    }
}

/// Loads outside memory, and loads one below r0: the sum of base and offset may wrap.
fn add_loads_outside(table: &mut Table, opcode: u8, size: usize, name: &str) {
    let beyond = slot(opcode, 0, 10, 1 - size as i16, 0);
    table.add(
        &format!("ldx{name}-beyond"),
        &[beyond, EXIT],
        [(7, 7, None)],
    );
    let before = slot(opcode, 0, 10, -513, 0);
    table.add(
        &format!("ldx{name}-before"),
        &[before, EXIT],
        [(7, 7, None)],
    );
    let rows = [
        (0, 0, None),
        (STACK + 1, 0, Some(0)),
        (0x1000_ffff, 0, None),
        (HEAP + 1, 0, Some(0)),
        (HEAP + 0x2001, 0, None),
    ];
    table.add(
        &format!("ldx{name}-wraps"),
        &[slot(opcode, 0, 0, -1, 0), EXIT],
        rows,
    );
}

fn add_loads(table: &mut Table) {
    for (bits, size, name) in SIZES {
        for (mode, kind) in [(0x61, ""), (0x81, "-signed")] {
            if mode == 0x81 && size == 8 {
                continue;
            }
            add_loads_from(table, mode, bits, size, &format!("ldx{name}{kind}"));
            add_loads_outside(table, mode + bits, size, name);
        }
    }
}

/// Y with the low octets of a number written over some of its own.
fn written(y: u64, at: usize, size: usize, number: u64) -> u64 {
    let mut octets = y.to_le_bytes();
    octets[at..at + size].copy_from_slice(&number.to_le_bytes()[..size]);
    u64::from_le_bytes(octets)
}

/// Stores into the last eight octets of the stack, read back whole.
fn add_stores_into(table: &mut Table, bits: u8, size: usize, name: &str) {
    let before = [0, u64::MAX, PATTERNS[0]];
    let read = slot(0x79, 0, 10, -8, 0);
    for at in places(size) {
        let offset = at as i16 - 8;
        for imm in [&IMMEDIATES[..], &[0x4433_2211, -2]].concat() {
            let rows = before.map(|y| (7, y, Some(written(y, at, size, extended(imm)))));
            let store = slot(0x62 + bits, 10, 0, offset, imm);
            table.add(&format!("st{name}-{at}"), &[KEEP, store, read, EXIT], rows);
        }
        let numbers = numbers();
        let rows = pairs(&numbers, &before).map(|(x, y)| (x, y, Some(written(y, at, size, x))));
        let store = slot(0x63 + bits, 10, 0, offset, 0);
        table.add(&format!("stx{name}-{at}"), &[KEEP, store, read, EXIT], rows);
    }
}

/// Stores to r0: the ends of stack and heap, and the window, which is never written.
fn add_stores_at_ends(table: &mut Table, opcode: u8, src: u8, size: usize, title: &str) {
    let size = size as u64;
    let rows = [
        (STACK, 0, Some(5)),
        (STACK + 512 - size, 0, Some(5)),
        (STACK + 513 - size, 0, None),
        (STACK - 1, 0, None),
        (HEAP, 0, Some(5)),
        (HEAP + 8192 - size, 0, Some(5)),
        (HEAP + 8193 - size, 0, None),
        (WINDOW, 0, None),
        (u64::MAX, 0, None),
    ];
    let slots = [slot(opcode, 0, src, 0, 0), slot(0xb7, 0, 0, 0, 5), EXIT];
    table.add(&format!("{title}-ends"), &slots, rows);
}

fn add_stores(table: &mut Table) {
    for (bits, size, name) in SIZES {
        add_stores_into(table, bits, size, name);
        add_stores_at_ends(table, 0x62 + bits, 0, size, &format!("st{name}"));
        add_stores_at_ends(table, 0x63 + bits, 2, size, &format!("stx{name}"));
    }
}

fn main() -> io::Result<()> {
    let mut table = Table {
        text: String::new(),
    };
    add_arithmetic(&mut table);
    add_conversions(&mut table);
    add_comparisons(&mut table);
    add_jumps(&mut table);
    add_ends_and_wide_loads(&mut table);
    add_calls(&mut table);
    add_loads(&mut table);
    add_stores(&mut table);
    io::stdout().write_all(table.text.as_bytes())
}
