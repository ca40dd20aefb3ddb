//! An interpreter of the instructions in plain Rust, written for speed, which the yardsticks of bytecode share.
//!
//! The code is decoded once, before it runs, and each opcode has an arm of its own in one `match`. It is taken as it is,
//! without a loader; what would leave it makes it stop. A call is passed to a closure with r1 to r5.

const STACK: u64 = 0x1000_0000;
const STACK_SIZE: usize = 512;
const HEAP: u64 = 0x2000_0000;
const HEAP_SIZE: usize = 8192;
const WINDOW: u64 = 0x3000_0000;

/// The fields of an instruction; `imm` has its sign, or is the whole number of a 64-bit load.
#[derive(Clone, Copy)]
pub struct Insn {
    opcode: u8,
    dst: u8,
    src: u8,
    offset: i16,
    imm: u64,
}

pub fn decode(code: &[u8]) -> Vec<Insn> {
    let slots: Vec<&[u8]> = code.chunks_exact(8).collect();
    let low = |slot: &[u8]| i32::from_le_bytes([slot[4], slot[5], slot[6], slot[7]]);
    let insn = |i: usize| {
        let slot = slots[i];
        let high = slots.get(i + 1).map_or(0, |next| low(next));
        let wide = u64::from(low(slot) as u32) | (high as u64) << 32;
        Insn {
            opcode: slot[0],
            dst: slot[1] & 15,
            src: slot[1] >> 4,
            offset: i16::from_le_bytes([slot[2], slot[3]]),
            imm: if slot[0] == 0x18 { wide } else { low(slot) as u64 },
        }
    };
    (0..slots.len()).map(insn).collect()
}

pub struct Memory {
    stack: [u8; STACK_SIZE],
    heap: [u8; HEAP_SIZE],
    window: Vec<u8>,
}

impl Memory {
    pub fn new() -> Memory {
        Memory { stack: [0; STACK_SIZE], heap: [0; HEAP_SIZE], window: Vec::new() }
    }

    /// Makes stack and heap zeros and changes the window.
    pub fn renew(&mut self, window: &[u8]) {
        self.stack.fill(0);
        self.heap.fill(0);
        self.window.clear();
        self.window.extend_from_slice(window);
    }

    /// The octets of a range.
    pub fn range(&self, addr: u64, len: u64) -> Option<&[u8]> {
        for (base, octets) in [(STACK, &self.stack[..]), (HEAP, &self.heap), (WINDOW, &self.window)] {
            let at = addr.wrapping_sub(base);
            if at <= octets.len() as u64 && len <= octets.len() as u64 - at {
                return Some(&octets[at as usize..][..len as usize]);
            }
        }
        (len == 0).then_some(&[])
    }

    /// The octets of a range of the stack or the heap.
    pub fn range_mut(&mut self, addr: u64, len: u64) -> Option<&mut [u8]> {
        for (base, octets) in [(STACK, &mut self.stack[..]), (HEAP, &mut self.heap)] {
            let at = addr.wrapping_sub(base);
            if at <= octets.len() as u64 && len <= octets.len() as u64 - at {
                return Some(&mut octets[at as usize..][..len as usize]);
            }
        }
        (len == 0).then_some(&mut [])
    }

    #[inline(always)]
    fn load<const N: usize>(&self, addr: u64) -> Option<u64> {
        let (stack, heap) = (addr.wrapping_sub(STACK), addr.wrapping_sub(HEAP));
        let octets = if stack <= (STACK_SIZE - N) as u64 {
            &self.stack[stack as usize..stack as usize + N]
        } else if heap <= (HEAP_SIZE - N) as u64 {
            &self.heap[heap as usize..heap as usize + N]
        } else {
            let window = usize::try_from(addr.wrapping_sub(WINDOW)).ok()?;
            self.window.get(window..window.checked_add(N)?)?
        };
        let mut number = [0; 8];
        number[..N].copy_from_slice(octets);
        Some(u64::from_le_bytes(number))
    }

    #[inline(always)]
    fn store<const N: usize>(&mut self, addr: u64, value: u64) -> Option<()> {
        let (stack, heap) = (addr.wrapping_sub(STACK), addr.wrapping_sub(HEAP));
        let octets = if stack <= (STACK_SIZE - N) as u64 {
            &mut self.stack[stack as usize..stack as usize + N]
        } else if heap <= (HEAP_SIZE - N) as u64 {
            &mut self.heap[heap as usize..heap as usize + N]
        } else {
            return None;
        };
        octets.copy_from_slice(&value.to_le_bytes()[..N]);
        Some(())
    }
}

#[derive(Debug)]
pub enum End {
    Exit(u64),
    Memory,
    Fuel,
    Helper,
}

fn quotient64(offset: i16, x: u64, y: u64) -> u64 {
    match (offset, y) {
        (_, 0) => 0,
        (1, _) => (x as i64).wrapping_div(y as i64) as u64,
        _ => x / y,
    }
}

fn remainder64(offset: i16, x: u64, y: u64) -> u64 {
    match (offset, y) {
        (_, 0) => x,
        (1, _) => (x as i64).wrapping_rem(y as i64) as u64,
        _ => x % y,
    }
}

fn quotient32(offset: i16, x: u32, y: u32) -> u32 {
    match (offset, y) {
        (_, 0) => 0,
        (1, _) => (x as i32).wrapping_div(y as i32) as u32,
        _ => x / y,
    }
}

fn remainder32(offset: i16, x: u32, y: u32) -> u32 {
    match (offset, y) {
        (_, 0) => x,
        (1, _) => (x as i32).wrapping_rem(y as i32) as u32,
        _ => x % y,
    }
}

fn moved64(offset: i16, y: u64) -> u64 {
    match offset {
        8 => y as i8 as u64,
        16 => y as i16 as u64,
        32 => y as i32 as u64,
        _ => y,
    }
}

fn moved32(offset: i16, y: u32) -> u32 {
    match offset {
        8 => y as i8 as u32,
        16 => y as i16 as u32,
        _ => y,
    }
}

fn reordered(opcode: u8, bits: u64, x: u64) -> u64 {
    match (opcode, bits) {
        (0xd4, 16) => x & 0xffff,
        (0xd4, 32) => x & 0xffff_ffff,
        (0xd4, _) => x,
        (_, 16) => u64::from((x as u16).swap_bytes()),
        (_, 32) => u64::from((x as u32).swap_bytes()),
        _ => x.swap_bytes(),
    }
}

/// Runs code with at most `fuel` instructions. A call for which the closure gives no number ends the run.
#[inline(never)]
pub fn run(
    code: &[Insn],
    memory: &mut Memory,
    fuel: u32,
    mut call: impl FnMut(u32, [u64; 5], &mut Memory) -> Option<u64>,
) -> End {
    let mut regs = [0_u64; 16];
    regs[1] = WINDOW;
    regs[2] = memory.window.len() as u64;
    regs[10] = STACK + STACK_SIZE as u64;
    let mut at = 0_usize;
    for _ in 0..fuel {
        let insn = &code[at];
        let (dst, src) = (usize::from(insn.dst & 15), usize::from(insn.src & 15));
        at += 1;
        macro_rules! alu64 {
            ($y:expr, $f:expr) => {{
                let f: fn(u64, u64) -> u64 = $f;
                regs[dst] = f(regs[dst], $y)
            }};
        }
        macro_rules! alu32 {
            ($y:expr, $f:expr) => {{
                let f: fn(u32, u32) -> u32 = $f;
                regs[dst] = u64::from(f(regs[dst] as u32, $y as u32))
            }};
        }
        macro_rules! jump64 {
            ($y:expr, $f:expr) => {{
                let f: fn(u64, u64) -> bool = $f;
                if f(regs[dst], $y) {
                    at = (at as i64 + i64::from(insn.offset)) as usize;
                }
            }};
        }
        macro_rules! jump32 {
            ($y:expr, $f:expr) => {{
                let f: fn(u32, u32) -> bool = $f;
                if f(regs[dst] as u32, $y as u32) {
                    at = (at as i64 + i64::from(insn.offset)) as usize;
                }
            }};
        }
        macro_rules! load {
            ($n:literal, $as:ty) => {
                match memory.load::<$n>(regs[src].wrapping_add(insn.offset as u64)) {
                    Some(number) => regs[dst] = number as $as as u64,
                    None => return End::Memory,
                }
            };
        }
        macro_rules! store {
            ($n:literal, $value:expr) => {
                let addr = regs[dst].wrapping_add(insn.offset as u64);
                if memory.store::<$n>(addr, $value).is_none() {
                    return End::Memory;
                }
            };
        }
        match insn.opcode {
            0x07 => alu64!(insn.imm, |a, b| a.wrapping_add(b)),
            0x0f => alu64!(regs[src], |a, b| a.wrapping_add(b)),
            0x04 => alu32!(insn.imm, |a, b| a.wrapping_add(b)),
            0x0c => alu32!(regs[src], |a, b| a.wrapping_add(b)),
            0x17 => alu64!(insn.imm, |a, b| a.wrapping_sub(b)),
            0x1f => alu64!(regs[src], |a, b| a.wrapping_sub(b)),
            0x14 => alu32!(insn.imm, |a, b| a.wrapping_sub(b)),
            0x1c => alu32!(regs[src], |a, b| a.wrapping_sub(b)),
            0x27 => alu64!(insn.imm, |a, b| a.wrapping_mul(b)),
            0x2f => alu64!(regs[src], |a, b| a.wrapping_mul(b)),
            0x24 => alu32!(insn.imm, |a, b| a.wrapping_mul(b)),
            0x2c => alu32!(regs[src], |a, b| a.wrapping_mul(b)),
            0x47 => alu64!(insn.imm, |a, b| a | b),
            0x4f => alu64!(regs[src], |a, b| a | b),
            0x44 => alu32!(insn.imm, |a, b| a | b),
            0x4c => alu32!(regs[src], |a, b| a | b),
            0x57 => alu64!(insn.imm, |a, b| a & b),
            0x5f => alu64!(regs[src], |a, b| a & b),
            0x54 => alu32!(insn.imm, |a, b| a & b),
            0x5c => alu32!(regs[src], |a, b| a & b),
            0x67 => alu64!(insn.imm, |a, b| a.wrapping_shl(b as u32)),
            0x6f => alu64!(regs[src], |a, b| a.wrapping_shl(b as u32)),
            0x64 => alu32!(insn.imm, |a, b| a.wrapping_shl(b)),
            0x6c => alu32!(regs[src], |a, b| a.wrapping_shl(b)),
            0x77 => alu64!(insn.imm, |a, b| a.wrapping_shr(b as u32)),
            0x7f => alu64!(regs[src], |a, b| a.wrapping_shr(b as u32)),
            0x74 => alu32!(insn.imm, |a, b| a.wrapping_shr(b)),
            0x7c => alu32!(regs[src], |a, b| a.wrapping_shr(b)),
            0xa7 => alu64!(insn.imm, |a, b| a ^ b),
            0xaf => alu64!(regs[src], |a, b| a ^ b),
            0xa4 => alu32!(insn.imm, |a, b| a ^ b),
            0xac => alu32!(regs[src], |a, b| a ^ b),
            0xc7 => alu64!(insn.imm, |a, b| (a as i64).wrapping_shr(b as u32) as u64),
            0xcf => alu64!(regs[src], |a, b| (a as i64).wrapping_shr(b as u32) as u64),
            0xc4 => alu32!(insn.imm, |a, b| (a as i32).wrapping_shr(b) as u32),
            0xcc => alu32!(regs[src], |a, b| (a as i32).wrapping_shr(b) as u32),
            0x15 => jump64!(insn.imm, |a, b| a == b),
            0x1d => jump64!(regs[src], |a, b| a == b),
            0x16 => jump32!(insn.imm, |a, b| a == b),
            0x1e => jump32!(regs[src], |a, b| a == b),
            0x25 => jump64!(insn.imm, |a, b| a > b),
            0x2d => jump64!(regs[src], |a, b| a > b),
            0x26 => jump32!(insn.imm, |a, b| a > b),
            0x2e => jump32!(regs[src], |a, b| a > b),
            0x35 => jump64!(insn.imm, |a, b| a >= b),
            0x3d => jump64!(regs[src], |a, b| a >= b),
            0x36 => jump32!(insn.imm, |a, b| a >= b),
            0x3e => jump32!(regs[src], |a, b| a >= b),
            0x45 => jump64!(insn.imm, |a, b| a & b != 0),
            0x4d => jump64!(regs[src], |a, b| a & b != 0),
            0x46 => jump32!(insn.imm, |a, b| a & b != 0),
            0x4e => jump32!(regs[src], |a, b| a & b != 0),
            0x55 => jump64!(insn.imm, |a, b| a != b),
            0x5d => jump64!(regs[src], |a, b| a != b),
            0x56 => jump32!(insn.imm, |a, b| a != b),
            0x5e => jump32!(regs[src], |a, b| a != b),
            0x65 => jump64!(insn.imm, |a, b| (a as i64) > b as i64),
            0x6d => jump64!(regs[src], |a, b| (a as i64) > b as i64),
            0x66 => jump32!(insn.imm, |a, b| (a as i32) > b as i32),
            0x6e => jump32!(regs[src], |a, b| (a as i32) > b as i32),
            0x75 => jump64!(insn.imm, |a, b| a as i64 >= b as i64),
            0x7d => jump64!(regs[src], |a, b| a as i64 >= b as i64),
            0x76 => jump32!(insn.imm, |a, b| a as i32 >= b as i32),
            0x7e => jump32!(regs[src], |a, b| a as i32 >= b as i32),
            0xa5 => jump64!(insn.imm, |a, b| a < b),
            0xad => jump64!(regs[src], |a, b| a < b),
            0xa6 => jump32!(insn.imm, |a, b| a < b),
            0xae => jump32!(regs[src], |a, b| a < b),
            0xb5 => jump64!(insn.imm, |a, b| a <= b),
            0xbd => jump64!(regs[src], |a, b| a <= b),
            0xb6 => jump32!(insn.imm, |a, b| a <= b),
            0xbe => jump32!(regs[src], |a, b| a <= b),
            0xc5 => jump64!(insn.imm, |a, b| (a as i64) < b as i64),
            0xcd => jump64!(regs[src], |a, b| (a as i64) < b as i64),
            0xc6 => jump32!(insn.imm, |a, b| (a as i32) < b as i32),
            0xce => jump32!(regs[src], |a, b| (a as i32) < b as i32),
            0xd5 => jump64!(insn.imm, |a, b| a as i64 <= b as i64),
            0xdd => jump64!(regs[src], |a, b| a as i64 <= b as i64),
            0xd6 => jump32!(insn.imm, |a, b| a as i32 <= b as i32),
            0xde => jump32!(regs[src], |a, b| a as i32 <= b as i32),
            0x37 => regs[dst] = quotient64(insn.offset, regs[dst], insn.imm),
            0x3f => regs[dst] = quotient64(insn.offset, regs[dst], regs[src]),
            0x97 => regs[dst] = remainder64(insn.offset, regs[dst], insn.imm),
            0x9f => regs[dst] = remainder64(insn.offset, regs[dst], regs[src]),
            0x34 => regs[dst] = quotient32(insn.offset, regs[dst] as u32, insn.imm as u32).into(),
            0x3c => regs[dst] = quotient32(insn.offset, regs[dst] as u32, regs[src] as u32).into(),
            0x94 => regs[dst] = remainder32(insn.offset, regs[dst] as u32, insn.imm as u32).into(),
            0x9c => regs[dst] = remainder32(insn.offset, regs[dst] as u32, regs[src] as u32).into(),
            0xb7 => regs[dst] = insn.imm,
            0xbf => regs[dst] = moved64(insn.offset, regs[src]),
            0xb4 => regs[dst] = u64::from(insn.imm as u32),
            0xbc => regs[dst] = moved32(insn.offset, regs[src] as u32).into(),
            0x87 => regs[dst] = regs[dst].wrapping_neg(),
            0x84 => regs[dst] = (regs[dst] as u32).wrapping_neg().into(),
            0xd4 | 0xdc | 0xd7 => regs[dst] = reordered(insn.opcode, insn.imm, regs[dst]),
            0x05 => at = (at as i64 + i64::from(insn.offset)) as usize,
            0x06 => at = (at as i64).wrapping_add(insn.imm as i64) as usize,
            0x85 => {
                let args = [regs[1], regs[2], regs[3], regs[4], regs[5]];
                match call(insn.imm as u32, args, memory) {
                    Some(value) => regs[..6].copy_from_slice(&[value, 0, 0, 0, 0, 0]),
                    None => return End::Helper,
                }
            }
            0x95 => return End::Exit(regs[0]),
            0x18 => {
                regs[dst] = insn.imm;
                at += 1;
            }
            0x61 => load!(4, u32),
            0x69 => load!(2, u16),
            0x71 => load!(1, u8),
            0x79 => load!(8, u64),
            0x81 => load!(4, i32),
            0x89 => load!(2, i16),
            0x91 => load!(1, i8),
            0x62 => { store!(4, insn.imm); }
            0x63 => { store!(4, regs[src]); }
            0x6a => { store!(2, insn.imm); }
            0x6b => { store!(2, regs[src]); }
            0x72 => { store!(1, insn.imm); }
            0x73 => { store!(1, regs[src]); }
            0x7a => { store!(8, insn.imm); }
            0x7b => { store!(8, regs[src]); }
            _ => return End::Memory,
        }
    }
    End::Fuel
}
