//! The yardstick of the bytecode machine: the interpreter of `common/machine.rs`.
//!
//! The words are TIMES and FILE, as those of crates/bench_exec.

#[path = "../common/machine.rs"]
#[allow(dead_code)] // Not every yardstick uses all of it.
mod machine;

use machine::{decode, run, End, Memory};
use std::env;
use std::process::ExitCode;

const FUEL: u32 = 1_000_100;

fn main() -> ExitCode {
    let words: Vec<String> = env::args().skip(1).collect();
    let [times, file] = words.as_slice() else {
        return ExitCode::from(2);
    };
    let (Ok(times), Ok(code)) = (times.parse::<u32>(), std::fs::read(file)) else {
        return ExitCode::from(2);
    };
    let insns = decode(&code);
    let mut memory = Memory::new();
    let mut end = End::Helper;
    for _ in 0..times {
        memory.renew(&[]);
        end = run(&insns, &mut memory, FUEL, |_, _, _| None);
    }
    match end {
        End::Exit(value) => {
            println!("r0 {value}");
            ExitCode::SUCCESS
        }
        _ => ExitCode::from(12),
    }
}
