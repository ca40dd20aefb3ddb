//! A plain Rust program of the job of crates/bench_tree, over the ordered map of std.

use std::collections::BTreeMap;
use std::env;
use std::process::ExitCode;

const LOOK_UPS: u32 = 1_048_576;

#[derive(Clone, Copy, PartialEq, Eq, PartialOrd, Ord)]
struct Prefix {
    addr: u32,
    len: u8,
}

#[derive(Clone, Copy)]
struct Chosen {
    source: u32,
    record: u64,
}

fn prefix_of(number: u32) -> Prefix {
    let mixed = u64::from(number).wrapping_mul(0x9E37_79B9_7F4A_7C15);
    let len = match mixed % 8 {
        0 => 8 + mixed / 8 % 9,
        1 => 17 + mixed / 8 % 7,
        2 => 25 + mixed / 8 % 8,
        _ => 24,
    };
    let addr = (mixed >> 32) as u32;
    Prefix {
        addr: addr & (u64::MAX << (32 - len)) as u32,
        len: len as u8,
    }
}

fn filled(prefixes: u32) -> BTreeMap<Prefix, Chosen> {
    let mut map = BTreeMap::new();
    for number in 0..prefixes {
        let chosen = Chosen {
            source: number,
            record: u64::from(number),
        };
        map.insert(prefix_of(number), chosen);
    }
    map
}

fn look_up(map: &BTreeMap<Prefix, Chosen>, number: u32) -> u64 {
    match map.get(&prefix_of(number)) {
        Some(chosen) => chosen.record.wrapping_add(u64::from(chosen.source)),
        None => 0,
    }
}

fn look_up_all(map: &BTreeMap<Prefix, Chosen>, prefixes: u32) -> u64 {
    (0..LOOK_UPS)
        .map(|turn| look_up(map, turn.wrapping_mul(40_503) % prefixes))
        .fold(0, u64::wrapping_add)
}

fn main() -> ExitCode {
    let words: Vec<String> = env::args().skip(1).collect();
    let [job, prefixes] = words.as_slice() else {
        return ExitCode::from(2);
    };
    let Ok(prefixes @ 1..) = prefixes.parse::<u32>() else {
        return ExitCode::from(2);
    };
    let map = filled(prefixes);
    let sum = match job.as_str() {
        "fill" => look_up(&map, 0),
        "get" => look_up_all(&map, prefixes),
        _ => return ExitCode::from(2),
    };
    println!("{sum}");
    ExitCode::SUCCESS
}
