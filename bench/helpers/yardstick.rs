//! A plain Rust program of the job of crates/bench_helpers, written for speed: the interpreter of
//! `common/machine.rs`, a route whose attributes are found by their code in a table of 256 places, and the map of
//! `common/ordered_map.rs`. The words are TIMES and FILE.

#[path = "../common/machine.rs"]
#[allow(dead_code)] // Not every yardstick uses all of it.
mod machine;
#[path = "../common/ordered_map.rs"]
#[allow(dead_code)] // Not every yardstick uses all of it.
mod ordered_map;

use machine::{decode, run, End, Memory};
use ordered_map::Map;
use std::env;
use std::process::ExitCode;

const FUEL: u32 = 1_000_000;
const ENTRIES: u32 = 10_000;
const KEY: u64 = 8;
const VALUE: u64 = 16;

const MINUS_1: u64 = u64::MAX;
const MINUS_2: u64 = u64::MAX - 1;

/// Flags, code and value of each attribute.
const ATTRIBUTES: [(u8, u8, &[u8]); 7] = [
    (0x40, 1, &[0]),
    (0x40, 2, &[2, 3, 0, 0, 0xfd, 0xe9, 0, 0, 0xfd, 0xea, 0, 0, 0xfd, 0xeb]),
    (0x40, 3, &[192, 0, 2, 1]),
    (0x80, 4, &[0, 0, 0, 10]),
    (0x40, 5, &[1, 2, 3, 4]),
    (0xc0, 8, &[0xfd, 0xe9, 0, 1]),
    (0xc0, 32, &[0, 0, 0xfd, 0xe9, 0, 0, 0, 1, 0, 0, 0, 2]),
];

/// The place of each attribute in the octets of all values, by its code.
struct Route {
    places: [Option<(u16, u16)>; 256],
    octets: Vec<u8>,
}

impl Route {
    fn new() -> Route {
        let mut route = Route { places: [None; 256], octets: Vec::new() };
        for (_, code, value) in ATTRIBUTES {
            route.places[usize::from(code)] = Some((route.octets.len() as u16, value.len() as u16));
            route.octets.extend_from_slice(value);
        }
        route
    }

    fn value(&self, code: u8) -> Option<&[u8]> {
        let (start, len) = self.places[usize::from(code)]?;
        Some(&self.octets[usize::from(start)..][..usize::from(len)])
    }
}

fn key_of(number: u32) -> [u8; 8] {
    u64::from(number)
        .wrapping_mul(0x9E37_79B9_7F4A_7C15)
        .to_le_bytes()
}

struct World {
    route: Route,
    map: Map,
}

impl World {
    fn new() -> World {
        let mut map = Map::new(KEY as usize, VALUE as usize, ENTRIES);
        for number in 0..ENTRIES {
            map.put(&key_of(number), &u128::from(number).to_be_bytes());
            map.commit();
        }
        World { route: Route::new(), map }
    }

    fn call(&mut self, number: u32, args: [u64; 5], memory: &mut Memory) -> Option<u64> {
        let [a, b, c, d, _] = args;
        match number {
            2 => self.get_attribute(a, b, c, d, memory),
            9 => self.look_up(a, b, c, memory),
            10 => self.update(a, b, c, memory),
            _ => None,
        }
    }

    fn get_attribute(&self, which: u64, code: u64, to: u64, room: u64, memory: &mut Memory) -> Option<u64> {
        let code = u8::try_from(code).ok()?;
        let to = memory.range_mut(to, room)?;
        if which != 0 {
            return None;
        }
        let Some(value) = self.route.value(code) else {
            return Some(MINUS_1);
        };
        let Some(to) = to.get_mut(..value.len()) else {
            return Some(MINUS_2);
        };
        to.copy_from_slice(value);
        Some(value.len() as u64)
    }

    fn look_up(&self, map: u64, key: u64, to: u64, memory: &mut Memory) -> Option<u64> {
        let value = self.map.get(memory.range(key, KEY)?);
        let to = memory.range_mut(to, VALUE)?;
        if map != 0 {
            return None;
        }
        let Some(value) = value else {
            return Some(MINUS_1);
        };
        to.copy_from_slice(value);
        Some(0)
    }

    fn update(&mut self, map: u64, key: u64, from: u64, memory: &Memory) -> Option<u64> {
        let key = memory.range(key, KEY)?;
        let value = memory.range(from, VALUE)?;
        if map != 0 {
            return None;
        }
        Some(if self.map.put(key, value) { 0 } else { MINUS_2 })
    }
}

fn main() -> ExitCode {
    let words: Vec<String> = env::args().skip(1).collect();
    let [times, file] = words.as_slice() else {
        return ExitCode::from(2);
    };
    let (Ok(times), Ok(code)) = (times.parse::<u32>(), std::fs::read(file)) else {
        return ExitCode::from(2);
    };
    let insns = decode(&code);
    let mut world = World::new();
    let mut memory = Memory::new();
    let mut end = End::Helper;
    for number in 0..times {
        memory.renew(&u64::from(number).to_le_bytes());
        end = run(&insns, &mut memory, FUEL, |number, args, memory| {
            world.call(number, args, memory)
        });
        world.map.commit();
    }
    match end {
        End::Exit(value) => {
            println!("r0 {value}");
            ExitCode::SUCCESS
        }
        _ => ExitCode::from(12),
    }
}
