//! A plain Rust program of the job of crates/bench_maps: fills the map of `common/ordered_map.rs`, then does one job in it
//! 1,048,576 times over, and prints a number that depends on all results.

#[path = "../common/ordered_map.rs"]
#[allow(dead_code)] // Not every yardstick uses all of it.
mod ordered_map;

use ordered_map::{Map, WRITES};
use std::env;
use std::process::ExitCode;

const RUNS: u32 = 16_384;

struct Bench {
    map: Map,
    entries: u32,
}

fn key_of(number: u32) -> [u8; 8] {
    u64::from(number)
        .wrapping_mul(0x9E37_79B9_7F4A_7C15)
        .to_be_bytes()
}

fn value_of(number: u32) -> [u8; 16] {
    u128::from(number).to_be_bytes()
}

impl Bench {
    fn put(&mut self, number: u32, value: u32) -> u64 {
        self.map.put(&key_of(number), &value_of(value)).into()
    }

    fn remove(&mut self, number: u32) -> u64 {
        self.map.remove(&key_of(number)).into()
    }

    fn get(&self, number: u32) -> u64 {
        match self.map.get(&key_of(number)) {
            Some(value) => value.last().map_or(0, |octet| u64::from(*octet)),
            None => 0,
        }
    }

    fn number_at(&self, run: u32, write: u32) -> u32 {
        run.wrapping_mul(WRITES)
            .wrapping_add(write)
            .wrapping_mul(40_503)
            % self.entries
    }

    fn fill(&mut self) -> u64 {
        let mut sum = 0;
        for number in 0..self.entries {
            sum += self.put(number, number);
            self.map.commit();
        }
        sum
    }

    fn get_all(&self) -> u64 {
        let mut sum = 0;
        for run in 0..RUNS {
            for write in 0..WRITES {
                sum += self.get(self.number_at(run, write));
            }
        }
        sum
    }

    fn put_run(&mut self, run: u32) -> u64 {
        (0..WRITES)
            .map(|write| self.put(self.number_at(run, write), run))
            .sum()
    }

    fn renew_run(&mut self, run: u32) -> u64 {
        let mut sum = 0;
        for write in 0..WRITES / 2 {
            let number = self.number_at(run, write);
            sum += self.remove(number);
            sum += self.put(number, run);
        }
        sum
    }

    fn write_all(&mut self, job: &str) -> u64 {
        let mut sum = 0;
        for run in 0..RUNS {
            if job == "new" {
                sum += self.renew_run(run);
            } else {
                sum += self.put_run(run);
            }
            if job == "undo" {
                self.map.undo();
            } else {
                self.map.commit();
            }
        }
        sum
    }

    fn walk(&self) -> u64 {
        let mut sum = 0;
        let mut at = [0; 8];
        for _ in 0..RUNS * WRITES {
            match self.map.key_after(&at) {
                Some(key) => {
                    at.copy_from_slice(key);
                    sum += u64::from(at[7]);
                }
                None => at = [0; 8],
            }
        }
        sum
    }
}

fn main() -> ExitCode {
    let words: Vec<String> = env::args().skip(1).collect();
    let [job, entries] = words.as_slice() else {
        return ExitCode::from(2);
    };
    let Ok(entries @ 1..=65_536) = entries.parse() else {
        return ExitCode::from(2);
    };
    let mut bench = Bench {
        map: Map::new(8, 16, entries),
        entries,
    };
    let sum = bench.fill();
    let sum = sum.wrapping_add(match job.as_str() {
        "fill" => 0,
        "get" => bench.get_all(),
        "over" | "new" | "undo" => bench.write_all(job),
        "walk" => bench.walk(),
        _ => return ExitCode::from(2),
    });
    println!("{sum}");
    ExitCode::SUCCESS
}
