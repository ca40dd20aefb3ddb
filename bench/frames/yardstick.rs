//! A plain Rust program of the job of crates/bench_frames: frames the octets of a file 64 times over, in pieces of one
//! size, and prints how many messages came. At most 8,192 octets wait.

use std::env;
use std::process::ExitCode;

const TIMES: u32 = 64;
const WAITING: usize = 8192;
const HEADER: usize = 19;

#[derive(Default)]
struct Frames {
    octets: Vec<u8>,
    start: usize,
}

enum Next {
    Whole,
    More,
    Fault,
}

fn is_good(header: &[u8]) -> bool {
    let len = u16::from_be_bytes([header[16], header[17]]);
    header[..16].iter().all(|octet| *octet == 255)
        && (19..=4096).contains(&len)
        && match header[18] {
            1 => len >= 29,
            2 => len >= 23,
            3 => len >= 21,
            4 => len == 19,
            _ => false,
        }
}

impl Frames {
    fn feed(&mut self, piece: &[u8]) -> usize {
        if self.start > WAITING {
            self.octets.drain(..self.start);
            self.start = 0;
        }
        let taken = piece.len().min(WAITING - (self.octets.len() - self.start));
        self.octets.extend_from_slice(&piece[..taken]);
        taken
    }

    fn next(&mut self) -> Next {
        let waits = &self.octets[self.start..];
        if waits.len() < HEADER {
            return Next::More;
        }
        if !is_good(waits) {
            return Next::Fault;
        }
        let len = usize::from(u16::from_be_bytes([waits[16], waits[17]]));
        if waits.len() < len {
            return Next::More;
        }
        self.start += len;
        Next::Whole
    }
}

fn count(octets: &[u8], piece: usize) -> Option<u64> {
    let mut frames = Frames::default();
    let mut count = 0;
    for _ in 0..TIMES {
        let mut rest = octets;
        while !rest.is_empty() {
            let taken = frames.feed(&rest[..piece.min(rest.len())]);
            rest = &rest[taken..];
            loop {
                match frames.next() {
                    Next::Whole => count += 1,
                    Next::More => break,
                    Next::Fault => return None,
                }
            }
        }
    }
    Some(count)
}

fn main() -> ExitCode {
    let words: Vec<String> = env::args().skip(1).collect();
    let [piece, file] = words.as_slice() else {
        return ExitCode::from(2);
    };
    let (Ok(piece), Ok(octets)) = (piece.parse(), std::fs::read(file)) else {
        return ExitCode::from(2);
    };
    match count(&octets, piece) {
        Some(count) => {
            println!("{count}");
            ExitCode::SUCCESS
        }
        None => ExitCode::from(10),
    }
}
