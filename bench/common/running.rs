//! One run of a program, with its time and its memory.

use std::io;
use std::process::{Command, Stdio};
use std::time::{Duration, Instant};

/// What the system tells of a process that has ended, as far as it is read here (Linux, 64 bits). The times are seconds
/// and microseconds of the program's own processor time, and then of the system's for it.
#[repr(C)]
#[derive(Default)]
struct Usage {
    times: [i64; 4],
    peak_kib: i64,
    others: [i64; 13],
}

unsafe extern "C" {
    fn wait4(pid: i32, status: *mut i32, options: i32, usage: *mut Usage) -> i32;
}

/// A run of a program: the time from before its start to after its end, the processor time that it took, and the
/// largest resident set.
pub struct Run {
    pub time: Duration,
    pub processor: Duration,
    pub peak_kib: i64,
}

fn processor_time(usage: &Usage) -> Duration {
    let [own, own_micros, system, system_micros] = usage.times.map(|part| part as u64);
    Duration::from_secs(own + system) + Duration::from_micros(own_micros + system_micros)
}

/// Runs a program on words, with nothing to read and its output thrown away. A status other than 0 is an error.
pub fn run_once(program: &str, words: &[&str]) -> io::Result<Run> {
    let mut command = Command::new(program);
    command.args(words);
    command.stdin(Stdio::null()).stdout(Stdio::null());
    let (mut status, mut usage) = (0, Usage::default());
    let began = Instant::now();
    let child = command.spawn()?;
    let pid = child.id() as i32;
    // The process was started just now and is waited for here alone.
    let ended = unsafe { wait4(pid, &mut status, 0, &mut usage) };
    let time = began.elapsed();
    if ended != pid {
        return Err(io::Error::last_os_error());
    }
    if status != 0 {
        return Err(io::Error::other(format!(
            "{program} ended with {status:#x}"
        )));
    }
    Ok(Run {
        time,
        processor: processor_time(&usage),
        peak_kib: usage.peak_kib,
    })
}

pub fn median<T: Copy + PartialOrd>(mut values: Vec<T>) -> T {
    values.sort_by(|a, b| a.partial_cmp(b).unwrap_or(std::cmp::Ordering::Equal));
    values[values.len() / 2]
}
