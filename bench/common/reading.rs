//! What the yardsticks share: the messages of a stream, the parts of an UPDATE, hexadecimal text, and the way from the
//! words to a status.

use std::env;
use std::ffi::OsString;
use std::fs::File;
use std::io::{self, Read, StdoutLock, Write};
use std::process::ExitCode;

/// The most octets that a file may have.
const LIMIT: u64 = 1_048_576;

const HEADER: usize = 19;
pub const UPDATE: u8 = 2;

#[derive(Clone, Copy, PartialEq, Eq, PartialOrd, Ord)]
pub struct Prefix {
    addr: u32,
    len: u8,
}

impl Prefix {
    /// The prefix of that length, with its host bits cleared.
    fn new(addr: u32, len: u8) -> Self {
        let mask = u32::MAX.checked_shl(32 - u32::from(len)).unwrap_or(0);
        Prefix {
            addr: addr & mask,
            len,
        }
    }

    #[allow(dead_code)] // the yardstick of `judge` prints no prefix
    pub fn push_to(self, text: &mut Vec<u8>) {
        for (i, octet) in self.addr.to_be_bytes().into_iter().enumerate() {
            if i > 0 {
                text.push(b'.');
            }
            push_decimal(text, u64::from(octet));
        }
        text.push(b'/');
        push_decimal(text, u64::from(self.len));
    }
}

pub struct BadPrefix;

/// The prefixes that follow one another in the octets.
pub struct Prefixes<'a>(pub &'a [u8]);

impl Iterator for Prefixes<'_> {
    type Item = Result<Prefix, BadPrefix>;

    fn next(&mut self) -> Option<Self::Item> {
        let (&len, rest) = self.0.split_first()?;
        let width = usize::from(len.div_ceil(8));
        if len > 32 || width > rest.len() {
            return Some(Err(BadPrefix));
        }
        let (octets, rest) = rest.split_at(width);
        let mut addr = [0; 4];
        addr[..width].copy_from_slice(octets);
        self.0 = rest;
        Some(Ok(Prefix::new(u32::from_be_bytes(addr), len)))
    }
}

/// Removes the first message from the octets and returns its kind and body, if it is whole and its header is good.
fn take_message<'a>(octets: &mut &'a [u8]) -> Option<(u8, &'a [u8])> {
    let header = octets.first_chunk::<HEADER>()?;
    let len = usize::from(u16::from_be_bytes([header[16], header[17]]));
    let kind = header[18];
    let lens = match kind {
        1 => 29..=4096,
        UPDATE => 23..=4096,
        3 => 21..=4096,
        4 => HEADER..=HEADER,
        _ => return None,
    };
    if header[..16] != [0xff; 16] || !lens.contains(&len) {
        return None;
    }
    let (message, rest) = octets.split_at_checked(len)?;
    *octets = rest;
    Some((kind, &message[HEADER..]))
}

pub struct Message<'a> {
    pub at: usize,
    pub kind: u8,
    pub body: &'a [u8],
}

/// The messages of a stream; the last item is the fault of the first one that is refused, if there is one.
pub struct Messages<'a> {
    rest: &'a [u8],
    at: usize,
}

impl<'a> Messages<'a> {
    pub fn new(stream: &'a [u8]) -> Self {
        Messages {
            rest: stream,
            at: 0,
        }
    }
}

impl<'a> Iterator for Messages<'a> {
    type Item = Result<Message<'a>, Fault>;

    fn next(&mut self) -> Option<Self::Item> {
        if self.rest.is_empty() {
            return None;
        }
        let at = self.at;
        let Some((kind, body)) = take_message(&mut self.rest) else {
            self.rest = &[];
            return Some(Err(Fault::Stream(at)));
        };
        self.at += HEADER + body.len();
        Some(Ok(Message { at, kind, body }))
    }
}

/// Splits the octets after those that the length before them counts.
fn split_counted(octets: &[u8]) -> Option<(&[u8], &[u8])> {
    let (len, rest) = octets.split_first_chunk::<2>()?;
    rest.split_at_checked(usize::from(u16::from_be_bytes(*len)))
}

pub struct Update<'a> {
    pub withdrawn: &'a [u8],
    pub section: &'a [u8],
    pub nlri: &'a [u8],
}

impl<'a> Update<'a> {
    /// The parts of the body; `None` if its lengths don't fit.
    pub fn new(body: &'a [u8]) -> Option<Self> {
        let (withdrawn, rest) = split_counted(body)?;
        let (section, nlri) = split_counted(rest)?;
        Some(Update {
            withdrawn,
            section,
            nlri,
        })
    }
}

pub fn push_decimal(text: &mut Vec<u8>, number: u64) {
    if number >= 10 {
        push_decimal(text, number / 10);
    }
    text.push(b'0' + (number % 10) as u8);
}

/// The two digits of each octet.
const DIGITS: [[u8; 2]; 256] = {
    let digits = b"0123456789abcdef";
    let mut pairs = [[0; 2]; 256];
    let mut octet = 0;
    while octet < 256 {
        pairs[octet] = [digits[octet >> 4], digits[octet & 0x0f]];
        octet += 1;
    }
    pairs
};

pub fn push_hex(text: &mut Vec<u8>, octets: &[u8]) {
    if octets.is_empty() {
        text.push(b'-');
        return;
    }
    let from = text.len();
    text.resize(from + 2 * octets.len(), 0);
    for (pair, octet) in text[from..].chunks_exact_mut(2).zip(octets) {
        pair.copy_from_slice(&DIGITS[usize::from(*octet)]);
    }
}

/// The text on its way to standard output, which goes there a page at a time.
pub struct Output {
    pub text: Vec<u8>,
    out: StdoutLock<'static>,
}

const PAGE: usize = 65_536;

impl Output {
    pub fn new() -> Self {
        Output {
            text: Vec::with_capacity(2 * PAGE),
            out: io::stdout().lock(),
        }
    }

    /// To be called after each line: writes the text that has come together, if it is a page.
    pub fn end_line(&mut self) -> io::Result<()> {
        self.text.push(b'\n');
        if self.text.len() < PAGE {
            return Ok(());
        }
        self.flush()
    }

    /// Writes the text that has come together.
    pub fn flush(&mut self) -> io::Result<()> {
        self.out.write_all(&self.text)?;
        self.text.clear();
        self.out.flush()
    }
}

/// Why a job ends early: the stream is refused at that offset, or writing fails.
pub enum Fault {
    Stream(usize),
    Write(io::Error),
}

impl From<io::Error> for Fault {
    fn from(error: io::Error) -> Self {
        Fault::Write(error)
    }
}

fn read_file(name: &str) -> io::Result<Vec<u8>> {
    let mut octets = Vec::new();
    File::open(name)?.take(LIMIT + 1).read_to_end(&mut octets)?;
    Ok(octets)
}

/// A job writes its text for a stream; before it returns that the stream is refused, it writes nothing.
type Job = fn(&[u8], &mut Output) -> Result<(), Fault>;

/// A command's word, and what it does.
type Command<'a> = (&'a str, Job);

/// Does what the words say, and returns the exit status; an error is one of writing.
fn answer(words: &[String], commands: &[Command<'_>], out: &mut Output) -> io::Result<u8> {
    let named = match words {
        [first, name] => commands
            .iter()
            .find(|(word, _)| first == word)
            .map(|(_, job)| (job, name)),
        _ => None,
    };
    let Some((job, name)) = named else {
        out.text.extend_from_slice(b"fault usage\n");
        return Ok(2);
    };
    let Ok(octets) = read_file(name) else {
        return Ok(3);
    };
    if octets.len() as u64 > LIMIT {
        out.text.extend_from_slice(b"fault long input\n");
        return Ok(9);
    }
    match job(&octets, out) {
        Ok(()) => {
            out.text.extend_from_slice(b"end\n");
            Ok(0)
        }
        Err(Fault::Stream(at)) => {
            out.text.extend_from_slice(b"fault stream ");
            push_decimal(&mut out.text, at as u64);
            out.text.push(b'\n');
            Ok(10)
        }
        Err(Fault::Write(error)) => Err(error),
    }
}

/// The whole of a program with commands of the form `COMMAND FILE`.
pub fn run(commands: &[Command<'_>]) -> ExitCode {
    // A word that isn't UTF-8 is not a word of a command.
    let words: Result<Vec<String>, OsString> =
        env::args_os().skip(1).map(OsString::into_string).collect();
    let mut out = Output::new();
    let status = answer(&words.unwrap_or_default(), commands, &mut out)
        .and_then(|status| out.flush().map(|()| status))
        .unwrap_or(4);
    ExitCode::from(status)
}
