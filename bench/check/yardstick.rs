//! The yardstick of `xbgp check CONFIG MANIFEST`: the same counts in plain Rust, with the same ranges and doubles looked for. It reads only
//! the lines of TOML that streams.rs writes (a table's head, `key = value`, and an array with one text a line), and of bytecode it looks
//! at no more than the hexadecimal digits, so it does less than xbgp does.

use std::collections::{HashMap, HashSet};
use std::env;
use std::fs;
use std::net::Ipv4Addr;
use std::process::ExitCode;

type Table<'a> = HashMap<&'a str, &'a str>;

#[derive(Default)]
struct Document<'a> {
    tables: HashMap<&'a str, Vec<Table<'a>>>,
    networks: Vec<&'a str>,
}

fn read(text: &str) -> Option<Document<'_>> {
    let mut document = Document::default();
    let mut head = "";
    for line in text.lines() {
        if let Some(name) = line.strip_prefix('[') {
            head = name.trim_matches(['[', ']']);
            document.tables.entry(head).or_default().push(Table::new());
        } else if let Some((key, value)) = line.split_once(" = ") {
            let tables = document.tables.entry(head).or_insert_with(|| vec![Table::new()]);
            tables.last_mut()?.insert(key, value);
        } else if line != "]" {
            document.networks.push(line.strip_suffix(',')?.trim_matches('"'));
        }
    }
    Some(document)
}

fn number(table: &Table, key: &str, least: u64, most: u64) -> Option<u64> {
    let n = table.get(key)?.parse().ok()?;
    (least <= n && n <= most).then_some(n)
}

fn text<'a>(table: &Table<'a>, key: &str) -> Option<&'a str> {
    table.get(key)?.strip_prefix('"')?.strip_suffix('"')
}

fn host(table: &Table, key: &str) -> Option<Ipv4Addr> {
    let address: Ipv4Addr = text(table, key)?.parse().ok()?;
    let first = address.octets()[0];
    (first != 0 && first != 127 && first < 224).then_some(address)
}

fn is_prefix(text: &str, seen: &mut HashSet<(u32, u32)>) -> Option<()> {
    let (address, len) = text.split_once('/')?;
    let len: u32 = len.parse().ok()?;
    let mask = u32::MAX.checked_shl(32 - len).unwrap_or(0);
    seen.insert((address.parse::<Ipv4Addr>().ok()?.to_bits() & mask, len))
        .then_some(())
}

fn tables<'a, 'd>(document: &'d Document<'a>, name: &str) -> &'d [Table<'a>] {
    document.tables.get(name).map_or(&[], Vec::as_slice)
}

/// How many peers and networks there are.
fn counts_of_config(text: &str) -> Option<(usize, usize)> {
    let document = read(text)?;
    let speaker = document.tables.get("speaker")?.first()?;
    number(speaker, "as", 1, u32::MAX.into())?;
    number(speaker, "hold", 0, 65535)?;
    self::text(speaker, "id")?.parse::<Ipv4Addr>().ok()?;
    let mut seen = HashSet::new();
    for network in &document.networks {
        is_prefix(network, &mut seen)?;
    }
    let mut addresses = HashSet::from([host(speaker, "address")?]);
    for peer in tables(&document, "peer") {
        number(peer, "as", 1, u32::MAX.into())?;
        addresses.insert(host(peer, "address")?).then_some(())?;
    }
    let mut hops = HashSet::new();
    for cost in tables(&document, "cost") {
        hops.insert(self::text(cost, "next_hop")?.parse::<Ipv4Addr>().ok()?)
            .then_some(())?;
        number(cost, "cost", 0, u32::MAX.into())?;
    }
    Some((tables(&document, "peer").len(), document.networks.len()))
}

fn octets(digits: &str) -> Option<Vec<u8>> {
    (0..digits.len() / 2)
        .map(|i| u8::from_str_radix(digits.get(2 * i..2 * i + 2)?, 16).ok())
        .collect()
}

/// How many maps and programs there are.
fn counts_of_manifest(text: &str) -> Option<(usize, usize)> {
    let document = read(text)?;
    let mut names = HashSet::new();
    for map in tables(&document, "map") {
        names.insert(self::text(map, "name")?).then_some(())?;
        number(map, "key", 1, 64)?;
        number(map, "value", 1, 256)?;
        number(map, "entries", 1, 65536)?;
    }
    let mut names = HashSet::new();
    for program in tables(&document, "program") {
        names.insert(self::text(program, "name")?).then_some(())?;
        number(program, "fuel", 1, 1_000_000)?;
        octets(self::text(program, "code")?)?;
    }
    Some((tables(&document, "map").len(), tables(&document, "program").len()))
}

fn answer() -> Option<String> {
    let words: Vec<String> = env::args().skip(2).collect();
    let (peers, networks) = counts_of_config(&fs::read_to_string(words.first()?).ok()?)?;
    let (maps, programs) = counts_of_manifest(&fs::read_to_string(words.get(1)?).ok()?)?;
    Some(format!(
        "peers {peers}\nnetworks {networks}\nmaps {maps}\nprograms {programs}\nend\n"
    ))
}

fn main() -> ExitCode {
    match answer() {
        Some(text) => {
            print!("{text}");
            ExitCode::SUCCESS
        }
        None => ExitCode::FAILURE,
    }
}
