//! Makes a text for `check`, always the same one: `streams config COUNT`, a configuration with so many networks and costs and at most
//! 64 peers, or `streams manifest COUNT`, a manifest with at most 16 maps and 32 programs of 900 slots.

use std::env;
use std::process::ExitCode;

fn print_config(count: u32) {
    println!("[speaker]\nas = 65000\nid = \"192.0.2.254\"\naddress = \"192.0.2.254\"\nhold = 30");
    println!("networks = [");
    for i in 0..count {
        println!("\"10.{}.{}.0/24\",", i / 256, i % 256);
    }
    println!("]");
    for i in 0..count.min(64) {
        println!("[[peer]]\nas = {}\naddress = \"192.0.3.{}\"", 64512 + i, i + 1);
    }
    for i in 0..count {
        println!("[[cost]]\nnext_hop = \"172.16.{}.{}\"\ncost = {}", i / 256, i % 256, i * 7);
    }
}

fn print_manifest(count: u32) {
    println!("version = 1");
    for i in 0..count.min(16) {
        println!("[[map]]\nname = \"map-{i}\"\nkey = 4\nvalue = 8\nentries = 1000");
    }
    for i in 0..count.min(32) {
        // r1 += i, many times over, and an end.
        let code = format!("07010000{i:02x}000000").repeat(899);
        println!("[[program]]\nname = \"program-{i}\"\npoint = \"inbound\"\nfuel = 1000");
        println!("code = \"{code}9500000000000000\"");
    }
}

fn main() -> ExitCode {
    let words: Vec<String> = env::args().skip(1).collect();
    let Some(count) = words.get(1).and_then(|count| count.parse().ok()) else {
        return ExitCode::from(2);
    };
    match words[0].as_str() {
        "config" => print_config(count),
        _ => print_manifest(count),
    }
    ExitCode::SUCCESS
}
