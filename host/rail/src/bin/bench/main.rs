//! The speed of the proved library beside others, in ratios of one run. `docs/PERFORMANCE.md` says what they are worth.

mod checksum;
mod clock;
mod ends;
mod filling;
mod hub;
mod needs;
mod paths;
#[cfg(feature = "usrsctp")]
mod usrsctp;

use oilwhisper::ffi::{Record, VERDICTS, VERDICT_WORDS};
use paths::{Cost, Ours, Pair, MESSAGE};
use std::mem::size_of;

const HELD: [usize; 4] = [0, 16, 64, 127];

/// Parts that are named as arguments, or all of them.
const PARTS: [(&str, fn()); 5] =
    [("paths", print_paths), ("checksum", print_checksums), ("filling", print_filling), ("needs", print_needs), ("hub", hub::print)];

fn main() {
    let asked: Vec<String> = std::env::args().skip(1).collect();
    if let Some(word) = asked.iter().find(|word| PARTS.iter().all(|(name, _)| name != word)) {
        eprintln!("bench: '{}' is no part; the parts are {}", word, PARTS.map(|(name, _)| name).join(", "));
        std::process::exit(2);
    }
    checksum::ready();
    for (name, print) in PARTS {
        if asked.is_empty() || asked.iter().any(|word| word == name) {
            print();
        }
    }
}

fn print_paths() {
    let mut ours = Ours::new();
    #[cfg(feature = "usrsctp")]
    let mut theirs = usrsctp::Theirs::new();
    let mut pairs: Vec<&mut dyn Pair> = vec![
        &mut ours,
        #[cfg(feature = "usrsctp")]
        &mut theirs,
    ];
    let costs = paths::costs(&mut pairs);
    println!("\nPaths: messages of {} bytes, one in a packet, a SACK for every second packet", MESSAGE);
    print_path("receive: arrive, take, sack", 1.5, costs.iter().map(|costs| costs.receiving));
    print_path("send: hand_in, transmit, SACK arrives", 1.2, costs.iter().map(|costs| costs.sending));
}

fn print_path(name: &str, aim: f64, costs: impl Iterator<Item = Cost>) {
    println!("{:<38} {:>12} {:>10} {:>20}", name, "packets/s", "MB/s", "copied for a packet");
    let costs: Vec<Cost> = costs.collect();
    for (library, cost) in ["Oilwhisper", "libusrsctp"].iter().zip(&costs) {
        let packets = 1.0 / cost.seconds;
        println!("  {:<36} {:>12.0} {:>10.2} {:>20.0}", library, packets, packets * MESSAGE as f64 * 1e-6, cost.copied);
    }
    match costs[..] {
        [ours, theirs] => {
            println!("  {:<36} {:>12.3} {:>31.1}", format!("ratio (aim {})", aim), theirs.seconds / ours.seconds, ours.copied / theirs.copied)
        }
        _ => println!("  (built without feature usrsctp: nothing to compare with)"),
    }
}

fn print_checksums() {
    println!("\nChecksum, MB/s (ours is the whole of an ow_peek that refuses the packet for its checksum)");
    println!(
        "{:<8} {:>12} {:>16} {:>14} {:>22} {:>22}",
        "bytes", "Oilwhisper", "C sliced by 8", "instruction", "ratio to C (aim 0.9)", "ratio to instruction"
    );
    for length in [540, 1472] {
        let speeds = checksum::speeds(length);
        let (instruction, ratio) = match speeds.instruction {
            Some(speed) => (format!("{:.1}", speed * 1e-6), format!("{:.3}", speeds.proved / speed)),
            None => ("none".into(), "none".into()),
        };
        let (ours, c) = (speeds.proved * 1e-6, speeds.sliced * 1e-6);
        println!("{:<8} {:>12.1} {:>16.1} {:>14} {:>22.3} {:>22}", length, ours, c, instruction, ours / c, ratio);
    }
}

fn print_filling() {
    println!("\nMicroseconds of a call when so many messages are held (arrive, take, sack) or in flight (the others)");
    print!("{:<8}", "");
    filling::CALLS.iter().for_each(|name| print!(" {:>13}", name));
    println!();
    let costs: Vec<Vec<f64>> = HELD.iter().map(|held| filling::costs(*held)).collect();
    for (held, costs) in HELD.iter().zip(&costs) {
        print!("{:<8}", held);
        costs.iter().for_each(|cost| print!(" {:>13.2}", cost * 1e6));
        println!();
    }
    print!("{:<8}", "127 / 0");
    costs[3].iter().zip(&costs[0]).for_each(|(most, least)| print!(" {:>13.2}", most / least));
    println!();
}

fn print_needs() {
    println!("\nBytes that a call needs on the stack, with its answer, and bytes that it copies or clears. The record has {},", size_of::<Record>());
    println!("and the words for verdicts, which the host lends from its stack, {}.", size_of::<[u32; VERDICT_WORDS * VERDICTS]>());
    println!("{:<22} {:>10} {:>10}", "", "stack", "copied");
    for needs in needs::all() {
        println!("{:<22} {:>10} {:>10}", needs.name, needs.stack, needs.copied);
    }
}
