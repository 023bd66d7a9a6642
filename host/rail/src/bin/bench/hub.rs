//! What a head costs a field computer: a packet alone, beside idle heads and where all send in turn; an idle head; its memory. And a run of many heads over a bad
//! stretch in simulated time, every message compared.

use crate::clock::used;
use oilwhisper::hub::Hub;
use oilwhisper::library::Proved;
use rail::load::{run, Crowd, Load, BAD_STRETCH};
use std::time::Duration;

const HEADS: usize = 64;
const ROUNDS: usize = 9;
const PACKETS: usize = 512;
const MESSAGE: usize = 512;
/// Of each head, in the run over a bad stretch. HUB_MESSAGES in the environment says how many of all heads there are to be.
const MESSAGES: u64 = 300;
const MINUTE: Duration = Duration::from_secs(60);

pub fn print() {
    println!("\nA field computer's part of a packet of {} bytes: arrive, take, flush, outgoing; a SACK for every second packet", MESSAGE);
    let (mut one, mut many) = (Crowd::<Proved>::of(1), Crowd::<Proved>::of(HEADS));
    let mut least = [f64::INFINITY; 3];
    for _ in 0..ROUNDS {
        let costs = [packet(&mut one, 1), packet(&mut many, 1), packet(&mut many, HEADS)];
        least.iter_mut().zip(costs).for_each(|(least, cost)| *least = least.min(cost));
    }
    let [alone, beside, among] = least;
    println!("{:<44} {:>12} {:>22}", "", "microseconds", "ratio (aim 1.2)");
    println!("{:<44} {:>12.2}", "one head alone", alone * 1e6);
    println!("{:<44} {:>12.2} {:>22.3}", format!("one head beside {} idle ones", HEADS - 1), beside * 1e6, beside / alone);
    println!("{:<44} {:>12.2} {:>22.3}", format!("{} heads in turn", HEADS), among * 1e6, among / alone);
    println!("{:<44} {:>12.2}  a second, with a heartbeat every 2 s and an RTO each way", "an idle head", idle(&mut many) * 1e6);
    println!("{:<44} {:>12}  bytes", "memory of a head", Hub::<Proved>::bytes_of_a_head());
    print_load();
}

/// Seconds for a packet, of so many heads in turn.
fn packet(crowd: &mut Crowd<Proved>, sending: usize) -> f64 {
    let mut spent = 0.0;
    for turn in 0..PACKETS {
        let n = turn % sending;
        let mut answers = Vec::new();
        for packet in crowd.photograph(n, MESSAGE) {
            let begin = used();
            crowd.serve(n, &packet, &mut answers);
            spent += used() - begin;
        }
        crowd.answer(n, &mut answers);
    }
    spent / PACKETS as f64
}

/// Seconds for one head in one second, in a minute of which nobody sends.
fn idle(crowd: &mut Crowd<Proved>) -> f64 {
    let mut spent = 0.0;
    let until = crowd.now + MINUTE;
    while crowd.advance(until) {
        let begin = used();
        let sent = crowd.idle();
        spent += used() - begin;
        for (n, packet) in sent {
            for answer in crowd.answers_of(n, &packet) {
                let begin = used();
                crowd.serve(n, &answer, &mut Vec::new());
                spent += used() - begin;
            }
        }
    }
    spent / MINUTE.as_secs_f64() / HEADS as f64
}

fn print_load() {
    let asked = std::env::var("HUB_MESSAGES").ok().and_then(|text| text.parse::<u64>().ok());
    let messages = asked.map_or(MESSAGES, |all| (all + HEADS as u64 - 1) / HEADS as u64);
    let begin = used();
    let outcome = run::<Proved>(Load { heads: HEADS, messages, weather: BAD_STRETCH, seed: 2 });
    let took = used() - begin;
    println!("\n{} heads over a stretch that drops 3 %, repeats 3 %, holds back 5 % and damages 1 %, and a hostile sender beside them", HEADS);
    println!("  {} of {} messages came once, in order, byte for byte", outcome.equal, messages * HEADS as u64);
    println!("  {:.1} s of simulated time in {:.1} s", outcome.simulated.as_secs_f64(), took);
    println!(
        "  {} packets passed, {} dropped, {} repeated, {} damaged",
        outcome.mishaps.passed, outcome.mishaps.dropped, outcome.mishaps.repeated, outcome.mishaps.damaged
    );
    println!("  {} hostile packets, {} packets with resent chunks, {} expiries", outcome.hostile, outcome.heads.resent, outcome.heads.expiries);
    for fault in &outcome.faults {
        println!("  FAULT: {}", fault);
    }
}
