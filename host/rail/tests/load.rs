//! Many heads over a bad stretch in simulated time, with a hostile sender beside them: a short run on the model and on the proved library where it is linked, a
//! long one and what a head costs where they are asked for (`host/bench hub`, or natively on the model with `--ignored --nocapture`).

use modelled::{on_both, Modelled};
use oilwhisper::library::Library;
use rail::load::{run, Crowd, Load, Outcome, BAD_STRETCH};
use std::time::{Duration, Instant};

const HEADS: usize = 64;

fn well(messages: u64, seed: u64) -> impl Fn(Outcome) {
    move |outcome: Outcome| {
        assert_eq!(outcome.faults, [] as [String; 0], "seed {}", seed);
        assert_eq!(outcome.equal, messages * HEADS as u64);
        assert_eq!(outcome.field.messages_out, outcome.equal);
        let mishaps = outcome.mishaps;
        assert!(mishaps.dropped > 0 && mishaps.repeated > 0 && mishaps.damaged > 0 && outcome.hostile > 0, "{:?}", outcome);
    }
}

fn sixty_four_heads_lose_nothing<L: Library>() {
    let messages = if cfg!(feature = "proved") { 60 } else { 2_000 };
    well(messages, 1)(run::<L>(Load { heads: HEADS, messages, weather: BAD_STRETCH, seed: 1 }));
}

fn a_crowd_is_served<L: Library>() {
    let mut crowd = Crowd::<L>::of(5);
    assert_eq!(crowd.up(), 5);
    let mut answers = Vec::new();
    for n in [0, 3, 3, 0, 4] {
        let packets = crowd.photograph(n, 512);
        assert_eq!(packets.len(), 1);
        assert_eq!(crowd.serve(n, &packets[0], &mut answers), 512);
        crowd.answer(n, &mut answers);
    }
}

on_both! {
    sixty_four_heads_lose_nothing
    a_crowd_is_served
}

/// LOAD_MESSAGES is the number of messages of all heads; ten million, if nothing is said.
#[test]
#[ignore = "takes minutes"]
fn ten_million_messages() {
    let all: u64 = std::env::var("LOAD_MESSAGES").ok().and_then(|text| text.parse().ok()).unwrap_or(10_000_000);
    let messages = (all + HEADS as u64 - 1) / HEADS as u64;
    let began = Instant::now();
    let outcome = run::<Modelled>(Load { heads: HEADS, messages, weather: BAD_STRETCH, seed: 2 });
    println!("{} messages compared in {:.1} s, {:?} of simulated time", outcome.equal, began.elapsed().as_secs_f64(), outcome.simulated);
    println!("{:?}\n{} hostile packets\nheads {:?}\nfield {:?}", outcome.mishaps, outcome.hostile, outcome.heads, outcome.field);
    well(messages, 2)(outcome);
}

/// Seconds of the field computer's part of a packet, from the heads in turn, so many of which send.
fn packet_cost(crowd: &mut Crowd<Modelled>, sending: usize) -> f64 {
    let mut spent = Duration::ZERO;
    let count = 2048;
    for turn in 0..count {
        let n = turn % sending;
        let mut answers = Vec::new();
        for packet in crowd.photograph(n, 512) {
            let begin = Instant::now();
            crowd.serve(n, &packet, &mut answers);
            spent += begin.elapsed();
        }
        crowd.answer(n, &mut answers);
    }
    spent.as_secs_f64() / count as f64
}

#[test]
#[ignore = "measures, and asserts nothing"]
fn what_a_head_costs() {
    let (mut one, mut many) = (Crowd::<Modelled>::of(1), Crowd::<Modelled>::of(HEADS));
    // The least of rounds in which they take turns, so that a busy machine harms them alike.
    let [mut alone, mut beside, mut among] = [f64::INFINITY; 3];
    for _ in 0..40 {
        alone = alone.min(packet_cost(&mut one, 1));
        beside = beside.min(packet_cost(&mut many, 1));
        among = among.min(packet_cost(&mut many, HEADS));
    }
    println!("a packet alone {:.3} us, beside {} idle heads {:.3} us ({:.3})", alone * 1e6, HEADS - 1, beside * 1e6, beside / alone);
    println!("a packet where {} heads send in turn {:.3} us ({:.3})", HEADS, among * 1e6, among / alone);
    let (mut spent, minute) = (Duration::ZERO, many.now + Duration::from_secs(60));
    while many.advance(minute) {
        let begin = Instant::now();
        let sent = many.idle();
        spent += begin.elapsed();
        for (n, packet) in sent {
            for answer in many.answers_of(n, &packet) {
                let begin = Instant::now();
                many.serve(n, &answer, &mut Vec::new());
                spent += begin.elapsed();
            }
        }
    }
    println!("an idle head {:.3} us a second", spent.as_secs_f64() * 1e6 / 60.0 / HEADS as f64);
}
