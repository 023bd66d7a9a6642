//! Two endpoints over a bad channel: every message once and in order, both circles closed, and both ends shut down.

use model::channel::Faults;
use model::random::Random;
use model::record::{CLOSED, ESTABLISHED};
use model::soak::{Due, Report, Soak};
use model::Model;

const FIRST: [u32; 2] = [u32::MAX - 99, u32::MAX - 99];

fn small(random: &mut Random, id: u32) -> Due {
    let length = if random.one_in(200) { random.within(1, 3000) } else { random.within(1, 40) };
    let unordered = random.one_in(50);
    let stream = if random.one_in(8) { random.below(8) as u16 } else { 5 };
    Due { id, stream, unordered, length }
}

#[test]
fn both_circles_close() {
    let mut soak = Soak::new(&Model, 1, Faults::MANY, FIRST);
    let mut random = Random::new(2);
    let mut on_one_stream = 0;
    let mut handed_in = 0;
    while on_one_stream <= 65_636 {
        let m = small(&mut random, handed_in);
        on_one_stream += usize::from(m.stream == 5 && !m.unordered);
        handed_in += 1;
        soak.hand_in_later(0, m);
    }
    for id in 0..500 {
        soak.hand_in_later(1, small(&mut random, id));
    }
    let report = soak.run();
    assert_eq!(report.taken, [500, handed_in as usize]);
    assert_eq!(report.states, [ESTABLISHED; 2]);
    assert!(report.points[1] > 65_536 && report.points[1] < u32::MAX - 99, "the circle of TSNs did not close");
    assert!(report.resent > 0 && report.lost > 0 && report.refused[3] > 0 && report.refused[11] > 0, "the channel was too good");
}

fn shut(seed: u64, who: &[usize], faults: Faults, messages: u32) -> Report {
    let mut soak = Soak::new(&Model, seed, faults, FIRST);
    let mut random = Random::new(seed);
    for id in 0..messages {
        let m = Due { id, stream: random.below(128) as u16, unordered: false, length: random.within(1, 2000) };
        soak.hand_in_later(who[0], m);
    }
    for &w in who {
        soak.shut_down_after(w);
    }
    soak.run()
}

#[test]
fn either_end_shuts_down() {
    for seed in 0..40 {
        for who in [&[0][..], &[1], &[0, 1], &[1, 0]] {
            let good = shut(seed, who, Faults::NONE, 30);
            assert_eq!((good.states, good.taken[1 - who[0]]), ([CLOSED; 2], 30));
            let bad = shut(seed, who, Faults::MANY, 30);
            assert_eq!((bad.states, bad.taken[1 - who[0]]), ([CLOSED; 2], 30));
        }
    }
}
