//! What a drive has met, so that a test can tell whether it was worth making.

use std::fmt;

use crate::call::{Call, Reply, KINDS};
use crate::cases::{Met, CASES};

/// Chunk types by number; all others together.
pub const TYPES: usize = 17;

/// How often each thing was met.
#[derive(Clone, Default)]
pub struct Coverage {
    /// Calls in all.
    pub calls: usize,
    /// By call and number answered.
    pub answered: [[usize; 32]; KINDS.len()],
    /// By call and the state that it was made in.
    pub states: [[usize; 8]; KINDS.len()],
    /// Verdicts by number.
    pub numbers: [usize; 32],
    /// Verdicts by fate.
    pub fates: [usize; 7],
    /// Verdicts by event.
    pub events: [usize; 8],
    /// Verdicts by cause.
    pub causes: [usize; 14],
    /// Packets that were let in, by the state before and the type of the first chunk.
    pub rows: [[usize; TYPES]; 8],
    /// Of `rows`, those that were not refused.
    pub accepted: [[usize; TYPES]; 8],
    /// Packets that were answered by one.
    pub replies: usize,
    /// Expiries that closed.
    pub expiries: usize,
    /// By case.
    pub cases: Counts,
}

/// How often each case was met.
#[derive(Clone)]
pub struct Counts([usize; CASES.len()]);

impl Default for Counts {
    fn default() -> Counts {
        Counts([0; CASES.len()])
    }
}

impl Coverage {
    /// One more call.
    pub fn note(&mut self, met: &Met<'_>) {
        let Met { before, call, reply, .. } = *met;
        let (kind, number) = (call.kind(), usize::from(reply.number()));
        self.calls += 1;
        self.answered[kind][number] += 1;
        let state = usize::from(before.state);
        if state < 8 && number != 1 {
            self.states[kind][state] += 1;
        }
        if let (Call::Arrive { packet, .. }, Reply::Arrived(r)) = (call, reply) {
            self.replies += usize::from(r.length > 0);
            for (i, v) in r.verdicts[..r.count].iter().enumerate() {
                self.numbers[usize::from(v.number)] += 1;
                self.fates[usize::from(v.fate)] += 1;
                self.events[usize::from(v.event)] += 1;
                self.causes[usize::from(v.cause)] += 1;
                if i == 0 {
                    let t = usize::from(packet[12]).min(TYPES - 1);
                    self.rows[state][t] += 1;
                    self.accepted[state][t] += usize::from(v.number == 0);
                }
            }
        }
        if let Reply::Answer(r) = reply {
            self.expiries += usize::from(r.over);
        }
        for (count, case) in self.cases.0.iter_mut().zip(&CASES) {
            *count += usize::from(case.1(met));
        }
    }

    /// What a drive of some hundred thousand calls should have met and has not.
    pub fn missing(&self) -> Vec<String> {
        let mut missing = Vec::new();
        let mut want = |met: usize, what: String| {
            if met == 0 {
                missing.push(what);
            }
        };
        let common = [0, 1, 18, 7];
        let numbers: [(usize, &[usize]); 17] = [
            (0, &[0]),
            (1, &[0, 2, 3, 5, 6]),
            (2, &[0, 1, 18, 2, 3, 4, 5, 6]),
            (3, &[0, 1, 18, 7, 4, 8]),
            (4, &[0, 1, 18, 7, 19, 20]),
            (5, &common),
            (6, &[0, 1, 18, 17]),
            (7, &common),
            (8, &common),
            (9, &common),
            (10, &[0, 1, 7]),
            (11, &[0, 1, 7]),
            (12, &common),
            (13, &common),
            (14, &common),
            (15, &[0, 1, 18, 4]),
            (16, &common),
        ];
        for (call, numbers) in numbers {
            for &n in numbers {
                want(self.answered[call][n], format!("{} answered {n}", KINDS[call]));
            }
            for state in 0..8 {
                want(self.states[call][state] + usize::from(call < 2), format!("{} in state {state}", KINDS[call]));
            }
        }
        for n in [0, 7, 8, 9, 10, 11, 12, 13, 14, 15, 16, 21, 24, 27] {
            want(self.numbers[n], format!("a chunk answered {n}"));
        }
        for state in 1..8 {
            for t in (0..=11).chain([14, 16]) {
                want(self.rows[state][t], format!("a packet of type {t} let in in state {state}"));
            }
        }
        for (name, counts) in [("fate", &self.fates[..]), ("event", &self.events)] {
            counts.iter().enumerate().for_each(|(i, &n)| want(n, format!("{name} {i}")));
        }
        for cause in [0, 1, 3, 9, 13] {
            want(self.causes[cause], format!("cause {cause}"));
        }
        want(self.expiries, "an expiry that closes".into());
        want(self.replies, "a packet that is answered".into());
        for (&met, case) in self.cases.0.iter().zip(&CASES) {
            want(met, case.0.into());
        }
        missing
    }

    /// What another drive has met.
    pub fn add(&mut self, other: &Coverage) {
        fn each(a: &mut [usize], b: &[usize]) {
            a.iter_mut().zip(b).for_each(|(x, y)| *x += y);
        }
        self.calls += other.calls;
        self.replies += other.replies;
        self.expiries += other.expiries;
        for i in 0..KINDS.len() {
            each(&mut self.answered[i], &other.answered[i]);
            each(&mut self.states[i], &other.states[i]);
        }
        each(&mut self.numbers, &other.numbers);
        each(&mut self.fates, &other.fates);
        each(&mut self.events, &other.events);
        each(&mut self.causes, &other.causes);
        each(&mut self.cases.0, &other.cases.0);
        for i in 0..8 {
            each(&mut self.rows[i], &other.rows[i]);
            each(&mut self.accepted[i], &other.accepted[i]);
        }
    }
}

impl fmt::Display for Coverage {
    fn fmt(&self, f: &mut fmt::Formatter<'_>) -> fmt::Result {
        writeln!(f, "{} calls, {} packets answered, {} expiries that closed", self.calls, self.replies, self.expiries)?;
        for (kind, numbers) in KINDS.iter().zip(&self.answered) {
            write!(f, "{kind:>13}")?;
            for (n, count) in numbers.iter().enumerate().filter(|n| *n.1 > 0) {
                write!(f, "  {n}: {count}")?;
            }
            writeln!(f)?;
        }
        writeln!(f, "chunks by number {:?}", self.numbers)?;
        writeln!(f, "by fate {:?}, by event {:?}, by cause {:?}", self.fates, self.events, self.causes)?;
        for (state, (rows, accepted)) in self.rows.iter().zip(&self.accepted).enumerate() {
            writeln!(f, "state {state}: first chunk by type {rows:?}, accepted {accepted:?}")?;
        }
        for (count, case) in self.cases.0.iter().zip(&CASES) {
            writeln!(f, "{count:>7} {}", case.0)?;
        }
        Ok(())
    }
}
