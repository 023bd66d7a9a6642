//! No tile is lost that was acknowledged, no association that is healthy, and a peer that is lost shows.

mod pair;

use modelled::on_both;
use oilwhisper::calls::{Refusal, State};
use oilwhisper::endpoint::{Config, Event, Why};
use oilwhisper::library::Library;
use pair::*;
use std::time::Duration;

const SECOND: Duration = Duration::from_secs(1);

/// The first end sends so many messages of its round in an association of their own, which both shut down.
fn send_and_close<L: Library>(pair: &mut Pair<L>, round: u8, messages: u8) {
    for n in 0..messages {
        pair.ends[0].endpoint.hand_in(&[round, n], 0, false, 0).expect("there is room");
    }
    let now = pair.now;
    pair.ends[0].endpoint.shutdown(now).expect("an established association shuts down");
    assert!(pair.run_until(MINUTE, |pair| pair.are(State::Closed)));
}

fn acknowledged_messages_outlive_their_association<L: Library>() {
    let mut pair = Pair::<L>::up(slow(1), 30);
    pair.ends[1].takes = false;
    send_and_close(&mut pair, 0, 5);
    pair.associate();
    assert!(pair.run_until(MINUTE, |pair| pair.are(State::Established)));
    send_and_close(&mut pair, 1, 3);
    pair.ends[1].takes = true;
    pair.run_for(SECOND);
    let taken: Vec<Vec<u8>> = pair.ends[1].taken.iter().map(|(_, _, message)| message.clone()).collect();
    let rounds = (0..5).map(|n| vec![0, n]).chain((0..3).map(|n| vec![1, n]));
    assert_eq!(taken, rounds.collect::<Vec<_>>());
}

fn a_third_association_waits_until_the_first_was_taken<L: Library>() {
    let mut pair = Pair::<L>::up(slow(1), 31);
    pair.ends[1].takes = false;
    send_and_close(&mut pair, 0, 2);
    pair.associate();
    assert!(pair.run_until(MINUTE, |pair| pair.are(State::Established)));
    send_and_close(&mut pair, 1, 2);
    pair.associate();
    assert!(!pair.run_until(SECOND * 2, |pair| pair.are(State::Established)));
    assert_eq!(sent(&pair, 1, INIT_ACK), 2);
    pair.ends[1].takes = true;
    assert!(pair.run_until(MINUTE, |pair| pair.are(State::Established)));
    send_and_close(&mut pair, 2, 2);
    let taken: Vec<Vec<u8>> = pair.ends[1].taken.iter().map(|(_, _, message)| message.clone()).collect();
    assert_eq!(taken, [[0, 0], [0, 1], [1, 0], [1, 1], [2, 0], [2, 1]]);
}

fn who_asks_again_keeps_what_it_has_not_taken<L: Library>() {
    let mut pair = Pair::<L>::up(slow(1), 36);
    pair.ends[0].takes = false;
    for round in 0..2u8 {
        if round > 0 {
            pair.associate();
            assert!(pair.run_until(MINUTE, |pair| pair.are(State::Established)));
        }
        for n in 0..3 {
            pair.ends[1].endpoint.hand_in(&[round, n], 0, false, 0).expect("there is room");
        }
        let now = pair.now;
        pair.ends[1].endpoint.shutdown(now).expect("an established association shuts down");
        assert!(pair.run_until(MINUTE, |pair| pair.are(State::Closed)));
    }
    let (to, now) = (pair.ends[1].address, pair.now);
    assert_eq!(pair.ends[0].endpoint.associate(to, PORTS[1], now), Err(Refusal::STATE));
    pair.ends[0].takes = true;
    pair.run_for(SECOND);
    let taken: Vec<Vec<u8>> = pair.ends[0].taken.iter().map(|(_, _, message)| message.clone()).collect();
    assert_eq!(taken, [[0, 0], [0, 1], [0, 2], [1, 0], [1, 1], [1, 2]]);
}

fn hand_in_up_to<L: Library>(pair: &mut Pair<L>, handed_in: &mut u8, all: u8) {
    while *handed_in < all && pair.ends[0].endpoint.hand_in(&vec![*handed_in; 512], 0, false, 0).is_ok() {
        *handed_in += 1;
    }
}

fn a_window_closed_for_an_hour_keeps_the_association_up<L: Library>() {
    let mut pair = Pair::<L>::up(slow(1), 32);
    pair.ends[1].takes = false;
    let mut handed_in = 0;
    pair.run_until(MINUTE * 60, |pair| {
        hand_in_up_to(pair, &mut handed_in, 200);
        !pair.are(State::Established)
    });
    assert!(pair.are(State::Established), "{:?}", pair.ends[0].events);
    assert_eq!(pair.ends[1].endpoint.standing().window, 0);
    // The probes go further and further apart (RFC 9260 section 6.1 A): about one a minute.
    let probes = pair.ends[0].endpoint.counts().resent;
    assert!((50..=75).contains(&probes), "{}", probes);
    pair.ends[1].takes = true;
    let all_came = pair.run_until(SECOND * 10, |pair| {
        hand_in_up_to(pair, &mut handed_in, 200);
        pair.ends[1].taken.len() == 200
    });
    assert!(all_came, "{}", pair.ends[1].taken.len());
    assert!(pair.ends[1].taken.iter().zip(0u8..).all(|((_, _, taken), n)| *taken == [n; 512]));
}

fn a_peer_that_vanished_behind_a_closed_window_ends_it_at_the_eleventh_expiry<L: Library>() {
    let mut pair = Pair::<L>::up(slow(1), 33);
    pair.ends[1].takes = false;
    let mut handed_in = 0;
    pair.run_until(MINUTE * 10, |pair| {
        hand_in_up_to(pair, &mut handed_in, 200);
        false
    });
    assert!(pair.are(State::Established), "{:?}", pair.ends[0].events);
    pair.ends[1].loses = Box::new(|_| true);
    let before = pair.ends[0].endpoint.counts().expiries;
    assert!(pair.run_until(MINUTE * 30, |pair| pair.state(0) == State::Closed));
    // Those of the ten that were answered do not count.
    let expiries = pair.ends[0].endpoint.counts().expiries - before;
    assert_eq!(expiries, 11);
}

/// A rail's settings, with the tests' first TSN.
fn on_a_rail(end: usize) -> Config {
    Config { first_tsn: config(end).first_tsn, ..Config::on_a_rail(PORTS[end]) }
}

fn a_peer_that_is_lost_shows_after_five_seconds<L: Library>() {
    let mut pair = Pair::<L>::with(slow(5), 34, [on_a_rail(0), on_a_rail(1)]);
    pair.associate();
    assert!(pair.run_until(MINUTE, |pair| pair.are(State::Established)));
    // Ten minutes without a message are no silence: heartbeats are answered.
    pair.run_for(MINUTE * 10);
    assert!(pair.ends.iter().all(|end| end.events == [Event::Up]));
    pair.ends[0].loses = Box::new(|_| true);
    let last_heard = pair.now - pair.ends[1].endpoint.silence(pair.now);
    assert!(pair.run_until(MINUTE, |pair| pair.ends[1].events.len() > 1));
    assert_eq!(pair.ends[1].events, [Event::Up, Event::Quiet(pair.now - last_heard)]);
    assert_eq!(pair.now - last_heard, SECOND * 5);
    pair.run_for(SECOND * 5);
    pair.ends[0].loses = Box::new(|_| false);
    pair.run_for(MINUTE);
    assert_eq!(pair.ends[1].events[2..], [Event::Heard]);
    // Gone for good it is given up, long before six minutes.
    pair.ends[0].loses = Box::new(|_| true);
    let start = pair.now;
    assert!(pair.run_until(MINUTE * 10, |pair| pair.state(1) == State::Closed));
    assert_eq!(pair.ends[1].events.last(), Some(&Event::Down(Why::NoAnswer)));
    assert!(pair.now - start < SECOND * 120, "{:?}", pair.now - start);
}

fn silence_shows_with_data_outstanding_too<L: Library>() {
    let mut pair = Pair::<L>::up(slow(5), 35);
    pair.ends[0].loses = Box::new(|_| true);
    pair.run_for(MINUTE * 20 / 60);
    pair.ends[0].endpoint.hand_in(b"into the void", 0, false, 0).expect("there is room");
    let start = pair.now;
    assert!(pair.run_until(MINUTE, |pair| pair.ends[0].events.len() > 1));
    assert!(matches!(pair.ends[0].events[1], Event::Quiet(_)));
    assert!(pair.now - start <= SECOND * 5, "{:?}", pair.now - start);
}

on_both! {
    acknowledged_messages_outlive_their_association
    a_third_association_waits_until_the_first_was_taken
    who_asks_again_keeps_what_it_has_not_taken
    a_window_closed_for_an_hour_keeps_the_association_up
    a_peer_that_vanished_behind_a_closed_window_ends_it_at_the_eleventh_expiry
    a_peer_that_is_lost_shows_after_five_seconds
    silence_shows_with_data_outstanding_too
}
