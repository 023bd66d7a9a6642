//! What an endpoint does around the core, held on a clock that the test moves: on the model, and on the proved library where it is linked.

mod pair;

use model::checksum;
use modelled::on_both;
use oilwhisper::calls::{Cause, Refusal, State};
use oilwhisper::endpoint::{Book, Config, Endpoint, Event, Why};
use oilwhisper::library::Library;
use oilwhisper::random::Random;
use pair::*;
use rail::relay::Weather;
use rail::tiles::{tile, Album, Plan};
use std::time::Duration;

const ROUGH: Weather = Weather { delay: Duration::from_millis(10), loss: 0.05, repeat: 0.03, reorder: 0.1, damage: 0.01 };

fn opens_and_shuts_down<L: Library>() {
    let mut pair = Pair::<L>::up(slow(20), 1);
    assert_eq!(pair.ends[0].sent.iter().map(|packet| first_chunk(packet)).collect::<Vec<_>>(), [INIT, COOKIE_ECHO]);
    assert_eq!(pair.ends[1].sent.iter().map(|packet| first_chunk(packet)).collect::<Vec<_>>(), [INIT_ACK, COOKIE_ACK]);
    let now = pair.now;
    pair.ends[1].endpoint.shutdown(now).expect("an established association shuts down");
    assert!(pair.run_until(MINUTE, |pair| pair.are(State::Closed)));
    for end in &pair.ends {
        assert_eq!(end.events, [Event::Up, Event::Down(Why::ShutDown)]);
        assert_eq!(end.endpoint.next_moment(), None);
    }
}

fn carries_both_ways_in_any_weather<L: Library>() {
    for seed in 0..4 {
        let mut pair = Pair::<L>::up(ROUGH, seed);
        let mut plans = [Plan::of(600).peekable(), Plan::of(400).peekable()];
        let mut albums = [Album::default(), Album::default()];
        let done = pair.run_until(MINUTE * 60, |pair| {
            for (end, (plan, album)) in pair.ends.iter_mut().zip(plans.iter_mut().zip(&mut albums)) {
                while let Some((band, index)) = plan.peek() {
                    match end.endpoint.hand_in(&tile(seed, *band, *index), *band, false, 7) {
                        Ok(()) => plan.next(),
                        Err(Refusal::FULL) => break,
                        Err(refusal) => panic!("{}", refusal),
                    };
                }
                for (stream, ssn, message) in end.taken.drain(..) {
                    assert_eq!(album.add(stream, ssn, &message), Ok(()));
                }
            }
            let all = [Plan::total(400), Plan::total(600)];
            albums.iter().zip(all).all(|(album, all)| album.tiles() == all)
        });
        assert!(done, "seed {}: {:?}", seed, [albums[0].tiles(), albums[1].tiles()]);
        let now = pair.now;
        pair.ends[0].endpoint.shutdown(now).expect("an established association shuts down");
        assert!(pair.run_until(MINUTE * 60, |pair| pair.are(State::Closed)), "seed {}", seed);
        assert!(pair.ends.iter().all(|end| end.events.last() == Some(&Event::Down(Why::ShutDown))));
    }
}

/// Every doubled RTO is ended by the heartbeat beside it, so that a bad path is slow and does not stand still.
fn carries_at_twenty_percent_loss<L: Library>() {
    let lossy = Weather { loss: 0.2, ..slow(5) };
    for seed in 0..3 {
        let mut pair = Pair::<L>::up(lossy, seed);
        let mut plan = Plan::of(1000).peekable();
        let mut album = Album::default();
        let start = pair.now;
        let done = pair.run_until(MINUTE * 60, |pair| {
            while let Some((band, index)) = plan.peek() {
                match pair.ends[0].endpoint.hand_in(&tile(seed, *band, *index), *band, false, 7) {
                    Ok(()) => plan.next(),
                    Err(Refusal::FULL) => break,
                    Err(refusal) => panic!("{}", refusal),
                };
            }
            for (stream, ssn, message) in pair.ends[1].taken.drain(..) {
                assert_eq!(album.add(stream, ssn, &message), Ok(()));
            }
            album.tiles() == Plan::total(1000)
        });
        assert!(done && pair.now - start < MINUTE * 2, "seed {}: {:?}", seed, pair.now - start);
    }
}

fn opens_though_every_handshake_packet_is_lost_twice<L: Library>() {
    for (end, chunk) in [(0, INIT), (1, INIT_ACK), (0, COOKIE_ECHO), (1, COOKIE_ACK)] {
        let mut pair = Pair::<L>::new(slow(5), 2);
        pair.ends[end].loses = loses_first(chunk, 2);
        pair.associate();
        assert!(pair.run_until(MINUTE, |pair| pair.are(State::Established)), "chunk {}", chunk);
        let expiries: Vec<u64> = pair.ends.iter().map(|end| end.endpoint.counts().expiries).collect();
        assert_eq!(expiries, [2, 0]);
    }
}

fn closes_though_every_farewell_is_lost_twice<L: Library>() {
    for (end, chunk) in [(0, SHUTDOWN), (1, SHUTDOWN_ACK), (0, SHUTDOWN_COMPLETE)] {
        let mut pair = Pair::<L>::up(slow(5), 3);
        pair.ends[end].loses = loses_first(chunk, 2);
        let now = pair.now;
        pair.ends[0].endpoint.shutdown(now).expect("an established association shuts down");
        assert!(pair.run_until(MINUTE, |pair| pair.are(State::Closed)), "chunk {}", chunk);
        assert!(pair.ends.iter().all(|end| end.events.last() == Some(&Event::Down(Why::ShutDown))));
    }
}

fn gives_up_on_a_peer_that_never_answers<L: Library>() {
    let mut pair = Pair::<L>::new(Weather::FAIR, 4);
    pair.ends[0].loses = Box::new(|_| true);
    pair.associate();
    assert!(pair.run_until(MINUTE * 10, |pair| pair.state(0) == State::Closed));
    assert_eq!(pair.ends[0].events, [Event::Quiet(Duration::from_secs(5)), Event::Down(Why::NoAnswer)]);
    assert_eq!(sent(&pair, 0, INIT), 9);
}

/// Neither end knows the other's book.
fn an_end_of_the_older_book_waits_three_seconds<L: Library>() {
    let older = Config { book: Book::Rfc4960, ..config(0) };
    let mut pair = Pair::<L>::with(slow(20), 4, [older, config(1)]);
    pair.ends[0].loses = Box::new(|_| true);
    pair.associate();
    assert_eq!(pair.ends[0].endpoint.standing().rto, Duration::from_secs(3));
    pair.run_for(Duration::from_millis(2_999));
    assert_eq!(sent(&pair, 0, INIT), 1);
    pair.run_for(Duration::from_millis(2));
    assert_eq!(sent(&pair, 0, INIT), 2);
    pair.ends[0].loses = Box::new(|_| false);
    assert!(pair.run_until(MINUTE, |pair| pair.are(State::Established)));
    pair.ends[0].endpoint.hand_in(b"by the older book", 0, false, 0).expect("there is room");
    assert!(pair.run_until(MINUTE, |pair| pair.ends[1].taken.len() == 1));
}

fn gives_up_on_a_peer_that_vanished_with_data_outstanding<L: Library>() {
    let mut pair = Pair::<L>::up(slow(5), 5);
    pair.ends[0].loses = Box::new(|_| true);
    pair.ends[0].endpoint.hand_in(b"into the void", 0, false, 0).expect("there is room");
    assert!(pair.run_until(MINUTE * 30, |pair| pair.state(0) == State::Closed));
    assert_eq!(pair.ends[0].events.last(), Some(&Event::Down(Why::NoAnswer)));
    assert_eq!(sent(&pair, 0, DATA), 11);
}

fn beats_while_idle_and_notices_silence<L: Library>() {
    let config = |end| Config { heartbeat: Duration::from_secs(2), ..config(end) };
    let mut pair = Pair::<L>::with(slow(40), 6, [config(0), config(1)]);
    pair.associate();
    pair.run_for(MINUTE);
    assert!(pair.are(State::Established));
    let beats = sent(&pair, 0, HEARTBEAT);
    // Every 2 s and an RTO of 1 s, which is spread by half of it each way.
    assert!((15..=24).contains(&beats), "{}", beats);
    // Each end measured a round trip of 80 ms by its heartbeats, so its RTO stays the least.
    assert_eq!(pair.ends[0].endpoint.standing().rto, Duration::from_secs(1));
    pair.ends[1].loses = Box::new(|packet| first_chunk(packet) == HEARTBEAT_ACK);
    // 11 of them, with an RTO that doubles up to 60 s.
    assert!(pair.run_until(MINUTE * 10, |pair| pair.state(0) == State::Closed));
    assert_eq!(pair.ends[0].events.last(), Some(&Event::Down(Why::NoAnswer)));
    // Its ABORT reached the other end.
    pair.run_for(Duration::from_secs(1));
    assert_eq!(pair.ends[1].events.last(), Some(&Event::Down(Why::PeerAborted)));
}

/// Two ends, the second of which has acknowledged the first DATA of the association.
fn acknowledged_first<L: Library>(milliseconds: u64, seed: u64) -> Pair<L> {
    let mut pair = Pair::<L>::up(slow(milliseconds), seed);
    pair.ends[0].endpoint.hand_in(&[1; 512], 0, false, 0).expect("there is room");
    assert!(pair.run_until(MINUTE, |pair| sent(pair, 1, SACK) == 1));
    pair
}

fn acknowledges_the_first_data_at_once<L: Library>() {
    let mut pair = Pair::<L>::up(slow(1), 7);
    let start = pair.now;
    pair.ends[0].endpoint.hand_in(&[1; 512], 0, false, 0).expect("there is room");
    assert!(pair.run_until(MINUTE, |pair| sent(pair, 1, SACK) == 1));
    assert_eq!(pair.now - start, Duration::from_millis(1));
    // And of the next association.
    let now = pair.now;
    pair.ends[0].endpoint.shutdown(now).expect("an established association shuts down");
    assert!(pair.run_until(MINUTE, |pair| pair.are(State::Closed)));
    pair.associate();
    assert!(pair.run_until(MINUTE, |pair| pair.are(State::Established)));
    let start = pair.now;
    pair.ends[0].endpoint.hand_in(&[1; 512], 0, false, 0).expect("there is room");
    assert!(pair.run_until(MINUTE, |pair| sent(pair, 1, SACK) == 2));
    assert_eq!(pair.now - start, Duration::from_millis(1));
}

/// RFC 9260 section 5.1: DATA may come with the COOKIE ECHO.
fn acknowledges_data_that_came_with_the_cookie_at_once<L: Library>() {
    let mut pair = Pair::<L>::new(slow(1), 17);
    pair.ends[0].loses = Box::new(|packet| first_chunk(packet) == COOKIE_ECHO);
    pair.associate();
    pair.run_for(Duration::from_millis(100));
    let mut packet = pair.ends[0].sent.last().expect("the cookie was echoed").clone();
    assert_eq!(first_chunk(&packet), COOKIE_ECHO);
    packet.extend_from_slice(&[DATA, 3, 0, 20]);
    packet.extend_from_slice(&(u32::MAX - 99).to_be_bytes());
    packet.extend_from_slice(&[0, 0, 0, 0, 0, 0, 0, 0, 1, 2, 3, 4]);
    checksum::seal(&mut packet);
    let (from, start) = (pair.ends[0].address, pair.now);
    pair.arrive(1, &packet, from);
    assert!(pair.run_until(MINUTE, |pair| sent(pair, 1, SACK) == 1));
    assert_eq!(pair.now, start);
    assert_eq!(pair.ends[1].taken, [(0, 0, vec![1, 2, 3, 4])]);
}

fn acknowledges_every_second_packet_or_after_200_ms<L: Library>() {
    let mut pair = acknowledged_first::<L>(1, 7);
    let start = pair.now;
    pair.ends[0].endpoint.hand_in(&[1; 512], 0, false, 0).expect("there is room");
    assert!(pair.run_until(MINUTE, |pair| sent(pair, 1, SACK) == 2));
    assert_eq!(pair.now - start, Duration::from_millis(201));
    let start = pair.now;
    for _ in 0..2 {
        pair.ends[0].endpoint.hand_in(&[2; 512], 0, false, 0).expect("there is room");
    }
    assert!(pair.run_until(MINUTE, |pair| sent(pair, 1, SACK) == 3));
    assert_eq!(pair.now - start, Duration::from_millis(1));
}

fn acknowledges_at_once_where_the_sender_asks_for_it<L: Library>() {
    const I: u8 = 8;
    let mut pair = acknowledged_first::<L>(1, 18);
    let mut packet = pair.ends[0].sent.last().expect("the chunk was sent").clone();
    let tsn = u32::from_be_bytes([packet[16], packet[17], packet[18], packet[19]]);
    let (from, start) = (pair.ends[0].address, pair.now);
    for (next, flags, acknowledgements) in [(1, 3, 1), (2, 3 | I, 2), (3, 3 | I, 3)] {
        packet[13] = flags;
        packet[16..20].copy_from_slice(&tsn.wrapping_add(next).to_be_bytes());
        packet[22..24].copy_from_slice(&(next as u16).to_be_bytes());
        checksum::seal(&mut packet);
        pair.arrive(1, &packet, from);
        pair.run_for(Duration::ZERO);
        assert_eq!((sent(&pair, 1, SACK), pair.now), (acknowledgements, start));
    }
}

fn restarts_t3_when_the_first_chunk_is_resent_fast<L: Library>() {
    let mut pair = Pair::<L>::up(slow(300), 19);
    pair.ends[0].loses = loses_first(DATA, 1);
    for _ in 0..4 {
        pair.ends[0].endpoint.hand_in(&[3; 512], 0, false, 0).expect("there is room");
    }
    pair.run_for(Duration::from_secs(5));
    assert_eq!(pair.ends[1].taken.len(), 4);
    // Sent at 0, resent at 600 ms and acknowledged at 1,200 ms, with an RTO of 1,000 ms.
    assert_eq!((pair.ends[0].endpoint.counts().resent, pair.ends[0].endpoint.counts().expiries), (1, 0));
}

/// What shows whether the peer is there is DATA that goes out for the first time.
fn a_resent_chunk_does_not_put_off_the_heartbeat<L: Library>() {
    let config = |end| Config { heartbeat: Duration::from_secs(2), ..config(end) };
    for seed in 0..8 {
        let mut pair = Pair::<L>::with(slow(300), seed, [config(0), config(1)]);
        pair.associate();
        assert!(pair.run_until(MINUTE, |pair| pair.are(State::Established)));
        pair.ends[0].loses = loses_first(DATA, 1);
        for _ in 0..4 {
            pair.ends[0].endpoint.hand_in(&[3; 512], 0, false, 0).expect("there is room");
        }
        // Sent at 0 and resent at 600 ms: from the first moment on it is 2 s, and 1.5 RTO of 1,000 ms at most, to the heartbeat.
        pair.run_for(Duration::from_millis(3500));
        assert_eq!((pair.ends[0].endpoint.counts().resent, sent(&pair, 0, HEARTBEAT)), (1, 1), "seed {}", seed);
    }
}

fn sends_four_packets_at_a_time<L: Library>() {
    let mut pair = Pair::<L>::up(slow(20), 20);
    let all = 400;
    let mut handed_in = 0;
    let mut hand_in = |pair: &mut Pair<L>, all| {
        while handed_in < all && pair.ends[0].endpoint.hand_in(&[4; 512], 0, false, 0).is_ok() {
            handed_in += 1;
        }
        handed_in == all
    };
    assert!(pair.run_until(MINUTE, |pair| hand_in(pair, all) && !pair.ends[0].endpoint.standing().has_outstanding()));
    pair.run_for(Duration::from_secs(1));
    // The congestion window is wide, and there is plenty to send.
    assert!(pair.ends[0].endpoint.core().record().head.sender.path.control.cwnd > 20_000);
    let before = sent(&pair, 0, DATA);
    hand_in(&mut pair, all + 100);
    pair.run_for(Duration::from_millis(1));
    assert_eq!(sent(&pair, 0, DATA) - before, 4);
    assert!(pair.run_until(MINUTE, |pair| pair.ends[1].taken.len() == all + 100));
    assert_eq!(pair.ends[0].endpoint.counts().expiries, 0);
}

fn acknowledges_a_gap_at_once_and_resends_without_waiting_for_t3<L: Library>() {
    let mut pair = Pair::<L>::up(slow(1), 8);
    pair.ends[0].loses = loses_first(DATA, 1);
    for _ in 0..4 {
        pair.ends[0].endpoint.hand_in(&[3; 512], 0, false, 0).expect("there is room");
    }
    let start = pair.now;
    assert!(pair.run_until(MINUTE, |pair| pair.ends[1].taken.len() == 4));
    assert!(pair.now - start < Duration::from_millis(100));
    assert_eq!(pair.ends[0].endpoint.counts().expiries, 0);
    assert_eq!(pair.ends[0].endpoint.counts().resent, 1);
}

/// Two ends, and the packet of a chunk that one has sent and the other acknowledged.
fn acknowledged<L: Library>(seed: u64) -> (Pair<L>, Vec<u8>) {
    let mut pair = Pair::<L>::up(slow(1), seed);
    pair.ends[0].endpoint.hand_in(&[4; 512], 0, false, 0).expect("there is room");
    assert!(pair.run_until(MINUTE, |pair| sent(pair, 1, SACK) == 1));
    let packet = pair.ends[0].sent.last().expect("the chunk was sent").clone();
    assert_eq!(first_chunk(&packet), DATA);
    (pair, packet)
}

fn an_opposite_chunk_asks_for_no_sack<L: Library>() {
    let (mut pair, mut packet) = acknowledged::<L>(15);
    packet[16] ^= 0x80;
    checksum::seal(&mut packet);
    let (from, now) = (pair.ends[0].address, pair.now);
    let before = pair.ends[1].endpoint.standing();
    for _ in 0..3 {
        pair.ends[1].endpoint.arrive(&packet, from, now);
    }
    pair.run_for(Duration::from_millis(500));
    assert_eq!(pair.ends[1].endpoint.standing(), before);
    assert_eq!(pair.ends[1].endpoint.counts().refusals().collect::<Vec<_>>(), [(Refusal::OPPOSITE, 3)]);
    assert_eq!(sent(&pair, 1, SACK), 1);
}

fn a_contradiction_aborts<L: Library>() {
    let (mut pair, mut packet) = acknowledged::<L>(16);
    let tsn = u32::from_be_bytes([packet[16], packet[17], packet[18], packet[19]]);
    let (from, now) = (pair.ends[0].address, pair.now);
    for next in 1..=2 {
        packet[13] = 2;
        packet[16..20].copy_from_slice(&tsn.wrapping_add(next).to_be_bytes());
        checksum::seal(&mut packet);
        pair.ends[1].endpoint.arrive(&packet, from, now);
    }
    pair.run_for(Duration::from_secs(1));
    assert_eq!(pair.ends[1].endpoint.counts().refusals().collect::<Vec<_>>(), [(Refusal::CLASHING, 1)]);
    assert_eq!(pair.ends[1].events.last(), Some(&Event::Down(Why::WeAborted(Cause::Violation))));
    assert_eq!(pair.ends[0].events.last(), Some(&Event::Down(Why::PeerAborted)));
}

fn measures_round_trips_but_not_of_what_was_resent<L: Library>() {
    let mut pair = Pair::<L>::up(slow(400), 9);
    for _ in 0..2 {
        pair.ends[0].endpoint.hand_in(&[4; 512], 0, false, 0).expect("there is room");
    }
    pair.run_for(Duration::from_secs(2));
    // One sample of 800 ms: SRTT 800, RTTVAR 400, RTO 2,400.
    assert_eq!(pair.ends[0].endpoint.standing().rto, Duration::from_millis(2400));
    pair.ends[0].loses = loses_first(DATA, 1);
    pair.ends[0].endpoint.hand_in(&[5; 512], 0, false, 0).expect("there is room");
    pair.ends[1].loses = Box::new(|packet| first_chunk(packet) == HEARTBEAT_ACK);
    pair.run_for(Duration::from_secs(10));
    assert_eq!(pair.ends[1].taken.len(), 3);
    // T3 doubled it, and the chunk that was sent twice is no sample.
    assert_eq!(pair.ends[0].endpoint.standing().rto, Duration::from_millis(4800));
}

fn a_heartbeat_beside_what_t3_resends_ends_the_doubled_rto<L: Library>() {
    let mut pair = acknowledged_first::<L>(400, 27);
    pair.run_for(Duration::from_secs(2));
    assert_eq!(pair.ends[0].endpoint.standing().rto, Duration::from_millis(2400));
    pair.ends[0].loses = loses_first(DATA, 3);
    pair.ends[0].endpoint.hand_in(&[5; 512], 0, false, 0).expect("there is room");
    let start = pair.now;
    assert!(pair.run_until(MINUTE, |pair| pair.ends[1].taken.len() == 2));
    // T3 rings after 2,400 ms, after 4,800 more, since it runs already when the heartbeat's answer comes, and then not after 9,600 but after 4,000.
    assert_eq!(pair.now - start, Duration::from_millis(11_600));
    pair.run_for(Duration::from_secs(2));
    assert_eq!((sent(&pair, 0, HEARTBEAT), pair.ends[0].endpoint.counts().expiries), (3, 3));
    assert!(pair.ends[0].endpoint.standing().rto < Duration::from_millis(2400));
}

fn a_slow_taker_shuts_the_window_and_opens_it_again<L: Library>() {
    let mut pair = Pair::<L>::up(slow(1), 10);
    pair.ends[1].takes = false;
    let message = |n: u8| vec![n; 512];
    let mut handed_in = 0u8;
    pair.run_until(Duration::from_millis(500), |pair| {
        while handed_in < 200 && pair.ends[0].endpoint.hand_in(&message(handed_in), 0, false, 0).is_ok() {
            handed_in += 1;
        }
        false
    });
    assert_eq!(pair.ends[1].endpoint.standing().window, 0);
    pair.ends[1].takes = true;
    let start = pair.now;
    pair.run_until(MINUTE * 5, |pair| {
        while handed_in < 200 && pair.ends[0].endpoint.hand_in(&message(handed_in), 0, false, 0).is_ok() {
            handed_in += 1;
        }
        pair.ends[1].taken.len() == 200
    });
    assert!(pair.now - start < Duration::from_secs(1), "{:?}", pair.now - start);
    assert!(pair.ends[1].taken.iter().zip(0u8..).all(|((_, _, taken), n)| *taken == message(n)));
}

fn a_stale_cookie_is_told_to_the_peer<L: Library>() {
    let mut pair = Pair::<L>::new(slow(1), 11);
    pair.ends[1].loses = Box::new(|packet| first_chunk(packet) == INIT_ACK);
    pair.associate();
    pair.run_for(Duration::from_millis(100));
    let init_ack = pair.ends[1].sent.last().cloned().expect("the INIT was answered");
    pair.run_for(MINUTE + Duration::from_secs(1));
    let (from, now) = (pair.ends[1].address, pair.now);
    pair.ends[0].endpoint.arrive(&init_ack, from, now);
    assert!(pair.run_until(MINUTE, |pair| pair.state(0) == State::Closed));
    assert_eq!(pair.ends[0].events, [Event::Quiet(Duration::from_secs(5)), Event::Heard, Event::Down(Why::StaleCookie)]);
    assert_eq!(pair.state(1), State::Closed);
}

fn an_old_cookie_starts_no_second_association<L: Library>() {
    let mut pair = Pair::<L>::up(slow(1), 12);
    let now = pair.now;
    pair.ends[0].endpoint.abort(Cause::User, now).expect("an established association aborts");
    pair.run_for(Duration::from_secs(1));
    assert_eq!(pair.ends[0].events.last(), Some(&Event::Down(Why::WeAborted(Cause::User))));
    assert_eq!(pair.ends[1].events.last(), Some(&Event::Down(Why::PeerAborted)));
    let echo = pair.ends[0].sent.iter().find(|packet| first_chunk(packet) == COOKIE_ECHO).cloned().expect("the cookie was echoed");
    let (from, now) = (pair.ends[0].address, pair.now);
    pair.ends[1].endpoint.arrive(&echo, from, now);
    assert_eq!(pair.state(1), State::Closed);
    assert!(pair.ends[1].endpoint.counts().refusals().any(|(refusal, _)| refusal == Refusal(27)));
}

fn opens_again_after_the_end<L: Library>() {
    let mut pair = Pair::<L>::up(slow(1), 13);
    for round in 0..3 {
        pair.ends[0].endpoint.hand_in(&[round; 2000], 1, false, 0).expect("there is room");
        let now = pair.now;
        pair.ends[0].endpoint.shutdown(now).expect("an established association shuts down");
        assert!(pair.run_until(MINUTE, |pair| pair.are(State::Closed)));
        assert_eq!(pair.ends[1].taken.pop(), Some((1, 0, vec![round; 2000])));
        pair.associate();
        assert!(pair.run_until(MINUTE, |pair| pair.are(State::Established)));
    }
}

/// "When a head's battery is swapped, it sends INIT while we still hold the old association."
fn a_head_that_comes_back_is_met<L: Library>() {
    let mut pair = Pair::<L>::up(slow(5), 15);
    pair.ends[1].takes = false;
    for number in 0..3 {
        pair.ends[0].endpoint.hand_in(&[number; 700], number.into(), false, 0).expect("there is room");
    }
    pair.run_for(Duration::from_secs(1));
    let old = pair.ends[0].sent.iter().rfind(|packet| first_chunk(packet) == DATA).cloned().expect("it was sent");
    for swap in 1..=3 {
        let now = pair.now;
        pair.ends[0].endpoint = Endpoint::new(config(0), Random::from_key([100 + swap; 32]), now);
        pair.associate();
        assert!(pair.run_until(MINUTE, |pair| pair.are(State::Established)));
        let lost = if swap == 1 { 3 } else { 1 };
        assert_eq!(pair.ends[1].events.last(), Some(&Event::Restarted(lost)), "swap {}", swap);
        // What was not taken of the old life is gone, and what comes of it late is not let in.
        let (from, now) = (pair.ends[0].address, pair.now);
        pair.ends[1].endpoint.arrive(&old, from, now);
        assert!(pair.ends[1].endpoint.take().is_none());
        pair.ends[0].endpoint.hand_in(&[swap; 700], 0, false, 0).expect("there is room");
        pair.run_for(Duration::from_secs(1));
    }
    pair.ends[1].takes = true;
    pair.run_for(Duration::from_secs(1));
    assert_eq!(pair.ends[1].taken, [(0, 0, vec![3; 700])]);
    assert!(!pair.ends[1].events.iter().any(|event| matches!(event, Event::Down(_))));
}

/// RFC 9260 sections 5.2.1 and 5.2.4 B: one association comes of two INITs that cross.
fn two_ends_that_ask_at_once_have_one_association<L: Library>() {
    for seed in 0..8 {
        let mut pair = Pair::<L>::new(if seed < 2 { slow(20) } else { ROUGH }, seed);
        pair.associate();
        let (to, now) = (pair.ends[0].address, pair.now);
        pair.ends[1].endpoint.associate(to, PORTS[0], now).expect("a closed record can associate");
        assert!(pair.run_until(MINUTE, |pair| pair.are(State::Established)), "seed {}", seed);
        for end in 0..2 {
            pair.ends[end].endpoint.hand_in(&[end as u8; 1500], 1, false, 0).expect("there is room");
        }
        assert!(pair.run_until(MINUTE, |pair| pair.ends.iter().all(|end| end.taken.len() == 1)), "seed {}", seed);
        assert!(pair.ends.iter().all(|end| end.events.iter().filter(|event| **event == Event::Up).count() == 1), "seed {}", seed);
    }
}

/// RFC 9260 section 5.2.4 B behind the opening: the battery was swapped while we asked as well, so that the cookies of both lives have our one tag. Up with the
/// first life, we take the tag of the second, and go on only where its first TSN is the one that the record was made from.
fn a_head_swapped_during_the_opening_goes_on_only_by_the_same_first_tsn<L: Library>() {
    for is_same in [true, false] {
        let mut pair = Pair::<L>::new(slow(5), 21);
        pair.ends[0].loses = Box::new(|packet| first_chunk(packet) == COOKIE_ECHO);
        pair.ends[1].loses = Box::new(|packet| first_chunk(packet) == INIT);
        let (to, now) = (pair.ends[0].address, pair.now);
        pair.ends[1].endpoint.associate(to, PORTS[0], now).expect("a closed record can associate");
        let second = if is_same { config(0) } else { Config { first_tsn: Some(7), ..config(0) } };
        let echoes = [(config(0), 101), (second, 102)].map(|(config, key)| {
            let now = pair.now;
            pair.ends[0].endpoint = Endpoint::new(config, Random::from_key([key; 32]), now);
            pair.associate();
            pair.run_for(Duration::from_millis(100));
            pair.ends[0].sent.iter().rfind(|packet| first_chunk(packet) == COOKIE_ECHO).cloned().expect("the cookie was echoed")
        });
        let (from, tag) = (pair.ends[0].address, pair.ends[0].endpoint.standing().my_tag);
        pair.arrive(1, &echoes[0], from);
        assert_eq!(pair.state(1), State::Established);
        assert_ne!(pair.ends[1].endpoint.core().peer_tag(), tag);
        pair.arrive(1, &echoes[1], from);
        pair.ends[0].loses = Box::new(|_| false);
        pair.run_for(Duration::from_millis(100));
        if is_same {
            assert_eq!(pair.ends[1].endpoint.core().peer_tag(), tag);
            pair.ends[0].endpoint.hand_in(b"of the second life", 0, false, 0).expect("there is room");
            pair.run_for(Duration::from_secs(1));
            assert_eq!(pair.ends[1].taken, [(0, 0, b"of the second life".to_vec())]);
            assert_eq!(pair.ends[1].events, [Event::Up]);
        } else {
            assert_eq!(pair.ends[1].events, [Event::Up, Event::Down(Why::WeAborted(Cause::User))]);
            assert_eq!(pair.ends[0].events.last(), Some(&Event::Down(Why::PeerAborted)));
        }
    }
}

/// Until there are paths, only the peer's own address may begin anew.
fn a_stranger_restarts_nothing<L: Library>() {
    let mut pair = Pair::<L>::up(slow(1), 16);
    pair.has_strangers = true;
    let init = pair.ends[0].sent[0].clone();
    let before = pair.ends[1].endpoint.standing();
    pair.arrive(1, &init, "10.0.0.77:9899".parse().expect("an address"));
    pair.run_for(Duration::from_secs(1));
    assert_eq!(pair.ends[1].endpoint.standing(), before);
    assert!(pair.ends[1].astray.is_empty());
    assert!(pair.ends[1].endpoint.counts().refusals().any(|(refusal, _)| refusal == Refusal(8)));
    let (from, sent) = (pair.ends[0].address, pair.ends[1].sent.len());
    pair.arrive(1, &init, from);
    pair.run_for(Duration::from_millis(10));
    assert_eq!(first_chunk(&pair.ends[1].sent[sent]), INIT_ACK);
    assert_eq!(pair.ends[1].endpoint.standing(), before);
}

/// RFC 9260 section 9.2: an INIT asks for the SHUTDOWN ACK again. It shows the peer's tag, so it goes where the peer is, whoever has asked.
fn a_shutdown_ack_that_an_init_asks_for_goes_to_the_peer<L: Library>() {
    let mut pair = Pair::<L>::up(slow(1), 22);
    pair.has_strangers = true;
    let init = pair.ends[0].sent[0].clone();
    pair.ends[1].loses = Box::new(|packet| first_chunk(packet) == SHUTDOWN_ACK);
    let now = pair.now;
    pair.ends[0].endpoint.shutdown(now).expect("an established association shuts down");
    assert!(pair.run_until(MINUTE, |pair| pair.state(1) == State::ShutdownAckSent));
    let (before, peer) = (sent(&pair, 1, SHUTDOWN_ACK), pair.ends[0].address);
    for (count, from) in [(1, "10.0.0.77:9899".parse().expect("an address")), (2, peer)] {
        pair.arrive(1, &init, from);
        pair.run_for(Duration::from_millis(1));
        assert_eq!(sent(&pair, 1, SHUTDOWN_ACK), before + count);
    }
    assert!(pair.ends[1].astray.is_empty());
}

fn noise_changes_nothing<L: Library>() {
    let mut pair = Pair::<L>::up(slow(1), 14);
    let (from, now) = (pair.ends[0].address, pair.now);
    let before = pair.ends[1].endpoint.standing();
    for length in 0..2000 {
        let noise: Vec<u8> = (0..length).map(|n| (n * 7 + length) as u8).collect();
        pair.ends[1].endpoint.arrive(&noise, from, now);
    }
    assert_eq!(pair.ends[1].endpoint.standing(), before);
    assert_eq!(pair.ends[1].endpoint.outgoing(), None);
}

on_both! {
    opens_and_shuts_down
    carries_both_ways_in_any_weather
    carries_at_twenty_percent_loss
    opens_though_every_handshake_packet_is_lost_twice
    closes_though_every_farewell_is_lost_twice
    gives_up_on_a_peer_that_never_answers
    an_end_of_the_older_book_waits_three_seconds
    gives_up_on_a_peer_that_vanished_with_data_outstanding
    beats_while_idle_and_notices_silence
    acknowledges_the_first_data_at_once
    acknowledges_data_that_came_with_the_cookie_at_once
    acknowledges_every_second_packet_or_after_200_ms
    acknowledges_at_once_where_the_sender_asks_for_it
    restarts_t3_when_the_first_chunk_is_resent_fast
    a_resent_chunk_does_not_put_off_the_heartbeat
    sends_four_packets_at_a_time
    acknowledges_a_gap_at_once_and_resends_without_waiting_for_t3
    an_opposite_chunk_asks_for_no_sack
    a_contradiction_aborts
    measures_round_trips_but_not_of_what_was_resent
    a_heartbeat_beside_what_t3_resends_ends_the_doubled_rto
    a_slow_taker_shuts_the_window_and_opens_it_again
    a_stale_cookie_is_told_to_the_peer
    an_old_cookie_starts_no_second_association
    opens_again_after_the_end
    a_head_that_comes_back_is_met
    two_ends_that_ask_at_once_have_one_association
    a_head_swapped_during_the_opening_goes_on_only_by_the_same_first_tsn
    a_stranger_restarts_nothing
    a_shutdown_ack_that_an_init_asks_for_goes_to_the_peer
    noise_changes_nothing
}
