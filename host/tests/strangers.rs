//! What packets from a third address can do: nothing to an association, whoever sends them. On the model and on the proved library, and over real sockets.

mod pair;

use modelled::on_both;
use oilwhisper::calls::{Refusal, State};
use oilwhisper::endpoint::{Config, Endpoint, Event, Why};
use oilwhisper::library::Library;
use oilwhisper::random::Random;
use oilwhisper::udp::Line;
use pair::*;
use rail::relay::Weather;
use std::net::{SocketAddr, UdpSocket};
use std::time::{Duration, Instant};

const SECOND: Duration = Duration::from_secs(1);

fn with_strangers<L: Library>(weather: Weather, seed: u64) -> Pair<L> {
    let mut pair = Pair::up(weather, seed);
    pair.has_strangers = true;
    pair
}

fn inits_from_forged_addresses_change_nothing_for_an_hour<L: Library>() {
    let mut pair = with_strangers::<L>(slow(5), 20);
    let peers = [pair.ends[0].endpoint.peer(), pair.ends[1].endpoint.peer()];
    for second in 0..3600u32 {
        for end in 0..2 {
            pair.arrive(end, &init_to(end), stranger(second as u8));
        }
        pair.ends[0].endpoint.hand_in(&second.to_be_bytes(), 0, false, 0).expect("there is room");
        pair.run_for(SECOND);
    }
    assert!(pair.are(State::Established));
    assert_eq!([pair.ends[0].endpoint.peer(), pair.ends[1].endpoint.peer()], peers);
    assert!(pair.ends.iter().all(|end| end.astray.is_empty()), "{} packets went astray", pair.ends[0].astray.len());
    assert_eq!(pair.ends[1].taken.len(), 3600);
    assert_eq!(pair.ends[0].endpoint.counts().expiries, 0);
}

fn another_port_of_the_peer_is_followed_at_once<L: Library>() {
    let mut pair = with_strangers::<L>(slow(5), 21);
    pair.ends[0].address.set_port(40_000);
    pair.ends[0].endpoint.hand_in(b"from another port", 0, false, 0).expect("there is room");
    pair.run_for(SECOND);
    assert_eq!(pair.ends[1].endpoint.peer(), Some(pair.ends[0].address));
    assert_eq!(pair.ends[1].taken.len(), 1);
    assert_eq!(pair.ends[1].astray, []);
    assert_eq!(pair.ends[0].endpoint.counts().expiries, 0);
}

/// With our tag and a duplicate, and then with the peer's own tag, which an ABORT may show (RFC 9260 section 8.5.1 B).
fn what_is_refused_or_shows_no_tag_of_ours_moves_nothing<L: Library>() {
    let mut pair = with_strangers::<L>(slow(5), 31);
    let [theirs, ours] = [0, 1].map(|end: usize| pair.ends[end].endpoint.standing().my_tag);
    let (peer, other_port) = (pair.ends[0].address, SocketAddr::new(pair.ends[0].address.ip(), 40_000));
    let mut duplicate = vec![DATA, 3, 0, 20];
    duplicate.extend_from_slice(&(u32::MAX - 100).to_be_bytes());
    duplicate.extend_from_slice(&[0, 0, 0, 0, 0, 0, 0, 0, 1, 2, 3, 4]);
    pair.arrive(1, &sealed(1, ours, &duplicate), other_port);
    assert_eq!(pair.ends[1].endpoint.counts().refusals().collect::<Vec<_>>(), [(Refusal::DUPLICATE, 1)]);
    assert_eq!(pair.ends[1].endpoint.peer(), Some(peer));
    pair.arrive(1, &sealed(1, theirs, &[ABORT, 1, 0, 4]), other_port);
    assert_eq!((pair.state(1), pair.ends[1].endpoint.peer()), (State::Closed, Some(peer)));
}

fn another_address_is_believed_when_it_has_answered<L: Library>() {
    let mut pair = with_strangers::<L>(slow(5), 22);
    let (before, after) = (pair.ends[0].address, stranger(1));
    pair.ends[0].address = after;
    pair.ends[0].endpoint.hand_in(b"from another address", 0, false, 0).expect("there is room");
    let already_sent = pair.ends[1].sent.len();
    // Half way: the DATA has come and the HEARTBEAT ACK has not.
    pair.run_for(Duration::from_millis(14));
    assert_eq!(pair.ends[1].endpoint.peer(), Some(before));
    assert!(pair.ends[1].astray.iter().all(|datagram| datagram.to == before));
    let there: Vec<u8> = pair.ends[1].sent[already_sent..].iter().map(|packet| first_chunk(packet)).collect();
    assert_eq!(there, [HEARTBEAT]);
    pair.run_for(SECOND * 5);
    assert_eq!(pair.ends[1].endpoint.peer(), Some(after));
    assert_eq!(pair.ends[1].taken.len(), 1);
    // The SACK that went to the old address is lost, and one comes from the new on the DATA sent again.
    assert!(!pair.ends[0].endpoint.standing().has_outstanding());
    let now = pair.now;
    pair.ends[1].endpoint.shutdown(now).expect("an established association shuts down");
    assert!(pair.run_until(MINUTE, |pair| pair.are(State::Closed)));
}

/// Whoever reads along can repeat a packet that is good, from an address of its own.
fn an_address_that_does_not_answer_gets_one_heartbeat_a_second<L: Library>() {
    let mut pair = with_strangers::<L>(slow(5), 23);
    let sender = pair.ends[0].address;
    let mut repeated = 0;
    for round in 0..300u32 {
        pair.ends[0].endpoint.hand_in(&round.to_be_bytes(), 0, false, 0).expect("there is room");
        let now = pair.now;
        pair.ends[0].endpoint.flush(now);
        while let Some(datagram) = pair.ends[0].endpoint.outgoing() {
            pair.arrive(1, &datagram.packet, stranger(round as u8 % 4));
            repeated += 1;
        }
        pair.run_for(Duration::from_millis(100));
    }
    assert!(repeated >= 100);
    let astray = &pair.ends[1].astray;
    assert!(astray.iter().all(|datagram| first_chunk(&datagram.packet) == HEARTBEAT));
    assert!((10..=31).contains(&astray.len()), "{}", astray.len());
    assert_eq!(pair.ends[1].endpoint.peer(), Some(sender));
    assert_eq!(pair.ends[1].taken.len(), 300);
}

fn a_client_takes_no_stranger<L: Library>() {
    let mut pair = with_strangers::<L>(slow(1), 24);
    let now = pair.now;
    pair.ends[0].endpoint.shutdown(now).expect("an established association shuts down");
    assert!(pair.run_until(MINUTE, |pair| pair.are(State::Closed)));
    for end in 0..2 {
        pair.arrive(end, &init_to(end), stranger(1));
    }
    pair.run_for(SECOND);
    assert_eq!(pair.ends[0].astray, []);
    // The end that was asked listens still.
    assert_eq!(pair.ends[1].astray.iter().map(|datagram| first_chunk(&datagram.packet)).collect::<Vec<_>>(), [INIT_ACK]);
}

/// The answers of an endpoint that nothing has happened to yet, to one INIT from each address.
fn answers_of<L: Library>(config: Config, strangers: &[SocketAddr]) -> Vec<SocketAddr> {
    let now = Instant::now();
    let mut endpoint = Endpoint::<L>::new(config, Random::from_key([3; 32]), now);
    for from in strangers {
        endpoint.arrive(&init_to(1), *from, now);
    }
    let answers: Vec<_> = std::iter::from_fn(|| endpoint.outgoing()).collect();
    assert!(answers.iter().all(|answer| first_chunk(&answer.packet) == INIT_ACK));
    assert_eq!(endpoint.counts().turned_away as usize, strangers.len() - answers.len());
    answers.iter().map(|answer| answer.to).collect()
}

fn who_may_come_is_a_setting<L: Library>() {
    let strangers = [stranger(1), stranger(200)];
    assert_eq!(answers_of::<L>(config(1), &strangers), strangers);
    assert_eq!(answers_of::<L>(Config { listens: false, ..config(1) }, &strangers), []);
    let near = "203.0.113.0/25".parse().expect("it is a network");
    assert_eq!(answers_of::<L>(Config { admits: Some(vec![near]), ..config(1) }, &strangers), [stranger(1)]);
    assert_eq!(answers_of::<L>(Config { admits: Some(Vec::new()), ..config(1) }, &strangers), []);
}

fn no_more_than_so_many_are_taken_up<L: Library>() {
    let mut pair = Pair::<L>::with(slow(1), 28, [config(0), Config { most: Some(2), ..config(1) }]);
    for round in 0..3 {
        pair.associate();
        assert_eq!(pair.run_until(MINUTE, |pair| pair.are(State::Established)), round < 2);
        let now = pair.now;
        let _ = pair.ends[0].endpoint.shutdown(now);
        pair.run_for(MINUTE);
    }
    assert_eq!(sent(&pair, 1, INIT_ACK), 2);
}

fn who_asked_listens_again_when_told_to<L: Library>() {
    let mut pair = with_strangers::<L>(slow(1), 29);
    let now = pair.now;
    pair.ends[0].endpoint.shutdown(now).expect("an established association shuts down");
    assert!(pair.run_until(MINUTE, |pair| pair.are(State::Closed)));
    pair.ends[0].endpoint.listen(true);
    pair.arrive(0, &init_to(0), stranger(1));
    pair.run_for(SECOND);
    assert_eq!(pair.ends[0].astray.len(), 1);
}

fn a_packet_to_an_endpoint_that_lost_its_memory_is_answered_by_abort<L: Library>() {
    let mut pair = Pair::<L>::up(slow(5), 25);
    pair.ends[1].endpoint = Endpoint::new(config(1), Random::from_key([99; 32]), pair.now);
    pair.ends[0].endpoint.hand_in(b"is anybody there?", 0, false, 0).expect("there is room");
    let start = pair.now;
    assert!(pair.run_until(MINUTE * 10, |pair| pair.state(0) == State::Closed));
    assert_eq!(pair.ends[0].events.last(), Some(&Event::Down(Why::PeerAborted)));
    assert_eq!(pair.now - start, Duration::from_millis(10));
}

fn a_shutdown_ack_to_an_endpoint_that_lost_its_memory_is_answered<L: Library>() {
    let mut pair = Pair::<L>::up(slow(5), 26);
    pair.ends[0].loses = Box::new(|packet| first_chunk(packet) == SHUTDOWN_COMPLETE);
    let now = pair.now;
    pair.ends[0].endpoint.shutdown(now).expect("an established association shuts down");
    assert!(pair.run_until(MINUTE, |pair| pair.state(1) == State::ShutdownAckSent));
    pair.ends[0].endpoint = Endpoint::new(config(0), Random::from_key([99; 32]), pair.now);
    pair.ends[0].loses = Box::new(|_| false);
    let start = pair.now;
    assert!(pair.run_until(MINUTE * 10, |pair| pair.state(1) == State::Closed));
    assert_eq!(pair.ends[1].events.last(), Some(&Event::Down(Why::ShutDown)));
    assert!(pair.now - start < SECOND * 2);
}

/// A second sender that knows an association of which this end knows nothing is told so, and the one that is up goes on.
fn packets_out_of_the_blue_are_answered_beside_an_association<L: Library>() {
    let mut pair = with_strangers::<L>(slow(1), 27);
    let data = [DATA, 3, 0, 20, 0, 0, 0, 1, 0, 0, 0, 0, 0, 0, 0, 0, 1, 2, 3, 4];
    let before = pair.ends[1].endpoint.standing();
    for n in 0..50 {
        pair.arrive(1, &sealed(1, 5, &data), stranger(n));
        // The same from the peer's own address is dropped (RFC 9260 section 8.5), and so is what is for another port.
        let peer = pair.ends[0].address;
        pair.arrive(1, &sealed(1, 5, &data), peer);
        pair.arrive(1, &sealed(0, 5, &data), stranger(n));
        pair.run_for(Duration::from_millis(10));
    }
    let astray = &pair.ends[1].astray;
    // One in 100 ms.
    assert_eq!(astray.len(), 5);
    assert_eq!(astray[0].to, stranger(0));
    assert_eq!(astray[0].packet, sealed(0, 5, &[ABORT, 1, 0, 4]));
    assert_eq!((pair.ends[1].endpoint.standing(), pair.ends[1].sent.len()), (before, 2));
}

/// Held up on its way, a packet comes when this end has shut down and the other still waits for the last word.
fn a_packet_that_comes_after_a_clean_end_spoils_nothing<L: Library>() {
    let mut pair = Pair::<L>::up(slow(5), 30);
    pair.ends[1].endpoint.hand_in(b"delayed", 0, false, 0).expect("there is room");
    pair.run_for(SECOND);
    let late = pair.ends[1].sent.last().expect("it was sent").clone();
    assert_eq!(first_chunk(&late), DATA);
    pair.ends[0].loses = loses_first(SHUTDOWN_COMPLETE, 1);
    let now = pair.now;
    pair.ends[0].endpoint.shutdown(now).expect("an established association shuts down");
    assert!(pair.run_until(MINUTE, |pair| pair.state(0) == State::Closed));
    let from = pair.ends[1].address;
    pair.arrive(0, &late, from);
    assert!(pair.run_until(MINUTE, |pair| pair.are(State::Closed)));
    assert!(pair.ends.iter().all(|end| end.events.last() == Some(&Event::Down(Why::ShutDown))));
    assert_eq!(sent(&pair, 0, ABORT), 0);
}

fn over_real_sockets_a_stranger_gets_nothing<L: Library>() {
    let bound = |last: u8| UdpSocket::bind(SocketAddr::from(([127, 0, 0, last], 0))).expect("loopback has the address");
    let endpoint = |end: usize| Endpoint::<L>::new(config(end), Random::from_key([end as u8; 32]), Instant::now());
    let mut lines = [Line::new(endpoint(0), bound(2), None), Line::new(endpoint(1), bound(3), None)];
    let addresses = [0, 1].map(|end: usize| lines[end].address().expect("it is bound"));
    let third = bound(4);
    third.set_nonblocking(true).expect("a socket can be asked without waiting");
    lines[0].endpoint.associate(addresses[1], PORTS[1], Instant::now()).expect("a closed record can associate");
    let until = Instant::now() + SECOND * 30;
    let (mut handed_in, mut taken, mut last_init) = (0u32, 0u32, Instant::now());
    let mut buffer = [0; 2048];
    while taken < 200 && Instant::now() < until {
        for line in &mut lines {
            line.turn(Duration::from_millis(2)).expect("the line goes on");
        }
        let is_up = lines.iter().all(|line| line.endpoint.standing().state == State::Established);
        if is_up && handed_in < 200 && handed_in - taken < 3 && lines[0].endpoint.hand_in(&handed_in.to_be_bytes(), 0, false, 0).is_ok() {
            handed_in += 1;
        }
        while let Some((_, message)) = lines[1].endpoint.take() {
            assert_eq!(message, taken.to_be_bytes());
            taken += 1;
        }
        if is_up && last_init.elapsed() > Duration::from_millis(20) {
            last_init = Instant::now();
            for (end, address) in addresses.iter().enumerate() {
                third.send_to(&init_to(end), address).expect("loopback carries it");
            }
        }
        assert!(third.recv(&mut buffer).is_err(), "the stranger got a packet of type {}", buffer[12]);
    }
    assert_eq!(taken, 200);
}

on_both! {
    inits_from_forged_addresses_change_nothing_for_an_hour
    another_port_of_the_peer_is_followed_at_once
    what_is_refused_or_shows_no_tag_of_ours_moves_nothing
    another_address_is_believed_when_it_has_answered
    an_address_that_does_not_answer_gets_one_heartbeat_a_second
    a_client_takes_no_stranger
    who_may_come_is_a_setting
    no_more_than_so_many_are_taken_up
    who_asked_listens_again_when_told_to
    a_packet_to_an_endpoint_that_lost_its_memory_is_answered_by_abort
    a_shutdown_ack_to_an_endpoint_that_lost_its_memory_is_answered
    packets_out_of_the_blue_are_answered_beside_an_association
    a_packet_that_comes_after_a_clean_end_spoils_nothing
    over_real_sockets_a_stranger_gets_nothing
}
