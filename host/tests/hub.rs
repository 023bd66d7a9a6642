//! Many heads at one field computer, on a clock that the test moves: on the model, and on the proved library where it is linked.

mod pair;
mod rail_world;

use modelled::on_both;
use oilwhisper::calls::{Cause, Refusal, Shelf};
use oilwhisper::event::Why;
use oilwhisper::hub::{Event, HeadId, Hub, Settings};
use oilwhisper::library::Library;
use oilwhisper::packet::Datagram;
use oilwhisper::random::{Random, Seeded};
use oilwhisper::tickets::Ticket;
use pair::{first_chunk, init_to, sealed, slow, stranger, ABORT, COOKIE_ECHO, DATA, INIT_ACK, MINUTE, SHUTDOWN_ACK, SHUTDOWN_COMPLETE};
use rail::relay::Weather;
use rail::tiles::{tile, Album, Plan};
use rail_world::*;
use std::iter::Peekable;
use std::net::SocketAddr;
use std::time::{Duration, Instant};

const ROUGH: Weather = Weather { delay: Duration::from_millis(10), loss: 0.05, repeat: 0.03, reorder: 0.1, damage: 0.01 };
const SECOND: Duration = Duration::from_secs(1);

/// Hands in tiles until there is no room; the tickets.
fn hand_in_tiles<L: Library>(hub: &mut Hub<L>, id: HeadId, seed: u64, plan: &mut Peekable<Plan>) -> Vec<Ticket> {
    let mut tickets = Vec::new();
    while let Some((band, index)) = plan.peek() {
        match hub.hand_in(id, &tile(seed, *band, *index), *band, false, 0) {
            Ok(ticket) => tickets.push(ticket),
            Err(Refusal::FULL) => break,
            Err(refusal) => panic!("{}", refusal),
        }
        plan.next();
    }
    tickets
}

fn many_heads_send_at_once_and_each_tile_is_its_own_heads<L: Library>() {
    let heads = 7;
    let mut world = World::<L>::up(heads, ROUGH, 3);
    let mut plans: Vec<_> = (0..heads).map(|_| Plan::of(300).peekable()).collect();
    let mut tickets = vec![Vec::new(); heads];
    let total = Plan::total(300) as usize;
    let done = world.run_until(MINUTE * 60, |world| {
        for (n, outpost) in world.outposts.iter_mut().enumerate() {
            tickets[n].extend(hand_in_tiles(&mut outpost.hub, outpost.id, n as u64, &mut plans[n]));
        }
        world.outposts.iter().all(|outpost| outpost.delivered.len() == total)
    });
    assert!(done);
    for (n, outpost) in world.outposts.iter_mut().enumerate() {
        assert_eq!(outpost.delivered, tickets[n]);
        outpost.hub.shutdown(outpost.id, world.now).expect("an established association shuts down");
    }
    assert!(world.run_until(MINUTE * 60, |world| world.outposts.iter().all(Outpost::is_down) && world.field.heads().count() == 0));
    assert_eq!(world.taken.len(), heads);
    for messages in world.taken.values() {
        let seed = messages[0].2[7];
        let mut album = Album::default();
        for (stream, ssn, message) in messages {
            assert_eq!(message[7], seed, "a tile of another head");
            assert_eq!(album.add(*stream, *ssn, message), Ok(()));
        }
        assert_eq!(album.tiles() as usize, total);
    }
    let clean = Event::Down { why: Why::ShutDown, undelivered: Vec::new() };
    assert_eq!(world.events.iter().filter(|(_, event)| *event == clean).count(), heads);
    assert!(world.outposts.iter().all(|outpost| outpost.events.last() == Some(&clean)));
    assert_eq!(world.field.total().messages_out as usize, heads * total);
}

fn a_field_computer_sends_to_its_heads_in_turns<L: Library>() {
    let mut world = World::<L>::up(3, slow(5), 4);
    let ids: Vec<HeadId> = (0..3).filter_map(|n| world.id_of(address(n))).collect();
    for id in &ids {
        for _ in 0..8 {
            world.field.hand_in(*id, &[7; 500], 0, false, 0).expect("there is room");
        }
    }
    world.turns.clear();
    world.run_for(Duration::from_millis(1));
    let firsts: Vec<SocketAddr> = world.turns.iter().take(3).copied().collect();
    assert_eq!(firsts, [address(0), address(1), address(2)]);
    assert!(world.turns.len() >= 6 && world.turns.chunks(3).all(|turn| turn.windows(2).all(|two| two[0] != two[1])), "{:?}", world.turns);
    world.run_for(MINUTE);
    assert!(world.outposts.iter().all(|outpost| outpost.taken.len() == 8));
    for id in ids {
        let delivered = world.events_of(id).into_iter().filter(|event| matches!(event, Event::Delivered(_))).count();
        assert_eq!(delivered, 8);
    }
}

fn inits_leave_nothing_and_only_so_many_heads_come<L: Library>() {
    let mut world = World::<L>::of(settings(FIELD_PORT, 2), 3, slow(5), 5);
    for n in 0..200u8 {
        world.field.arrive(&init_to(1), stranger(n), world.now);
    }
    world.run_for(SECOND * 5);
    assert_eq!(world.outposts.iter().filter(|outpost| outpost.is_up()).count(), 2);
    assert_eq!(world.field.heads().count(), 2);
    assert!(world.field.total().turned_away > 0);
    assert!(world.astray.iter().all(|datagram| first_chunk(&datagram.packet) == INIT_ACK));
    let leaves = world.outposts.iter().position(Outpost::is_up).expect("two are up");
    let (id, now) = (world.outposts[leaves].id, world.now);
    world.outposts[leaves].hub.shutdown(id, now).expect("an established association shuts down");
    assert!(world.run_until(MINUTE * 5, |world| world.outposts.iter().all(Outpost::is_up)));
    assert_eq!(world.field.heads().count(), 2);
}

fn whom_it_does_not_admit_gets_no_answer<L: Library>() {
    let mut strict = Settings { at_one_address: 1, ..settings(FIELD_PORT, 8) };
    strict.common.admits = Some(vec![address(0).ip().into()]);
    let mut world = World::<L>::of(strict, 2, slow(5), 6);
    // Another head at the address of the first.
    let neighbour = SocketAddr::new(address(0).ip(), 40_000);
    world.run_for(SECOND);
    world.outposts.push(Outpost::new(2, neighbour, slow(5), 6, world.now));
    world.run_for(SECOND * 20);
    assert_eq!(world.outposts.iter().map(Outpost::is_up).collect::<Vec<_>>(), [true, false, false]);
    assert!(world.turns.iter().all(|to| *to == address(0)), "{:?}", world.turns);
}

fn what_was_acknowledged_is_there_until_it_was_taken<L: Library>() {
    let mut world = World::<L>::up(2, slow(5), 7);
    world.takes = false;
    for outpost in &mut world.outposts {
        for n in 0..5u8 {
            outpost.hub.hand_in(outpost.id, &[n; 40], 1, false, 0).expect("there is room");
        }
        outpost.hub.shutdown(outpost.id, world.now).expect("an established association shuts down");
    }
    assert!(world.run_until(MINUTE, |world| world.outposts.iter().all(Outpost::is_down)));
    world.run_for(MINUTE);
    assert_eq!(world.field.heads().count(), 2);
    // They keep their places, so that nothing can push them out.
    world.outposts.push(Outpost::new(2, address(2), slow(5), 7, world.now));
    world.run_for(SECOND * 3);
    assert!(!world.outposts[2].is_up());
    world.takes = true;
    assert!(world.run_until(MINUTE * 3, |world| world.outposts[2].is_up()));
    assert!(world.taken.values().all(|messages| messages.len() == 5) && world.taken.len() == 2);
    assert_eq!(world.field.heads().count(), 1);
}

/// A head lost its power: nothing of its association is left there, and it asks again from where it was.
fn a_head_that_lost_its_power_is_served_at_once<L: Library>() {
    let mut world = World::<L>::up(2, slow(5), 8);
    world.takes = false;
    let (old, id) = (world.id_of(address(0)).expect("it is up"), world.outposts[0].id);
    for n in 0..3u8 {
        world.outposts[0].hub.hand_in(id, &[n; 40], 1, false, 0).expect("there is room");
    }
    world.run_for(SECOND);
    let lost = world.field.hand_in(old, b"never read", 0, false, 0).expect("there is room");
    world.outposts[0] = Outpost::new(9, address(0), slow(5), 9, world.now);
    world.run_for(SECOND);
    // Three messages of the old one are still to be taken, and there are two places.
    assert!(!world.outposts[0].is_up());
    world.takes = true;
    let start = world.now;
    assert!(world.run_until(MINUTE, |world| world.outposts[0].is_up()));
    assert!(world.now - start < SECOND * 3, "{:?}", world.now - start);
    world.run_for(SECOND);
    assert_eq!(world.events_of(old).last(), Some(&&Event::Down { why: Why::BeganAnew, undelivered: vec![lost] }));
    assert_eq!(world.taken[&old].len(), 3);
    let new = world.id_of(address(0)).expect("it is up again");
    assert!(new != old && world.field.heads().count() == 2);
    assert_eq!(world.events_of(new)[1], &Event::Restarted { before: old });
    let id = world.outposts[0].id;
    world.outposts[0].hub.hand_in(id, b"anew", 0, false, 0).expect("there is room");
    world.run_for(SECOND);
    assert_eq!(world.taken[&new], [(0, 0, b"anew".to_vec())]);
    assert!(!world.outposts[0].is_down() && !world.outposts[1].is_down());
}

/// Forged INITs from the address of a head that is there, and echoes of cookies that were made for others.
fn who_only_says_to_be_a_head_changes_nothing<L: Library>() {
    let mut world = World::<L>::of(settings(FIELD_PORT, 4), 2, slow(5), 10);
    assert!(world.run_until(MINUTE, |world| world.outposts.iter().all(Outpost::is_up)));
    let ids = [world.id_of(address(0)), world.id_of(address(1))];
    let mut cookies = Vec::new();
    for second in 0..200u32 {
        world.field.arrive(&init_to(1), address(0), world.now);
        world.field.arrive(&init_to(1), stranger(1), world.now);
        for datagram in world.astray.drain(..).filter(|datagram| first_chunk(&datagram.packet) == INIT_ACK) {
            // Behind INIT ACK's fixed fields comes the parameter of the cookie.
            let packet = datagram.packet;
            let tag = u32::from_be_bytes([packet[16], packet[17], packet[18], packet[19]]);
            let length = usize::from(u16::from_be_bytes([packet[34], packet[35]]));
            let mut echo = vec![COOKIE_ECHO, 0, packet[34], packet[35]];
            echo.extend_from_slice(&packet[36..32 + length]);
            cookies.push(sealed(1, tag, &echo));
        }
        for echo in &cookies {
            world.field.arrive(echo, address(0), world.now);
            world.field.arrive(echo, stranger(2), world.now);
        }
        cookies.clear();
        for outpost in &mut world.outposts {
            outpost.hub.hand_in(outpost.id, &second.to_be_bytes(), 0, false, 0).expect("there is room");
        }
        world.run_for(SECOND);
    }
    assert_eq!([world.id_of(address(0)), world.id_of(address(1))], ids);
    assert_eq!((world.taken_from(0), world.taken_from(1)), (200, 200));
    assert_eq!(world.field.heads().count(), 2);
    assert!(world.outposts.iter().all(|outpost| !outpost.is_down()));
    assert!(world.field.total().refusals().any(|(refusal, count)| refusal == Refusal(27) && count >= 200));
}

fn a_line_that_is_pulled_tells_what_was_not_delivered<L: Library>() {
    let mut world = World::<L>::up(2, slow(5), 11);
    let (id, start) = (world.outposts[0].id, world.now);
    let sent = world.outposts[0].hub.hand_in(id, b"arrives", 0, false, 0).expect("there is room");
    world.run_for(SECOND);
    world.outposts[0].is_cut = true;
    let lost: Vec<Ticket> = (0..3).map(|_| world.outposts[0].hub.hand_in(id, b"does not", 0, false, 0).expect("there is room")).collect();
    assert!(world.run_until(MINUTE * 30, |world| world.outposts[0].is_down()));
    assert_eq!(world.outposts[0].delivered, [sent]);
    assert_eq!(world.outposts[0].events.last(), Some(&Event::Down { why: Why::NoAnswer, undelivered: lost }));
    assert!(world.outposts[0].events.iter().any(|event| matches!(event, Event::Quiet(silence) if *silence < SECOND * 7)));
    // The field computer has given it up by its heartbeats, and the other head is as it was.
    let gone = world.events.iter().any(|(_, event)| matches!(event, Event::Down { why: Why::NoAnswer, .. }));
    assert!(gone && world.now - start < MINUTE * 10);
    assert!(!world.outposts[1].is_down() && world.field.heads().count() == 1);
}

fn a_field_computer_that_began_anew_tells_its_heads<L: Library>() {
    let mut world = World::<L>::up(3, slow(5), 12);
    world.field = Hub::new(settings(FIELD_PORT, 3), Random::from_key([99; 32]), world.now);
    // At the next heartbeat each hears that there is no association, one every 100 ms.
    assert!(world.run_until(SECOND * 10, |world| world.outposts.iter().all(Outpost::is_down)));
    for outpost in &world.outposts {
        assert_eq!(outpost.events.last(), Some(&Event::Down { why: Why::PeerAborted, undelivered: Vec::new() }));
    }
}

fn room_and_messages_are_told<L: Library>() {
    let mut world = World::<L>::up(1, slow(5), 13);
    let id = world.outposts[0].id;
    let mut handed_in = 0;
    while world.outposts[0].hub.hand_in(id, &[1; 512], 0, false, 0).is_ok() {
        handed_in += 1;
    }
    assert_eq!(handed_in, 128);
    assert!(!world.outposts[0].events.contains(&Event::Writable));
    assert!(world.run_until(SECOND, |world| world.outposts[0].events.contains(&Event::Writable)));
    assert!(world.outposts[0].hub.hand_in(id, &[1; 512], 0, false, 0).is_ok());
    world.run_for(MINUTE);
    assert_eq!(world.outposts[0].events.iter().filter(|event| **event == Event::Writable).count(), 1);
    let field_id = world.id_of(address(0)).expect("it is up");
    assert_eq!(world.taken[&field_id].len(), 129);
    assert!(world.events_of(field_id).contains(&&Event::Readable));
    assert_eq!(world.field.hand_in(field_id, &[], 0, false, 0), Err(Refusal(19)));
}

fn a_gap_is_seen_from_outside<L: Library>() {
    let mut world = World::<L>::up(1, slow(5), 18);
    let (id, now) = (world.outposts[0].id, world.now);
    let field_id = world.id_of(address(0)).expect("it is up");
    world.outposts[0].hub.hand_in(id, &[1; 500], 0, false, 0).expect("there is room");
    world.outposts[0].hub.flush(now);
    while world.outposts[0].hub.outgoing().is_some() {}
    for stream in [0, 1, 0] {
        world.outposts[0].hub.hand_in(id, &[2; 500], stream, false, 0).expect("there is room");
    }
    // Three SACKs later it is sent again, before T3.
    world.run_for(Duration::from_millis(8));
    let shelf = world.field.shelf(field_id).expect("it is up");
    assert_eq!((shelf.missing, shelf.held), (Some(FIRST_TSN), vec![(0, 1), (0, 2)]));
    // The other stream's does not wait.
    assert_eq!(world.taken_from(0), 1);
    world.run_for(MINUTE);
    assert_eq!(world.field.shelf(field_id), Some(Shelf::default()));
    assert_eq!(world.taken_from(0), 4);
}

fn a_head_that_moves_is_followed<L: Library>() {
    let mut world = World::<L>::up(2, slow(5), 14);
    let (from, to) = (address(0), address(7));
    let id = world.id_of(from).expect("it is up");
    world.outposts[0].address = to;
    let head = world.outposts[0].id;
    world.outposts[0].hub.hand_in(head, b"from elsewhere", 0, false, 0).expect("there is room");
    world.run_for(SECOND * 10);
    assert_eq!(world.events_of(id).into_iter().filter(|event| **event == Event::Moved { from, to }).count(), 1);
    assert_eq!(world.field.peer(id), Some(to));
    assert_eq!(world.taken[&id].len(), 1);
}

fn a_farewell_that_is_lost_is_said_again<L: Library>() {
    let mut world = World::<L>::up(2, slow(5), 15);
    let field_id = world.id_of(address(0)).expect("it is up");
    let now = world.now;
    let field_tag = world.field.standing(field_id).expect("it is up").my_tag;
    world.field.shutdown(field_id, now).expect("an established association shuts down");
    // Its SHUTDOWN COMPLETE finds no line; the head's T2 asks again.
    world.run_until(SECOND, |world| world.events.iter().any(|(_, event)| matches!(event, Event::Down { .. })));
    world.outposts[0].back = rail::relay::Channel::new(slow(5), 1);
    assert!(!world.outposts[0].is_down());
    assert!(world.run_until(SECOND * 10, |world| world.outposts[0].is_down()));
    assert_eq!(world.outposts[0].events.last(), Some(&Event::Down { why: Why::ShutDown, undelivered: Vec::new() }));
    assert_eq!(world.field.total().last_words, 1);
    // A packet that was held up gets no ABORT, and one of somebody else's does.
    let mut data = vec![DATA, 3, 0, 20];
    data.extend_from_slice(&[0; 16]);
    let held_up = sealed(1, field_tag, &data);
    world.field.arrive(&held_up, address(0), world.now);
    assert_eq!(world.field.outgoing(), None);
    world.field.arrive(&held_up, stranger(3), world.now);
    assert_eq!(world.field.outgoing().map(|datagram| (datagram.to, first_chunk(&datagram.packet))), Some((stranger(3), ABORT)));
}

/// Sealed packets with right and wrong ports and tags, from the heads' own addresses and from others, and parts of what was seen.
fn hostile_packet(chance: &mut Seeded, seen: &[Vec<u8>]) -> Vec<u8> {
    let chunk = match chance.below(6) {
        0 => return init_to(1),
        1 if !seen.is_empty() => {
            let mut packet = seen[chance.below(seen.len() as u64) as usize].clone();
            let bit = chance.below(packet.len() as u64 * 8) as usize;
            packet[bit / 8] ^= 1 << (bit % 8);
            model::checksum::seal(&mut packet);
            return packet;
        }
        2 => vec![ABORT, chance.below(2) as u8, 0, 4],
        3 => vec![[SHUTDOWN_ACK, SHUTDOWN_COMPLETE][chance.below(2) as usize], chance.below(2) as u8, 0, 4],
        _ => {
            let length = 4 + chance.below(60) as usize;
            let mut chunk: Vec<u8> = (0..(length + 3) / 4 * 4).map(|_| chance.number() as u8).collect();
            chunk[0] = chance.below(16) as u8;
            chunk[2..4].copy_from_slice(&(length as u16).to_be_bytes());
            chunk
        }
    };
    sealed(1, [0, 1, chance.number() as u32][chance.below(3) as usize], &chunk)
}

fn every_tile_comes_beside_a_hostile_sender<L: Library>() {
    let heads = 4;
    let mut world = World::<L>::up(heads, ROUGH, 16);
    let mut plans: Vec<_> = (0..heads).map(|_| Plan::of(200).peekable()).collect();
    let mut chance = Seeded::new(5);
    let mut seen: Vec<Vec<u8>> = Vec::new();
    let total = Plan::total(200) as usize;
    let mut hostile = 0u64;
    let done = world.run_until(MINUTE * 60, |world| {
        for (n, (outpost, plan)) in world.outposts.iter_mut().zip(&mut plans).enumerate() {
            hand_in_tiles(&mut outpost.hub, outpost.id, n as u64, plan);
        }
        for _ in 0..8 {
            let packet = hostile_packet(&mut chance, &seen);
            let from = [address(chance.below(4) as usize), stranger(chance.below(9) as u8)][chance.below(2) as usize];
            world.field.arrive(&packet, from, world.now);
            hostile += 1;
        }
        // Nothing of an association goes to a stranger: only what tells him that he may echo a cookie, or that there is nothing.
        let is_harmless = |datagram: &Datagram| [INIT_ACK, ABORT, SHUTDOWN_COMPLETE].contains(&first_chunk(&datagram.packet));
        assert!(world.astray.iter().all(is_harmless));
        seen.extend(world.astray.drain(..).map(|datagram| datagram.packet));
        seen.truncate(64);
        world.outposts.iter().all(|outpost| outpost.delivered.len() == total)
    });
    assert!(done && hostile > 1000, "{}", hostile);
    assert_eq!(world.field.heads().count(), heads);
    for n in 0..heads {
        let id = world.id_of(address(n)).expect("it is up");
        let mut album = Album::default();
        for (stream, ssn, message) in &world.taken[&id] {
            assert_eq!(album.add(*stream, *ssn, message), Ok(()));
        }
        assert_eq!(album.tiles() as usize, total);
    }
}

fn a_head_can_be_aborted_and_the_others_go_on<L: Library>() {
    let mut world = World::<L>::up(2, slow(5), 17);
    let (id, now) = (world.id_of(address(0)).expect("it is up"), world.now);
    world.field.abort(id, Cause::User, now).expect("it is up");
    world.run_for(SECOND);
    assert_eq!(world.outposts[0].events.last(), Some(&Event::Down { why: Why::PeerAborted, undelivered: Vec::new() }));
    assert_eq!(world.field.heads().count(), 1);
    assert_eq!(world.field.hand_in(id, b"too late", 0, false, 0), Err(Refusal::STATE));
    assert!(!world.outposts[1].is_down());
}

fn an_idle_hub_asks_for_no_moment<L: Library>() {
    let now = Instant::now();
    let mut hub = Hub::<L>::new(settings(FIELD_PORT, 4), Random::from_key([1; 32]), now);
    hub.expire(now);
    hub.flush(now);
    assert_eq!((hub.next_moment(), hub.outgoing(), hub.event()), (None, None, None));
}

on_both! {
    many_heads_send_at_once_and_each_tile_is_its_own_heads
    a_field_computer_sends_to_its_heads_in_turns
    inits_leave_nothing_and_only_so_many_heads_come
    whom_it_does_not_admit_gets_no_answer
    what_was_acknowledged_is_there_until_it_was_taken
    a_head_that_lost_its_power_is_served_at_once
    who_only_says_to_be_a_head_changes_nothing
    a_line_that_is_pulled_tells_what_was_not_delivered
    a_field_computer_that_began_anew_tells_its_heads
    room_and_messages_are_told
    a_gap_is_seen_from_outside
    a_head_that_moves_is_followed
    a_farewell_that_is_lost_is_said_again
    every_tile_comes_beside_a_hostile_sender
    a_head_can_be_aborted_and_the_others_go_on
    an_idle_hub_asks_for_no_moment
}
