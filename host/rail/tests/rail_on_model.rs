//! The rail with the model in the library's place: the demonstration, both ends on addresses of their own, and what a user can get wrong.

mod yard;

use modelled::Modelled;
use oilwhisper::endpoint::{Config, Endpoint};
use oilwhisper::random::Random;
use oilwhisper::udp::Line;
use rail::report::Ended;
use rail::stop::Stop;
use std::fs::File;
use std::io::Read;
use std::net::UdpSocket;
use std::process::Command;
use std::time::{Duration, Instant};
use std::{fs, io, thread};
use yard::*;

fn well(line: &str) -> (Ended, String) {
    let (ended, said) = run_until(line, &Stop::default()).unwrap_or_else(|failure| panic!("{}", failure));
    assert_eq!(ended.faults, [] as [String; 0], "{}", ended.table);
    assert!(!ended.was_stopped);
    (ended, said)
}

fn complaint(line: &str) -> String {
    match run_until(line, &Stop::default()) {
        Err(failure) => failure.0,
        Ok((ended, _)) => panic!("{}", ended.table),
    }
}

/// What a row of the table says.
fn value<'a>(ended: &'a Ended, row: &str) -> &'a str {
    let line = ended.table.lines().find_map(|line| line.trim_start().strip_prefix(row));
    line.unwrap_or_else(|| panic!("no row '{}' in\n{}", row, ended.table)).trim()
}

#[test]
fn every_tile_comes_through_a_bad_stretch() {
    let (ended, said) = well("demo --messages 3000 --seed 4");
    for head in 1..=3 {
        assert_eq!(value(&ended, &format!("head-{}: TSN circle of 2^32 closed", head)).split(' ').next(), Some("yes"), "{}", ended.table);
        assert_eq!(said.matches(&format!("  TSN 4,294,967,295 to 0 of head-{}\n", head)).count(), 1, "{}", said);
    }
    assert_eq!(value(&ended, "tiles compared byte by byte, equal and in order"), "10,125");
    assert_eq!(ended.verdict, "all 10,125 tiles of 3 heads came once, in order, byte for byte");
}

#[test]
fn a_circle_that_does_not_close_is_not_said_to() {
    let (ended, said) = well("demo --messages 40 --heads 1");
    assert!(value(&ended, "head-1: TSN circle of 2^32 closed").starts_with("no "), "{}", ended.table);
    assert!(!said.contains("TSN 4,294,967,295"), "{}", said);
}

#[test]
fn a_demonstration_tells_its_book() {
    for (line, told) in [
        ("demo --messages 40 --heads 1", "  sent by RFC 9260: the first RTO is 1.0 s\n"),
        ("demo --messages 40 --heads 1 --book 4960", "  sent by RFC 4960: the first RTO is 3.0 s\n"),
    ] {
        let (_, said) = well(line);
        assert!(said.contains(told), "{}", said);
    }
}

#[test]
fn a_head_whose_battery_is_swapped_is_met_in_each_of_its_lives() {
    let (ended, said) = well("demo --battery 3");
    assert_eq!(said.matches("  head restarted (").count(), 3, "{}", said);
    // Three lives of half the tiles, and one of all.
    assert!(ended.verdict.starts_with("5,625 tiles of 4 lives came once and in order; "), "{}", ended.verdict);
}

#[test]
fn both_circles_close_in_fair_weather() {
    let (ended, said) = well("demo --loss 0 --repeat 0 --reorder 0 --damage 0 --messages 65600 --heads 2");
    for head in 1..=2 {
        assert!(value(&ended, &format!("head-{}: SSN circle of 2^16 closed", head)).starts_with("yes "), "{}", ended.table);
        assert_eq!(said.matches(&format!("  SSN 65,535 to 0 on band 0 of head-{}\n", head)).count(), 1, "{}", said);
    }
}

#[test]
fn a_head_sends_to_a_field_computer_on_real_addresses_and_both_write_captures() {
    let here = scratch("captures");
    let (sent, received) = (here.join("head.pcap"), here.join("field.pcap"));
    let port = free_address().port();
    let field_line = format!("field 127.0.0.1:{} --count 1 --pcap {}", port, received.display());
    let field = thread::spawn(move || well(&field_line));
    let (head, _) = well(&format!("head 127.0.0.1:{} --messages 400 --pcap {}", port, sent.display()));
    let (field, _) = field.join().expect("the field computer ends");
    assert_eq!(head.verdict, "the field computer keeps all 450 tiles");
    assert_eq!(field.verdict, "all 450 tiles of 1 head came once, in order, byte for byte");
    for capture in [sent, received] {
        let bytes = fs::read(&capture).expect("the capture was written");
        assert_eq!(bytes[..4], [0xd4, 0xc3, 0xb2, 0xa1]);
        assert!(bytes.len() > 10_000);
    }
    fs::remove_dir_all(here).expect("the folder can be removed");
}

#[test]
fn a_field_computer_at_all_addresses_serves_one_head_after_another() {
    let port = free_address().port();
    let field_line = format!("field {} --count 2", port);
    let field = thread::spawn(move || well(&field_line));
    // Of both kinds, where the machine has both.
    let other = if UdpSocket::bind("[::1]:0").is_ok() { "[::1]" } else { "127.0.0.1" };
    for (address, name, messages) in [("127.0.0.1", "north", 100), (other, "south", 50)] {
        let (head, _) = well(&format!("head {}:{} --name {} --messages {}", address, port, name, messages));
        assert!(head.verdict.starts_with("the field computer keeps all"), "{}", head.verdict);
    }
    let (field, said) = field.join().expect("the field computer ends");
    assert_eq!(field.verdict, "all 168 tiles of 2 heads came once, in order, byte for byte");
    assert!(said.contains("112 tiles from north at 127.0.0.1:"), "{}", said);
    assert!(said.contains(&format!("56 tiles from south at {}:", other)), "{}", said);
}

/// A field computer and a head that have begun, each with what stops it.
fn begun(messages: u32) -> [Begun; 2] {
    let at = free_address();
    let ends = [format!("field {}", at), format!("head {} --tries 0 --messages {}", at, messages)].map(|line| {
        let begun = begin(line);
        thread::sleep(Duration::from_millis(500));
        begun
    });
    thread::sleep(Duration::from_millis(500));
    ends
}

#[test]
fn a_head_that_is_stopped_shuts_down_and_its_tiles_are_there() {
    let [(stop_field, field), (stop_head, head)] = begun(60_000_000);
    stop_head.ask();
    let (head, _) = head.join().expect("the head ends");
    assert!(head.verdict.starts_with("stopped: the field computer keeps "), "{}", head.verdict);
    assert!(head.was_stopped && head.faults.is_empty(), "{:?}", head);
    stop_field.ask();
    let (field, _) = field.join().expect("the field computer ends");
    assert!(field.verdict.starts_with("all "), "{:?}", field);
    assert!(!field.was_stopped && field.faults.is_empty(), "{:?}", field);
    assert_eq!(value(&head, "tiles handed in"), value(&head, "tiles that the field computer keeps"));
    assert_eq!(value(&head, "tiles handed in"), value(&field, "tiles compared byte by byte, equal and in order"));
}

#[test]
fn a_field_computer_that_is_stopped_tells_its_head() {
    let [(stop_field, field), (_, head)] = begun(60_000_000);
    stop_field.ask();
    let (field, _) = field.join().expect("the field computer ends");
    assert!(field.verdict.starts_with("stopped, and the heads told: "), "{:?}", field);
    assert!(field.was_stopped && field.faults.is_empty(), "{:?}", field);
    let (head, _) = head.join().expect("the head ends");
    assert_eq!(head.faults, ["the field computer shut down before it had all tiles"]);
}

#[test]
fn who_is_stopped_twice_aborts_and_tells_the_other() {
    let [(stop_field, field), (stop_head, head)] = begun(60_000_000);
    stop_head.ask();
    stop_head.ask();
    let (head, _) = head.join().expect("the head ends");
    assert!(head.verdict.starts_with("stopped and aborted, and the field computer told: "), "{:?}", head);
    assert!(head.was_stopped && head.faults.is_empty(), "{:?}", head);
    thread::sleep(Duration::from_millis(500));
    stop_field.ask();
    let (field, said) = field.join().expect("the field computer ends");
    assert!(field.faults.is_empty(), "{:?}", field);
    assert!(said.contains("; the association is closed: aborted by the peer\n"), "{}", said);
}

#[test]
fn a_head_says_where_nobody_listens_and_can_be_stopped() {
    let address = free_address();
    let (stop, head) = begin(format!("head {}", address));
    thread::sleep(Duration::from_millis(2500));
    stop.ask();
    let (head, said) = head.join().expect("the head ends");
    assert!(said.contains(&format!("  nobody listens at {} (port unreachable)\n", address)), "{}", said);
    assert!(head.was_stopped, "{:?}", head);
}

#[test]
fn a_head_no_longer_says_that_nobody_listens_where_somebody_does() {
    let address = free_address();
    let (stop, head) = begin(format!("head {}", address));
    // The head asks again a second after its first INIT found nobody.
    thread::sleep(Duration::from_millis(500));
    let _mute = UdpSocket::bind(address).expect("the port is still free");
    thread::sleep(Duration::from_millis(2000));
    stop.ask();
    let (_, said) = head.join().expect("the head ends");
    assert!(said.contains(&format!("  no answer from {} yet\n", address)), "{}", said);
}

#[test]
fn a_head_says_why_the_answer_is_refused() {
    let peer = UdpSocket::bind("127.0.0.1:0").expect("there is a free port");
    let address = peer.local_addr().expect("it has an address");
    peer.set_read_timeout(Some(Duration::from_secs(20))).expect("it can wait");
    let (stop, head) = begin(format!("head {}", address));
    let (_, from) = peer.recv_from(&mut [0; 2048]).expect("it is asked");
    peer.send_to(b"not today", from).expect("loopback carries it");
    thread::sleep(Duration::from_millis(2500));
    stop.ask();
    let (_, said) = head.join().expect("the head ends");
    assert!(said.contains(&format!("  {} answers, and its answer is refused: 2 (packet size)\n", address)), "{}", said);
}

#[test]
fn a_head_from_a_network_that_is_not_admitted_gets_no_answer() {
    let at = free_address();
    let (stop_field, field) = begin(format!("field {} --admit 192.0.2.0/24", at));
    thread::sleep(Duration::from_millis(500));
    let (stop_head, head) = begin(format!("head {}", at));
    thread::sleep(Duration::from_millis(3000));
    [stop_field, stop_head].iter().for_each(Stop::ask);
    assert_eq!(field.join().expect("it ends").0.verdict, "no head came");
    let (_, said) = head.join().expect("it ends");
    assert!(said.contains(&format!("  no answer from {} yet\n", at)), "{}", said);
}

#[test]
fn a_demonstration_that_is_stopped_loses_nothing_that_was_handed_in() {
    let (stop, demo) = begin("demo --messages 60000000".to_string());
    thread::sleep(Duration::from_millis(1500));
    stop.ask();
    let (demo, _) = demo.join().expect("the demonstration ends");
    assert!(demo.verdict.ends_with("all of those came once, in order, byte for byte"), "{:?}", demo);
    assert!(demo.was_stopped && demo.faults.is_empty(), "{:?}", demo);
}

#[test]
fn a_port_in_use_is_named() {
    let taken = UdpSocket::bind("127.0.0.1:0").expect("there is a free port");
    let address = taken.local_addr().expect("it has an address");
    let field = complaint(&format!("field {}", address));
    assert_eq!(field, format!("cannot use {}: the port is in use; stop the program that has it, or choose another port", address));
    let head = complaint(&format!("head 127.0.0.1:9 --bind {}", address));
    assert_eq!(head, field);
}

#[test]
fn an_address_of_another_machine_is_named() {
    let said = complaint("field 192.0.2.1:9899");
    assert_eq!(said, "cannot use 192.0.2.1:9899: it is no address of this machine");
}

#[test]
fn a_file_that_cannot_be_written_is_named_before_anything_is_sent() {
    let here = scratch("unwritable");
    let path = here.join("no-such-folder").join("x.pcap");
    for line in ["demo", "field 127.0.0.1:0", "head 127.0.0.1:9"] {
        let said = complaint(&format!("{} --pcap {}", line, path.display()));
        assert!(said.starts_with(&format!("cannot write {}: ", path.display())), "{}", said);
    }
    fs::remove_dir_all(here).expect("the folder can be removed");
}

#[test]
fn a_capture_that_breaks_off_is_told_and_takes_no_tile() {
    let here = scratch("broken");
    let pipe = here.join("pipe");
    assert!(Command::new("mkfifo").arg(&pipe).status().map_or(false, |status| status.success()));
    let (at, path) = (free_address(), pipe.clone());
    // As a disk that is full after the first bytes.
    let reader = thread::spawn(move || File::open(path).and_then(|mut pipe| pipe.read_exact(&mut [0; 24])));
    let (_, field) = begin(format!("field {} --count 1 --pcap {}", at, pipe.display()));
    reader.join().expect("the reader ends").expect("a capture begins with its head");
    well(&format!("head {} --messages 400", at));
    let (field, _) = field.join().expect("the field computer ends");
    assert_eq!(field.verdict, "all 450 tiles of 1 head came once, in order, byte for byte");
    assert_eq!(field.faults, [format!("cannot write {}: Broken pipe (os error 32)", pipe.display())]);
    fs::remove_dir_all(here).expect("the folder can be removed");
}

#[test]
fn a_peer_that_nothing_can_be_sent_to_stops_nobody() {
    let now = Instant::now();
    let mut endpoint = Endpoint::<Modelled>::new(Config::at_port(5000), Random::from_key([1; 32]), now);
    let broadcast = "255.255.255.255:9899".parse().expect("it is an address");
    endpoint.associate(broadcast, 5001, now).expect("a closed record can associate");
    let socket = UdpSocket::bind("127.0.0.1:0").expect("there is a free port");
    let mut line = Line::new(endpoint, socket, None);
    line.turn(Duration::ZERO).expect("the line goes on");
    assert_eq!(line.trouble().map(io::Error::kind), Some(io::ErrorKind::PermissionDenied));
}
