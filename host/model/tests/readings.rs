//! Words of the papers that a build may read too widely, each on the model.

use model::record::*;
use model::{is_sound, read, write, Core, Model};

const MY_TAG: u32 = 7;
const PEER_TAG: u32 = 9;

struct End {
    a: Association,
    area: Vec<u8>,
    out: Vec<u8>,
}

fn packet(tag: u32, chunks: &[Vec<u8>]) -> Vec<u8> {
    let mut body = Vec::new();
    for c in chunks {
        body.extend_from_slice(c);
        write::pad(&mut body);
    }
    let mut out = vec![0; 12 + body.len()];
    write::packet(&mut out, 20, 10, tag, &body);
    out
}

impl End {
    fn closed(port: u16) -> End {
        End { a: Model.closed(port, BOOK_9260), area: vec![0; AREA], out: vec![0; OUTPUT] }
    }

    /// With a cookie to lend, and a good word on every echo.
    fn arrive(&mut self, tag: u32, chunks: &[Vec<u8>]) -> Arrived {
        let made =
            Made { my_tag: MY_TAG, peer_tag: PEER_TAG, streams_in: 4, streams_out: 4, my_tsn: 100, peer_tsn: 1, window: 65_536, ..Made::default() };
        let lent = Lent { tag: MY_TAG, tsn: 100, streams: 4, options: 0 };
        let p = packet(tag, chunks);
        Model.arrive(&mut self.a, &mut self.area, &p, lent, b"cookie", Echoed { word: GOOD, made }, &mut self.out)
    }

    /// What went out, by type.
    fn sent(&self, length: usize) -> Vec<u8> {
        read::walk(&self.out[..length]).map(|c| c.kind()).collect()
    }
}

fn init(kind: u8, parameters: &[u16]) -> Vec<u8> {
    let mut v = write::init_fields(read::Init { tag: PEER_TAG, window: 65_536, outs: 4, ins: 4, tsn: 1 });
    for &p in parameters {
        v.extend_from_slice(&write::item(p, b"name"));
    }
    write::chunk(kind, 0, &v)
}

/// RFC section 3.2.1: what stands behind an unknown parameter that stops is not acted on, but the cookie is echoed.
#[test]
fn a_host_name_behind_what_stops_is_not_met() {
    let (cookie, name) = (read::STATE_COOKIE, read::HOST_NAME);
    let of_init = |parameters: &[u16]| {
        let mut e = End::closed(10);
        let r = e.arrive(0, &[init(read::INIT, parameters)]);
        e.sent(r.length)
    };
    let of_ack = |parameters: &[u16]| {
        let mut e = End::closed(10);
        assert_eq!(Model.associate(&mut e.a, MY_TAG, 100, 20, 4, &mut e.out).number, 0);
        let r = e.arrive(MY_TAG, &[init(read::INIT_ACK, parameters)]);
        (e.a.state, r.verdicts[0].event, e.sent(r.length))
    };
    for stop in [2, 10, 0x3FFF] {
        assert_eq!(of_init(&[stop, name]), [read::INIT_ACK]);
        assert_eq!(of_init(&[name, stop]), [read::ABORT]);
        assert_eq!(of_ack(&[cookie, stop, name]), (COOKIE_ECHOED, NO_EVENT, vec![read::COOKIE_ECHO]));
        assert_eq!(of_ack(&[stop, name, cookie]), (COOKIE_ECHOED, NO_EVENT, vec![read::COOKIE_ECHO]));
    }
    for stop in [0x4002, 0x7FFF] {
        assert_eq!(of_init(&[stop, name]), [read::INIT_ACK]);
        assert_eq!(of_ack(&[stop, cookie, name]), (COOKIE_ECHOED, NO_EVENT, vec![read::COOKIE_ECHO, read::ERROR]));
        assert_eq!(of_ack(&[name, stop, cookie]), (CLOSED, DOWN_HOST_NAME, vec![read::ABORT]));
    }
    for goes_on in [1, 5, 6, 8, 9, 12, 0x8000, 0x8001, 0xC000] {
        assert_eq!(of_init(&[goes_on, name]), [read::ABORT]);
        assert_eq!(of_ack(&[goes_on, cookie, name]), (CLOSED, DOWN_HOST_NAME, vec![read::ABORT]));
    }
}

/// RFC section 3.1 forbids port 0, and only an INIT has tag 0: nothing else goes out so.
#[test]
fn no_packet_has_port_0() {
    let associate = |ours: u16, tag: u32, port: u16, streams: u16| {
        let mut e = End::closed(ours);
        Model.associate(&mut e.a, tag, 100, port, streams, &mut e.out).number
    };
    assert_eq!(associate(10, 7, 20, 1), 0);
    assert_eq!((associate(0, 7, 20, 1), associate(10, 7, 0, 1)), (4, 4));
    assert_eq!((associate(0, 0, 20, 1), associate(0, 7, 20, 0), associate(10, 0, 0, 0)), (4, 4, 4));
    assert_eq!((associate(10, 0, 20, 1), associate(10, 7, 20, 0)), (8, 8));

    let stale = |ours: u16, port: u16, tag: u32, lent: usize| {
        let mut e = End::closed(ours);
        let r = Model.error_stale(&mut e.a, port, tag, 1, &mut e.out[..lent]);
        (r.number, r.length)
    };
    assert_eq!(stale(10, 20, 9, OUTPUT), (0, 24));
    for (ours, port, tag) in [(0, 20, 9), (10, 0, 9), (10, 20, 0), (0, 0, 0)] {
        assert_eq!(stale(ours, port, tag, OUTPUT), (4, 0));
        assert_eq!(stale(ours, port, tag, OUTPUT - 1), (18, 0));
    }
    let mut e = End::closed(10);
    assert_eq!(Model.associate(&mut e.a, MY_TAG, 100, 20, 4, &mut e.out).number, 0);
    assert_eq!(Model.error_stale(&mut e.a, 0, 0, 1, &mut e.out).number, 4);
    assert_eq!(Model.associate(&mut e.a, 0, 100, 0, 0, &mut e.out).number, 7);
}

/// "128 streams each way at most", in every state; a record outside CLOSED has two ports.
#[test]
fn the_bounds_of_streams_and_ports() {
    let mut closed = Model.closed(0, BOOK_9260);
    for (streams, within) in [(0, true), (1, true), (128, true), (129, false), (65_535, false)] {
        closed.ends.streams_in = streams;
        closed.ends.streams_out = 128;
        assert_eq!(is_sound(&closed), within);
        closed.ends.streams_in = 0;
        closed.ends.streams_out = streams;
        assert_eq!(is_sound(&closed), within);
    }
    for state in COOKIE_WAIT..=SHUTDOWN_ACK_SENT {
        let mut a = Model.closed(10, BOOK_9260);
        a.state = state;
        a.cookie.len = 1;
        a.ends = Ends { local_port: 10, peer_port: 20, my_tag: MY_TAG, peer_tag: PEER_TAG, streams_in: 1, streams_out: 128, options: 0 };
        assert!(is_sound(&a));
        for spoil in
            [|e: &mut Ends| e.local_port = 0, |e: &mut Ends| e.peer_port = 0, |e: &mut Ends| e.streams_in = 0, |e: &mut Ends| e.streams_out = 129]
        {
            let mut spoilt = a;
            spoil(&mut spoilt.ends);
            assert!(!is_sound(&spoilt));
            assert_eq!(Model.rtt(&mut spoilt, 1).number, 1);
        }
    }
}

/// RFC section 8.4, rule 2: what contains an ABORT is discarded in CLOSED, wherever the ABORT stands, before any other fault of the packet is named.
#[test]
fn an_abort_out_of_the_blue() {
    let echo = || write::chunk(read::COOKIE_ECHO, 0, b"cookie");
    let abort = || write::chunk(read::ABORT, 0, &[]);
    let stops = || write::chunk(63, 0, &[]);
    let ill = |length: u16| [&[read::DATA, 3][..], &length.to_be_bytes()].concat();
    let number = |tag: u32, chunks: &[Vec<u8>]| {
        let mut e = End::closed(10);
        let r = e.arrive(tag, chunks);
        assert_eq!(e.a == Model.closed(10, BOOK_9260), r.number != 0 || chunks[0][0] == read::INIT);
        (r.number, r.length)
    };
    assert_eq!(number(MY_TAG, &[echo()]), (0, 16));
    assert_eq!(number(MY_TAG, &[echo(), abort()]), (4, 0));
    assert_eq!(number(MY_TAG, &[echo(), stops(), stops(), abort()]), (4, 0));
    assert_eq!(number(0, &[init(read::INIT, &[]), stops()]), (6, 0));
    assert_eq!(number(0, &[init(read::INIT, &[]), abort()]), (4, 0));
    for length in 0..4 {
        assert_eq!(number(MY_TAG, &[echo(), ill(length)]), (5, 0));
        assert_eq!(number(MY_TAG, &[echo(), ill(length), abort()]), (4, 0));
        assert_eq!(number(MY_TAG, &[echo(), vec![read::ABORT, 0, 0, length as u8]]), (4, 0));
    }
    // A chunk that has all the rest for its value, or claims more than that.
    assert_eq!(number(MY_TAG, &[echo(), write::chunk(128, 0, &abort())]), (0, 16));
    assert_eq!(number(MY_TAG, &[echo(), ill(9), abort()]), (5, 0));
    assert_eq!(number(MY_TAG, &[echo(), ill(65_535), abort()]), (5, 0));
    assert_eq!(number(MY_TAG, &[echo(), vec![read::ABORT, 0, 0, 5]]), (4, 0));
}

/// RFC section 6.1 A: who tells of a closed window is alive, however long it leaves the probe unacknowledged.
#[test]
fn a_closed_window_is_no_silence() {
    let sack = |point: u32, window: u32| write::chunk(read::SACK, 0, &[&point.to_be_bytes()[..], &window.to_be_bytes(), &[0; 4]].concat());
    let mut area = vec![0; AREA];
    let mut e = End::closed(10);
    assert_eq!(e.arrive(MY_TAG, &[write::chunk(read::COOKIE_ECHO, 0, b"cookie")]).number, 0);
    assert_eq!(Model.hand_in(&mut e.a, &mut area, b"probe", 0, 0, 0).number, 0);
    assert!(Model.transmit(&mut e.a, &area, &mut e.out).length > 0);
    let expire = |e: &mut End, chunks: &[Vec<u8>]| {
        let r = Model.t3(&mut e.a);
        assert_eq!(r.number, 0);
        Model.transmit(&mut e.a, &area, &mut e.out);
        let r = e.arrive(MY_TAG, chunks);
        (r.verdicts[0].number, e.a.sending.path.tries)
    };
    for window in [0, 1, 511] {
        for _ in 0..20 {
            assert_eq!(expire(&mut e, &[sack(99, window)]), (0, 0));
        }
    }
    // An open window, a SACK that is refused and a SHUTDOWN say nothing of the kind; what T3 does to the path stays.
    assert_eq!(expire(&mut e, &[sack(99, 512)]), (0, 1));
    assert_eq!(expire(&mut e, &[sack(98, 0)]), (15, 2));
    assert_eq!(expire(&mut e, &[sack(101, 0)]), (16, 3));
    assert_eq!(expire(&mut e, &[sack(99, 0)]), (0, 0));
    assert_eq!(expire(&mut e, &[write::chunk(read::SHUTDOWN, 0, &99u32.to_be_bytes())]), (0, 1));
    assert_eq!((e.a.sending.advertised, e.a.state), (0, SHUTDOWN_RECEIVED));
    assert_eq!((e.a.sending.path.control.cwnd, e.a.sending.path.clock.rto), (528, 60_000));
    for tries in 2..=10 {
        assert_eq!(expire(&mut e, &[sack(99, 65_536)]), (0, tries));
    }
    let r = Model.t3(&mut e.a);
    assert_eq!((r.number, r.over, e.a.state), (0, true, CLOSED));
}
