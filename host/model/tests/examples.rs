//! Published vectors and 01's worked examples C1 to C13.

use model::numbers::{ssn_distance, tsn_distance};
use model::record::*;
use model::{checksum, is_sound, read, write, Core, Model};

#[test]
fn circles() {
    assert_eq!(tsn_distance(4_294_967_295, 0), Some(1), "C1");
    assert_eq!(tsn_distance(0, 4_294_967_295), Some(-1), "C2");
    assert_eq!(tsn_distance(0, 2_147_483_647), Some(2_147_483_647), "C3");
    assert_eq!(tsn_distance(0, 2_147_483_648), None, "C4");
    assert_eq!(tsn_distance(0, 2_147_483_649), Some(-2_147_483_647), "C5");
    assert_eq!(ssn_distance(65_535, 0), Some(1), "C6");
    assert_eq!(ssn_distance(0, 32_768), None, "C7");
}

/// RFC 3720 B.4 prints the bytes as they stand on the wire.
#[test]
fn checksums() {
    let rising: Vec<u8> = (0..32).collect();
    let falling: Vec<u8> = (0..32).rev().collect();
    let mut command = [0; 48];
    for (at, b) in [(0, 0x01), (1, 0xC0), (16, 0x14), (22, 0x04), (27, 0x14), (31, 0x18), (32, 0x28), (40, 0x02)] {
        command[at] = b;
    }
    let vectors: [(&[u8], [u8; 4]); 5] = [
        (&[0; 32], [0xAA, 0x36, 0x91, 0x8A]),
        (&[0xFF; 32], [0x43, 0xAB, 0xA8, 0x62]),
        (&rising, [0x4E, 0x79, 0xDD, 0x46]),
        (&falling, [0x5C, 0xDB, 0x3F, 0x11]),
        (&command, [0x56, 0x3A, 0x96, 0xD9]),
    ];
    for (bytes, sum) in vectors {
        assert_eq!(checksum::bitwise(bytes).to_le_bytes(), sum);
        assert_eq!(checksum::crc32c(bytes).to_le_bytes(), sum);
    }
    let mut r = model::random::Random::new(1);
    for length in 12..1000 {
        let mut p = vec![0; length];
        r.fill(&mut p);
        assert_eq!(checksum::crc32c(&p), checksum::bitwise(&p));
        let mut zeroed = p.clone();
        zeroed[8..12].fill(0);
        assert_eq!(checksum::of_packet(&p), checksum::bitwise(&zeroed));
    }
}

struct End {
    a: Association,
    area: Vec<u8>,
    out: Vec<u8>,
}

fn packet(source: u16, destination: u16, tag: u32, chunks: &[Vec<u8>]) -> Vec<u8> {
    let mut body = Vec::new();
    for c in chunks {
        body.extend_from_slice(c);
        write::pad(&mut body);
    }
    let mut out = vec![0; 2000];
    let length = write::packet(&mut out, source, destination, tag, &body);
    out[..length].to_vec()
}

fn data(tsn: u32) -> Vec<u8> {
    let c = Chunk { tsn, begin: true, end: true, unordered: true, ..Chunk::default() };
    write::data(&c, b"tile")
}

impl End {
    fn new(my_tsn: u32, peer_tsn: u32) -> End {
        End::in_book(my_tsn, peer_tsn, BOOK_9260)
    }

    /// Established by a good echo: our tag 7, the peer's 9.
    fn in_book(my_tsn: u32, peer_tsn: u32, mode: u8) -> End {
        let mut e = End { a: Model.closed(10, mode), area: vec![0; AREA], out: vec![0; OUTPUT] };
        let made = Made { my_tag: 7, peer_tag: 9, streams_in: 4, streams_out: 4, my_tsn, peer_tsn, window: 65_536, ..Made::default() };
        let echo = packet(20, 10, 7, &[write::chunk(read::COOKIE_ECHO, 0, b"cookie")]);
        let echoed = Echoed { word: GOOD, made };
        let r = Model.arrive(&mut e.a, &mut e.area, &echo, Lent::default(), &[], echoed, &mut e.out);
        assert_eq!((r.number, r.count, r.verdicts[0].event, r.length), (0, 1, UP, 16));
        e
    }

    fn arrive(&mut self, chunks: &[Vec<u8>]) -> Vec<Verdict> {
        let p = packet(20, 10, 7, chunks);
        let none = Echoed::default();
        let r = Model.arrive(&mut self.a, &mut self.area, &p, Lent::default(), &[], none, &mut self.out);
        assert_eq!(r.number, 0);
        r.verdicts[..r.count].to_vec()
    }

    fn data(&mut self, tsn: u32) -> u8 {
        self.arrive(&[data(tsn)])[0].number
    }

    fn acknowledged(&mut self, point: u32, blocks: &[(u16, u16)]) {
        let none = Blocks { count: blocks.len(), starts: [0; BLOCKS], ends: [0; BLOCKS] };
        let mut s = Sacked { point, window: 65_536, blocks: none, dups: [0; LISTED], listed: 0 };
        for (i, block) in blocks.iter().enumerate() {
            (s.blocks.starts[i], s.blocks.ends[i]) = *block;
        }
        assert_eq!(self.arrive(&[write::sack(&s)])[0].number, 0);
    }

    fn sack(&mut self) -> Sacked {
        let r = Model.sack(&mut self.a, &mut self.out);
        assert_eq!(r.number, 0);
        r.sack
    }
}

#[test]
fn gaps() {
    let mut e = End::new(1, 4_294_967_295);
    assert_eq!(e.data(0), 0);
    let s = e.sack();
    assert_eq!((s.point, s.blocks.count, s.blocks.starts[0], s.blocks.ends[0]), (4_294_967_294, 1, 2, 2), "C8");
    assert_eq!(s.window, 512 * 127);
    assert_eq!(e.data(4_294_967_295), 0);
    let s = e.sack();
    assert_eq!((s.point, s.blocks.count), (0, 0), "C9");
    assert_eq!(End::new(1, 1).data(128), 0, "C10");
    assert_eq!(End::new(1, 1).data(129), 13, "C11");
}

#[test]
fn round_trips() {
    let mut e = End::new(1, 1);
    assert_eq!(Model.rtt(&mut e.a, 3_000).number, 0);
    assert_eq!(e.a.sending.path.clock.rto, 9_000, "C12");
    assert_eq!(Model.rtt(&mut e.a, 1_000).number, 0);
    assert_eq!(e.a.sending.path.clock.rto, 9_250, "C12");
}

#[test]
fn third_timer() {
    let mut e = End::new(1, 1);
    e.a.sending.path.control.cwnd = 6_000;
    let mut area = vec![0; AREA];
    assert_eq!(Model.t3(&mut e.a).number, 7);
    assert_eq!(Model.hand_in(&mut e.a, &mut area, &[1; 1000], 3, 0, 0).chunks, 2);
    assert_eq!(Model.transmit(&mut e.a, &area, &mut e.out).length, 12 + 16 + 512);
    assert_eq!(Model.t3(&mut e.a).number, 0);
    let c = e.a.sending.path.control;
    assert_eq!((c.ssthresh, c.cwnd, c.partial), (3_000, 528, 0), "C13");
    assert_eq!((e.a.sending.path.flight, e.a.sending.path.clock.rto, e.a.sending.path.tries), (0, 2_000, 1));
}

/// T-12 of 02, with the numbers of RFC 4960's sections 7.2 and 15: an end in each book.
#[test]
fn the_two_books_differ_where_they_should() {
    struct Row {
        mode: u8,
        start: (u32, u32),
        third_timer: (u32, u32, u32),
        least: (u32, u32, u32),
        slow: u32,
        below: (u32, u32, u32),
        full: (u32, u32, u32),
        unmoved: (u32, u32, u32),
        struck: (u32, u32, u32),
    }
    let rows = [
        Row {
            mode: BOOK_9260,
            start: (2_112, 1_000),
            third_timer: (528, 3_000, 0),
            least: (528, 2_112, 0),
            slow: 2_640,
            below: (5_000, 2_400, 5_000),
            full: (5_528, 2_400, 528),
            unmoved: (5_528, 2_400, 328),
            struck: (2_112, 2_112, 0),
        },
        Row {
            mode: BOOK_4960,
            start: (2_304, 3_000),
            third_timer: (576, 3_000, 700),
            least: (576, 2_304, 0),
            slow: 2_880,
            below: (5_000, 2_400, 5_328),
            full: (5_576, 2_400, 856),
            unmoved: (5_000, 2_400, 4_800),
            struck: (2_304, 2_304, 0),
        },
    ];
    let control = |e: &End| (e.a.sending.path.control.cwnd, e.a.sending.path.control.ssthresh, e.a.sending.path.control.partial);
    for row in rows {
        let fresh = End::in_book(1, 1, row.mode);
        assert_eq!((control(&fresh).0, fresh.a.sending.path.clock.rto), row.start);
        // So many chunks of 512 bytes on the way, and these numbers.
        let with = |chunks: usize, cwnd: u32, ssthresh: u32, partial: u32| {
            let mut e = End::in_book(1, 1, row.mode);
            let mut area = vec![0; AREA];
            e.a.sending.path.control.cwnd = 6_000;
            assert_eq!(Model.hand_in(&mut e.a, &mut area, &vec![1; 512 * chunks], 3, 0, 0).chunks, chunks);
            while Model.transmit(&mut e.a, &area, &mut e.out).length > 0 {}
            assert_eq!(e.a.sending.path.flight, 528 * chunks as u32);
            e.a.sending.path.control = Control { cwnd, ssthresh, partial };
            e
        };
        let mut e = with(5, 6_000, 1_048_576, 700);
        assert_eq!(Model.t3(&mut e.a).number, 0);
        assert_eq!((control(&e), e.a.sending.path.clock.rto), (row.third_timer, 2 * row.start.1));
        let mut e = with(5, 4_000, 1_048_576, 0);
        assert_eq!(Model.t3(&mut e.a).number, 0);
        assert_eq!(control(&e), row.least);
        let mut e = with(5, row.start.0, 1_048_576, 0);
        e.acknowledged(2, &[]);
        assert_eq!(control(&e).0, row.slow);
        let mut e = with(5, row.start.0, 1_048_576, 0);
        e.acknowledged(0, &[(2, 3)]);
        assert_eq!(control(&e).0, row.start.0);
        let mut e = with(5, 5_000, 2_400, 4_800);
        e.acknowledged(1, &[]);
        assert_eq!(control(&e), row.below);
        let mut e = with(10, 5_000, 2_400, row.below.2);
        e.acknowledged(1, &[]);
        assert_eq!(control(&e), row.full);
        let mut e = with(10, 5_000, 2_400, 4_800);
        e.acknowledged(0, &[(2, 2)]);
        assert_eq!(control(&e), row.unmoved);
        let mut e = with(5, 4_000, 1_048_576, 99);
        for last in 2..=4 {
            e.acknowledged(0, &[(2, last)]);
        }
        assert_eq!(control(&e), row.struck);
    }
    assert!(!is_sound(&Model.closed(10, 2)));
}

/// 01's third wrong build: 127 chunks above a hole leave a place for the missing one.
#[test]
fn the_missing_chunk_finds_a_place() {
    let mut e = End::new(1, 1);
    for tsn in 2..=128 {
        assert_eq!(e.data(tsn), 0);
    }
    assert_eq!(e.data(129), 13);
    assert_eq!(e.sack().window, 512);
    assert_eq!(e.data(1), 0);
    assert_eq!(e.sack().point, 128);
}

/// T-07 of 02: the opposite number is no duplicate, held or not, and changes nothing; its two neighbours are what they were.
#[test]
fn the_opposite_number_has_an_answer_of_its_own() {
    let mut e = End::new(1, 1);
    assert_eq!(e.data(2_147_483_647), 13);
    assert_eq!(e.data(2_147_483_648), 24);
    assert_eq!(e.sack().listed, 0);
    assert_eq!(e.data(2_147_483_649), 11);
    assert_eq!(e.sack().dups[..1], [2_147_483_649]);
    e.a.receiving.held[9] = Held { used: true, tsn: 2_147_483_648, len: 1, ..Held::default() };
    assert_eq!(e.data(2_147_483_648), 24);
    assert_eq!(e.sack().listed, 0);
    assert_eq!(e.data(1), 0);
    assert_eq!(e.data(2_147_483_648), 11);
}

/// T-01 of 02: the chunk held one TSN before, or one TSN after, says that a message ends between the two where this one says that it goes on, or the
/// other way round. What was taken is not asked, nor what stands two TSNs away.
#[test]
fn a_contradiction_is_refused_at_once() {
    let piece = |tsn: u32, begin: bool, end: bool| write::data(&Chunk { tsn, begin, end, ..Chunk::default() }, b"tile");
    let mut e = End::new(1, 4_294_967_295);
    assert_eq!(e.arrive(&[piece(4_294_967_295, true, false)])[0].number, 0);
    let v = &e.arrive(&[piece(0, true, false)])[0];
    assert_eq!((v.number, v.cause, v.value), (21, 13, 0));
    let before = e.a;
    assert_eq!(e.arrive(&[piece(0, true, true)])[0].number, 21);
    assert_eq!(e.a, before);
    assert_eq!(e.arrive(&[piece(2, true, true)])[0].number, 0);
    assert_eq!(e.arrive(&[piece(1, false, false)])[0].number, 21);
    assert_eq!(e.arrive(&[piece(3, false, true)])[0].number, 21);
    assert_eq!(e.arrive(&[piece(1, false, true)])[0].number, 0);
    assert_eq!(e.arrive(&[piece(0, false, true)])[0].number, 21);
    assert_eq!(e.arrive(&[piece(0, false, false)])[0].number, 0);
    assert_eq!(e.sack().point, 2);
    let mut out = vec![0; 65_536];
    assert_eq!(Model.take(&mut e.a, &e.area, &mut out).number, 0);
    assert_eq!(e.arrive(&[piece(3, true, true)])[0].number, 0);
}

/// 01's second wrong build: what was taken above the point is a duplicate when it comes again.
#[test]
fn a_taken_chunk_is_not_delivered_again() {
    let mut e = End::new(1, 1);
    assert_eq!(e.data(5), 0);
    assert_eq!(Model.take(&mut e.a, &e.area, &mut e.out).message.length, 4);
    assert_eq!(e.data(5), 11);
    assert_eq!(Model.take(&mut e.a, &e.area, &mut e.out).number, 17);
    assert_eq!(e.sack().dups[..1], [5]);
}

/// T-02: an INIT whose length counts all of the last parameter's padding means what it means without; counted in part it is 5.
#[test]
fn the_last_parameters_padding() {
    let mut v = write::init_fields(read::Init { tag: 9, window: 65_536, outs: 4, ins: 4, tsn: 1 });
    v.extend_from_slice(&write::item(0xC001, b"?"));
    let lent = Lent { tag: 7, tsn: 1, streams: 4, options: 0 };
    let answers = [0, 1, 2, 3].map(|counted| {
        let mut e = End { a: Model.closed(10, BOOK_9260), area: vec![0; AREA], out: vec![0; OUTPUT] };
        v.resize(16 + 5 + counted, 0);
        let init = packet(20, 10, 0, &[write::chunk(read::INIT, 0, &v)]);
        let r = Model.arrive(&mut e.a, &mut e.area, &init, lent, b"cookie", Echoed::default(), &mut e.out);
        (r.number, e.out[..r.length].to_vec())
    });
    assert_eq!(answers[0].0, 0);
    assert_eq!(answers[0].1[12..16], [read::INIT_ACK, 0, 0, 20 + 12 + 9]);
    assert_eq!(answers[3], answers[0]);
    assert_eq!((answers[1].0, answers[2].0), (5, 5));
}
