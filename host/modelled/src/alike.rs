//! The library's types and the model's, one for the other: the model has a struct for each place of a record, the library words.

use model::record::{self, Association};
use oilwhisper::calls;
use oilwhisper::ffi::{self, Record, COOKIE_MOST, HELD_WORDS, PLACES, PLACE_WORDS, STREAMS};
use oilwhisper::library;

pub trait Alike<Other> {
    fn alike(self) -> Other;
}

macro_rules! same_fields {
    ($($left:path, $right:path { $($field:ident)* })*) => {$(
        impl Alike<$right> for $left {
            fn alike(self) -> $right {
                let $left { $($field),* } = self;
                $right { $($field),* }
            }
        }
        impl Alike<$left> for $right {
            fn alike(self) -> $left {
                let $right { $($field),* } = self;
                $left { $($field),* }
            }
        }
    )*};
}

same_fields! {
    library::Answer, record::Answer { number length over }
    library::Lent, record::Lent { tag tsn streams options }
    calls::Made, record::Made { my_tag peer_tag streams_in streams_out my_tsn peer_tsn window my_tie peer_tie options }
    library::Verdict, record::Verdict { at value fate number cause event }
    library::HandedIn, record::HandedIn { number chunks }
    library::Transmitted, record::Transmitted { number length resent first last }
    calls::Taken, record::Message { length stream unordered ssn ppid }
    ffi::Ends, record::Ends { local_port peer_port my_tag peer_tag streams_in streams_out options }
    ffi::Keeping, record::Keeping { point come dups listed }
    ffi::Control, record::Control { cwnd ssthresh partial }
    ffi::Clock, record::Clock { sampled srtt rttvar rto }
    ffi::Held, record::Held { used begin end unordered tsn stream ssn ppid len }
}

impl Alike<library::Peeked> for record::Peeked {
    fn alike(self) -> library::Peeked {
        let record::Peeked { number, kind, source, tag, window, outs, ins, tsn, at, len, options } = self;
        library::Peeked { number, kind, init: calls::Init { source, tag, window, outs, ins, tsn, options }, at, len }
    }
}

impl Alike<record::Peeked> for library::Peeked {
    fn alike(self) -> record::Peeked {
        let library::Peeked { number, kind, init: calls::Init { source, tag, window, outs, ins, tsn, options }, at, len } = self;
        record::Peeked { number, kind, source, tag, window, outs, ins, tsn, at, len, options }
    }
}

impl Alike<library::Echoed> for record::Echoed {
    fn alike(self) -> library::Echoed {
        library::Echoed { word: self.word, made: self.made.alike() }
    }
}

impl Alike<record::Echoed> for library::Echoed {
    fn alike(self) -> record::Echoed {
        record::Echoed { word: self.word, made: self.made.alike() }
    }
}

impl Alike<record::Delivered> for library::Delivered {
    fn alike(self) -> record::Delivered {
        record::Delivered { number: self.number, message: self.message.alike() }
    }
}

impl Alike<library::Delivered> for record::Delivered {
    fn alike(self) -> library::Delivered {
        library::Delivered { number: self.number, message: self.message.alike() }
    }
}

impl Alike<record::Arrived> for library::Arrived {
    fn alike(self) -> record::Arrived {
        let mut verdicts = [record::NO_VERDICT; record::VERDICTS];
        let count = self.verdicts.len();
        verdicts.iter_mut().zip(self.verdicts).for_each(|(to, verdict)| *to = verdict.alike());
        record::Arrived { number: self.number, count, verdicts, length: self.length }
    }
}

impl Alike<library::Arrived> for record::Arrived {
    fn alike(self) -> library::Arrived {
        let verdicts = self.verdicts[..self.count].iter().map(|verdict| verdict.alike()).collect();
        library::Arrived { number: self.number, verdicts, length: self.length }
    }
}

impl Alike<record::Acknowledged> for library::Acknowledged {
    fn alike(self) -> record::Acknowledged {
        let library::Sacked { point, window, blocks, starts, ends, dups, listed } = self.sack;
        let sack = record::Sacked { point, window, blocks: record::Blocks { count: blocks, starts, ends }, dups, listed };
        record::Acknowledged { number: self.number, length: self.length, sack }
    }
}

impl Alike<library::Acknowledged> for record::Acknowledged {
    fn alike(self) -> library::Acknowledged {
        let record::Sacked { point, window, blocks: record::Blocks { count, starts, ends }, dups, listed } = self.sack;
        let sack = library::Sacked { point, window, blocks: count, starts, ends, dups, listed };
        library::Acknowledged { number: self.number, length: self.length, sack }
    }
}

impl Alike<record::Path> for ffi::Path {
    fn alike(self) -> record::Path {
        let ffi::Path { control, clock, flight, running, until, tries } = self;
        record::Path { control: control.alike(), clock: clock.alike(), flight, running, until, tries }
    }
}

impl Alike<ffi::Path> for record::Path {
    fn alike(self) -> ffi::Path {
        let record::Path { control, clock, flight, running, until, tries } = self;
        ffi::Path { control: control.alike(), clock: clock.alike(), flight, running, until, tries }
    }
}

impl Alike<record::Place> for ffi::Place {
    fn alike(self) -> record::Place {
        let ffi::Place { status, misses, tsn, order, stream, ssn, ppid, len, begin, end, unordered } = self;
        record::Place { status, misses, chunk: record::Chunk { tsn, order, stream, ssn, ppid, len, begin, end, unordered } }
    }
}

/// The record as the model has it.
pub fn shown(record: &Record) -> Association {
    let Record { head, next_in, next_out, cookie, .. } = record;
    let mut held = [record::Held::default(); record::PLACES];
    held.iter_mut().zip(record.chunks_held()).for_each(|(to, place)| *to = place.alike());
    let mut places = [record::Place::default(); record::PLACES];
    places.iter_mut().zip(record.chunks_to_send()).for_each(|(to, place)| *to = place.alike());
    let ffi::Sender { acked, next_tsn, advertised, oldest, path, mode } = head.sender;
    Association {
        state: head.state,
        tries: head.tries,
        ends: head.ends.alike(),
        cookie: record::Cookie { bytes: *cookie, len: head.cookie_len },
        receiving: record::Receiving { keeping: head.keeping.alike(), held, next: *next_in },
        sending: record::Sending { acked, next_tsn, advertised, oldest, places, next: *next_out, path: path.alike(), mode },
    }
}

/// The model's record in head and words: those of a place that shows the same already stay, and those that are nobody's.
pub fn store(a: &Association, record: &mut Record) {
    record.head = head_of(a);
    record.next_in = a.receiving.next;
    record.next_out = a.sending.next;
    record.cookie = a.cookie.bytes;
    let shows = shown(record);
    for (i, place) in a.receiving.held.iter().enumerate().filter(|(i, place)| shows.receiving.held[*i] != **place) {
        record.held[HELD_WORDS * i..][..HELD_WORDS].copy_from_slice(&held_words(place));
    }
    for (i, place) in a.sending.places.iter().enumerate().filter(|(i, place)| shows.sending.places[*i] != **place) {
        let words = place_words(place);
        record.places[PLACE_WORDS * i..][..words.len()].copy_from_slice(&words);
    }
}

pub fn record_of(a: &Association) -> Record {
    let mut record = Record {
        head: head_of(a),
        held: [0; HELD_WORDS * PLACES],
        next_in: [0; STREAMS],
        places: [0; PLACE_WORDS * PLACES],
        next_out: [0; STREAMS],
        cookie: [0; COOKIE_MOST],
    };
    store(a, &mut record);
    record
}

fn head_of(a: &Association) -> ffi::Head {
    let record::Sending { acked, next_tsn, advertised, oldest, path, mode, .. } = a.sending;
    ffi::Head {
        state: a.state,
        tries: a.tries,
        cookie_len: a.cookie.len,
        ends: a.ends.alike(),
        keeping: a.receiving.keeping.alike(),
        sender: ffi::Sender { acked, next_tsn, advertised, oldest, path: path.alike(), mode },
    }
}

fn held_words(place: &record::Held) -> [u32; HELD_WORDS] {
    let flags = [place.used, place.begin, place.end, place.unordered];
    [place.tsn, place.ssn.into(), place.ppid, shape_of(place.stream, place.len, &flags)]
}

/// All but the last two, which are nobody's.
fn place_words(place: &record::Place) -> [u32; PLACE_WORDS - 2] {
    let chunk = &place.chunk;
    let shape = shape_of(chunk.stream, chunk.len, &[chunk.begin, chunk.end, chunk.unordered]);
    [chunk.tsn, chunk.order, chunk.ssn.into(), chunk.ppid, shape, u32::from(place.misses) << 8 | u32::from(place.status)]
}

fn shape_of(stream: u16, len: u16, flags: &[bool]) -> u32 {
    assert!(len < 1 << 12, "no words have a length of {len}");
    flags.iter().enumerate().fold(u32::from(stream) << 16 | u32::from(len) << 4, |shape, (bit, flag)| shape | u32::from(*flag) << bit)
}
