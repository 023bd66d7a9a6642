//! The demonstration: heads and a field computer over loopback UDP, with a relay before each head that drops, repeats, reorders and damages packets. Each head's
//! first TSN is 100 below 2^32 and its first band has more than 65,536 tiles, so that the numbers of both circles go round.

use crate::arguments::{Demo, FIELD_PORT, HEAD_PORT};
use crate::relay::{Channel, Mishaps, Relay};
use crate::report::{grouped, per_second, plural, silence, Ended, Table};
use crate::sender::{Asking, Sender, Stage};
use crate::source::Source;
use crate::stop::{Stop, Wish};
use crate::taker::{Field, Sink};
use crate::tiles::{Album, Plan, BANDS};
use crate::{bind, end_capture, start_capture, swaps, Failure};
use oilwhisper::association::Association;
use oilwhisper::counts::Counts;
use oilwhisper::endpoint::{Book, Config, Endpoint};
use oilwhisper::hub::{Hub, Settings};
use oilwhisper::library::Library;
use oilwhisper::pcap::{Capture, Tap};
use oilwhisper::random::Random;
use oilwhisper::udp::{Line, Station};
use std::collections::BTreeMap;
use std::io::Write;
use std::net::{IpAddr, Ipv4Addr, SocketAddr, UdpSocket};
use std::sync::atomic::{AtomicBool, AtomicU64, Ordering};
use std::sync::Mutex;
use std::thread;
use std::time::{Duration, Instant};

/// 100 below 2^32.
pub const FIRST_TSN: u32 = u32::MAX - 99;
const SSN_CIRCLE: u64 = 65_536;

/// Addresses of the loopback network, so that a capture tells the ends apart: the field computer's, and each head's and its relay's.
const FIELD: IpAddr = IpAddr::V4(Ipv4Addr::new(127, 0, 0, 2));

fn head_at(n: usize) -> IpAddr {
    IpAddr::from([127, 0, 1, n as u8 + 1])
}

fn relay_at(n: usize) -> IpAddr {
    IpAddr::from([127, 0, 2, n as u8 + 1])
}

fn name(n: usize) -> String {
    format!("head-{}", n + 1)
}

const TURN: Duration = Duration::from_millis(20);
const PROGRESS: Duration = Duration::from_secs(2);
/// With not one tile more for so long the run is given up; it is longer than an association lives without an answer at its first RTO.
const STUCK: Duration = Duration::from_secs(300);

/// What the threads tell each other.
#[derive(Default)]
struct Shared {
    compared: AtomicU64,
    resent: AtomicU64,
    /// How many milliseconds the last of the heads has not heard the field computer.
    silence: AtomicU64,
    heads_ended: AtomicU64,
    field_ended: AtomicBool,
    stop: AtomicBool,
    /// What is to be told at once.
    news: Mutex<Vec<String>>,
}

impl Shared {
    fn tell(&self, news: String) {
        if let Ok(mut all) = self.news.lock() {
            all.push(news);
        }
    }

    fn print_news(&self, progress: &mut dyn Write) {
        if let Ok(mut all) = self.news.lock() {
            for news in all.drain(..) {
                let _ = writeln!(progress, "  {}", news);
            }
        }
    }
}

struct HeadOutcome {
    result: Result<(), Failure>,
    counts: Counts,
    last_tsn: u32,
    has_closed_tsn_circle: bool,
    was_stopped: bool,
    has_aborted: bool,
}

struct FieldOutcome {
    result: Result<(), Failure>,
    counts: Counts,
    albums: BTreeMap<String, Album>,
    faults: Vec<String>,
}

impl FieldOutcome {
    fn album(&self, n: usize) -> Album {
        self.albums.get(&name(n)).cloned().unwrap_or_default()
    }
}

pub fn run<L: Library>(demo: &Demo, stop: &Stop, progress: &mut dyn Write) -> Result<Ended, Failure> {
    if demo.battery > 0 {
        return swaps::run::<L>(demo, progress);
    }
    let capture = match &demo.pcap {
        Some(path) => Some((path, start_capture(path)?)),
        None => None,
    };
    let mut ended = run_ends::<L>(demo, stop, capture.as_ref().map(|(_, capture)| capture), progress)?;
    if let Some((path, capture)) = capture {
        ended.faults.extend(end_capture(path, &capture).err().map(|failure| failure.0));
    }
    Ok(ended)
}

/// A head's socket, and the stretch between it and the field computer.
struct Post {
    socket: UdpSocket,
    address: SocketAddr,
    relay: Relay,
    /// Where the head sends to, and where the field computer does.
    to_field: SocketAddr,
    to_head: SocketAddr,
}

impl Post {
    fn new(n: usize, field: SocketAddr) -> Result<Post, Failure> {
        let socket = bind(SocketAddr::new(head_at(n), 0))?;
        let address = socket.local_addr().map_err(Failure::of_network)?;
        let relay = Relay::between(address, field, relay_at(n)).map_err(Failure::of_network)?;
        let to_field = relay.first_side().map_err(Failure::of_network)?;
        let to_head = relay.second_side().map_err(Failure::of_network)?;
        Ok(Post { socket, address, relay, to_field, to_head })
    }
}

fn run_ends<L: Library>(demo: &Demo, stop: &Stop, capture: Option<&Capture>, progress: &mut dyn Write) -> Result<Ended, Failure> {
    let field_socket = bind(SocketAddr::new(FIELD, 0))?;
    let field_address = field_socket.local_addr().map_err(Failure::of_network)?;
    let posts: Vec<Post> = (0..demo.heads).map(|n| Post::new(n, field_address)).collect::<Result<_, _>>()?;
    let shared = Shared::default();
    announce::<L>(demo, field_address, progress);
    let began = Instant::now();
    let tap = |here: SocketAddr| capture.map(|capture| Tap::new(capture.clone(), here));
    let field_tap = posts.iter().fold(tap(field_address), |tap, post| tap.map(|tap| tap.shows_behind(post.to_head, post.address)));
    let (heads, field, mishaps) = thread::scope(|scope| {
        let shared = &shared;
        let mut stretches = Vec::new();
        for (n, post) in posts.iter().enumerate() {
            let seed = demo.seed.wrapping_add(n as u64);
            stretches.push(scope.spawn(move || post.relay.carry_forth(Channel::new(demo.weather, seed), &shared.stop)));
            stretches.push(scope.spawn(move || post.relay.carry_back(Channel::new(demo.weather, !seed), &shared.stop)));
        }
        let field = scope.spawn(|| run_field::<L>(demo, field_socket, field_tap, shared));
        let mut heads = Vec::new();
        for (n, post) in posts.iter().enumerate() {
            let tap = tap(post.address).map(|tap| tap.shows_behind(post.to_field, field_address));
            heads.push(scope.spawn(move || run_head::<L>(demo, n, post, tap, shared, stop)));
        }
        watch(demo, shared, progress);
        let heads: Vec<_> = heads.into_iter().map(joined).collect();
        let field = joined(field);
        shared.print_news(progress);
        shared.stop.store(true, Ordering::Relaxed);
        let mishaps: Vec<_> = stretches.into_iter().map(joined).collect();
        (heads, field, mishaps)
    });
    let took = began.elapsed();
    let mut all = Mishaps::default();
    for mishap in mishaps {
        all = all.and(mishap?.map_err(Failure::of_network)?);
    }
    let heads: Vec<HeadOutcome> = heads.into_iter().map(|head| head.and_then(|head| head)).collect::<Result<_, _>>()?;
    Ok(judge(demo, &heads, &field??, all, took))
}

fn announce<L: Library>(demo: &Demo, field: SocketAddr, progress: &mut dyn Write) {
    let Demo { messages, weather, heads, book, .. } = demo;
    let percent = [weather.loss, weather.repeat, weather.reorder, weather.damage].map(|part| part * 100.0);
    let [loss, repeat, reorder, damage] = percent;
    // A closed standard output must not end the run: the exit status still tells.
    let _ = writeln!(
        progress,
        "{} tiles of {} bands from {} to a field computer at {}, each over a stretch that drops {}%, repeats {}%, holds back {}% and damages {}%",
        grouped(Plan::total(*messages) * *heads as u64),
        BANDS,
        plural(*heads as u64, "head", "heads"),
        field,
        loss,
        repeat,
        reorder,
        damage
    );
    let number = match book {
        Book::Rfc9260 => 9260,
        Book::Rfc4960 => 4960,
    };
    let first_rto = Association::<L>::closed(HEAD_PORT, *book).standing().rto;
    let _ = writeln!(progress, "  sent by RFC {}: the first RTO is {:.1} s", number, first_rto.as_secs_f64());
}

fn joined<T>(thread: thread::ScopedJoinHandle<T>) -> Result<T, Failure> {
    thread.join().map_err(|_| Failure("a part of this program failed".to_string()))
}

fn random() -> Result<Random, Failure> {
    Random::from_system().map_err(|e| Failure(format!("the system gives no random numbers: {}", e)))
}

fn run_head<L: Library>(demo: &Demo, n: usize, post: &Post, tap: Option<Tap>, shared: &Shared, stop: &Stop) -> Result<HeadOutcome, Failure> {
    let config = Config { streams: BANDS, first_tsn: Some(FIRST_TSN), book: demo.book, ..Config::at_port(HEAD_PORT) };
    let socket = post.socket.try_clone().map_err(Failure::of_network)?;
    let line = Line::<L>::new(Endpoint::new(config, random()?, Instant::now()), socket, tap);
    // A line that is lost here is a fault.
    let asking = Asking { field: post.to_field, port: FIELD_PORT, name: name(n), tries: Some(0) };
    let mut head = Sender::start(line, asking, Source::made(demo.messages, demo.seed.wrapping_add(n as u64)), stop)?;
    let mut result = Ok(());
    let (mut has_told_circle, mut has_ended) = (false, false);
    let mut resent = 0;
    // It stays until the field computer is through, which may need its last word again.
    while result.is_ok() && !(has_ended && shared.field_ended.load(Ordering::Relaxed)) && !shared.stop.load(Ordering::Relaxed) {
        result = head.turn(TURN);
        if result.is_ok() && head.stage() == Stage::Opening && head.line.trouble().is_some() {
            // Loopback that carries nothing now will carry nothing later.
            result = Err(Failure(head.hindrance()));
        }
        if head.has_closed_tsn_circle() && !has_told_circle {
            has_told_circle = true;
            shared.tell(format!("TSN 4,294,967,295 to 0 of {}", name(n)));
        }
        let counts = head.line.endpoint.counts();
        shared.resent.fetch_add(counts.resent - resent, Ordering::Relaxed);
        resent = counts.resent;
        shared.silence.store(head.silence().as_millis() as u64, Ordering::Relaxed);
        if !has_ended && (head.stage() == Stage::Closed || result.is_err()) {
            has_ended = true;
            shared.heads_ended.fetch_add(1, Ordering::Relaxed);
        }
        if result.is_err() || has_ended && stop.wish() == Wish::Abort {
            // Nobody is left who could tell the field computer anything.
            shared.stop.store(true, Ordering::Relaxed);
        }
    }
    if result.is_ok() && head.stage() != Stage::Closed {
        result = Err(Failure(format!("{} was stopped before it had shut down", name(n))));
    }
    Ok(HeadOutcome {
        result,
        counts: *head.line.endpoint.counts(),
        last_tsn: head.line.endpoint.standing().acked,
        has_closed_tsn_circle: head.has_closed_tsn_circle(),
        was_stopped: head.was_stopped(),
        has_aborted: head.has_aborted(),
    })
}

fn run_field<L: Library>(demo: &Demo, socket: UdpSocket, tap: Option<Tap>, shared: &Shared) -> Result<FieldOutcome, Failure> {
    let config = Config { streams: BANDS, book: demo.book, ..Config::at_port(FIELD_PORT) };
    let hub = Hub::<L>::new(Settings::for_heads(config, demo.heads), random()?, Instant::now());
    // It ends when the heads do.
    let mut field = Field::new(Station::new(hub, socket, tap), Sink::Compare(BTreeMap::new()), &Stop::default());
    let mut result = Ok(());
    let is_through = |field: &Field<L>| field.sum().visits == demo.heads as u64;
    while result.is_ok() && !is_through(&field) && !shared.stop.load(Ordering::Relaxed) {
        result = field.turn(TURN);
        shared.compared.store(field.sum().tiles, Ordering::Relaxed);
        for news in field.news().iter().filter(|news| news.starts_with("  SSN")) {
            shared.tell(news.trim_start().to_string());
        }
    }
    shared.field_ended.store(true, Ordering::Relaxed);
    if result.is_ok() && !is_through(&field) {
        result = Err(Failure("the field computer was stopped before it had shut down".to_string()));
    }
    let albums = field.albums().map(|(name, album)| (name.clone(), album.clone())).collect();
    Ok(FieldOutcome { result, counts: field.station.hub.total(), albums, faults: field.sum().faults.clone() })
}

/// Prints progress until all ends are through, or stops them where nothing moves.
fn watch(demo: &Demo, shared: &Shared, progress: &mut dyn Write) {
    let total = grouped(Plan::total(demo.messages) * demo.heads as u64);
    let (mut told, mut moved, mut seen) = (Instant::now(), Instant::now(), 0);
    let has_ended = || shared.heads_ended.load(Ordering::Relaxed) == demo.heads as u64 && shared.field_ended.load(Ordering::Relaxed);
    while !has_ended() && !shared.stop.load(Ordering::Relaxed) {
        thread::sleep(TURN);
        shared.print_news(progress);
        let compared = shared.compared.load(Ordering::Relaxed);
        if compared != seen {
            seen = compared;
            moved = Instant::now();
        }
        if moved.elapsed() > STUCK {
            shared.stop.store(true, Ordering::Relaxed);
            return;
        }
        if told.elapsed() >= PROGRESS {
            told = Instant::now();
            let resent = grouped(shared.resent.load(Ordering::Relaxed));
            let quiet = silence(Duration::from_millis(shared.silence.load(Ordering::Relaxed)));
            let _ = writeln!(progress, "  {} of {} tiles compared, {} packets resent{}", grouped(compared), total, resent, quiet);
        }
    }
}

/// What went wrong: nothing, where every tile of every head came once, in order, byte for byte, and both circles closed; or where all did that was handed in
/// before a stop.
fn faults(demo: &Demo, heads: &[HeadOutcome], field: &FieldOutcome) -> Vec<String> {
    let total = Plan::total(demo.messages);
    let has_aborted = heads.iter().any(|head| head.has_aborted);
    let mut faults = Vec::new();
    if !has_aborted {
        let results = heads.iter().map(|head| &head.result).chain([&field.result]);
        faults.extend(results.filter_map(|result| result.as_ref().err()).map(Failure::to_string));
    }
    faults.extend(field.faults.iter().cloned());
    for (n, head) in heads.iter().enumerate() {
        let (handed_in, album) = (head.counts.messages_in, field.album(n));
        let mut fault = |text: String| faults.push(format!("{}: {}", name(n), text));
        if handed_in != total && !head.was_stopped {
            fault(format!("{} of {} tiles were handed in", grouped(handed_in), grouped(total)));
        }
        if album.tiles() != handed_in && !has_aborted {
            fault(format!("{} of {} tiles came as they were handed in", grouped(album.tiles()), grouped(handed_in)));
        }
        if !head.has_closed_tsn_circle && total >= 100 && !head.was_stopped {
            fault("the TSNs did not go round their circle".to_string());
        }
        if album.wrapped().is_empty() && demo.messages > SSN_CIRCLE && !head.was_stopped {
            fault("the first band's SSNs did not go round their circle".to_string());
        }
    }
    faults
}

fn verdict(heads: &[HeadOutcome], field: &FieldOutcome, total: u64, faults: &[String]) -> String {
    let tiles: u64 = field.albums.values().map(Album::tiles).sum();
    let (tiles, handed_in) = (grouped(tiles), grouped(heads.iter().map(|head| head.counts.messages_in).sum()));
    let of_heads = plural(heads.len() as u64, "head", "heads");
    if !faults.is_empty() {
        format!("NOT all {} tiles of {} came once, in order, byte for byte: {} did", grouped(total), of_heads, tiles)
    } else if heads.iter().any(|head| head.has_aborted) {
        format!(
            "stopped and aborted: {} of {} tiles were handed in, and the {} that came did so once, in order, byte for byte",
            handed_in,
            grouped(total),
            tiles
        )
    } else if heads.iter().any(|head| head.was_stopped) {
        format!("stopped: {} of {} tiles were handed in, and all of those came once, in order, byte for byte", handed_in, grouped(total))
    } else {
        format!("all {} tiles of {} came once, in order, byte for byte", tiles, of_heads)
    }
}

fn judge(demo: &Demo, heads: &[HeadOutcome], field: &FieldOutcome, mishaps: Mishaps, took: Duration) -> Ended {
    let total = Plan::total(demo.messages) * demo.heads as u64;
    let albums: Vec<Album> = (0..demo.heads).map(|n| field.album(n)).collect();
    let (tiles, bytes) = (albums.iter().map(Album::tiles).sum(), albums.iter().map(Album::bytes).sum());
    let faults = faults(demo, heads, field);
    let verdict = verdict(heads, field, total, &faults);
    let of_heads = heads.iter().fold(Counts::default(), |sum, head| sum.and(&head.counts));
    let mut table = Table::default();
    table.count("heads", heads.len() as u64);
    table.count("tiles handed in", of_heads.messages_in);
    table.count("tiles taken", field.counts.messages_out);
    table.count("tiles compared byte by byte, equal and in order", tiles);
    table.count("bytes compared", bytes);
    for (n, (head, album)) in heads.iter().zip(&albums).enumerate() {
        let bands = album.tiles_by_band().map(|count| grouped(u64::from(count))).join("  ");
        table.row(&format!("{}: tiles of each band", name(n)), bands);
        let tsns = format!("{} to {}", grouped(u64::from(FIRST_TSN)), grouped(u64::from(head.last_tsn)));
        table.row(&format!("{}: TSN circle of 2^32 closed", name(n)), format!("{} ({})", yes_or_no(head.has_closed_tsn_circle), tsns));
        let ssns = format!("{} tiles on band 0", grouped(u64::from(album.tiles_by_band()[0])));
        table.row(&format!("{}: SSN circle of 2^16 closed", name(n)), format!("{} ({})", yes_or_no(!album.wrapped().is_empty()), ssns));
    }
    table.count("packets that passed the bad stretches", mishaps.passed);
    table.count("  dropped", mishaps.dropped);
    table.count("  repeated", mishaps.repeated);
    table.count("  held back", mishaps.reordered);
    table.count("  damaged", mishaps.damaged);
    table.end("heads", &of_heads);
    table.end("field", &field.counts);
    table.row("time", format!("{:.1} s", took.as_secs_f64()));
    table.row("throughput", format!("{} tiles/s, {} bytes/s", grouped(per_second(tiles, took)), grouped(per_second(bytes, took))));
    Ended { table: table.text(), faults, verdict, was_stopped: heads.iter().any(|head| head.was_stopped) }
}

fn yes_or_no(flag: bool) -> &'static str {
    if flag {
        "yes"
    } else {
        "no"
    }
}

#[cfg(test)]
mod tests {
    use super::*;
    use crate::relay::Weather;
    use crate::tiles::tile;

    const MESSAGES: u64 = 65_600;

    fn demo() -> Demo {
        Demo { heads: 2, messages: MESSAGES, seed: 3, weather: Weather::FAIR, book: Book::Rfc9260, pcap: None, battery: 0 }
    }

    fn head() -> HeadOutcome {
        let mut counts = Counts::default();
        counts.messages_in += Plan::total(MESSAGES);
        HeadOutcome { result: Ok(()), counts, last_tsn: 80_000, has_closed_tsn_circle: true, was_stopped: false, has_aborted: false }
    }

    fn album(tiles: u64) -> Album {
        let mut album = Album::default();
        for (band, index) in Plan::of(MESSAGES).take(tiles as usize) {
            assert_eq!(album.add(band, index as u16, &tile(3, band, index)), Ok(()));
        }
        album
    }

    /// The first head's album is whole.
    fn field(all: &Album, second: &Album) -> FieldOutcome {
        let albums = BTreeMap::from([(name(0), all.clone()), (name(1), second.clone())]);
        FieldOutcome { result: Ok(()), counts: Counts::default(), albums, faults: Vec::new() }
    }

    /// The second head is this one.
    fn ended(second: HeadOutcome, field: FieldOutcome) -> Ended {
        judge(&demo(), &[head(), second], &field, Mishaps::default(), Duration::from_secs(1))
    }

    fn faults(second: HeadOutcome, field: FieldOutcome) -> Vec<String> {
        let ended = ended(second, field);
        assert_eq!(ended.faults.is_empty(), !ended.verdict.starts_with("NOT all 147,600 tiles of 2 heads came"), "{}", ended.verdict);
        ended.faults
    }

    #[test]
    fn a_run_is_good_only_where_nothing_differs() {
        let all = album(Plan::total(MESSAGES));
        assert_eq!(faults(head(), field(&all, &all)), [] as [String; 0]);
        let one_less = album(Plan::total(MESSAGES) - 1);
        assert_eq!(faults(head(), field(&all, &one_less)), ["head-2: 73,799 of 73,800 tiles came as they were handed in"]);
        let differs = FieldOutcome { faults: vec!["stream 9 is no band".to_string()], ..field(&all, &all) };
        assert_eq!(faults(head(), differs), ["stream 9 is no band"]);
        let broken = HeadOutcome { result: Err(Failure("gone".to_string())), ..head() };
        assert_eq!(faults(broken, field(&all, &all)), ["gone"]);
        let stuck = HeadOutcome { has_closed_tsn_circle: false, ..head() };
        assert_eq!(faults(stuck, field(&all, &all)), ["head-2: the TSNs did not go round their circle"]);
        let few = album(1000);
        let said = faults(head(), field(&all, &few));
        assert!(said.contains(&"head-2: the first band's SSNs did not go round their circle".to_string()), "{:?}", said);
    }

    #[test]
    fn the_verdict_says_what_came() {
        let all = album(Plan::total(MESSAGES));
        assert_eq!(ended(head(), field(&all, &all)).verdict, "all 147,600 tiles of 2 heads came once, in order, byte for byte");
        let one_less = album(Plan::total(MESSAGES) - 1);
        assert_eq!(ended(head(), field(&all, &one_less)).verdict, "NOT all 147,600 tiles of 2 heads came once, in order, byte for byte: 147,599 did");
        let stopped = |messages_in| {
            let mut stopped = HeadOutcome { was_stopped: true, ..head() };
            stopped.counts.messages_in = messages_in;
            stopped
        };
        let few = album(1000);
        let well = ended(stopped(1000), field(&all, &few));
        assert_eq!(well.verdict, "stopped: 74,800 of 147,600 tiles were handed in, and all of those came once, in order, byte for byte");
        assert!(well.was_stopped && well.faults.is_empty());
        assert!(ended(stopped(1001), field(&all, &few)).verdict.starts_with("NOT all"));
    }
}
