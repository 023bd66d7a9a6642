//! One end of the rail by itself, on a real address.

use crate::arguments;
use crate::page::Page;
use crate::report::{grouped, per_second, plural, shown, silence, Ended, Table};
use crate::sender::{Asking, Sender, Stage};
use crate::source::Source;
use crate::stop::{Stop, Wish};
use crate::store::Store;
use crate::taker::{Field, Sink, Sum};
use crate::tiles::BANDS;
use crate::view::{self, Screen, View};
use crate::{bind, end_capture, start_capture, Failure};
use oilwhisper::endpoint::{Config, Endpoint};
use oilwhisper::hub::{Hub, Settings};
use oilwhisper::library::Library;
use oilwhisper::pcap::{Capture, Tap};
use oilwhisper::random::Random;
use oilwhisper::udp::{Line, Station};
use std::collections::BTreeMap;
use std::io::Write;
use std::net::SocketAddr;
use std::path::{Path, PathBuf};
use std::time::{Duration, Instant};

const TURN: Duration = Duration::from_millis(200);
const PROGRESS: Duration = Duration::from_secs(2);
/// How long an end stays that had the last word, in case the other did not get it. The other's T2 first asks after one RTO.
const LINGER: Duration = Duration::from_secs(3);

/// A capture of what one end sends and receives.
struct Recording(Option<(PathBuf, Capture)>);

impl Recording {
    fn start(path: &Option<PathBuf>) -> Result<Recording, Failure> {
        match path {
            Some(path) => Ok(Recording(Some((path.clone(), start_capture(path)?)))),
            None => Ok(Recording(None)),
        }
    }

    fn tap(&self, here: SocketAddr) -> Option<Tap> {
        self.0.as_ref().map(|(_, capture)| Tap::new(capture.clone(), here).writes_received())
    }

    /// A capture that broke off is a fault, and takes nothing from what came.
    fn end(&self, ended: Ended) -> Ended {
        let broken = self.0.as_ref().and_then(|(path, capture)| end_capture(path, capture).err());
        Ended { faults: ended.faults.into_iter().chain(broken.map(|failure| failure.0)).collect(), ..ended }
    }
}

/// Says something every few seconds.
struct Pace {
    told: Instant,
}

impl Pace {
    fn new() -> Pace {
        Pace { told: Instant::now() }
    }

    fn is_due(&mut self) -> bool {
        let due = self.told.elapsed() >= PROGRESS;
        if due {
            self.told = Instant::now();
        }
        due
    }
}

fn config(port: u16, beats: arguments::Beats) -> Config {
    Config { streams: BANDS, heartbeat: beats.heartbeat, unanswered: beats.unanswered, ..Config::at_port(port) }
}

/// Tells once when the other end falls silent, and once when it is heard again.
#[derive(Default)]
struct Watch {
    is_quiet: bool,
}

impl Watch {
    fn look(&mut self, is_quiet: bool, lasted: Duration, who: &str, out: &mut dyn Write) {
        if is_quiet != self.is_quiet {
            self.is_quiet = is_quiet;
            let _ = match is_quiet {
                true => writeln!(out, "  the {} is silent{}", who, silence(lasted)),
                false => writeln!(out, "  the {} is heard again", who),
            };
        }
    }
}

fn random() -> Result<Random, Failure> {
    Random::from_system().map_err(|e| Failure(format!("the system gives no random numbers: {}", e)))
}

/// What a head sends, and where it notes what is kept.
fn source(arguments: &arguments::Head) -> Result<Source, Failure> {
    let (source, journal) = match &arguments.from {
        Some(folder) => (Source::folder(folder)?, Some(folder.join(".kept"))),
        None => (Source::made(arguments.messages, arguments.seed), None),
    };
    match arguments.journal.clone().or(journal) {
        Some(path) => source.with_journal(&path),
        None => Ok(source),
    }
}

pub fn head<L: Library>(arguments: &arguments::Head, stop: &Stop, out: &mut dyn Write) -> Result<Ended, Failure> {
    let socket = bind(arguments.bind)?;
    let recording = Recording::start(&arguments.pcap)?;
    // So that the system tells where nobody listens. Where it cannot, the line tells why nothing can be sent.
    let _ = socket.connect(arguments.address);
    let config = Config { listens: false, ..config(arguments.port, arguments.beats) };
    let tap = recording.tap(socket.local_addr().map_err(Failure::of_network)?);
    let line = Line::<L>::new(Endpoint::new(config, random()?, Instant::now()), socket, tap);
    let asking = Asking { field: arguments.address, port: arguments.to_port, name: arguments.name.clone(), tries: arguments.tries };
    let mut head = Sender::start(line, asking, source(arguments)?, stop)?;
    let total = head.total();
    let _ = writeln!(out, "head {}: asking the field computer at {} (SCTP port {})", arguments.name, shown(arguments.address), arguments.to_port);
    let mut pace = Pace::new();
    let began = Instant::now();
    let mut ended = Ok(());
    let mut has_told_circle = false;
    let mut watch = Watch::default();
    while ended.is_ok() && head.stage() != Stage::Closed {
        ended = head.turn(TURN);
        for news in head.news() {
            let _ = writeln!(out, "  {}", news);
        }
        if matches!(head.stage(), Stage::Open | Stage::Closing) {
            watch.look(head.is_quiet(), head.silence(), "field computer", out);
        }
        if head.has_closed_tsn_circle() && !has_told_circle {
            has_told_circle = true;
            let _ = writeln!(out, "  TSN 4,294,967,295 to 0");
        }
        if pace.is_due() {
            let counts = head.line.endpoint.counts();
            let _ = match head.stage() {
                Stage::Opening => writeln!(out, "  {}", head.hindrance()),
                _ => writeln!(
                    out,
                    "  {} of {} tiles kept, {} handed in, {} packets resent{}",
                    grouped(head.kept()),
                    grouped(total),
                    grouped(counts.messages_in),
                    grouped(counts.resent),
                    silence(head.silence())
                ),
            };
        }
    }
    let took = began.elapsed();
    let until = Instant::now() + LINGER;
    while ended.is_ok() && !head.has_aborted() && stop.wish() != Wish::Abort && Instant::now() < until {
        ended = head.turn(TURN);
    }
    let counts = head.line.endpoint.counts();
    let mut table = Table::default();
    table.count("tiles handed in", counts.messages_in);
    table.count("tiles that the field computer keeps", head.kept());
    table.count("times that the line was lost", head.losses());
    table.row("TSN circle of 2^32 closed", if head.has_closed_tsn_circle() { "yes" } else { "no" });
    table.end("head", counts);
    table.count("tiles per second", per_second(counts.messages_in, took));
    let faults: Vec<String> = ended.err().map(|failure| failure.0).into_iter().collect();
    let kept = format!("{} of {}", grouped(head.kept()), grouped(total));
    let verdict = if !faults.is_empty() {
        format!("NOT all tiles are kept for certain: {} are", kept)
    } else if head.has_aborted() {
        format!("stopped and aborted, and the field computer told: it keeps {} tiles", kept)
    } else if head.was_stopped() {
        format!("stopped: the field computer keeps {} tiles", kept)
    } else {
        format!("the field computer keeps all {} tiles", grouped(total))
    };
    Ok(recording.end(Ended { table: table.text(), faults, verdict, was_stopped: head.was_stopped() }))
}

fn verdict(sum: &Sum, heads: u64, to: Option<&Path>, was_stopped: bool) -> String {
    let (tiles, heads_text) = (plural(sum.tiles, "tile", "tiles"), plural(heads, "head", "heads"));
    let came = match to {
        Some(folder) => format!("are in {}, each once", folder.display()),
        None => "came once, in order, byte for byte".to_string(),
    };
    let again = if sum.again > 0 { format!(" ({} came again)", grouped(sum.again)) } else { String::new() };
    if !sum.faults.is_empty() {
        format!("NOT all came well: {} of {} {}{}; {}", tiles, heads_text, came, again, plural(sum.all_faults, "fault", "faults"))
    } else if sum.visits == 0 {
        "no head came".to_string()
    } else if was_stopped {
        format!("stopped, and the heads told: {} of {} {}{}", tiles, heads_text, came, again)
    } else {
        format!("all {} of {} {}{}", tiles, heads_text, came, again)
    }
}

pub fn field<L: Library>(arguments: &arguments::Field, stop: &Stop, screen: &mut Screen) -> Result<Ended, Failure> {
    let sink = match &arguments.to {
        Some(folder) => Sink::Keep(Store::open(folder)?),
        None => Sink::Compare(BTreeMap::new()),
    };
    let socket = bind(arguments.address)?;
    let page = arguments.view.map(Page::serve).transpose()?;
    let recording = Recording::start(&arguments.pcap)?;
    let address = socket.local_addr().map_err(Failure::of_network)?;
    let config = Config { admits: arguments.admits.clone(), most: arguments.count, ..config(arguments.port, arguments.beats) };
    let hub = Hub::<L>::new(Settings::for_heads(config, arguments.heads), random()?, Instant::now());
    let mut field = Field::new(Station::new(hub, socket, recording.tap(address)), sink, stop);
    screen.say(&format!("field: waiting at {} for heads (SCTP port {}), until Ctrl-C", address, arguments.port));
    if let Some(page) = &page {
        screen.say(&format!("field: the view is at http://{}", page.address()));
        page.show(view::page(&[]));
    }
    let mut pace = Pace::new();
    let mut view = View::new(Instant::now());
    let (mut busy, mut told) = (Duration::ZERO, Instant::now());
    let mut was_stopped = false;
    while arguments.count.map_or(true, |count| field.sum().visits < count) && (!field.visits().is_empty() || stop.wish() == Wish::GoOn) {
        was_stopped |= field.is_asked_to_stop() && !field.visits().is_empty();
        field.turn(TURN)?;
        for news in field.news() {
            screen.say(&news);
        }
        let now = Instant::now();
        if !field.visits().is_empty() {
            busy += now - told;
        }
        told = now;
        if (screen.is_terminal() || page.is_some()) && view.is_due(now) {
            let rows = view.rows(&field, now);
            screen.draw(&view::lines(&rows));
            if let Some(page) = &page {
                page.show(view::page(&rows));
            }
        }
        if !field.visits().is_empty() && !screen.is_terminal() && pace.is_due() {
            let (tiles, heads) = (field.sum().tiles, field.visits().len() as u64);
            screen.say(&format!("  {} so far, {} there", plural(tiles, "tile", "tiles"), plural(heads, "head", "heads")));
        }
    }
    // A head that was shut down from here may not have got the last word.
    let until = Instant::now() + LINGER;
    while was_stopped && stop.wish() != Wish::Abort && Instant::now() < until {
        field.turn(TURN)?;
    }
    Ok(recording.end(ended(arguments, &field, was_stopped, busy)))
}

fn ended<L: Library>(arguments: &arguments::Field, field: &Field<L>, was_stopped: bool, busy: Duration) -> Ended {
    let sum = field.sum();
    let counts = field.station.hub.total();
    let mut table = Table::default();
    table.count("heads that came", field.heads());
    table.count("associations", sum.visits);
    table.count("tiles taken", counts.messages_out);
    match &arguments.to {
        Some(_) => table.count("tiles kept", sum.tiles),
        None => table.count("tiles compared byte by byte, equal and in order", sum.tiles),
    }
    table.count("tiles that came again", sum.again);
    table.count("bytes", sum.bytes);
    table.count("SSN circles closed", field.albums().map(|(_, album)| album.wrapped().len() as u64).sum());
    table.end("field", &counts);
    table.count("tiles per second", per_second(sum.tiles, busy));
    let verdict = verdict(sum, field.heads(), arguments.to.as_deref(), was_stopped);
    Ended { table: table.text(), verdict, faults: sum.faults.clone(), was_stopped }
}
