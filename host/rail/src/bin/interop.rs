//! Our side of the interoperation tests (tests/interop/run): one association over loopback with a foreign stack, by a plan that both sides know.
//!
//!     interop connect|listen here=UDP there=UDP port=PORT to=PORT send=N take=N plan=one|spread|small|tsctp first=both|us|peer tsn=N
//!             end=shutdown|abort|peer-shutdown|peer-abort|refused:N|vanish:N restarts=N heartbeat=MS idle=MS linger=MS weather=fair|bad seconds=S
//!             pcap=FILE

use oilwhisper::calls::{Cause, Refusal, Taken};
use oilwhisper::endpoint::{Config, Endpoint, Event, Why};
use oilwhisper::ffi::PLACES;
use oilwhisper::library::Proved;
use oilwhisper::pcap::{Capture, Pcap, Tap};
use oilwhisper::random::Random;
use oilwhisper::udp::Line;
use rail::relay::{Channel, Relay, Weather};
use std::collections::HashMap;
use std::net::{Ipv4Addr, SocketAddr, UdpSocket};
use std::path::Path;
use std::process::ExitCode;
use std::sync::atomic::AtomicBool;
use std::sync::{Arc, Mutex};
use std::thread;
use std::time::{Duration, Instant};

const STREAMS: u16 = 8;
const OURS: u32 = 0;
const THEIRS: u32 = 1;
/// Message 0's payload protocol identifier, far from those that a dissector knows.
const NUMBERED: u32 = 0x5200_0000;
/// Where this end shows itself in a capture, so that its packets are told from the peer's.
const SHOWN: Ipv4Addr = Ipv4Addr::new(127, 0, 0, 99);
const TURN: Duration = Duration::from_millis(20);
/// The relay stops when the process does.
static NEVER: AtomicBool = AtomicBool::new(false);

const BAD: Weather = Weather { delay: Duration::from_millis(1), loss: 0.03, repeat: 0.03, reorder: 0.05, damage: 0.02 };

type Outcome<T> = Result<T, String>;

/// The words of the command line, by name.
struct Words(HashMap<String, String>);

impl Words {
    fn from_command_line() -> Words {
        let split = |word: String| match word.split_once('=') {
            Some((name, value)) => (name.to_owned(), value.to_owned()),
            None => ("role".to_owned(), word),
        };
        Words(std::env::args().skip(1).map(split).collect())
    }

    fn text(&self, name: &str, usual: &'static str) -> &str {
        self.0.get(name).map_or(usual, String::as_str)
    }

    fn number(&self, name: &str, usual: u32) -> Outcome<u32> {
        match self.0.get(name) {
            Some(word) => word.parse().map_err(|_| format!("{}={} is no number", name, word)),
            None => Ok(usual),
        }
    }

    fn time(&self, name: &str, usual: u32) -> Outcome<Duration> {
        Ok(Duration::from_millis(u64::from(self.number(name, usual)?)))
    }
}

/// What message `i` of a direction is. tests/interop/peer.c has it too, in its own words.
#[derive(Clone, Copy, PartialEq)]
enum Plan {
    /// On one stream, in order, short.
    One,
    /// On eight streams, every fifth unordered, up to the longest.
    Spread,
    /// On one stream, in order, of one chunk each.
    Small,
    /// What libusrsctp's own tsctp sends: on stream 0, in order, 400 times the same byte.
    Tsctp,
}

impl Plan {
    fn stream(self, i: u32) -> u16 {
        match self {
            Plan::One | Plan::Small => 3,
            Plan::Tsctp => 0,
            Plan::Spread => (i % u32::from(STREAMS)) as u16,
        }
    }

    fn is_unordered(self, i: u32) -> bool {
        self == Plan::Spread && i % 5 == 4
    }

    fn length(self, i: u32) -> usize {
        let length = match self {
            Plan::One if i % 997 == 5 => 513 + i.wrapping_mul(7919) % 3000,
            Plan::One => 1 + i.wrapping_mul(31) % 120,
            Plan::Spread if i % 100 == 50 => 65_536,
            Plan::Spread => 1 + i.wrapping_mul(7919) % 2000,
            Plan::Small => 1 + i.wrapping_mul(31) % 512,
            Plan::Tsctp => 400,
        };
        length as usize
    }

    fn message(self, direction: u32, i: u32) -> Vec<u8> {
        if self == Plan::Tsctp {
            return vec![b'b'; self.length(i)];
        }
        let word = i.wrapping_mul(2_654_435_761).wrapping_add(direction.wrapping_mul(2_654_435_769));
        let byte = |at: usize| (word >> (8 * (at & 3))) as u8 ^ (at * 31) as u8;
        (0..self.length(i)).map(byte).collect()
    }
}

/// The messages that came, held against the plan.
struct Ledger {
    plan: Plan,
    came: Vec<bool>,
    count: u32,
    bytes: u64,
    ordered: [u32; STREAMS as usize],
    latest: [u32; STREAMS as usize],
    circles: u32,
}

impl Ledger {
    fn new(plan: Plan, planned: u32) -> Ledger {
        Ledger {
            plan,
            came: vec![false; planned as usize],
            count: 0,
            bytes: 0,
            ordered: [0; STREAMS as usize],
            latest: [0; STREAMS as usize],
            circles: 0,
        }
    }

    fn is_full(&self) -> bool {
        self.count as usize == self.came.len()
    }

    fn enter(&mut self, taken: Taken, message: &[u8]) -> Outcome<()> {
        let i = match self.plan {
            // It numbers nothing, so the order alone tells.
            Plan::Tsctp => self.count,
            _ => taken.ppid.wrapping_sub(NUMBERED),
        };
        match self.came.get_mut(i as usize) {
            Some(came) if !*came => *came = true,
            _ => return Err(format!("message {} came, which was never sent or came before", i)),
        }
        if taken.stream != self.plan.stream(i) || taken.unordered != self.plan.is_unordered(i) {
            return Err(format!("message {} came as {:?}", i, taken));
        }
        if message != self.plan.message(THEIRS, i) {
            return Err(format!("message {} differs ({} bytes came)", i, message.len()));
        }
        self.count += 1;
        self.bytes += message.len() as u64;
        if taken.unordered {
            return Ok(());
        }
        let stream = usize::from(taken.stream);
        let before = self.ordered[stream];
        if taken.ssn != before as u16 || before > 0 && i <= self.latest[stream] {
            return Err(format!("message {} has SSN {} where {} was due", i, taken.ssn, before as u16));
        }
        self.circles += u32::from(before > 0 && taken.ssn == 0);
        self.ordered[stream] = before + 1;
        self.latest[stream] = i;
        Ok(())
    }
}

#[derive(Clone, Copy, PartialEq)]
enum End {
    WeShutDown,
    WeAbort,
    PeerShutsDown,
    PeerAborts,
    /// It goes no further than to this number.
    Refused(Refusal),
    /// When so many messages have come each way, and without a word.
    WeVanish(u32),
}

struct Side {
    line: Line<Proved>,
    plan: Plan,
    first: String,
    end: End,
    to_send: u32,
    handed_in: u32,
    waiting: Option<Vec<u8>>,
    ledger: Ledger,
    is_up: bool,
    down: Option<Why>,
    idle: Duration,
    done_since: Option<Instant>,
    is_ending: bool,
    /// So often the peer is still to begin anew.
    restarts: u32,
}

impl Side {
    fn turn(&mut self) -> Outcome<()> {
        self.line.turn(TURN).map_err(|e| format!("the socket: {}", e))?;
        while let Some(event) = self.line.endpoint.event() {
            match event {
                Event::Up => self.is_up = true,
                Event::Down(why) => self.down = Some(why),
                Event::Restarted(lost) => self.begin_anew(lost)?,
                Event::Quiet(_) | Event::Heard => {}
            }
        }
        // What is there behind a restart is of the new life.
        self.take()?;
        if self.is_up && self.down.is_none() {
            self.hand_in()?;
            self.conclude()?;
        }
        Ok(())
    }

    /// The peer has lost all: every message goes again, both ways.
    fn begin_anew(&mut self, lost: usize) -> Outcome<()> {
        self.restarts = self.restarts.checked_sub(1).ok_or("the peer began anew")?;
        println!("ours: restarted after {} messages, each once and in order; {} were not taken", self.ledger.count, lost);
        self.ledger = Ledger::new(self.plan, self.ledger.came.len() as u32);
        self.handed_in = 0;
        self.waiting = None;
        Ok(())
    }

    fn take(&mut self) -> Outcome<()> {
        while let Some((taken, message)) = self.line.endpoint.take() {
            self.ledger.enter(taken, message)?;
        }
        Ok(())
    }

    fn hand_in(&mut self) -> Outcome<()> {
        if self.first == "peer" && !self.ledger.is_full() {
            return Ok(());
        }
        while self.handed_in < self.to_send {
            let i = self.handed_in;
            let message = self.waiting.take().unwrap_or_else(|| self.plan.message(OURS, i));
            let (stream, unordered) = (self.plan.stream(i), self.plan.is_unordered(i));
            match self.line.endpoint.hand_in(&message, stream, unordered, NUMBERED + i) {
                Ok(()) => self.handed_in += 1,
                Err(Refusal::FULL) => {
                    self.waiting = Some(message);
                    return Ok(());
                }
                Err(refusal) => return Err(format!("message {} of ours: {}", i, refusal)),
            }
        }
        Ok(())
    }

    /// Ends the association when all went both ways and the silence after it has passed.
    fn conclude(&mut self) -> Outcome<()> {
        if self.is_ending || self.handed_in < self.to_send || !self.ledger.is_full() {
            return Ok(());
        }
        let now = Instant::now();
        let since = *self.done_since.get_or_insert(now);
        if now < since + self.idle {
            return Ok(());
        }
        self.is_ending = true;
        let answer = match self.end {
            End::WeShutDown => self.line.endpoint.shutdown(now),
            End::WeAbort => self.line.endpoint.abort(Cause::User, now),
            _ => Ok(()),
        };
        answer.map_err(|refusal| format!("the end: {}", refusal))
    }

    fn is_over(&self) -> bool {
        match self.end {
            End::Refused(number) => self.line.endpoint.counts().refusals().any(|(refusal, _)| refusal == number),
            // What is handed in and has no place left beside it was acknowledged.
            End::WeVanish(count) => self.down.is_some() || self.ledger.count >= count && self.handed_in >= count + PLACES as u32,
            _ => self.down.is_some(),
        }
    }

    /// Whether it ended as planned.
    fn verdict(&self) -> Outcome<()> {
        let planned = match self.end {
            End::WeShutDown | End::PeerShutsDown => Some(Why::ShutDown),
            End::WeAbort => Some(Why::WeAborted(Cause::User)),
            End::PeerAborts => Some(Why::PeerAborted),
            End::Refused(_) | End::WeVanish(_) => None,
        };
        if self.down != planned {
            return Err(match self.down {
                Some(why) => format!("it ended otherwise: {}", why),
                None => "it did not end".to_owned(),
            });
        }
        if planned.is_some() && (!self.ledger.is_full() || self.handed_in < self.to_send) {
            return Err("it ended too early".to_owned());
        }
        if self.restarts > 0 {
            return Err("the peer did not begin anew".to_owned());
        }
        Ok(())
    }

    fn report(&self) {
        let counts = self.line.endpoint.counts();
        println!(
            "ours: {}, {} handed in, {} compared, {} bytes, {} SSN circles closed, {} packets sent, {} resent, {} expiries",
            if self.is_up { "up" } else { "never up" },
            counts.messages_in,
            self.ledger.count,
            self.ledger.bytes,
            self.ledger.circles,
            counts.packets_sent,
            counts.resent,
            counts.expiries
        );
        for (refusal, count) in counts.refusals() {
            println!("ours: {} times {}", count, refusal);
        }
    }
}

fn plan_of(word: &str) -> Outcome<Plan> {
    match word {
        "one" => Ok(Plan::One),
        "spread" => Ok(Plan::Spread),
        "small" => Ok(Plan::Small),
        "tsctp" => Ok(Plan::Tsctp),
        _ => Err(format!("plan={} is no plan", word)),
    }
}

fn end_of(word: &str) -> Outcome<End> {
    match word.split_once(':') {
        Some(("refused", number)) => number.parse().map(|number| End::Refused(Refusal(number))).map_err(|_| format!("{} is no number", number)),
        Some(("vanish", number)) => number.parse().map(End::WeVanish).map_err(|_| format!("{} is no number", number)),
        _ => match word {
            "shutdown" => Ok(End::WeShutDown),
            "abort" => Ok(End::WeAbort),
            "peer-shutdown" => Ok(End::PeerShutsDown),
            "peer-abort" => Ok(End::PeerAborts),
            _ => Err(format!("end={} is no end", word)),
        },
    }
}

fn loopback(port: u32) -> SocketAddr {
    SocketAddr::from((Ipv4Addr::LOCALHOST, port as u16))
}

/// Where to send to: the peer, or the near side of bad weather on the way there.
fn way(weather: &str, here: SocketAddr, there: SocketAddr) -> Outcome<SocketAddr> {
    if weather != "bad" {
        return Ok(there);
    }
    let failed = |e| format!("the relay: {}", e);
    let relay = Arc::new(Relay::between(here, there, Ipv4Addr::LOCALHOST.into()).map_err(failed)?);
    let near = relay.first_side().map_err(failed)?;
    let back = relay.clone();
    thread::spawn(move || relay.carry_forth(Channel::new(BAD, 1), &NEVER));
    thread::spawn(move || back.carry_back(Channel::new(BAD, 2), &NEVER));
    Ok(near)
}

fn capture(path: &str) -> Outcome<Capture> {
    let pcap = Pcap::create(Path::new(path)).map_err(|e| format!("cannot write {}: {}", path, e))?;
    Ok(Arc::new(Mutex::new(pcap)))
}

fn run(words: &Words) -> Outcome<()> {
    let plan = plan_of(words.text("plan", "spread"))?;
    let end = end_of(words.text("end", "shutdown"))?;
    let socket = UdpSocket::bind(loopback(words.number("here", 29_899)?)).map_err(|e| format!("cannot bind: {}", e))?;
    let here = socket.local_addr().map_err(|e| format!("no address: {}", e))?;
    let tap = match words.text("pcap", "") {
        "" => None,
        path => Some(Tap::new(capture(path)?, SocketAddr::from((SHOWN, here.port()))).writes_received()),
    };
    let random = Random::from_system().map_err(|e| format!("no random numbers: {}", e))?;
    let first_tsn = words.number("tsn", 0)?;
    let config = Config {
        streams: STREAMS,
        first_tsn: (first_tsn != 0).then_some(first_tsn),
        heartbeat: words.time("heartbeat", 30_000)?,
        ..Config::at_port(words.number("port", 5001)? as u16)
    };
    let began = Instant::now();
    let mut side = Side {
        line: Line::new(Endpoint::new(config, random, began), socket, tap),
        plan,
        first: words.text("first", "both").to_owned(),
        end,
        to_send: words.number("send", 0)?,
        handed_in: 0,
        waiting: None,
        ledger: Ledger::new(plan, words.number("take", 0)?),
        is_up: false,
        down: None,
        idle: words.time("idle", 0)?,
        done_since: None,
        is_ending: false,
        restarts: words.number("restarts", 0)?,
    };
    if words.text("role", "") == "connect" {
        let to = way(words.text("weather", "fair"), here, loopback(words.number("there", 19_899)?))?;
        let port = words.number("to", 5002)? as u16;
        let answer = side.line.endpoint.associate(to, port, Instant::now());
        answer.map_err(|refusal| format!("cannot ask: {}", refusal))?;
    } else {
        println!("ours: listening");
    }
    let seconds = words.number("seconds", 60)?;
    let ended = drive(&mut side, began + Duration::from_secs(u64::from(seconds)), words.time("linger", 300)?);
    side.report();
    ended?;
    side.verdict()
}

fn drive(side: &mut Side, deadline: Instant, linger: Duration) -> Outcome<()> {
    while !side.is_over() {
        if Instant::now() > deadline {
            return Err(format!("not over in time, {:?}", side.line.endpoint.standing()));
        }
        side.turn()?;
    }
    // A peer that did not get the last word asks again.
    let until = Instant::now() + linger;
    while Instant::now() < until {
        side.turn()?;
    }
    Ok(())
}

fn main() -> ExitCode {
    match run(&Words::from_command_line()) {
        Ok(()) => {
            println!("ours: ended as planned");
            ExitCode::SUCCESS
        }
        Err(fault) => {
            eprintln!("ours: {}", fault);
            ExitCode::FAILURE
        }
    }
}
