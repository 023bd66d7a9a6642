//! A head over its line: hands in tiles, notes which the field computer keeps, and when the line is lost asks again and sends those that it does not keep.

use crate::parcel::{names_in, Parcel, RECEIPT, TILE};
use crate::report::shown;
use crate::source::{Source, Tile};
use crate::stop::{Heeded, Stop, Wish};
use crate::Failure;
use oilwhisper::calls::{Cause, Refusal, State};
use oilwhisper::endpoint::{Event, Why};
use oilwhisper::library::Library;
use oilwhisper::udp::Line;
use std::collections::{BTreeMap, HashMap, VecDeque};
use std::io::ErrorKind;
use std::net::SocketAddr;
use std::time::{Duration, Instant};

/// A field computer that has not answered is asked anew after so long: its next answer should not wait for an RTO that has doubled to a minute.
const ASK_ANEW: Duration = Duration::from_secs(8);
/// With a line that has been silent for so long another association is asked for, which takes the place of this one.
const LOST: Duration = Duration::from_secs(20);
/// How long it waits before it asks again, twice as long each time up to the second number.
const PAUSE: [Duration; 2] = [Duration::from_millis(500), Duration::from_secs(8)];
/// How long receipts are waited for when the end was asked for.
const LAST_RECEIPTS: Duration = Duration::from_secs(3);

#[derive(Clone, Copy, Debug, PartialEq, Eq)]
pub enum Stage {
    Opening,
    Open,
    Closing,
    /// The line is lost, and is asked for again at this moment.
    Pausing(Instant),
    Closed,
}

/// Whom a head asks, and how.
#[derive(Clone, Debug)]
pub struct Asking {
    pub field: SocketAddr,
    pub port: u16,
    pub name: String,
    /// So often it asks again when the line is lost; without a number as long as it runs.
    pub tries: Option<u64>,
}

/// Tiles that were handed in and have no receipt, in that order.
#[derive(Debug, Default)]
struct Awaited {
    next: u64,
    by_turn: BTreeMap<u64, Tile>,
    turns: HashMap<Tile, u64>,
}

impl Awaited {
    fn add(&mut self, tile: Tile) {
        self.turns.insert(tile.clone(), self.next);
        self.by_turn.insert(self.next, tile);
        self.next += 1;
    }

    fn remove(&mut self, tile: &Tile) -> Option<Tile> {
        self.turns.remove(tile).and_then(|turn| self.by_turn.remove(&turn))
    }

    fn drain(&mut self) -> impl Iterator<Item = Tile> {
        self.turns.clear();
        std::mem::take(&mut self.by_turn).into_values()
    }
}

pub struct Sender<L> {
    pub line: Line<L>,
    asking: Asking,
    source: Source,
    /// To be sent before the source is asked for more.
    again: VecDeque<Tile>,
    /// Refused for want of room.
    waiting: Option<(Tile, Vec<u8>)>,
    awaited: Awaited,
    stage: Stage,
    /// Of the present asking: since when, and how many packets had come before.
    since: Instant,
    received: u64,
    first_tsn: u32,
    is_source_empty: bool,
    kept: u64,
    losses: u64,
    tries_left: Option<u64>,
    pause: Duration,
    why: Option<Why>,
    is_quiet: bool,
    stop: Heeded,
    stopped_at: Option<Instant>,
    news: Vec<String>,
}

impl<L: Library> Sender<L> {
    pub fn start(line: Line<L>, asking: Asking, source: Source, stop: &Stop) -> Result<Sender<L>, Failure> {
        let mut sender = Sender {
            line,
            source,
            again: VecDeque::new(),
            waiting: None,
            awaited: Awaited::default(),
            stage: Stage::Opening,
            since: Instant::now(),
            received: 0,
            first_tsn: 0,
            is_source_empty: false,
            kept: 0,
            losses: 0,
            tries_left: asking.tries,
            pause: PAUSE[0],
            why: None,
            is_quiet: false,
            stop: Heeded::of(stop),
            stopped_at: None,
            news: Vec::new(),
            asking,
        };
        sender.ask(Instant::now())?;
        Ok(sender)
    }

    pub fn stage(&self) -> Stage {
        self.stage
    }

    pub fn total(&self) -> u64 {
        self.source.total()
    }

    /// How many tiles the field computer has said to keep.
    pub fn kept(&self) -> u64 {
        self.kept
    }

    /// How often the line was lost.
    pub fn losses(&self) -> u64 {
        self.losses
    }

    /// Whether it ended because that was asked for, and not of itself.
    pub fn was_stopped(&self) -> bool {
        self.stop.is_asked() && !self.has_sent_all()
    }

    /// Whether the end was asked for twice, or took too long.
    pub fn has_aborted(&self) -> bool {
        matches!(self.why, Some(Why::WeAborted(_)))
    }

    /// How long nothing has come.
    pub fn silence(&self) -> Duration {
        self.line.endpoint.silence(Instant::now())
    }

    /// Whether the field computer owes an answer for too long.
    pub fn is_quiet(&self) -> bool {
        self.is_quiet
    }

    /// Whether the peer has acknowledged a TSN past the end of the circle.
    pub fn has_closed_tsn_circle(&self) -> bool {
        let acked = self.line.endpoint.standing().acked;
        // Before anything is acknowledged it stands just below the first.
        acked < self.first_tsn && acked.wrapping_add(1) != self.first_tsn
    }

    /// What is to be told at once.
    pub fn news(&mut self) -> Vec<String> {
        std::mem::take(&mut self.news)
    }

    /// Why there is no association yet, as far as this end can tell.
    pub fn hindrance(&self) -> String {
        let field = shown(self.asking.field);
        if let Some(trouble) = self.line.trouble() {
            return match trouble.kind() {
                ErrorKind::ConnectionRefused => format!("nobody listens at {} (port unreachable)", field),
                _ => format!("nothing can be sent to {}: {}", field, trouble),
            };
        }
        let counts = self.line.endpoint.counts();
        let refusals: Vec<String> = counts.refusals().map(|(refusal, _)| refusal.to_string()).collect();
        match (counts.packets_received - self.received, refusals.is_empty()) {
            (0, _) => format!("no answer from {} yet", field),
            (_, true) => format!("{} has answered, and is not through yet", field),
            (_, false) => format!("{} answers, and its answer is refused: {}", field, refusals.join(", ")),
        }
    }

    /// One turn of the line, which waits for a packet no longer than this.
    pub fn turn(&mut self, longest: Duration) -> Result<(), Failure> {
        self.line.turn(longest).map_err(Failure::of_network)?;
        let now = Instant::now();
        self.note_events(now)?;
        self.note_receipts();
        if self.stage == Stage::Open && self.line.endpoint.standing().state != State::Established {
            self.stage = Stage::Closing;
        }
        match self.stop.wish(now) {
            Wish::GoOn => self.go_on(now),
            wish => {
                self.wind_up(wish, now);
                Ok(())
            }
        }
    }

    fn go_on(&mut self, now: Instant) -> Result<(), Failure> {
        match self.stage {
            Stage::Open => {
                self.hand_in()?;
                if self.has_sent_all() {
                    // Refused only where the field computer shuts down already.
                    let _ = self.line.endpoint.shutdown(now);
                    self.stage = Stage::Closing;
                } else if self.is_quiet && self.silence() >= LOST {
                    self.give_up(now);
                }
            }
            Stage::Opening if now.saturating_duration_since(self.since) >= ASK_ANEW && self.tries_left != Some(0) => self.give_up(now),
            Stage::Pausing(until) if until <= now => self.ask(now)?,
            _ => {}
        }
        Ok(())
    }

    /// Ends an association that leads to nobody; the event that this makes has it asked for again.
    fn give_up(&mut self, now: Instant) {
        // Refused only where it is over already.
        let _ = self.line.endpoint.abort(Cause::User, now);
    }

    /// What is to be done for one who wants the end: nothing is left open without the other end knowing.
    fn wind_up(&mut self, wish: Wish, now: Instant) {
        let since = now.saturating_duration_since(*self.stopped_at.get_or_insert(now));
        let state = self.line.endpoint.standing().state;
        let may_wait = since < LAST_RECEIPTS && !self.awaited.by_turn.is_empty();
        // Refused only where the association is closed, and then there is nobody to tell.
        let _ = match wish {
            _ if state == State::Closed => {
                self.stage = Stage::Closed;
                return;
            }
            // A peer that has not answered yet has nothing to shut down.
            Wish::ShutDown if state.is_opening() => self.line.endpoint.abort(Cause::User, now),
            Wish::ShutDown if state == State::Established && !may_wait => self.line.endpoint.shutdown(now),
            Wish::ShutDown | Wish::GoOn => return,
            Wish::Abort => self.line.endpoint.abort(Cause::User, now),
        };
    }

    fn ask(&mut self, now: Instant) -> Result<(), Failure> {
        let Asking { field, port, .. } = self.asking;
        let refused = |refusal| Failure(format!("cannot ask {} for an association: {}", shown(field), refusal));
        self.line.endpoint.associate(field, port, now).map_err(refused)?;
        self.first_tsn = self.line.endpoint.standing().next_tsn;
        self.stage = Stage::Opening;
        self.since = now;
        self.received = self.line.endpoint.counts().packets_received;
        self.is_quiet = false;
        Ok(())
    }

    fn note_events(&mut self, now: Instant) -> Result<(), Failure> {
        while let Some(event) = self.line.endpoint.event() {
            match event {
                Event::Up => {
                    if self.losses > 0 {
                        self.news.push(format!("the field computer is back; {} tiles without a receipt are sent again", self.again.len()));
                    }
                    self.stage = Stage::Open;
                    self.pause = PAUSE[0];
                }
                Event::Down(why) => self.note_end(why, now)?,
                // What it had and did not keep is gone with its old life.
                Event::Restarted(_) => {
                    self.losses += 1;
                    self.send_again();
                    self.news.push(format!("the field computer has begun anew; {} tiles without a receipt are sent again", self.again.len()));
                    self.stage = Stage::Open;
                }
                Event::Quiet(_) | Event::Heard => self.is_quiet = event != Event::Heard,
            }
        }
        Ok(())
    }

    /// The association is over: for good, or until it was asked for again.
    fn note_end(&mut self, why: Why, now: Instant) -> Result<(), Failure> {
        self.note_receipts();
        let was_open = matches!(self.stage, Stage::Open | Stage::Closing);
        if self.stop.is_asked() || why == Why::ShutDown && self.has_sent_all() {
            self.why = Some(why);
            self.stage = Stage::Closed;
            return Ok(());
        }
        if self.tries_left == Some(0) {
            return Err(Failure(match why {
                Why::ShutDown => "the field computer shut down before it had all tiles".to_string(),
                _ if !was_open => format!("no association came up: {}", self.hindrance()),
                why => format!("the head's association is closed: {}", why),
            }));
        }
        self.tries_left = self.tries_left.map(|left| left - 1);
        if was_open {
            self.losses += 1;
            self.news.push(format!("the line is lost ({}), asking again", why));
        }
        self.send_again();
        self.stage = Stage::Pausing(now + self.pause);
        self.pause = (self.pause * 2).min(PAUSE[1]);
        Ok(())
    }

    /// What has no receipt is to be sent again, in its order.
    fn send_again(&mut self) {
        let mut again: VecDeque<Tile> = self.awaited.drain().collect();
        again.extend(self.waiting.take().map(|(tile, _)| tile));
        again.append(&mut self.again);
        self.again = again;
    }

    fn note_receipts(&mut self) {
        let mut kept = Vec::new();
        while let Some((taken, message)) = self.line.endpoint.take() {
            if taken.ppid == RECEIPT {
                let tiles = names_in(message).map(|name| Tile { band: taken.stream, name: name.to_string() });
                kept.extend(tiles.filter_map(|tile| self.awaited.remove(&tile)));
            }
        }
        if kept.is_empty() {
            return;
        }
        self.kept += kept.len() as u64;
        if let Err(e) = self.source.are_kept(kept) {
            self.news.push(format!("the journal cannot be written ({}): after a restart tiles are sent again", e));
        }
    }

    fn has_sent_all(&self) -> bool {
        self.is_source_empty && self.again.is_empty() && self.waiting.is_none() && self.awaited.by_turn.is_empty()
    }

    /// Hands in tiles until there is no room, or no tile.
    fn hand_in(&mut self) -> Result<(), Failure> {
        loop {
            let (tile, message) = match self.waiting.take() {
                Some(waiting) => waiting,
                None => match self.again.pop_front().or_else(|| self.source.next_tile()) {
                    Some(tile) => {
                        let content = self.source.content(&tile)?;
                        let message = Parcel { head: &self.asking.name, name: &tile.name, content: &content }.written();
                        (tile, message)
                    }
                    None => {
                        self.is_source_empty = true;
                        return Ok(());
                    }
                },
            };
            match self.line.endpoint.hand_in(&message, tile.band, false, TILE) {
                Ok(()) => self.awaited.add(tile),
                // The association may have begun to end: then the tile goes with the next.
                Err(Refusal::FULL | Refusal::STATE) => {
                    self.waiting = Some((tile, message));
                    return Ok(());
                }
                Err(refusal) => return Err(Failure(format!("a tile of band {} was refused: {}", tile.band, refusal))),
            }
        }
    }
}
