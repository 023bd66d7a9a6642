//! The field computer over its socket: takes the tiles of many heads in turns, compares or keeps each, and sends a receipt when it is kept for certain.

use crate::parcel::{receipt, Parcel, RECEIPT, TILE};
use crate::report::{plural, shown};
use crate::stop::{Heeded, Stop, Wish};
use crate::store::{Kept, Store};
use crate::tiles::{Album, BANDS};
use crate::Failure;
use oilwhisper::calls::{Cause, State, Taken};
use oilwhisper::event::Why;
use oilwhisper::hub::{Event, HeadId};
use oilwhisper::library::Library;
use oilwhisper::udp::Station;
use std::collections::{BTreeMap, VecDeque};
use std::io;
use std::net::SocketAddr;
use std::time::{Duration, Instant};

/// So many tiles are taken before packets are looked for again.
const BATCH: usize = 64;
/// A receipt waits for others so long, or until there are so many.
const RECEIPT_AFTER: Duration = Duration::from_millis(50);
const RECEIPT_OF: usize = 64;
/// So many faults are told, and so many names are known; whoever makes more fills no memory.
const FAULTS_TOLD: usize = 100;
const NAMES_MOST: usize = 4096;
/// What cannot be kept is tried again after so long.
const TRY_AGAIN: Duration = Duration::from_secs(1);

/// What happens to a tile.
pub enum Sink {
    /// It is compared with the one that is made for trying: an album for each head.
    Compare(BTreeMap<String, Album>),
    Keep(Store),
}

/// One association with a head.
#[derive(Clone, Debug)]
pub struct Visit {
    pub peer: SocketAddr,
    /// As its tiles say.
    pub name: Option<String>,
    pub began: Instant,
    pub tiles: u64,
    pub bands: [u64; BANDS as usize],
    pub is_quiet: bool,
    why: Option<Why>,
    receipts: [Vec<String>; BANDS as usize],
    receipts_since: Option<Instant>,
}

impl Visit {
    fn new(peer: SocketAddr, now: Instant) -> Visit {
        Visit {
            peer,
            name: None,
            began: now,
            tiles: 0,
            bands: [0; BANDS as usize],
            is_quiet: false,
            why: None,
            receipts: Default::default(),
            receipts_since: None,
        }
    }

    /// Whether the association is over.
    pub fn has_ended(&self) -> bool {
        self.why.is_some()
    }

    /// The head by its name, where that is known, and its address.
    pub fn who(&self) -> String {
        match &self.name {
            Some(name) => format!("{} at {}", name, shown(self.peer)),
            None => shown(self.peer).to_string(),
        }
    }
}

/// What came of one head, over all its associations.
#[derive(Clone, Debug)]
pub struct Known {
    /// Where it was last.
    pub peer: SocketAddr,
    /// Its tiles of each band, those that came again left out.
    pub bands: [u64; BANDS as usize],
}

impl Known {
    fn new(peer: SocketAddr) -> Known {
        Known { peer, bands: [0; BANDS as usize] }
    }
}

/// What came of all heads.
#[derive(Clone, Debug, Default)]
pub struct Sum {
    /// Associations that have ended.
    pub visits: u64,
    pub tiles: u64,
    /// Tiles that had come before.
    pub again: u64,
    pub bytes: u64,
    /// The first of them.
    pub faults: Vec<String>,
    pub all_faults: u64,
}

impl Sum {
    fn fault(&mut self, fault: String) {
        self.all_faults += 1;
        if self.faults.len() < FAULTS_TOLD {
            self.faults.push(fault);
        }
    }
}

/// A tile that was taken and could not be kept yet.
struct Stuck {
    id: HeadId,
    taken: Taken,
    message: Vec<u8>,
}

pub struct Field<L> {
    pub station: Station<L>,
    sink: Sink,
    visits: BTreeMap<HeadId, Visit>,
    readable: VecDeque<HeadId>,
    stuck: Option<Stuck>,
    /// Kept, but not for certain before the store is sealed.
    unsealed: Vec<(HeadId, u16, String)>,
    try_again: Option<Instant>,
    sum: Sum,
    known: BTreeMap<String, Known>,
    stop: Heeded,
    news: Vec<String>,
}

impl<L: Library> Field<L> {
    pub fn new(station: Station<L>, sink: Sink, stop: &Stop) -> Field<L> {
        Field {
            station,
            sink,
            visits: BTreeMap::new(),
            readable: VecDeque::new(),
            stuck: None,
            unsealed: Vec::new(),
            try_again: None,
            sum: Sum::default(),
            known: BTreeMap::new(),
            stop: Heeded::of(stop),
            news: Vec::new(),
        }
    }

    pub fn sum(&self) -> &Sum {
        &self.sum
    }

    /// How many heads came, by their names.
    pub fn heads(&self) -> u64 {
        self.known.len() as u64
    }

    /// What came of each head, by its name.
    pub fn known(&self) -> &BTreeMap<String, Known> {
        &self.known
    }

    pub fn visits(&self) -> &BTreeMap<HeadId, Visit> {
        &self.visits
    }

    /// The albums of all heads, where tiles are compared.
    pub fn albums(&self) -> impl Iterator<Item = (&String, &Album)> {
        match &self.sink {
            Sink::Compare(albums) => Some(albums.iter()),
            Sink::Keep(_) => None,
        }
        .into_iter()
        .flatten()
    }

    /// Whether nothing can be kept at the moment, so that nothing is taken.
    pub fn is_stuck(&self) -> bool {
        self.try_again.is_some()
    }

    pub fn is_asked_to_stop(&self) -> bool {
        self.stop.is_asked()
    }

    /// What is to be told at once.
    pub fn news(&mut self) -> Vec<String> {
        std::mem::take(&mut self.news)
    }

    /// One turn of the station, which waits for a packet no longer than this.
    pub fn turn(&mut self, longest: Duration) -> Result<(), Failure> {
        let longest = if self.readable.is_empty() || self.is_stuck() { longest } else { Duration::ZERO };
        self.station.turn(longest).map_err(Failure::of_network)?;
        let now = Instant::now();
        self.note_events(now);
        self.take_tiles(now);
        self.send_receipts(now);
        self.end_visits();
        self.wind_up(now);
        Ok(())
    }

    fn note_events(&mut self, now: Instant) {
        while let Some((id, event)) = self.station.hub.event() {
            if let Event::Up { peer, .. } = event {
                self.news.push(format!("field: {} is there", shown(peer)));
                self.visits.insert(id, Visit::new(peer, now));
                continue;
            }
            let visit = match self.visits.get_mut(&id) {
                Some(visit) => visit,
                None => continue,
            };
            match event {
                Event::Readable => self.readable.push_back(id),
                Event::Quiet(silence) => {
                    visit.is_quiet = true;
                    self.news.push(format!("  {} is silent, last heard {} s ago", visit.who(), silence.as_secs()));
                }
                Event::Heard => {
                    visit.is_quiet = false;
                    self.news.push(format!("  {} is heard again", visit.who()));
                }
                Event::Moved { to, .. } => {
                    self.news.push(format!("  {} is now at {}", visit.who(), shown(to)));
                    visit.peer = to;
                }
                Event::Down { why, .. } => visit.why = Some(why),
                Event::Restarted { .. } => self.news.push(format!("  {} has begun anew", visit.who())),
                Event::Up { .. } | Event::Writable | Event::Delivered(_) => {}
            }
        }
    }

    /// Takes from each head in turn, so that none waits for another.
    fn take_tiles(&mut self, now: Instant) {
        if self.try_again.map_or(false, |moment| now < moment) {
            return;
        }
        let kept = self.take_batch();
        let sealed = kept.and_then(|()| match &mut self.sink {
            Sink::Compare(_) => Ok(()),
            Sink::Keep(store) => store.seal(),
        });
        match sealed {
            Ok(()) => {
                if self.try_again.take().is_some() {
                    self.news.push("field: tiles can be kept again".to_string());
                }
                for (id, band, name) in self.unsealed.drain(..) {
                    if let Some(visit) = self.visits.get_mut(&id) {
                        visit.receipts_since.get_or_insert(now);
                        visit.receipts[usize::from(band)].push(name);
                    }
                }
            }
            Err(e) => {
                if self.try_again.is_none() {
                    self.news.push(format!("field: a tile cannot be kept ({}); nothing is taken until it can, and nothing is lost", e));
                }
                self.try_again = Some(now + TRY_AGAIN);
            }
        }
    }

    fn take_batch(&mut self) -> io::Result<()> {
        if let Some(stuck) = self.stuck.take() {
            self.take_in(stuck)?;
        }
        for _ in 0..BATCH {
            let id = match self.readable.pop_front() {
                Some(id) => id,
                None => return Ok(()),
            };
            if let Some((taken, message)) = self.station.hub.take(id) {
                let message = message.to_vec();
                self.readable.push_back(id);
                self.take_in(Stuck { id, taken, message })?;
            }
        }
        Ok(())
    }

    /// Compares or keeps a message; where that fails it stays here, and nothing more is taken.
    fn take_in(&mut self, message: Stuck) -> io::Result<()> {
        let taken = self.handle(&message);
        if taken.is_err() {
            self.stuck = Some(message);
        }
        taken
    }

    fn handle(&mut self, message: &Stuck) -> io::Result<()> {
        let Stuck { id, taken, message } = message;
        let visit = match self.visits.get_mut(id) {
            Some(visit) => visit,
            None => return Ok(()),
        };
        let band = taken.stream;
        let parcel = match Parcel::read(message).filter(|_| taken.ppid == TILE && band < BANDS) {
            Some(parcel) => parcel,
            None => {
                self.sum.fault(format!("from {}: a message of {} bytes on stream {} is no tile", visit.who(), message.len(), band));
                return Ok(());
            }
        };
        let is_first = visit.name.is_none();
        if visit.name.as_ref().map_or(false, |name| name != parcel.head) {
            self.sum.fault(format!("from {}: a tile says to be of {}", visit.who(), parcel.head));
            return Ok(());
        }
        if self.known.len() >= NAMES_MOST && !self.known.contains_key(parcel.head) {
            self.sum.fault(format!("from {}: more than {} names of heads", visit.who(), NAMES_MOST));
            return Ok(());
        }
        let before = self.sum.again;
        match &mut self.sink {
            Sink::Compare(albums) => {
                let is_new = !albums.contains_key(parcel.head);
                let album = albums.entry(parcel.head.to_string()).or_default();
                if is_first && !is_new {
                    album.resume();
                }
                let (wraps, again, bytes) = (album.wrapped().len(), album.again(), album.bytes());
                if let Err(difference) = album.add(band, taken.ssn, parcel.content) {
                    self.sum.fault(format!("from {} at {}: {}", parcel.head, shown(visit.peer), difference));
                    return Ok(());
                }
                if album.wrapped().len() > wraps {
                    self.news.push(format!("  SSN 65,535 to 0 on band {} of {}", band, parcel.head));
                }
                self.sum.again += album.again() - again;
                self.sum.tiles += 1 - (album.again() - again);
                self.sum.bytes += album.bytes() - bytes;
            }
            Sink::Keep(store) => match store.put(band, &parcel)? {
                Kept::Again => self.sum.again += 1,
                kept => {
                    self.sum.tiles += 1;
                    self.sum.bytes += parcel.content.len() as u64;
                    if let Kept::Beside(name) = kept {
                        let fault = format!("{} has sent another tile {} of band {}: it is kept as {}", parcel.head, parcel.name, band, name);
                        self.sum.fault(fault);
                    }
                }
            },
        }
        visit.tiles += 1;
        visit.bands[usize::from(band)] += 1;
        if is_first {
            visit.name = Some(parcel.head.to_string());
        }
        let known = self.known.entry(parcel.head.to_string()).or_insert_with(|| Known::new(visit.peer));
        known.peer = visit.peer;
        known.bands[usize::from(band)] += 1 - (self.sum.again - before);
        self.unsealed.push((*id, band, parcel.name.to_string()));
        Ok(())
    }

    fn send_receipts(&mut self, now: Instant) {
        for (id, visit) in &mut self.visits {
            let since = match visit.receipts_since {
                Some(since) if visit.why.is_none() => since,
                _ => continue,
            };
            let count: usize = visit.receipts.iter().map(Vec::len).sum();
            if count < RECEIPT_OF && now.saturating_duration_since(since) < RECEIPT_AFTER && !self.stop.is_asked() {
                continue;
            }
            for (band, names) in (0..BANDS).zip(&mut visit.receipts) {
                if !names.is_empty() && self.station.hub.hand_in(*id, &receipt(names.iter()), band, false, RECEIPT).is_ok() {
                    names.clear();
                }
            }
            if visit.receipts.iter().all(Vec::is_empty) {
                visit.receipts_since = None;
            }
        }
    }

    /// Tells of associations that are over and taken out.
    fn end_visits(&mut self) {
        let (readable, stuck) = (&self.readable, &self.stuck);
        // Who stops what cannot keep anything waits for nothing: the heads still have what got no receipt.
        let gives_up = self.stop.is_asked() && self.is_stuck();
        let is_through = |id: &HeadId| gives_up || !readable.contains(id) && stuck.as_ref().map_or(true, |stuck| stuck.id != *id);
        let ended: Vec<HeadId> = self.visits.iter().filter(|(id, visit)| visit.has_ended() && is_through(id)).map(|(id, _)| *id).collect();
        for id in ended {
            if let Some((visit, why)) = self.visits.remove(&id).and_then(|visit| visit.why.map(|why| (visit, why))) {
                self.sum.visits += 1;
                let how = if why == Why::ShutDown { "shut down".to_string() } else { format!("the association is closed: {}", why) };
                self.news.push(format!("field: {} from {}; {}", plural(visit.tiles, "tile", "tiles"), visit.who(), how));
            }
        }
    }

    /// What is to be done for one who wants the end: no head is left without knowing.
    fn wind_up(&mut self, now: Instant) {
        let wish = self.stop.wish(now);
        for (id, visit) in &self.visits {
            let hub = &mut self.station.hub;
            let state = hub.standing(*id).map_or(State::Closed, |standing| standing.state);
            // Refused only where the association is closed, and then there is nobody to tell.
            let _ = match wish {
                _ if visit.has_ended() => continue,
                Wish::ShutDown if state == State::Established && visit.receipts_since.is_none() => hub.shutdown(*id, now),
                Wish::GoOn | Wish::ShutDown => continue,
                Wish::Abort => hub.abort(*id, Cause::User, now),
            };
        }
        if wish != Wish::GoOn {
            self.station.hub.listen(false);
        }
    }
}
