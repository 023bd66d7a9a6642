//! What the operator sees: a line for each head, redrawn on a terminal, and one page with the tiles of each band.

use crate::report::{grouped, shown};
use crate::taker::{Field, Visit};
use crate::tiles::BANDS;
use oilwhisper::calls::{Refusal, Shelf};
use oilwhisper::hub::HeadId;
use oilwhisper::library::Library;
use std::collections::BTreeMap;
use std::fmt::Write as _;
use std::io::Write;
use std::time::{Duration, Instant};

/// So often a view is made anew.
pub const EVERY: Duration = Duration::from_millis(500);
/// The tiles of a band that a page shows: so many that were taken last, and so many in all.
const TAKEN_SHOWN: u64 = 40;
const SHOWN: u64 = 64;

/// Of one tile.
#[derive(Clone, Copy, Debug, PartialEq, Eq)]
pub enum Cell {
    NotYet,
    Taken,
    /// It has come, or a part of it, and waits for one before it.
    Held,
    /// One behind it has come.
    Missing,
}

/// What is known of one head.
#[derive(Clone, Debug)]
pub struct Row {
    pub who: String,
    pub address: String,
    pub state: &'static str,
    pub heard: Option<Duration>,
    pub tiles_a_second: u64,
    pub bands: [u64; BANDS as usize],
    /// Chunks that came more than once.
    pub twice: u64,
    pub now: String,
    pub grid: [Vec<Cell>; BANDS as usize],
}

/// Looks at a field computer now and then.
pub struct View {
    looked: Instant,
    tiles: BTreeMap<HeadId, u64>,
}

impl View {
    pub fn new(now: Instant) -> View {
        View { looked: now, tiles: BTreeMap::new() }
    }

    pub fn is_due(&self, now: Instant) -> bool {
        now.saturating_duration_since(self.looked) >= EVERY
    }

    /// A row for each head that is there or was.
    pub fn rows<L: Library>(&mut self, field: &Field<L>, now: Instant) -> Vec<Row> {
        let since = now.saturating_duration_since(self.looked);
        self.looked = now;
        let before = std::mem::take(&mut self.tiles);
        let mut rows = Vec::new();
        for (id, visit) in field.visits() {
            self.tiles.insert(*id, visit.tiles);
            let more = visit.tiles - before.get(id).copied().unwrap_or(0);
            rows.push(row(field, *id, visit, (more as f64 / since.as_secs_f64().max(0.001)) as u64, now));
        }
        let is_there = |name: &String| field.visits().values().any(|visit| visit.name.as_ref() == Some(name));
        for (name, known) in field.known().iter().filter(|(name, _)| !is_there(name)) {
            rows.push(Row {
                who: name.clone(),
                address: shown(known.peer).to_string(),
                state: "gone",
                heard: None,
                tiles_a_second: 0,
                bands: known.bands,
                twice: 0,
                now: String::new(),
                grid: known.bands.map(|taken| cells(taken, &[])),
            });
        }
        rows
    }
}

fn row<L: Library>(field: &Field<L>, id: HeadId, visit: &Visit, tiles_a_second: u64, now: Instant) -> Row {
    let hub = &field.station.hub;
    let shelf = hub.shelf(id).unwrap_or_default();
    let twice = hub.counts(id).and_then(|counts| counts.refusals().find(|(refusal, _)| *refusal == Refusal::DUPLICATE)).map_or(0, |(_, count)| count);
    let known = visit.name.as_ref().and_then(|name| field.known().get(name));
    let bands = known.map_or(visit.bands, |known| known.bands);
    let mut grid: [Vec<Cell>; BANDS as usize] = Default::default();
    for (band, cells_of_band) in (0..BANDS).zip(&mut grid) {
        let ahead: Vec<u16> = shelf.held.iter().filter(|(stream, _)| *stream == band).map(|(_, ahead)| *ahead).collect();
        *cells_of_band = cells(bands[usize::from(band)], &ahead);
    }
    Row {
        who: visit.name.clone().unwrap_or_else(|| "(no tile yet)".to_string()),
        address: shown(visit.peer).to_string(),
        state: match (visit.has_ended(), visit.is_quiet) {
            (true, _) => "ended",
            (false, true) => "QUIET",
            (false, false) => "up",
        },
        heard: hub.silence(id, now),
        tiles_a_second,
        bands,
        twice,
        now: hindrance(field.is_stuck(), visit.is_quiet, &shelf),
        grid,
    }
}

/// What a head's next tile waits for, as far as the record shows it.
fn hindrance(is_stuck: bool, is_quiet: bool, shelf: &Shelf) -> String {
    match shelf.missing {
        _ if is_stuck => "tiles cannot be kept".to_string(),
        _ if is_quiet => "no answer".to_string(),
        Some(tsn) => format!("waits for TSN {}", grouped(u64::from(tsn))),
        None => String::new(),
    }
}

/// A band of which so many tiles were taken and these, counted from there, have come.
fn cells(taken: u64, ahead: &[u16]) -> Vec<Cell> {
    let first = taken.saturating_sub(TAKEN_SHOWN);
    let last_come = ahead.iter().max().map(|ahead| taken + u64::from(*ahead));
    let cell = |tile: u64| match tile.checked_sub(taken) {
        None => Cell::Taken,
        Some(place) if ahead.iter().any(|ahead| u64::from(*ahead) == place) => Cell::Held,
        Some(_) if last_come.map_or(false, |last| tile < last) => Cell::Missing,
        Some(_) => Cell::NotYet,
    };
    (first..first + SHOWN).map(cell).collect()
}

/// A line for each head under a line of titles.
pub fn lines(rows: &[Row]) -> String {
    let mut text = format!("{:<16} {:<22} {:<6} {:>7} {:>8}", "HEAD", "AT", "STATE", "HEARD", "TILES/S");
    for band in 0..BANDS {
        let _ = write!(text, " {:>7}", format!("BAND {}", band));
    }
    text.push_str("   TWICE  NOW\n");
    for row in rows {
        let heard = row.heard.map_or("-".to_string(), |heard| format!("{:.1} s", heard.as_secs_f64()));
        let _ = write!(text, "{:<16} {:<22} {:<6} {:>7} {:>8}", row.who, row.address, row.state, heard, grouped(row.tiles_a_second));
        for tiles in row.bands {
            let _ = write!(text, " {:>7}", grouped(tiles));
        }
        let _ = writeln!(text, " {:>7}  {}", grouped(row.twice), row.now);
    }
    text
}

/// Lines one below the other, and under them a block that is drawn over and over. Elsewhere than on a terminal there is no block.
pub struct Screen<'a> {
    out: &'a mut dyn Write,
    is_terminal: bool,
    drawn: usize,
}

impl<'a> Screen<'a> {
    pub fn new(out: &'a mut dyn Write, is_terminal: bool) -> Screen<'a> {
        Screen { out, is_terminal, drawn: 0 }
    }

    pub fn is_terminal(&self) -> bool {
        self.is_terminal
    }

    // A closed standard output changes nothing: the exit status still tells.

    pub fn say(&mut self, line: &str) {
        self.clear();
        let _ = writeln!(self.out, "{}", line);
    }

    pub fn draw(&mut self, block: &str) {
        if !self.is_terminal {
            return;
        }
        self.clear();
        // Without wrapping at the right edge, so that each line stays one.
        let _ = write!(self.out, "\x1b[?7l{}\x1b[?7h", block);
        let _ = self.out.flush();
        self.drawn = block.lines().count();
    }

    /// Takes the block away.
    fn clear(&mut self) {
        if self.drawn > 0 {
            let _ = write!(self.out, "\x1b[{}A\x1b[J", self.drawn);
            self.drawn = 0;
        }
    }
}

const STYLE: &str = "body{font:14px/1.4 system-ui,sans-serif;margin:1.5em;background:#fff;color:#222}table{border-collapse:collapse}\
                     h2{font-size:1em;margin:1.5em 0 .3em}th{font-weight:normal;text-align:right;padding-right:.6em;color:#555}\
                     td{width:11px;height:14px;border:1px solid #fff;padding:0}.n{background:#ddd}.t{background:#2e9e4f}.h{background:#f0a202}.m{background:#d7263d}\
                     span{display:inline-block;width:11px;height:14px;margin:0 .3em 0 1em;vertical-align:middle}";

fn class(cell: Cell) -> (&'static str, &'static str) {
    match cell {
        Cell::NotYet => ("n", "not yet"),
        Cell::Taken => ("t", "taken"),
        Cell::Held => ("h", "held behind a gap"),
        Cell::Missing => ("m", "missing"),
    }
}

/// The page: a grid of bands by tiles for each head. It asks nobody for anything, and shows itself anew each second.
pub fn page(rows: &[Row]) -> String {
    let mut text = format!(
        "<!doctype html><html lang=en><meta charset=utf-8><meta http-equiv=refresh content=1><title>The rail's heads</title><style>{}</style>",
        STYLE
    );
    text.push_str("<h1>The rail's heads</h1><p>");
    for cell in [Cell::Taken, Cell::Held, Cell::Missing, Cell::NotYet] {
        let (class, name) = class(cell);
        let _ = write!(text, "<span class={}></span>{}", class, name);
    }
    text.push_str("</p>");
    if rows.is_empty() {
        text.push_str("<p>No head has come yet.</p>");
    }
    for row in rows {
        let heard = row.heard.map_or(String::new(), |heard| format!(", heard {:.1} s ago", heard.as_secs_f64()));
        let now = if row.now.is_empty() { String::new() } else { format!(": {}", row.now) };
        let _ = write!(
            text,
            "<h2>{} at {}: {}{}, {} tiles/s, {} chunks came twice{}</h2><table>",
            escaped(&row.who),
            escaped(&row.address),
            row.state,
            heard,
            grouped(row.tiles_a_second),
            grouped(row.twice),
            now
        );
        for (band, (tiles, cells)) in row.bands.iter().zip(&row.grid).enumerate() {
            let first = tiles.saturating_sub(TAKEN_SHOWN);
            let _ = write!(text, "<tr><th>band {}: {}</th>", band, grouped(*tiles));
            for (tile, cell) in (first..).zip(cells) {
                let (class, name) = class(*cell);
                let _ = write!(text, "<td class={} title=\"tile {}: {}\">", class, grouped(tile), name);
            }
            text.push_str("</tr>");
        }
        text.push_str("</table>");
    }
    text.push_str("</html>\n");
    text
}

fn escaped(text: &str) -> String {
    text.replace('&', "&amp;").replace('<', "&lt;").replace('>', "&gt;").replace('"', "&quot;")
}

#[cfg(test)]
mod tests {
    use super::*;

    fn a_row() -> Row {
        let mut grid: [Vec<Cell>; BANDS as usize] = Default::default();
        for cells_of_band in &mut grid {
            *cells_of_band = cells(2, &[1, 1, 3]);
        }
        Row {
            who: "north".to_string(),
            address: "192.0.2.7:9899".to_string(),
            state: "up",
            heard: Some(Duration::from_millis(120)),
            tiles_a_second: 1214,
            bands: [2; BANDS as usize],
            twice: 4,
            now: "waits for TSN 4,294,967,295".to_string(),
            grid,
        }
    }

    #[test]
    fn a_tile_is_taken_held_missing_or_not_there_yet() {
        use Cell::{Held, Missing, NotYet, Taken};
        assert_eq!(cells(2, &[1, 1, 3])[..7], [Taken, Taken, Missing, Held, Missing, Held, NotYet]);
        assert_eq!(cells(0, &[])[..2], [NotYet, NotYet]);
        // A part of the next tile has come.
        assert_eq!(cells(1, &[0])[..3], [Taken, Held, NotYet]);
        let many = cells(1000, &[1]);
        assert_eq!((many.len() as u64, many[TAKEN_SHOWN as usize - 1], many[TAKEN_SHOWN as usize]), (SHOWN, Taken, Missing));
    }

    #[test]
    fn a_head_has_one_line() {
        let text = lines(&[a_row(), Row { who: "south".to_string(), heard: None, ..a_row() }]);
        assert_eq!(text.lines().count(), 3);
        let line = text.lines().nth(1).unwrap_or_default();
        let words: Vec<&str> = line.split_whitespace().collect();
        assert_eq!(words[..6], ["north", "192.0.2.7:9899", "up", "0.1", "s", "1,214"]);
        assert!(line.ends_with("4  waits for TSN 4,294,967,295"), "{}", line);
    }

    #[test]
    fn a_page_has_a_cell_for_each_tile_and_asks_nobody() {
        let text = page(&[a_row()]);
        assert_eq!(text.matches("<td class=").count() as u64, SHOWN * u64::from(BANDS));
        assert_eq!(text.matches("<td class=m title=\"tile 2: missing\">").count(), 8);
        assert_eq!(text.matches("<td class=h title=\"tile 3: held behind a gap\">").count(), 8);
        assert!(!text.contains("http:") && !text.contains("https:") && !text.contains("<script"));
        let odd = page(&[Row { who: "<b>&\"".to_string(), ..a_row() }]);
        assert!(odd.contains("&lt;b&gt;&amp;&quot;"));
        assert!(page(&[]).contains("No head has come yet."));
    }

    #[test]
    fn what_is_said_stands_above_the_block() {
        let mut out = Vec::new();
        let mut screen = Screen::new(&mut out, true);
        screen.draw("one\ntwo\n");
        screen.say("news");
        screen.draw("one\n");
        screen.draw("three\n");
        let text = String::from_utf8(out).unwrap();
        assert_eq!(text, "\x1b[?7lone\ntwo\n\x1b[?7h\x1b[2A\x1b[Jnews\n\x1b[?7lone\n\x1b[?7h\x1b[1A\x1b[J\x1b[?7lthree\n\x1b[?7h");
        let mut plain = Vec::new();
        let mut screen = Screen::new(&mut plain, false);
        screen.draw("one\n");
        screen.say("news");
        assert_eq!(plain, b"news\n");
    }
}
