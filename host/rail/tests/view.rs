//! What the operator sees of three heads: one has sent all its tiles, one more than a page shows, and one has lost a tile that the tiles behind it wait for. The page is
//! looked at as it is served, and as a browser shows it (`tests/view/run`).

mod yard;

use std::net::SocketAddr;
use std::path::{Path, PathBuf};
use std::process::Command;
use std::sync::atomic::{AtomicBool, Ordering};
use std::sync::Arc;
use std::time::Duration;
use std::{env, fs, thread};
use yard::*;

/// So long that each tile goes in a packet of its own.
const TILE: usize = 400;
/// What is lost: a DATA chunk of this stream with this SSN.
const LOST: [u8; 4] = [0, 2, 0, 3];

/// The tiles of a band on a page.
#[derive(Debug, PartialEq, Eq)]
struct Band {
    title: String,
    /// Runs of tiles of one kind, each with the number of its first tile: a letter for its kind stands in the page, and its name beside it.
    runs: Vec<(u64, char, String, usize)>,
}

#[derive(Debug)]
struct Shown {
    title: String,
    bands: Vec<Band>,
}

fn between<'a>(text: &'a str, begin: &str, end: &str) -> &'a str {
    let rest = text.split_once(begin).map_or("", |(_, rest)| rest);
    rest.split_once(end).map_or(rest, |(inside, _)| inside)
}

/// The heads of a page, whether their attributes have quotes, as a browser writes them, or not.
fn read(page: &str) -> Vec<Shown> {
    let heads = page.split("<h2>").skip(1).map(|head| {
        let bands = head.split("<tr>").skip(1).map(|row| {
            let mut runs: Vec<(u64, char, String, usize)> = Vec::new();
            for cell in row.split("<td ").skip(1) {
                let kind = between(cell, "class=", " ").trim_matches('"').chars().next().unwrap_or('?');
                let (number, name) = between(cell, "title=\"", "\"").split_once(": ").expect("a cell has a title");
                let number: u64 = number.trim_start_matches("tile ").replace(',', "").parse().expect("a tile has a number");
                match runs.last_mut() {
                    Some((first, of, named, count)) if *of == kind && named == name && *first + *count as u64 == number => *count += 1,
                    _ => runs.push((number, kind, name.to_string(), 1)),
                }
            }
            Band { title: between(row, "<th>", "</th>").to_string(), runs }
        });
        Shown { title: between(head, "", "</h2>").to_string(), bands: bands.collect() }
    });
    heads.collect()
}

fn band(band: usize, tiles: usize, runs: &[(u64, char, usize)]) -> Band {
    let name = |kind| match kind {
        't' => "taken",
        'h' => "held behind a gap",
        'm' => "missing",
        _ => "not yet",
    };
    let runs = runs.iter().map(|(first, kind, count)| (*first, *kind, name(*kind).to_string(), *count));
    Band { title: format!("band {}: {}", band, tiles), runs: runs.collect() }
}

const NONE: [(u64, char, usize); 1] = [(0, 'n', 64)];
const SIX: [(u64, char, usize); 2] = [(0, 't', 6), (6, 'n', 58)];

/// Holds a page against what it should show; `third` is the third band of the head that has lost a tile.
fn compare(page: &str, third: &[(u64, char, usize)], east: &str) {
    let heads = read(page);
    let titles: Vec<&str> = heads.iter().map(|head| head.title.as_str()).collect();
    assert_eq!(heads.len(), 3, "{:?}", titles);
    let head = |name: &str| heads.iter().find(|head| head.title.starts_with(name)).unwrap_or_else(|| panic!("no {} in {:?}", name, titles));
    let empty = |n| band(n, 0, &NONE);
    let north = [band(0, 6, &SIX), empty(1), band(2, 6, &SIX)].into_iter().chain((3..8).map(empty));
    assert_eq!(head("north at 127.0.0.1:").bands, north.collect::<Vec<_>>());
    assert!(head("north").title.contains(": gone, "), "{:?}", titles);
    // Of 50 tiles the last 40 are shown.
    let south = [empty(0), band(1, 50, &[(10, 't', 40), (50, 'n', 24)])].into_iter().chain((2..8).map(empty));
    assert_eq!(head("south at 127.0.0.1:").bands, south.collect::<Vec<_>>());
    let taken = third.iter().filter(|(_, kind, _)| *kind == 't').map(|(_, _, count)| count).sum();
    let lost = [band(0, 6, &SIX), empty(1), band(2, taken, third)].into_iter().chain((3..8).map(empty));
    assert_eq!(head("east at 127.0.0.1:").bands, lost.collect::<Vec<_>>());
    assert!(head("east").title.contains(east), "{:?}", titles);
}

const GAP: [(u64, char, usize); 4] = [(0, 't', 3), (3, 'm', 1), (4, 'h', 2), (6, 'n', 58)];

fn photograph(folder: &Path, bands: &[u16], tiles: usize) {
    for band in bands {
        let place = folder.join(band.to_string());
        fs::create_dir_all(&place).expect("a folder can be made");
        for tile in 0..tiles {
            fs::write(place.join(format!("{:02}", tile)), vec![tile as u8; TILE]).expect("a tile can be written");
        }
    }
}

/// Whether a packet has the DATA chunk that is lost: each has one, behind 12 bytes of header, and stream and SSN stand 8 bytes behind its beginning.
fn is_lost(packet: &[u8]) -> bool {
    packet.get(12) == Some(&0) && packet.get(20..24) == Some(&LOST)
}

/// Brings the rail to where a tile is missing, has the page looked at, lets the tile through, and has it looked at again.
fn show(name: &str, look: impl Fn(SocketAddr) -> String) {
    let here: PathBuf = scratch(name);
    let (at, view) = (free_address(), free_tcp_address());
    for (head, bands, tiles) in [("north", &[0, 2][..], 6), ("south", &[1], 50), ("east", &[0, 2], 6)] {
        photograph(&here.join(head), bands, tiles);
    }
    let (stop, field) = begin(format!("field {} --to {} --view {}", at, here.join("kept").display(), view));
    thread::sleep(Duration::from_millis(500));
    let head = |name: &str, at: SocketAddr| begin(format!("head {} --name {} --from {}", at, name, here.join(name).display()));
    for name in ["north", "south"] {
        let (_, head) = head(name, at);
        head.join().expect("the head ends");
    }
    let is_whole = Arc::new(AtomicBool::new(false));
    let whole = is_whole.clone();
    let cable = Cable::to(at, move |packet| !whole.load(Ordering::Relaxed) && is_lost(packet));
    let (_, east) = head("east", cable.address);
    // All that is not lost has come, and is taken as far as it can be.
    let shown = || read(&page_at(view)).into_iter().find(|head| head.title.starts_with("east"));
    let stands = |head: Shown| head.bands.get(0..3) == Some(&[band(0, 6, &SIX), band(1, 0, &NONE), band(2, 3, &GAP)]);
    wait_for(|| format!("{:?}", shown()), || shown().map_or(false, stands));
    compare(&look(view), &GAP, ": up, heard ");
    assert!(between(&page_at(view), "<h2>east", "</h2>").contains("chunks came twice: waits for TSN "));
    is_whole.store(true, Ordering::Relaxed);
    let (ended, _) = east.join().expect("the head ends");
    assert_eq!(ended.verdict, "the field computer keeps all 12 tiles");
    wait_for(|| format!("{:?}", shown()), || shown().map_or(false, |head| head.title.contains(": gone, ")));
    compare(&look(view), &SIX, ": gone, ");
    stop.ask();
    field.join().expect("the field computer ends");
    fs::remove_dir_all(here).expect("the folder can be removed");
}

#[test]
fn a_page_shows_each_tile_of_each_head_for_what_it_is() {
    show("page", page_at);
}

/// OILWHISPER_BROWSER is a Chromium. Where OILWHISPER_SCREENSHOT says so, the page with the gap is kept as a picture.
#[test]
#[ignore = "needs a browser: tests/view/run"]
fn a_browser_shows_each_tile_of_each_head_for_what_it_is() {
    let browser = env::var("OILWHISPER_BROWSER").expect("OILWHISPER_BROWSER names one");
    let profile = scratch("profile");
    let open = |words: &[String], url: &str| {
        let fixed = ["--headless", "--no-sandbox", "--disable-gpu", "--hide-scrollbars", "--timeout=10000"];
        let run = Command::new(&browser).args(fixed).arg(format!("--user-data-dir={}", profile.display())).args(words).arg(url).output();
        let run = run.expect("the browser runs");
        assert!(run.status.success(), "{}", String::from_utf8_lossy(&run.stderr));
        String::from_utf8_lossy(&run.stdout).into_owned()
    };
    let is_pictured = AtomicBool::new(false);
    show("browser", |view| {
        let url = format!("http://{}/", view);
        if let (Ok(path), false) = (env::var("OILWHISPER_SCREENSHOT"), is_pictured.swap(true, Ordering::Relaxed)) {
            open(&["--window-size=900,770".to_string(), format!("--screenshot={}", path)], &url);
        }
        let dom = open(&["--dump-dom".to_string()], &url);
        assert_eq!(between(&dom, "<title>", "</title>"), "The rail's heads");
        dom
    });
    fs::remove_dir_all(profile).expect("the folder can be removed");
}
