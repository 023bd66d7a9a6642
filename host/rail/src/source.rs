//! What a head has to send: the tiles of a folder, ROOT/BAND/NAME, or tiles that are made for trying; and a journal of those that the field computer keeps, so
//! that a head which lost its power sends the others alone.

use crate::lines::Lines;
use crate::parcel::{is_name, CONTENT_MOST, NAME_MOST};
use crate::tiles::{tile, Plan, BANDS};
use crate::Failure;
use std::collections::{HashSet, VecDeque};
use std::fs;
use std::io;
use std::path::{Path, PathBuf};

/// A tile by its name.
#[derive(Clone, Debug, PartialEq, Eq, Hash, PartialOrd, Ord)]
pub struct Tile {
    pub band: u16,
    pub name: String,
}

enum Kind {
    Made { plan: Plan, seed: u64 },
    Folder { root: PathBuf, tiles: VecDeque<Tile> },
}

pub struct Source {
    kind: Kind,
    total: u64,
    journal: Option<Lines>,
    kept: HashSet<Tile>,
}

impl Source {
    /// Tiles that are made for trying.
    pub fn made(messages: u64, seed: u64) -> Source {
        Source { kind: Kind::Made { plan: Plan::of(messages), seed }, total: Plan::total(messages), journal: None, kept: HashSet::new() }
    }

    pub fn folder(root: &Path) -> Result<Source, Failure> {
        let mut tiles = Vec::new();
        let unreadable = |e: io::Error| Failure(format!("cannot read the tiles in {}: {}", root.display(), e));
        fs::read_dir(root).map_err(unreadable)?;
        for band in 0..BANDS {
            let folder = root.join(band.to_string());
            if folder.exists() {
                list(&folder, band, &mut tiles)?;
            }
        }
        if tiles.is_empty() {
            return Err(Failure(format!("{} has no tiles: they stand in its folders 0 to {}, one for each band", root.display(), BANDS - 1)));
        }
        tiles.sort_by(|a, b| (&a.name, a.band).cmp(&(&b.name, b.band)));
        let total = tiles.len() as u64;
        Ok(Source { kind: Kind::Folder { root: root.to_path_buf(), tiles: tiles.into() }, total, journal: None, kept: HashSet::new() })
    }

    /// What this file says is kept is not sent; what is kept from now on is written there.
    pub fn with_journal(mut self, path: &Path) -> Result<Source, Failure> {
        let (lines, before) = Lines::open(path).map_err(|e| Failure(format!("cannot use the journal {}: {}", path.display(), e)))?;
        self.kept = before.iter().filter_map(|line| tile_of(line)).collect();
        self.journal = Some(lines);
        Ok(self)
    }

    /// How many tiles there are in all.
    pub fn total(&self) -> u64 {
        self.total
    }

    /// The next tile that is not kept.
    pub fn next_tile(&mut self) -> Option<Tile> {
        loop {
            let tile = match &mut self.kind {
                Kind::Made { plan, .. } => plan.next().map(|(band, index)| Tile { band, name: format!("{:010}", index) }),
                Kind::Folder { tiles, .. } => tiles.pop_front(),
            }?;
            if !self.kept.contains(&tile) {
                return Some(tile);
            }
        }
    }

    pub fn content(&self, tile_asked: &Tile) -> Result<Vec<u8>, Failure> {
        match &self.kind {
            // The names are those that `next_tile` gave.
            Kind::Made { seed, .. } => Ok(tile(*seed, tile_asked.band, tile_asked.name.parse().unwrap_or(0))),
            Kind::Folder { root, .. } => {
                let path = root.join(tile_asked.band.to_string()).join(&tile_asked.name);
                fs::read(&path).map_err(|e| Failure(format!("cannot read {}: {}", path.display(), e)))
            }
        }
    }

    /// The field computer keeps these. Where that cannot be written they are sent again after a restart, and nothing is lost.
    pub fn are_kept(&mut self, tiles: Vec<Tile>) -> io::Result<()> {
        let lines: Vec<String> = tiles.iter().map(|tile| format!("{} {}", tile.band, tile.name)).collect();
        if let Some(journal) = &mut self.journal {
            self.kept.extend(tiles);
            return journal.add(&lines);
        }
        Ok(())
    }
}

fn tile_of(line: &str) -> Option<Tile> {
    let (band, name) = line.split_once(' ')?;
    Some(Tile { band: band.parse().ok()?, name: name.to_string() })
}

/// The tiles of one band. One that cannot be sent is told before anything is.
fn list(folder: &Path, band: u16, tiles: &mut Vec<Tile>) -> Result<(), Failure> {
    let unreadable = |e: io::Error| Failure(format!("cannot read the tiles in {}: {}", folder.display(), e));
    for entry in fs::read_dir(folder).map_err(unreadable)? {
        let entry = entry.map_err(unreadable)?;
        let path = entry.path();
        let name = entry.file_name().to_string_lossy().into_owned();
        let about = fs::metadata(&path).map_err(unreadable)?;
        let is_unfit = |why: String| Err(Failure(format!("cannot send {}: {}", path.display(), why)));
        if name.starts_with('.') {
            continue;
        } else if !about.is_file() {
            return is_unfit("it is no file".to_string());
        } else if !is_name(&name) {
            return is_unfit(format!("a tile's name has letters, digits, '-', '_' and '.' alone, {} at most", NAME_MOST));
        } else if about.len() > CONTENT_MOST as u64 {
            return is_unfit(format!("it has {} bytes, and a tile {} at most", about.len(), CONTENT_MOST));
        }
        tiles.push(Tile { band, name });
    }
    Ok(())
}

#[cfg(test)]
mod tests {
    use super::*;

    fn root(name: &str) -> PathBuf {
        let root = std::env::temp_dir().join(format!("{}-source-{}", std::process::id(), name));
        let _ = fs::remove_dir_all(&root);
        fs::create_dir_all(root.join("0")).unwrap();
        fs::create_dir_all(root.join("5")).unwrap();
        root
    }

    fn names(source: &mut Source) -> Vec<String> {
        std::iter::from_fn(|| source.next_tile()).map(|tile| format!("{}/{}", tile.band, tile.name)).collect()
    }

    #[test]
    fn a_folder_is_sent_in_the_order_of_names() {
        let root = root("order");
        for (path, content) in [("0/a.tif", "one"), ("5/b.tif", "two"), ("0/c.tif", "three"), ("0/.b.part", "no tile")] {
            fs::write(root.join(path), content).unwrap();
        }
        let mut source = Source::folder(&root).unwrap();
        assert_eq!(source.total(), 3);
        assert_eq!(source.content(&Tile { band: 5, name: "b.tif".to_string() }).unwrap(), b"two");
        assert_eq!(names(&mut source), ["0/a.tif", "5/b.tif", "0/c.tif"]);
        fs::remove_dir_all(root).unwrap();
    }

    #[test]
    fn what_is_kept_is_not_sent_again() {
        let root = root("kept");
        fs::write(root.join("0/a"), "one").unwrap();
        fs::write(root.join("5/b"), "two").unwrap();
        let journal = root.join(".kept");
        let mut source = Source::folder(&root).unwrap().with_journal(&journal).unwrap();
        let first = source.next_tile().unwrap();
        source.are_kept(vec![first]).unwrap();
        let mut after = Source::folder(&root).unwrap().with_journal(&journal).unwrap();
        assert_eq!(names(&mut after), ["5/b"]);
        fs::remove_dir_all(root).unwrap();
    }

    #[test]
    fn what_cannot_be_sent_is_named() {
        let complaint = |root: &Path| Source::folder(root).map(|_| ()).unwrap_err().0;
        let root = root("unfit");
        assert!(complaint(&root).ends_with("has no tiles: they stand in its folders 0 to 7, one for each band"));
        fs::write(root.join("0/a b"), "").unwrap();
        assert!(complaint(&root).contains("a tile's name has letters"));
        fs::remove_file(root.join("0/a b")).unwrap();
        fs::write(root.join("5/large"), vec![0; CONTENT_MOST + 1]).unwrap();
        assert!(complaint(&root).ends_with("large: it has 65335 bytes, and a tile 65334 at most"));
        fs::remove_dir_all(&root).unwrap();
        assert!(complaint(&root).starts_with(&format!("cannot read the tiles in {}: ", root.display())));
    }

    #[test]
    fn made_tiles_are_named_by_their_index() {
        let mut source = Source::made(9, 4);
        let tiles: Vec<Tile> = std::iter::from_fn(|| source.next_tile()).collect();
        assert_eq!((tiles.len() as u64, tiles[0].name.as_str()), (source.total(), "0000000000"));
        assert_eq!(source.content(&tiles[8]).unwrap(), tile(4, tiles[8].band, 0));
    }
}
