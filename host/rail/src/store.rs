//! The field computer's folder: ROOT/HEAD/BAND/NAME for each tile, and ROOT/manifest.txt with a line for each. A tile is written beside its place, synced and
//! renamed, so that it stands there whole or not at all; it is kept for certain when `seal` has returned.

use crate::lines::Lines;
use crate::parcel::Parcel;
use crate::Failure;
use sha2::{Digest, Sha256};
use std::collections::{BTreeSet, HashSet};
use std::fs::{self, File};
use std::io::{self, ErrorKind, Write};
use std::path::{Path, PathBuf};

/// What became of a tile.
#[derive(Clone, Debug, PartialEq, Eq)]
pub enum Kept {
    New,
    /// It was there, byte for byte.
    Again,
    /// Another tile has its name: it stands beside that under this one.
    Beside(String),
}

pub struct Store {
    root: PathBuf,
    manifest: Lines,
    /// Of each line of the manifest: head, band and name.
    listed: HashSet<String>,
    /// Lines and folders that are not on the disk for certain yet.
    lines: Vec<String>,
    folders: BTreeSet<PathBuf>,
}

impl Store {
    pub fn open(root: &Path) -> Result<Store, Failure> {
        let unusable = |e: io::Error| Failure(format!("cannot keep tiles in {}: {}", root.display(), e));
        fs::create_dir_all(root).map_err(unusable)?;
        remove_parts(root, 2).map_err(unusable)?;
        let (manifest, lines) = Lines::open(&root.join("manifest.txt")).map_err(unusable)?;
        let listed = lines.iter().map(|line| tile_of(line).to_string()).collect();
        Ok(Store { root: root.to_path_buf(), manifest, listed, lines: Vec::new(), folders: BTreeSet::from([root.to_path_buf()]) })
    }

    /// Puts a tile into its place.
    pub fn put(&mut self, band: u16, parcel: &Parcel) -> io::Result<Kept> {
        let folder = self.root.join(parcel.head).join(band.to_string());
        match fs::read(folder.join(parcel.name)) {
            Ok(there) if there == parcel.content => {
                self.list(band, parcel, parcel.name);
                Ok(Kept::Again)
            }
            Ok(_) => {
                let name = format!("{}.{}", parcel.name, &digest(parcel.content)[..16]);
                if fs::read(folder.join(&name)).map_or(true, |there| there != parcel.content) {
                    self.write(&folder, &name, parcel.content)?;
                }
                self.list(band, parcel, &name);
                Ok(Kept::Beside(name))
            }
            Err(e) if e.kind() == ErrorKind::NotFound => {
                self.write(&folder, parcel.name, parcel.content)?;
                self.list(band, parcel, parcel.name);
                Ok(Kept::New)
            }
            Err(e) => Err(e),
        }
    }

    /// All that was put is on the disk when this has returned.
    pub fn seal(&mut self) -> io::Result<()> {
        for folder in &self.folders {
            File::open(folder)?.sync_all()?;
        }
        if !self.lines.is_empty() {
            self.manifest.add(&self.lines)?;
        }
        self.folders.clear();
        self.lines.clear();
        Ok(())
    }

    fn write(&mut self, folder: &Path, name: &str, content: &[u8]) -> io::Result<()> {
        if !folder.is_dir() {
            fs::create_dir_all(folder)?;
            self.folders.extend(folder.ancestors().skip(1).take_while(|above| above.starts_with(&self.root)).map(Path::to_path_buf));
        }
        // No tile's name begins so.
        let part = folder.join(format!(".{}.part", name));
        let written = File::create(&part).and_then(|mut file| {
            file.write_all(content)?;
            file.sync_all()
        });
        if let Err(e) = written.and_then(|()| fs::rename(&part, folder.join(name))) {
            // It is worth nothing, and takes the room that is missing.
            let _ = fs::remove_file(&part);
            return Err(e);
        }
        self.folders.insert(folder.to_path_buf());
        Ok(())
    }

    /// A tile that stands there has one line, whenever that could be written.
    fn list(&mut self, band: u16, parcel: &Parcel, name: &str) {
        let tile = format!("{} {} {}", parcel.head, band, name);
        if self.listed.insert(tile.clone()) {
            self.lines.push(format!("{} {} {}", tile, parcel.content.len(), digest(parcel.content)));
        }
    }
}

/// Removes what was begun and not renamed when the power was lost, in a folder and so many levels below.
fn remove_parts(folder: &Path, levels: u32) -> io::Result<()> {
    for entry in fs::read_dir(folder)? {
        let entry = entry?;
        let name = entry.file_name().to_string_lossy().into_owned();
        if entry.file_type()?.is_dir() {
            if levels > 0 {
                remove_parts(&entry.path(), levels - 1)?;
            }
        } else if name.starts_with('.') && name.ends_with(".part") {
            fs::remove_file(entry.path())?;
        }
    }
    Ok(())
}

/// Head, band and name: the line without its last two words.
fn tile_of(line: &str) -> &str {
    line.rsplitn(3, ' ').nth(2).unwrap_or(line)
}

fn digest(content: &[u8]) -> String {
    Sha256::digest(content).iter().map(|byte| format!("{:02x}", byte)).collect()
}

#[cfg(test)]
mod tests {
    use super::*;

    fn root(name: &str) -> PathBuf {
        let root = std::env::temp_dir().join(format!("{}-store-{}", std::process::id(), name));
        let _ = fs::remove_dir_all(&root);
        root
    }

    fn parcel<'a>(name: &'a str, content: &'a [u8]) -> Parcel<'a> {
        Parcel { head: "north", name, content }
    }

    #[test]
    fn a_tile_stands_once_with_one_line() {
        let root = root("once");
        let mut store = Store::open(&root).unwrap();
        assert_eq!(store.put(3, &parcel("1", b"abc")).unwrap(), Kept::New);
        assert_eq!(store.put(3, &parcel("1", b"abc")).unwrap(), Kept::Again);
        store.seal().unwrap();
        drop(store);
        let mut store = Store::open(&root).unwrap();
        assert_eq!(store.put(3, &parcel("1", b"abc")).unwrap(), Kept::Again);
        store.seal().unwrap();
        assert_eq!(fs::read(root.join("north/3/1")).unwrap(), b"abc");
        assert_eq!(fs::read_dir(root.join("north/3")).unwrap().count(), 1);
        let manifest = fs::read_to_string(root.join("manifest.txt")).unwrap();
        assert_eq!(manifest, "north 3 1 3 ba7816bf8f01cfea414140de5dae2223b00361a396177a9cb410ff61f20015ad\n");
        fs::remove_dir_all(root).unwrap();
    }

    #[test]
    fn a_tile_without_its_line_gets_it() {
        let root = root("line");
        Store::open(&root).unwrap().put(0, &parcel("1", b"abc")).unwrap();
        // The power was lost before it was sealed.
        let mut store = Store::open(&root).unwrap();
        assert_eq!(store.put(0, &parcel("1", b"abc")).unwrap(), Kept::Again);
        store.seal().unwrap();
        assert_eq!(fs::read_to_string(root.join("manifest.txt")).unwrap().lines().count(), 1);
        fs::remove_dir_all(root).unwrap();
    }

    #[test]
    fn what_was_begun_when_the_power_was_lost_is_removed() {
        let root = root("part");
        fs::create_dir_all(root.join("north/0")).unwrap();
        fs::write(root.join("north/0/.1.part"), b"ab").unwrap();
        fs::write(root.join("north/0/2"), b"whole").unwrap();
        Store::open(&root).unwrap();
        assert_eq!(fs::read_dir(root.join("north/0")).unwrap().count(), 1);
        fs::remove_dir_all(root).unwrap();
    }

    #[test]
    fn another_tile_of_the_same_name_stands_beside() {
        let root = root("beside");
        let mut store = Store::open(&root).unwrap();
        store.put(0, &parcel("1", b"abc")).unwrap();
        let beside = Kept::Beside("1.cb8379ac2098aa16".to_string());
        assert_eq!(store.put(0, &parcel("1", b"def")).unwrap(), beside);
        assert_eq!(store.put(0, &parcel("1", b"def")).unwrap(), beside);
        store.seal().unwrap();
        assert_eq!(fs::read(root.join("north/0/1")).unwrap(), b"abc");
        assert_eq!(fs::read(root.join("north/0/1.cb8379ac2098aa16")).unwrap(), b"def");
        assert_eq!(fs::read_to_string(root.join("manifest.txt")).unwrap().lines().count(), 2);
        fs::remove_dir_all(root).unwrap();
    }

    #[test]
    fn what_cannot_be_written_leaves_nothing_behind() {
        let root = root("full");
        let mut store = Store::open(&root).unwrap();
        // A file stands where the head's folder should.
        fs::write(root.join("north"), b"").unwrap();
        assert!(store.put(0, &parcel("1", b"abc")).is_err());
        fs::remove_file(root.join("north")).unwrap();
        assert_eq!(store.put(0, &parcel("1", b"abc")).unwrap(), Kept::New);
        store.seal().unwrap();
        assert_eq!(fs::read_to_string(root.join("manifest.txt")).unwrap().lines().count(), 1);
        fs::remove_dir_all(root).unwrap();
    }

    #[test]
    fn a_folder_that_cannot_be_used_is_named() {
        let file = root("file");
        fs::write(&file, b"").unwrap();
        let said = Store::open(&file).map(|_| ()).unwrap_err().0;
        assert!(said.starts_with(&format!("cannot keep tiles in {}: ", file.display())), "{}", said);
        fs::remove_file(file).unwrap();
    }
}
