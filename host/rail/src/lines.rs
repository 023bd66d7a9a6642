//! A file of whole lines, each of which is on the disk before the next is thought of. A line that was cut off by a loss of power is cut away.

use std::fs::{File, OpenOptions};
use std::io::{self, Read, Seek, SeekFrom, Write};
use std::path::Path;

#[derive(Debug)]
pub struct Lines {
    file: File,
    /// The bytes of all whole lines.
    length: u64,
}

impl Lines {
    /// The file, made where there is none, and the lines that are in it.
    pub fn open(path: &Path) -> io::Result<(Lines, Vec<String>)> {
        let mut file = OpenOptions::new().read(true).write(true).create(true).truncate(false).open(path)?;
        let mut bytes = Vec::new();
        file.read_to_end(&mut bytes)?;
        let length = bytes.iter().rposition(|byte| *byte == b'\n').map_or(0, |last| last + 1);
        file.set_len(length as u64)?;
        let text = String::from_utf8_lossy(bytes.get(..length).unwrap_or_default());
        Ok((Lines { file, length: length as u64 }, text.lines().map(str::to_string).collect()))
    }

    /// All of these, or none.
    pub fn add(&mut self, lines: &[String]) -> io::Result<()> {
        let mut text = String::new();
        for line in lines {
            text.push_str(line);
            text.push('\n');
        }
        let written = self.write(text.as_bytes());
        match written {
            Ok(()) => self.length += text.len() as u64,
            // What was begun must not look like a line.
            Err(_) => self.file.set_len(self.length)?,
        }
        written
    }

    fn write(&mut self, text: &[u8]) -> io::Result<()> {
        self.file.seek(SeekFrom::Start(self.length))?;
        self.file.write_all(text)?;
        self.file.sync_data()
    }
}

#[cfg(test)]
mod tests {
    use super::*;
    use std::fs;

    #[test]
    fn lines_stay_and_a_torn_one_goes() {
        let path = std::env::temp_dir().join(format!("{}-lines", std::process::id()));
        let (mut lines, before) = Lines::open(&path).unwrap();
        assert_eq!(before, [] as [String; 0]);
        lines.add(&["one".to_string(), "two".to_string()]).unwrap();
        lines.add(&["three".to_string()]).unwrap();
        drop(lines);
        fs::OpenOptions::new().append(true).open(&path).unwrap().write_all(b"fou").unwrap();
        let (mut lines, before) = Lines::open(&path).unwrap();
        assert_eq!(before, ["one", "two", "three"]);
        lines.add(&["five".to_string()]).unwrap();
        assert_eq!(fs::read_to_string(&path).unwrap(), "one\ntwo\nthree\nfive\n");
        fs::remove_file(path).unwrap();
    }
}
