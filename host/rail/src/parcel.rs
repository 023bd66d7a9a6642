//! What a tile travels as: the name of its head, its own name, and its bytes, on the stream of its band; and the receipts that come back when it is kept.

use oilwhisper::calls::MESSAGE_MOST;

/// The protocol identifiers, which go with every message unread.
pub const TILE: u32 = 1;
pub const RECEIPT: u32 = 2;

pub const NAME_MOST: usize = 100;
/// The bytes of a tile at most: what a message holds beside two names and their lengths.
pub const CONTENT_MOST: usize = MESSAGE_MOST - 2 * (NAME_MOST + 1);

/// Names become files: letters, digits, '-', '_' and '.', which no name begins with.
pub fn is_name(text: &str) -> bool {
    let is_plain = |byte: u8| byte.is_ascii_alphanumeric() || b"-_.".contains(&byte);
    (1..=NAME_MOST).contains(&text.len()) && text.bytes().all(is_plain) && !text.starts_with('.')
}

#[derive(Clone, Copy, Debug, PartialEq, Eq)]
pub struct Parcel<'a> {
    pub head: &'a str,
    pub name: &'a str,
    pub content: &'a [u8],
}

impl<'a> Parcel<'a> {
    /// None where a name is missing or is none.
    pub fn read(message: &'a [u8]) -> Option<Parcel<'a>> {
        let (head, rest) = read_name(message)?;
        let (name, content) = read_name(rest)?;
        Some(Parcel { head, name, content })
    }

    pub fn written(&self) -> Vec<u8> {
        let mut message = Vec::with_capacity(2 + self.head.len() + self.name.len() + self.content.len());
        write_name(&mut message, self.head);
        write_name(&mut message, self.name);
        message.extend_from_slice(self.content);
        message
    }
}

/// Names of tiles of one band that are kept.
pub fn receipt<'a>(names: impl IntoIterator<Item = &'a String>) -> Vec<u8> {
    let mut message = Vec::new();
    for name in names {
        write_name(&mut message, name);
    }
    message
}

/// The names in a receipt, up to one that is none.
pub fn names_in(receipt: &[u8]) -> impl Iterator<Item = &str> {
    let mut rest = receipt;
    std::iter::from_fn(move || {
        let (name, behind) = read_name(rest)?;
        rest = behind;
        Some(name)
    })
}

fn read_name(bytes: &[u8]) -> Option<(&str, &[u8])> {
    let (length, rest) = bytes.split_first()?;
    let length = usize::from(*length);
    let name = std::str::from_utf8(rest.get(..length)?).ok()?;
    is_name(name).then(|| (name, rest.get(length..).unwrap_or_default()))
}

/// A name has at most 100 bytes, so its length is one.
fn write_name(message: &mut Vec<u8>, name: &str) {
    message.push(name.len() as u8);
    message.extend_from_slice(name.as_bytes());
}

#[cfg(test)]
mod tests {
    use super::*;

    #[test]
    fn what_was_written_is_read() {
        let parcel = Parcel { head: "north-2", name: "0000000017.tif", content: b"rock" };
        assert_eq!(Parcel::read(&parcel.written()), Some(parcel));
        let longest = "n".repeat(NAME_MOST);
        let full = Parcel { head: &longest, name: &longest, content: &[7; CONTENT_MOST] };
        assert_eq!(full.written().len(), MESSAGE_MOST);
        assert_eq!(Parcel::read(&full.written()), Some(full));
        let names = ["a".to_string(), "b.tif".to_string()];
        assert_eq!(names_in(&receipt(&names)).collect::<Vec<_>>(), ["a", "b.tif"]);
    }

    #[test]
    fn a_name_that_could_leave_its_folder_is_none() {
        for bad in ["", ".", "..", "../x", "a/b", "a\\b", ".hidden", "a b", "ä", "a\n", &"n".repeat(NAME_MOST + 1)] {
            assert!(!is_name(bad), "{}", bad);
            let mut message = Vec::new();
            write_name(&mut message, "head");
            write_name(&mut message, bad);
            assert_eq!(Parcel::read(&message), None, "{}", bad);
        }
    }

    #[test]
    fn what_is_cut_short_is_no_parcel() {
        let whole = Parcel { head: "h", name: "tile", content: b"" }.written();
        for length in 0..whole.len() {
            assert_eq!(Parcel::read(&whole[..length]), None, "{}", length);
        }
        assert_eq!(names_in(&[3, b'a']).count(), 0);
    }
}
