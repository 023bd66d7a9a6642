//! What the rail carries: tiles of eight colour bands, each band a stream. A tile is a function of seed, band and index, so the far end can make the one it
//! expects and compare every byte.

use oilwhisper::random::Seeded;
use std::fmt;

pub const BANDS: u16 = 8;
/// Seed, band and index stand at the head of a tile.
const HEAD: usize = 14;
/// After so many tiles of the first band comes one of another.
const FIRST_IN_A_ROW: u64 = 8;

/// The first band's tiles are small and many; now and then one of another band is larger than a packet.
fn size(chance: &mut Seeded, band: u16) -> usize {
    let body = match band {
        0 => 1 + chance.below(60),
        _ if chance.happens(0.02) => 1 + chance.below(16_384),
        _ => 1 + chance.below(700),
    };
    HEAD + body as usize
}

pub fn tile(seed: u64, band: u16, index: u32) -> Vec<u8> {
    let mut chance = Seeded::new(seed ^ u64::from(band) << 32 ^ u64::from(index));
    let size = size(&mut chance, band);
    let mut tile = Vec::with_capacity(size + 8);
    tile.extend_from_slice(&seed.to_be_bytes());
    tile.extend_from_slice(&band.to_be_bytes());
    tile.extend_from_slice(&index.to_be_bytes());
    while tile.len() < size {
        tile.extend_from_slice(&chance.number().to_be_bytes());
    }
    tile.truncate(size);
    tile
}

/// The order in which tiles are handed in: so many of the first band, and the other bands in turn between them.
#[derive(Clone, Debug)]
pub struct Plan {
    first_band: u64,
    step: u64,
}

impl Plan {
    pub fn of(first_band: u64) -> Plan {
        Plan { first_band, step: 0 }
    }

    /// How many tiles there are in all.
    pub fn total(first_band: u64) -> u64 {
        first_band + first_band / FIRST_IN_A_ROW
    }
}

impl Iterator for Plan {
    type Item = (u16, u32);

    fn next(&mut self) -> Option<(u16, u32)> {
        let step = self.step;
        if step >= Plan::total(self.first_band) {
            return None;
        }
        self.step += 1;
        let (round, within) = (step / (FIRST_IN_A_ROW + 1), step % (FIRST_IN_A_ROW + 1));
        let others = u64::from(BANDS) - 1;
        Some(match within {
            FIRST_IN_A_ROW => (1 + (round % others) as u16, (round / others) as u32),
            _ => (0, (round * FIRST_IN_A_ROW + within) as u32),
        })
    }
}

#[derive(Clone, Copy, Debug, PartialEq, Eq)]
pub enum Difference {
    /// A stream that is no band.
    Band(u16),
    /// The first byte that differs from the expected tile, or the length that the shorter of both has.
    Byte { band: u16, index: u32, at: usize },
    /// A stream sequence number that does not follow the one before.
    Sequence { band: u16, index: u32, ssn: u16 },
}

impl fmt::Display for Difference {
    fn fmt(&self, f: &mut fmt::Formatter) -> fmt::Result {
        match self {
            Difference::Band(stream) => write!(f, "stream {} is no band", stream),
            Difference::Byte { band, index, at } => write!(f, "tile {} of band {} differs at byte {}", index, band, at),
            Difference::Sequence { band, index, ssn } => write!(f, "tile {} of band {} has SSN {}", index, band, ssn),
        }
    }
}

/// The far end: which tile of each band comes next.
#[derive(Clone, Debug, Default)]
pub struct Album {
    seed: Option<u64>,
    bands: [Band; BANDS as usize],
    bytes: u64,
    again: u64,
    wrapped: Vec<u16>,
}

#[derive(Clone, Copy, Debug, Default)]
struct Band {
    /// How many tiles there are.
    tiles: u32,
    /// The tile that this association brings next, and the one that it brought first.
    next: u32,
    first: u32,
    /// An association has begun that may bring tiles again.
    may_step_back: bool,
}

impl Album {
    /// Compares a tile with the one that is next in its band, byte by byte. The first tile tells the seed.
    pub fn add(&mut self, stream: u16, ssn: u16, message: &[u8]) -> Result<(), Difference> {
        let band = self.bands.get_mut(usize::from(stream)).ok_or(Difference::Band(stream))?;
        let seed = *self.seed.get_or_insert_with(|| number_at(message, 0, 8));
        let index = match band.may_step_back {
            true => (number_at(message, 10, 4) as u32).min(band.tiles),
            false => band.next,
        };
        let expected = tile(seed, stream, index);
        if message != expected {
            let at = message.iter().zip(&expected).take_while(|(a, b)| a == b).count();
            return Err(Difference::Byte { band: stream, index, at });
        }
        let first = if band.may_step_back { index } else { band.first };
        if u32::from(ssn) != (index - first) % 65_536 {
            return Err(Difference::Sequence { band: stream, index, ssn });
        }
        if index > first && ssn == 0 {
            self.wrapped.push(stream);
        }
        if index < band.tiles {
            self.again += 1;
        } else {
            self.bytes += message.len() as u64;
        }
        *band = Band { tiles: band.tiles.max(index + 1), next: index + 1, first, may_step_back: false };
        Ok(())
    }

    /// Another association brings the rest, whose SSNs begin at 0. Each band may begin with a tile that came before.
    pub fn resume(&mut self) {
        for band in &mut self.bands {
            band.may_step_back = true;
        }
    }

    pub fn tiles(&self) -> u64 {
        self.bands.iter().map(|band| u64::from(band.tiles)).sum()
    }

    /// How many came that had come before.
    pub fn again(&self) -> u64 {
        self.again
    }

    pub fn tiles_by_band(&self) -> [u32; BANDS as usize] {
        self.bands.map(|band| band.tiles)
    }

    pub fn bytes(&self) -> u64 {
        self.bytes
    }

    /// The band of each stream sequence number that went round from 65,535 to 0, in that order.
    pub fn wrapped(&self) -> &[u16] {
        &self.wrapped
    }
}

/// The number of so many bytes that stands there, as far as the message goes.
fn number_at(message: &[u8], at: usize, bytes: usize) -> u64 {
    message.iter().skip(at).take(bytes).fold(0, |number, byte| number << 8 | u64::from(*byte))
}

#[cfg(test)]
mod tests {
    use super::*;

    #[test]
    fn a_plan_has_every_index_of_every_band_in_order() {
        let mut next = [0; BANDS as usize];
        let mut count = 0;
        for (band, index) in Plan::of(70_000) {
            assert_eq!(index, next[usize::from(band)]);
            next[usize::from(band)] += 1;
            count += 1;
        }
        assert_eq!(count, Plan::total(70_000));
        assert_eq!(next[0], 70_000);
        assert!(next[1..].iter().all(|count| *count == 1250));
    }

    #[test]
    fn an_album_takes_the_tiles_in_order_past_the_wrap() {
        let mut album = Album::default();
        for index in 0..65_540u32 {
            assert_eq!(album.add(0, index as u16, &tile(42, 0, index)), Ok(()));
        }
        assert_eq!(album.tiles(), 65_540);
        assert_eq!(album.wrapped(), [0]);
    }

    #[test]
    fn an_album_tells_what_differs() {
        let mut album = Album::default();
        let good = tile(42, 1, 0);
        let mut changed = good.clone();
        changed[HEAD] ^= 1;
        let at = |at| Err(Difference::Byte { band: 1, index: 0, at });
        assert_eq!(album.add(1, 0, &changed), at(HEAD));
        assert_eq!(album.add(1, 0, &good[..HEAD]), at(HEAD));
        assert_eq!(album.add(1, 1, &good), Err(Difference::Sequence { band: 1, index: 0, ssn: 1 }));
        assert_eq!(album.add(8, 0, &good), Err(Difference::Band(8)));
        assert_eq!(album.add(1, 0, &good), Ok(()));
        let repeated = album.add(1, 1, &good);
        assert!(matches!(repeated, Err(Difference::Byte { band: 1, index: 1, .. })));
    }

    #[test]
    fn an_album_goes_on_with_another_association_and_knows_what_came_again() {
        let mut album = Album::default();
        for index in 0..5u32 {
            assert_eq!(album.add(0, index as u16, &tile(42, 0, index)), Ok(()));
        }
        album.resume();
        for index in 3..9u32 {
            assert_eq!(album.add(0, index as u16 - 3, &tile(42, 0, index)), Ok(()));
        }
        assert_eq!((album.tiles(), album.again()), (9, 2));
        // Not without one, nor with a hole.
        assert!(matches!(album.add(0, 6, &tile(42, 0, 8)), Err(Difference::Byte { index: 9, .. })));
        album.resume();
        assert!(matches!(album.add(0, 0, &tile(42, 0, 10)), Err(Difference::Byte { index: 9, .. })));
        assert_eq!(album.add(0, 1, &tile(42, 0, 9)), Err(Difference::Sequence { band: 0, index: 9, ssn: 1 }));
        assert_eq!(album.add(0, 0, &tile(42, 0, 9)), Ok(()));
    }

    #[test]
    fn tiles_differ_by_seed_band_and_index() {
        let all = [tile(1, 0, 0), tile(2, 0, 0), tile(1, 1, 0), tile(1, 0, 1)];
        for (n, a) in all.iter().enumerate() {
            assert!(all[n + 1..].iter().all(|b| a != b));
        }
    }
}
