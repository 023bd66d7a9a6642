//! State cookies (RFC 9260 section 5.1.3): what an association starts from, when the cookie was made and for whom, signed with a key that only this
//! endpoint has and changes now and then. Nothing is kept for an INIT; only cookies that were used are remembered, until they are too old to be good anyway.

use crate::calls::Made;
use crate::random::Random;
use crate::signature::{is_signed, sign, Key, SIGNATURE};
use std::net::{IpAddr, SocketAddr};
use std::time::{Duration, Instant};

/// RFC 9260 section 16: Valid.Cookie.Life.
pub const LIFETIME: Duration = Duration::from_secs(60);
/// A key signs for so long, and its cookies are known for as long again: longer than any is good.
const KEY_LIFETIME: Duration = Duration::from_secs(600);

const PLAIN: usize = 52;
const TIES: usize = 8;
const SIGNED: usize = PLAIN + TIES;
const COOKIE: usize = SIGNED + SIGNATURE;

#[derive(Clone, Copy, Debug, PartialEq, Eq)]
pub enum Judgement {
    Bad,
    /// Ours, and so long past its lifetime.
    Stale(Made, Duration),
    Good(Made),
}

pub struct CookieJar {
    /// What keys are made of. It signs nothing that anybody sees.
    source: Random,
    present: Key,
    before: Option<Key>,
    changed: Instant,
    opened: Instant,
    used: Vec<(u32, Instant)>,
}

impl CookieJar {
    pub fn new(key: Key, now: Instant) -> CookieJar {
        let mut source = Random::from_key(key);
        let present = source.key();
        CookieJar { source, present, before: None, changed: now, opened: now, used: Vec::new() }
    }

    pub fn bake(&mut self, made: Made, from: SocketAddr, port: u16, now: Instant) -> Vec<u8> {
        self.change_key(now);
        let mut cookie = Vec::with_capacity(COOKIE);
        cookie.extend_from_slice(&made.my_tag.to_be_bytes());
        cookie.extend_from_slice(&made.peer_tag.to_be_bytes());
        cookie.extend_from_slice(&made.streams_in.to_be_bytes());
        cookie.extend_from_slice(&made.streams_out.to_be_bytes());
        cookie.extend_from_slice(&made.my_tsn.to_be_bytes());
        cookie.extend_from_slice(&made.peer_tsn.to_be_bytes());
        cookie.extend_from_slice(&made.window.to_be_bytes());
        cookie.extend_from_slice(&self.age(now).to_be_bytes());
        cookie.extend_from_slice(&port.to_be_bytes());
        cookie.extend_from_slice(&address_bytes(from));
        let ties = u64::from(made.my_tie) << 32 | u64::from(made.peer_tie);
        let masked = ties ^ mask(&self.present, &cookie);
        cookie.extend_from_slice(&masked.to_be_bytes());
        let signature = sign(&self.present, &cookie);
        cookie.extend_from_slice(&signature);
        cookie
    }

    /// The word on a cookie that this peer echoes to start an association: it is good once.
    pub fn judge(&self, cookie: &[u8], from: SocketAddr, port: u16, now: Instant) -> Judgement {
        match self.judge_again(cookie, from, port, now) {
            Judgement::Good(made) | Judgement::Stale(made, _) if self.used.iter().any(|(tag, _)| *tag == made.my_tag) => Judgement::Bad,
            judgement => judgement,
        }
    }

    /// The word on a cookie that comes to an association: its own may come again (RFC 9260 section 5.2.4 D).
    pub fn judge_again(&self, cookie: &[u8], from: SocketAddr, port: u16, now: Instant) -> Judgement {
        if cookie.len() != COOKIE {
            return Judgement::Bad;
        }
        let (signed, signature) = cookie.split_at(SIGNED);
        let key = match self.keys().find(|key| is_signed(*key, signed, signature)) {
            Some(key) => key,
            None => return Judgement::Bad,
        };
        let (plain, masked) = signed.split_at(PLAIN);
        let ties = Fields(masked).double() ^ mask(key, plain);
        let mut fields = Fields(plain);
        let made = Made {
            my_tag: fields.word(),
            peer_tag: fields.word(),
            streams_in: fields.half(),
            streams_out: fields.half(),
            my_tsn: fields.word(),
            peer_tsn: fields.word(),
            window: fields.word(),
            my_tie: (ties >> 32) as u32,
            peer_tie: ties as u32,
            options: 0,
        };
        let baked = Duration::from_millis(fields.double());
        let is_for_this_peer = fields.half() == port && fields.0 == address_bytes(from);
        if !is_for_this_peer {
            return Judgement::Bad;
        }
        let age = now.saturating_duration_since(self.opened + baked);
        match age.checked_sub(LIFETIME) {
            Some(late) if late > Duration::ZERO => Judgement::Stale(made, late),
            _ => Judgement::Good(made),
        }
    }

    /// An association started from the cookie with this tag of ours: it is good for no second one.
    pub fn spend(&mut self, my_tag: u32, now: Instant) {
        self.used.retain(|(_, when)| now.saturating_duration_since(*when) <= LIFETIME);
        self.used.push((my_tag, now));
    }

    fn age(&self, now: Instant) -> u64 {
        now.saturating_duration_since(self.opened).as_millis() as u64
    }

    /// The key that signs, and the one before it.
    fn keys(&self) -> impl Iterator<Item = &Key> {
        [Some(&self.present), self.before.as_ref()].into_iter().flatten()
    }

    fn change_key(&mut self, now: Instant) {
        if now.saturating_duration_since(self.changed) >= KEY_LIFETIME {
            self.before = Some(self.present);
            self.present = self.source.key();
            self.changed = now;
        }
    }
}

/// What hides the tie-tags, which are the true tags of an association, from everybody who sees the cookie (RFC 9260 section 5.2.2).
fn mask(key: &Key, plain: &[u8]) -> u64 {
    Fields(&sign(key, &[b"tie", plain].concat())).double()
}

/// The address and its UDP port.
fn address_bytes(address: SocketAddr) -> [u8; 18] {
    let six = match address.ip() {
        IpAddr::V4(four) => four.to_ipv6_mapped(),
        IpAddr::V6(six) => six,
    };
    let mut bytes = [0; 18];
    let (host, port) = bytes.split_at_mut(16);
    host.copy_from_slice(&six.octets());
    port.copy_from_slice(&address.port().to_be_bytes());
    bytes
}

/// Reads fields from the head of a slice that has them.
struct Fields<'a>(&'a [u8]);

impl Fields<'_> {
    fn number(&mut self, length: usize) -> u64 {
        let (field, rest) = self.0.split_at(length);
        self.0 = rest;
        field.iter().fold(0, |number, byte| number << 8 | u64::from(*byte))
    }

    fn half(&mut self) -> u16 {
        self.number(2) as u16
    }

    fn word(&mut self) -> u32 {
        self.number(4) as u32
    }

    fn double(&mut self) -> u64 {
        self.number(8)
    }
}

#[cfg(test)]
mod tests {
    use super::*;

    const MADE: Made = Made {
        my_tag: 0x0102_0304,
        peer_tag: 0xfffe_fdfc,
        streams_in: 8,
        streams_out: 127,
        my_tsn: 4_294_967_196,
        peer_tsn: 7,
        window: 65_536,
        my_tie: 0,
        peer_tie: 0,
        options: 0,
    };

    fn peer() -> SocketAddr {
        SocketAddr::from(([192, 0, 2, 7], 9899))
    }

    fn jar(now: Instant) -> CookieJar {
        CookieJar::new([9; SIGNATURE], now)
    }

    #[test]
    fn a_fresh_cookie_is_good_and_fits_the_core() {
        let now = Instant::now();
        let cookie = jar(now).bake(MADE, peer(), 5001, now);
        assert!(cookie.len() <= 256);
        assert_eq!(jar(now).judge(&cookie, peer(), 5001, now + LIFETIME), Judgement::Good(MADE));
    }

    #[test]
    fn a_cookie_past_its_lifetime_is_stale_by_so_much() {
        let now = Instant::now();
        let mut jar = jar(now);
        let baked = now + Duration::from_secs(5);
        let cookie = jar.bake(MADE, peer(), 5001, baked);
        let late = Duration::from_millis(1500);
        assert_eq!(jar.judge(&cookie, peer(), 5001, baked + LIFETIME + late), Judgement::Stale(MADE, late));
    }

    #[test]
    fn any_changed_bit_makes_it_bad() {
        let now = Instant::now();
        let mut jar = jar(now);
        let cookie = jar.bake(MADE, peer(), 5001, now);
        for bit in 0..cookie.len() * 8 {
            let mut changed = cookie.clone();
            changed[bit / 8] ^= 1 << (bit % 8);
            assert_eq!(jar.judge(&changed, peer(), 5001, now), Judgement::Bad, "bit {}", bit);
        }
    }

    #[test]
    fn another_length_key_port_or_address_makes_it_bad() {
        let now = Instant::now();
        let mut jar = jar(now);
        let cookie = jar.bake(MADE, peer(), 5001, now);
        let stranger = SocketAddr::from(([192, 0, 2, 8], 9899));
        let neighbour = SocketAddr::from(([192, 0, 2, 7], 9898));
        assert_eq!(jar.judge(&cookie[1..], peer(), 5001, now), Judgement::Bad);
        assert_eq!(jar.judge(&[], peer(), 5001, now), Judgement::Bad);
        assert_eq!(jar.judge(&cookie, peer(), 5002, now), Judgement::Bad);
        assert_eq!(jar.judge(&cookie, stranger, 5001, now), Judgement::Bad);
        assert_eq!(jar.judge(&cookie, neighbour, 5001, now), Judgement::Bad);
        let other = CookieJar::new([8; SIGNATURE], now);
        assert_eq!(other.judge(&cookie, peer(), 5001, now), Judgement::Bad);
    }

    #[test]
    fn a_key_is_changed_and_the_one_before_still_known() {
        let start = Instant::now();
        let mut jar = jar(start);
        let mut baked = |since: Duration| {
            let now = start + since;
            let cookie = jar.bake(MADE, peer(), 5001, now);
            (now, cookie, jar.present)
        };
        let just_before = KEY_LIFETIME - Duration::from_millis(1);
        let (first, old, one) = baked(just_before);
        let (_, _, two) = baked(KEY_LIFETIME);
        let (_, _, same) = baked(KEY_LIFETIME + just_before);
        assert_ne!(one, two);
        assert_eq!(two, same);
        assert_eq!(jar.judge(&old, peer(), 5001, first + LIFETIME), Judgement::Good(MADE));
        let third = start + KEY_LIFETIME * 2;
        let new = jar.bake(MADE, peer(), 5001, third);
        assert_eq!(jar.judge(&old, peer(), 5001, third), Judgement::Bad);
        assert_eq!(jar.judge(&new, peer(), 5001, third), Judgement::Good(MADE));
    }

    #[test]
    fn ties_come_back_and_are_not_shown() {
        let now = Instant::now();
        let mut jar = jar(now);
        let tied = Made { my_tie: 0x5151_5151, peer_tie: 0x6262_6262, ..MADE };
        let cookie = jar.bake(tied, peer(), 5001, now);
        assert_eq!(jar.judge(&cookie, peer(), 5001, now), Judgement::Good(tied));
        assert!(!cookie.windows(4).any(|four| four == [0x51; 4] || four == [0x62; 4]));
        // None at all is hidden as well.
        let untied = jar.bake(MADE, peer(), 5001, now);
        assert_ne!(untied[PLAIN..SIGNED], [0; TIES]);
        assert_ne!(untied[PLAIN..SIGNED], cookie[PLAIN..SIGNED]);
    }

    #[test]
    fn a_used_cookie_is_bad_and_forgotten_once_it_would_be_stale() {
        let now = Instant::now();
        let mut jar = jar(now);
        let cookie = jar.bake(MADE, peer(), 5001, now);
        jar.spend(MADE.my_tag, now);
        assert_eq!(jar.judge(&cookie, peer(), 5001, now), Judgement::Bad);
        assert_eq!(jar.judge_again(&cookie, peer(), 5001, now), Judgement::Good(MADE));
        let later = now + LIFETIME + Duration::from_millis(1);
        jar.spend(1, later);
        assert_eq!(jar.judge(&cookie, peer(), 5001, later), Judgement::Stale(MADE, Duration::from_millis(1)));
    }
}
