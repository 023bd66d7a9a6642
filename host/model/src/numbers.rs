//! "Two circles": the signed distance on a circle of size n, and its two instances.

use std::cmp::Ordering;

/// "the one whole number between -(N/2 - 1) and N/2 - 1 that is congruent to b - a"; none where it is opposite.
fn distance(n: i64, a: i64, b: i64) -> Option<i64> {
    let d = (b - a).rem_euclid(n);
    match d.cmp(&(n / 2)) {
        Ordering::Equal => None,
        Ordering::Less => Some(d),
        Ordering::Greater => Some(d - n),
    }
}

/// On the circle of TSNs.
pub fn tsn_distance(a: u32, b: u32) -> Option<i64> {
    distance(1 << 32, i64::from(a), i64::from(b))
}

/// On the circle of SSNs.
pub fn ssn_distance(a: u16, b: u16) -> Option<i64> {
    distance(1 << 16, i64::from(a), i64::from(b))
}

/// How far b is ahead of a; 0 where it is at a, behind it or opposite.
pub fn ahead(a: u32, b: u32) -> i64 {
    tsn_distance(a, b).map_or(0, |d| d.max(0))
}

/// The take order: "first TSN, minus the point plus 2,147,483,648, modulo 2^32".
pub fn take_key(point: u32, tsn: u32) -> u32 {
    tsn.wrapping_sub(point).wrapping_add(1 << 31)
}
