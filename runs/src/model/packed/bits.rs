//! The rules on a site's byte: bit k is 1 where member k is +1. No spin is made of it.
use calls::Mode;

/// The bits of all members.
pub fn all(members: usize) -> u8 {
    0xff >> (8 - members)
}

/// The first bit of each pair; an odd last member is in none.
fn firsts(members: usize) -> u8 {
    0b0101_0101 & all(members / 2 * 2)
}

/// The pairs whose two bits differ, at their first bits.
fn unlike(byte: u8, members: usize) -> u8 {
    (byte ^ byte >> 1) & firsts(members)
}

/// A pattern of gperm is the reference site's byte, of all other modes 0.
pub fn acts(mode: Mode, members: usize, byte: u8, pattern: u8) -> bool {
    let gauged = byte ^ pattern;
    match mode {
        Mode::Houd => 2 * byte.count_ones() as usize == members,
        Mode::Pair | Mode::Jorg => unlike(byte, members) != 0,
        Mode::Perm | Mode::Gperm => gauged != 0 && gauged != all(members),
        Mode::Cmr => true,
    }
}

/// Houd and blue negate every bit of a pair; pair and Jörg exchange the two, which changes those that differ.
pub fn flipped(mode: Mode, members: usize, byte: u8) -> u8 {
    let pairs = match mode {
        Mode::Houd | Mode::Cmr => firsts(members),
        _ => unlike(byte, members),
    };
    byte ^ (pairs | pairs << 1)
}

/// Bit k gets what bit p(k) was, in gperm of the gauged byte.
pub fn permuted(byte: u8, pattern: u8, p: &[u8]) -> u8 {
    let gauged = byte ^ pattern;
    let moved = p
        .iter()
        .enumerate()
        .fold(0, |moved, (k, from)| moved | (gauged >> from & 1) << k);
    moved ^ pattern
}

/// Jörg's sum over the pairs that differ at both ends: 1 where their first bits are equal there, else -1.
pub fn jorg_sum(members: usize, one: u8, other: u8) -> i64 {
    let both = unlike(one, members) & unlike(other, members);
    let opposite = both & (one ^ other);
    i64::from(both.count_ones()) - 2 * i64::from(opposite.count_ones())
}

/// Whether the overlap is the same at both ends.
pub fn same_overlap(one: u8, other: u8) -> bool {
    unlike(one, 2) == unlike(other, 2)
}

/// The product of member k's spins at both ends.
pub fn product(k: usize, one: u8, other: u8) -> i64 {
    match (one ^ other) >> k & 1 {
        0 => 1,
        _ => -1,
    }
}

/// Whether a bit from `members` upwards is set.
pub fn high(members: usize, byte: u8) -> bool {
    byte & !all(members) != 0
}
