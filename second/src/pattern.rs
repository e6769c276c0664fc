//! Patterns: check, first and next.

use crate::envelope::{gcd, EDGE_MAX, RATE_MAX};
use crate::sheet::{refuse, Refusal};

pub const PATTERN_MAX: usize = 4_096;

/// Any four numbers, as they are handed in.
#[derive(Clone, Copy, Debug, PartialEq, Eq)]
pub struct Four {
    pub low: i64,
    pub high: i64,
    pub l: u64,
    pub n: u64,
}

/// Four numbers that are a taken, normal envelope.
#[derive(Clone, Copy)]
struct Taken {
    low: i64,
    high: i64,
    l: i64,
    n: i64,
}

impl Four {
    fn taken(&self) -> Result<Taken, Refusal> {
        let Four { low, high, l, n } = *self;
        let limits = 1 <= n
            && n <= l
            && l <= RATE_MAX as u64
            && (-EDGE_MAX..=EDGE_MAX).contains(&low)
            && (0..=EDGE_MAX).contains(&high);
        if !limits {
            return refuse(12, 0);
        }
        let (l, n) = (l as i64, n as i64);
        // the 1 with j 1s before it stands at j or later
        let too_low = l == 1 && low < 0;
        if gcd(l, n) != 1 || high - low < n - 1 || too_low {
            return refuse(12, 0);
        }
        Ok(Taken { low, high, l, n })
    }
}

impl Taken {
    /// Walks the whole pattern: 15, or the last place where a 1 may stand instead of its 0,
    /// with n*i - l*j there.
    #[inline]
    fn walk(&self, pattern: &[u8]) -> Result<Option<(usize, i64)>, Refusal> {
        // at is n*i - l*j, with i bits and j 1s behind. It is never above K: it starts at 0,
        // a 0 is tested before it is taken, and a 1 doesn't raise it. So the upper half of
        // the test for a 1 always holds.
        let mut at = 0;
        let (mut turn, mut turn_at) = (usize::MAX, 0);
        let zero_most = self.high - self.n;
        for (i, &bit) in pattern.iter().enumerate() {
            let one = bit == 1;
            let one_may = at >= self.low;
            let may = if one { one_may } else { at <= zero_most };
            if !may {
                return refuse(15, i);
            }
            if one_may & !one {
                (turn, turn_at) = (i, at);
            }
            at += if one { self.n - self.l } else { self.n };
        }
        Ok((turn != usize::MAX).then_some((turn, turn_at)))
    }

    /// Fills with the smallest bits that may follow.
    #[inline]
    fn fill(&self, mut at: i64, bits: &mut [u8]) {
        let zero_most = self.high - self.n;
        for bit in bits {
            let one = at > zero_most;
            *bit = one as u8;
            let (after_one, after_zero) = (at + (self.n - self.l), at + self.n);
            at = if one { after_one } else { after_zero };
        }
    }
}

fn length(pattern: &[u8]) -> Result<(), Refusal> {
    if pattern.len() > PATTERN_MAX {
        return refuse(13, 0);
    }
    Ok(())
}

fn bits(pattern: &[u8]) -> Result<(), Refusal> {
    if pattern.iter().fold(0, |all, &bit| all | bit) > 1 {
        for (place, &bit) in pattern.iter().enumerate() {
            if bit > 1 {
                return refuse(14, place);
            }
        }
    }
    Ok(())
}

/// Whether the pattern is inside: refusals 12 to 15.
pub fn check(four: &Four, pattern: &[u8]) -> Result<(), Refusal> {
    let taken = four.taken()?;
    length(pattern)?;
    bits(pattern)?;
    taken.walk(pattern)?;
    Ok(())
}

/// Fills the lent bytes with the first pattern: refusals 12 and 13.
pub fn first(four: &Four, pattern: &mut [u8]) -> Result<(), Refusal> {
    let taken = four.taken()?;
    length(pattern)?;
    taken.fill(0, pattern);
    Ok(())
}

/// Turns the pattern into its successor; false where it is the last: refusals 12 to 15.
pub fn next(four: &Four, pattern: &mut [u8]) -> Result<bool, Refusal> {
    let taken = four.taken()?;
    length(pattern)?;
    bits(pattern)?;
    let Some((place, at)) = taken.walk(pattern)? else {
        return Ok(false);
    };
    pattern[place] = 1;
    taken.fill(at + taken.n - taken.l, &mut pattern[place + 1..]);
    Ok(true)
}
