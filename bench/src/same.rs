//! `check` written in Rust the way the proved library does it.

use second::envelope::{gcd, EDGE_MAX, RATE_MAX};
use second::pattern::{check as bit_by_bit, Four, PATTERN_MAX};
use second::sheet::{refuse, Refusal};

fn is_taken(four: &Four) -> bool {
    let Four { low, high, l, n } = *four;
    (-EDGE_MAX..=EDGE_MAX).contains(&low)
        && (0..=EDGE_MAX).contains(&high)
        && l <= RATE_MAX as u64
        && (1..=l).contains(&n)
        && high - low >= n as i64 - 1
        && gcd(l as i64, n as i64) == 1
        && !(l == 1 && low < 0)
}

/// Whether every step may be taken: one test a bit, of a number that wraps below the floor.
fn sweep(four: &Four, pattern: &[u8]) -> bool {
    let Four { low, high, l, n } = *four;
    let from = pattern.iter().take_while(|&&bit| bit == 0).count();
    let floor = low + n as i64 - l as i64;
    let start = (n * from as u64) as i64;
    if start < floor || start > high {
        return false;
    }
    let room = (high - floor) as u64;
    let mut x = (start - floor) as u64;
    for &bit in &pattern[from..] {
        x = (x + n).wrapping_sub(l * bit as u64);
        if x > room {
            return false;
        }
    }
    true
}

pub fn check(four: &Four, pattern: &[u8]) -> Result<(), Refusal> {
    if !is_taken(four) {
        return refuse(12, 0);
    }
    if pattern.len() > PATTERN_MAX {
        return refuse(13, 0);
    }
    let bits = pattern.iter().fold(0, |all, &bit| all | bit) <= 1;
    if bits && sweep(four, pattern) {
        return Ok(());
    }
    bit_by_bit(four, pattern)
}
