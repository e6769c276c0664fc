//! Random cases for patterns.

use crate::cases::{aim, Aim};
use crate::envelope::{gcd, EDGE_MAX, RATE_MAX};
use crate::model::Rng;
use crate::pattern::{Four, PATTERN_MAX};
use crate::protocol::{Case, BYTES_MAX, LAST};

/// A check, first or next (4 to 6).
pub fn case(rng: &mut Rng, op: u8) -> (Case, Option<Aim>) {
    let mut four = taken(rng);
    let length = length(rng);
    let (mut bits, turn) = inside(rng, &four, length);
    let mut made = if length > PATTERN_MAX {
        aim("pattern too long", 13, 0)
    } else {
        match op {
            4 => aim("inside", 0, 0),
            5 => aim("first", 0, 0),
            _ if turn => aim("next", 0, 0),
            _ => aim("last", LAST, 0),
        }
    };
    if length > 0 && rng.chance(25) {
        let place = outside(rng, &four, &mut bits);
        if let (Some(place), true, true) = (place, length <= PATTERN_MAX, op != 5) {
            made = aim("outside", 15, place);
        }
    }
    if length > 0 && rng.chance(15) {
        let place = bad_bytes(rng, &mut bits);
        if length <= PATTERN_MAX && op != 5 {
            made = aim("byte not 0 or 1", 14, place);
        }
    }
    if rng.chance(15) {
        let name = spoil(rng, &mut four);
        made = aim(name, 12, 0);
    }
    let case = match op {
        4 => Case::Check(four, bits),
        5 => Case::First(four, bits),
        _ => Case::Next(four, bits),
    };
    (case, made)
}

fn length(rng: &mut Rng) -> usize {
    match rng.below(200) {
        0..=7 => 0,
        8..=15 => 1,
        16..=95 => 2 + rng.below(15),
        96..=125 => 64,
        126..=175 => 17 + rng.below(280),
        176..=183 => PATTERN_MAX,
        184..=187 => PATTERN_MAX - 1,
        188..=193 => PATTERN_MAX + 1,
        194..=195 => PATTERN_MAX + 1 + rng.below(BYTES_MAX - PATTERN_MAX),
        _ => 300 + rng.below(3000),
    }
}

/// A taken, normal envelope.
fn taken(rng: &mut Rng) -> Four {
    let (l_most, wide) = rng.pick(&[
        (1, 3),
        (3, 5),
        (8, 12),
        (12, 20),
        (12, 20),
        (60, 100),
        (5000, 20_000),
        (RATE_MAX, 10_000_000),
    ]);
    let mut l = rng.range(1, l_most);
    let mut n = match rng.below(5) {
        0 => l,
        1 => 1,
        2 => (l - 1).max(1),
        _ => rng.range(1, l),
    };
    let g = gcd(l, n);
    (l, n) = (l / g, n / g);
    if rng.chance(3) {
        l = RATE_MAX;
        n = rng.pick(&[1, 3, 999_999]);
    }
    let mut low = match rng.below(20) {
        0 => rng.pick(&[-EDGE_MAX, 1 - EDGE_MAX, EDGE_MAX - n + 1, EDGE_MAX - n]),
        1 => 0,
        2..=6 => rng.range(-wide, 0),
        _ => rng.range(-wide, wide),
    };
    let slack = match rng.below(10) {
        0..=1 => 0,
        2 => 1,
        3..=4 => rng.range(0, l),
        _ => rng.range(0, wide),
    };
    let mut high = ((low + n - 1).max(0) + slack).min(EDGE_MAX);
    if rng.chance(2) {
        (low, high) = (-EDGE_MAX, EDGE_MAX);
    }
    if l == 1 {
        low = low.max(0);
    }
    Four {
        low,
        high,
        l: l as u64,
        n: n as u64,
    }
}

/// Turns a taken envelope into four numbers that are none.
fn spoil(rng: &mut Rng, four: &mut Four) -> &'static str {
    let some = rng.next();
    match rng.below(10) {
        0 => {
            let most = RATE_MAX as u64 / four.l;
            if most < 2 {
                four.l = 10;
                four.n = 4;
            } else {
                let g = 2 + rng.next() % (most - 1).min(20);
                four.l *= g;
                four.n *= g;
            }
            // room enough for those too
            four.low = -EDGE_MAX;
            "common factor"
        }
        1 => {
            let n = four.n as i64;
            let less = rng.pick(&[0, 0, 0, 1, 7]);
            four.low = (four.high - n + 2 + less).min(EDGE_MAX);
            if four.high - four.low >= n - 1 {
                (four.low, four.high) = (EDGE_MAX, EDGE_MAX - 1);
                (four.l, four.n) = (1, 1);
            }
            "no room"
        }
        2 => {
            four.low = rng.pick(&[-EDGE_MAX - 1, i64::MIN, i64::MIN + 1, -(1 << 32)]);
            "k too low"
        }
        3 => {
            four.low = rng.pick(&[EDGE_MAX + 1, i64::MAX, 1 << 32, i64::MAX - 1]);
            "k too high"
        }
        4 => {
            let some = -((some >> 1) as i64) - 1;
            four.high = rng.pick(&[-1, i64::MIN, i64::MIN + 1, some]);
            "K below 0"
        }
        5 => {
            four.high = rng.pick(&[EDGE_MAX + 1, i64::MAX, 1 << 40]);
            "K too high"
        }
        6 => {
            four.l = rng.pick(&[0, RATE_MAX as u64 + 1, u64::MAX, 1 << 63, 1 << 32]);
            "l beyond"
        }
        7 => {
            four.n = 0;
            "n of 0"
        }
        8 => {
            (four.l, four.n) = (1, 1);
            four.low = rng.pick(&[-1, -2, -99, -EDGE_MAX]);
            "k below 0 at rate one"
        }
        _ => {
            let wrapped = (1 << 32) + four.n;
            four.n = rng.pick(&[four.l + 1, u64::MAX, 1 << 63, wrapped]);
            "n above l"
        }
    }
}

/// A pattern inside the envelope, and whether it has a 0 where a 1 may stand.
fn inside(rng: &mut Rng, four: &Four, length: usize) -> (Vec<u8>, bool) {
    let bias = rng.pick(&[0, 10, 30, 50, 50, 80]);
    // from some place on the largest bits that may follow
    let turn_from = match rng.below(16) {
        0..=4 => rng.below(length + 1),
        5 => 0,
        _ => length,
    };
    let (low, high) = (four.low as i128, four.high as i128);
    let (l, n) = (four.l as i128, four.n as i128);
    let (mut i, mut j) = (0, 0);
    let mut turn = false;
    let mut bits = Vec::with_capacity(length);
    for place in 0..length {
        let one = l * j + low <= n * i && n * i <= l * j + high;
        let zero = n * (i + 1) <= l * j + high;
        assert!(one || zero, "every inside pattern goes on");
        let bit = if one && zero {
            place >= turn_from || rng.chance(bias)
        } else {
            one
        };
        turn |= one && !bit;
        bits.push(bit as u8);
        i += 1;
        j += bit as i128;
    }
    (bits, turn)
}

/// Turns one step of an inside pattern into a forbidden one, where some place has one.
fn outside(rng: &mut Rng, four: &Four, bits: &mut [u8]) -> Option<usize> {
    let (low, high) = (four.low as i128, four.high as i128);
    let (l, n) = (four.l as i128, four.n as i128);
    let wanted = match rng.below(4) {
        0 => 0,
        1 => bits.len() - 1,
        _ => rng.below(bits.len()),
    };
    let mut found = None;
    let mut j = 0;
    for (i, &bit) in bits.iter().enumerate() {
        let at = n * i as i128;
        let one = l * j + low <= at && at <= l * j + high;
        let zero = at + n <= l * j + high;
        if one != zero {
            found = Some((i, zero as u8));
            if i >= wanted {
                break;
            }
        }
        j += bit as i128;
    }
    let (place, bit) = found?;
    bits[place] = bit;
    // what follows may be anything
    if rng.chance(50) {
        for bit in &mut bits[place + 1..] {
            *bit = rng.below(2) as u8;
        }
    }
    Some(place)
}

/// Puts one to three bytes above 1; gives the place of the first.
fn bad_bytes(rng: &mut Rng, bits: &mut [u8]) -> usize {
    let mut first = usize::MAX;
    for _ in 0..1 + rng.below(3) {
        let place = match rng.below(4) {
            0 => bits.len() - 1,
            _ => rng.below(bits.len()),
        };
        let some = 2 + rng.below(254) as u8;
        bits[place] = rng.pick(&[2, 3, 255, some]);
        first = first.min(place);
    }
    first
}
