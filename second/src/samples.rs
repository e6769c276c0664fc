//! Fixed inputs, from small to the largest, on which programs are timed.

use crate::model::{not, on, Expr, Model, Rng, Word};
use crate::pattern::Four;

/// The sheet that the rules list as their example.
pub const EXAMPLE: [u8; 46] = [
    2, 0, 0, 5, 1, 1, 0, 1, 0, 1, 5, 0, 0, 0, 1, 1, 1, 3, 0, 0, 1, 0, 0, 0, 1, 1, 0, 1, 3, 5, 0, 0,
    3, 0, 0, 0, 1, 0, 1, 0, 0, 0, 0, 0, 2, 0,
];

/// The envelope of the walks.
pub const WALK: Four = Four {
    low: -20,
    high: 40,
    l: 8,
    n: 3,
};

/// A wide envelope, in which patterns can be irregular.
pub const WIDE: Four = Four {
    low: -2_000,
    high: 4_000,
    l: 8,
    n: 3,
};

fn bits(seed: usize, length: usize) -> Vec<u8> {
    (0..length)
        .map(|place| ((place * place + seed * place + seed) % 5 < 3) as u8)
        .collect()
}

/// 8 words, 24 clocks, 32 links.
pub fn typical() -> Vec<u8> {
    let mut model = Model::default();
    for index in 0..8 {
        model.words.push(Word {
            prefix: bits(index, index),
            period: [vec![1, 0], bits(index + 3, 6)].concat(),
        });
    }
    for index in 0..24 {
        let word = Expr::Word(index % 8);
        let wide = index as i64;
        let declared = Expr::Declared([-wide, 3 * wide + 9, 10, 6]);
        let expr = match index % 6 {
            0 => word,
            1 => declared,
            2 => on(word, declared),
            3 => not(declared),
            4 => on(Expr::Earlier(index - 1), Expr::Declared([0, 4, 2, 1])),
            _ => on(not(not(word)), on(declared, Expr::Word(0))),
        };
        model.clocks.push(((index % 5 == 4) as u8, expr));
    }
    model.links = (0..32)
        .map(|index| ((index * 7) % 24, (index * 7 + 6) % 24))
        .collect();
    model.write().bytes
}

/// The `on` of so many declared nodes, split in halves; all in all the rate is l/n = hi/lo.
fn halves(lo: i64, hi: i64) -> Expr {
    if hi - lo == 1 {
        return Expr::Declared([-3 * hi, 5 * hi + 1, 2 * hi, 2 * lo]);
    }
    let middle = (lo + hi) / 2;
    on(halves(lo, middle), halves(middle, hi))
}

/// So many clocks, at most 128; half as many words of 128 bits, twice as many links.
pub fn scaled(clocks: usize) -> Vec<u8> {
    let mut model = Model::default();
    for index in 0..clocks / 2 {
        model.words.push(Word {
            prefix: bits(index, 64),
            period: bits(index + 7, 64),
        });
    }
    for index in 0..clocks {
        let mut expr = halves(2, 12);
        for _ in 0..if index < 61 { 4 } else { 2 } {
            expr = not(expr);
        }
        model.clocks.push(((index % 3 == 2) as u8, expr));
    }
    model.links = (0..2 * clocks)
        .map(|index| (index % clocks, index / 2))
        .collect();
    model.write().bytes
}

/// 64 words, 128 clocks, 256 links in 32,768 bytes.
pub fn full() -> Vec<u8> {
    scaled(128)
}

/// A pattern whose successor differs from its first bit on.
pub fn turned_at_once(length: usize) -> Vec<u8> {
    let mut pattern = vec![0; length];
    let (mut i, mut j) = (1, 0);
    for bit in &mut pattern[1..] {
        let at = WALK.n as i64 * i - WALK.l as i64 * j;
        *bit = (at >= WALK.low) as u8;
        i += 1;
        j += *bit as i64;
    }
    pattern
}

/// A pattern in the wide envelope without a rule.
pub fn irregular(length: usize) -> Vec<u8> {
    let mut rng = Rng::new(1);
    let mut at = 0;
    (0..length)
        .map(|_| {
            let wanted = rng.below(WIDE.l as usize) < WIDE.n as usize;
            let one = (wanted && at >= WIDE.low) || at + WIDE.n as i64 > WIDE.high;
            at += WIDE.n as i64 - if one { WIDE.l as i64 } else { 0 };
            one as u8
        })
        .collect()
}
