//! Random valid sheets.

use crate::envelope::{gcd, Envelope, Verdict, EDGE_MAX, RATE_MAX};
use crate::model::{not, on, Expr, Model, Rng, Word};
use crate::sheet::{CLOCKS_MAX, LINKS_MAX, SHEET_MAX, WORDS_MAX};

#[derive(Clone, Copy, PartialEq, Eq)]
pub enum Scale {
    Small,
    Medium,
    Large,
    /// Up to 32,768 bytes.
    Full,
}

/// Makes valid sheets.
pub struct Maker<'r> {
    pub rng: &'r mut Rng,
    pub model: Model,
    word_envelopes: Vec<Envelope>,
    clock_envelopes: Vec<Envelope>,
    /// Words from here on are named by no clock.
    spare_from: usize,
    rates: Vec<(i64, i64)>,
    /// How many nodes the expression may still get.
    nodes: usize,
}

impl<'r> Maker<'r> {
    pub fn new(rng: &'r mut Rng) -> Maker<'r> {
        let mut rates = Vec::new();
        let flavour = rng.below(10);
        for _ in 0..1 + rng.below(3) {
            let most = [1, 2, 4, 6, 8, 12, 12, 12, 20, 64][flavour];
            let l = rng.range(1, most);
            let n = rng.range(1, l);
            let g = gcd(l, n);
            rates.push((l / g, n / g));
        }
        Maker {
            rng,
            model: Model::default(),
            word_envelopes: Vec::new(),
            clock_envelopes: Vec::new(),
            spare_from: usize::MAX,
            rates,
            nodes: 0,
        }
    }

    /// A valid sheet; at `least_one`, with a word, a clock and a link.
    pub fn make(mut self, scale: Scale, least_one: bool) -> Model {
        let least = least_one as i64;
        let rng = &mut *self.rng;
        let (words, clocks, links) = match scale {
            Scale::Small => (
                rng.range(least, 3),
                rng.range(least, 5),
                rng.range(least, 5),
            ),
            Scale::Medium => (
                rng.range(least, 8),
                rng.range(least, 24),
                rng.range(least, 40),
            ),
            Scale::Large => (
                rng.range(least, WORDS_MAX as i64),
                rng.range(least, CLOCKS_MAX as i64),
                rng.range(least, LINKS_MAX as i64),
            ),
            Scale::Full => (WORDS_MAX as i64, CLOCKS_MAX as i64, LINKS_MAX as i64),
        };
        if scale == Scale::Full {
            self.spare_from = WORDS_MAX - 16;
        }
        for _ in 0..words {
            self.word(scale);
        }
        for own in 0..clocks {
            let last = scale == Scale::Full && own + 1 == clocks;
            let (expr, envelope) = if last {
                self.last_of_full()
            } else {
                self.nodes = match scale {
                    Scale::Small | Scale::Medium => 1 << self.rng.below(5),
                    Scale::Large => 1 << self.rng.below(6),
                    Scale::Full => 24,
                };
                self.outermost()
            };
            let state = self.rng.chance(30) as u8;
            self.model.clocks.push((state, expr));
            self.clock_envelopes.push(envelope);
        }
        if clocks > 0 {
            for _ in 0..links {
                let link = self.link();
                self.model.links.push(link);
            }
        }
        if scale == Scale::Full {
            self.pad();
        }
        self.model
    }

    fn word(&mut self, scale: Scale) {
        let rng = &mut *self.rng;
        let spare = self.word_envelopes.len() >= self.spare_from;
        let most = if rng.chance(10) { 64 } else { 8 };
        let prefix = match rng.below(4) {
            _ if spare => 0,
            0 => 0,
            1 if scale == Scale::Full || rng.chance(20) => 64,
            _ => rng.range(0, most),
        };
        let bias = rng.pick(&[5, 20, 50, 50, 80, 95, 100]);
        let prefix: Vec<u8> = (0..prefix).map(|_| rng.chance(bias) as u8).collect();
        let mut period = if rng.chance(60) {
            // a rate of this sheet, a few times over
            let (l, n) = rng.pick(&self.rates);
            let times = rng.range(1, (64 / l).min(4));
            let mut period = vec![0; (l * times) as usize];
            let mut left = n * times;
            while left > 0 {
                let place = rng.below(period.len());
                left -= 1 - period[place] as i64;
                period[place] = 1;
            }
            period
        } else {
            let length = if scale == Scale::Full && rng.chance(50) {
                64
            } else {
                rng.range(1, most)
            };
            (0..length).map(|_| rng.chance(bias) as u8).collect()
        };
        if !period.contains(&1) {
            let place = rng.below(period.len());
            period[place] = 1;
        }
        let envelope = Envelope::word(&prefix, &period).expect("a period with a 1");
        self.word_envelopes.push(envelope);
        self.model.words.push(Word { prefix, period });
    }

    fn outermost(&mut self) -> (Expr, Envelope) {
        match self.rng.below(20) {
            0 => self.spine(12),
            1 => {
                let depth = 2 + self.rng.below(11);
                self.spine(depth)
            }
            2 => {
                let (expr, envelope) = self.edge_node(false);
                (expr, envelope.expect("a node at the limits"))
            }
            _ => {
                let depth = 1 + self.rng.below(12);
                self.expression(depth)
            }
        }
    }

    /// An expression of at most that depth.
    fn expression(&mut self, depth: usize) -> (Expr, Envelope) {
        if depth == 1 || self.nodes == 0 || self.rng.chance(15) {
            return self.leaf();
        }
        self.nodes -= 1;
        let (expr, envelope) = self.expression(depth - 1);
        if self.rng.chance(35) {
            return match envelope.not() {
                Ok(turned) => (not(expr), turned),
                Err(_) => (expr, envelope),
            };
        }
        let (right, other) = self.expression(depth - 1);
        match envelope.on(other) {
            Ok(both) => (on(expr, right), both),
            Err(_) => (right, other),
        }
    }

    /// An expression of exactly that depth.
    fn spine(&mut self, depth: usize) -> (Expr, Envelope) {
        let (mut expr, mut envelope) = self.leaf();
        for _ in 1..depth {
            if self.rng.chance(50) {
                if let Ok(turned) = envelope.not() {
                    (expr, envelope) = (not(expr), turned);
                    continue;
                }
            }
            let (side, other) = self.leaf();
            if self.rng.chance(50) {
                if let Ok(both) = envelope.on(other) {
                    (expr, envelope) = (on(expr, side), both);
                    continue;
                }
            } else if let Ok(both) = other.on(envelope) {
                (expr, envelope) = (on(side, expr), both);
                continue;
            }
            // rate one without slack changes nothing
            expr = on(Expr::Declared([0, 0, 1, 1]), expr);
        }
        (expr, envelope)
    }

    pub fn leaf(&mut self) -> (Expr, Envelope) {
        let words = self.word_envelopes.len().min(self.spare_from);
        let clocks = self.clock_envelopes.len();
        match self.rng.below(10) {
            0..=3 if words > 0 => {
                let index = self.rng.below(words);
                (Expr::Word(index), self.word_envelopes[index])
            }
            4..=5 if clocks > 0 => {
                let index = self.rng.below(clocks);
                (Expr::Earlier(index), self.clock_envelopes[index])
            }
            _ => self.declared(),
        }
    }

    fn declared(&mut self) -> (Expr, Envelope) {
        let four = if self.rng.chance(12) {
            self.extreme()
        } else {
            self.near()
        };
        let [low, high, l, n] = four;
        let envelope = Envelope::declared(low, high, l, n).expect("a declared envelope with room");
        (Expr::Declared(four), envelope)
    }

    fn extreme(&mut self) -> [i64; 4] {
        let rng = &mut *self.rng;
        let some = rng.range(1, RATE_MAX);
        let l = rng.pick(&[1, 2, 3, 999_983, 999_999, RATE_MAX, RATE_MAX, some]);
        let some = rng.range(1, l);
        let n = rng.pick(&[1, l, (l - 1).max(1), some]);
        let some = rng.range(-EDGE_MAX, EDGE_MAX);
        let high = rng.pick(&[0, 1, n, EDGE_MAX, EDGE_MAX - 1, some.abs()]);
        let low = rng.pick(&[-EDGE_MAX, 1 - EDGE_MAX, -1, 0, 1, high, high - n + 1, some]);
        match Envelope::declared(low, high, l, n) {
            Some(_) => [low, high, l, n],
            None if rng.chance(50) && Envelope::declared(EDGE_MAX, EDGE_MAX, l, n).is_some() => {
                [EDGE_MAX, EDGE_MAX, l, n]
            }
            None => [-EDGE_MAX, high, l, n],
        }
    }

    /// Small edges, often at those of an earlier clock, with remainders to be rounded off.
    fn near(&mut self) -> [i64; 4] {
        let (l, n) = self.rng.pick(&self.rates);
        let wide = self.rng.pick(&[3, 10, 10, 40, 2000]);
        let mut low = self.rng.range(-wide, wide);
        if self.rng.chance(40) && !self.clock_envelopes.is_empty() {
            let [before_low, before_high, l2, n2] = self.rng.pick(&self.clock_envelopes).four();
            if (l, n) == (l2, n2) {
                let edge = self.rng.pick(&[before_low, before_high - (n - 1)]);
                low = (edge + self.rng.range(-1, 1)).clamp(-EDGE_MAX, EDGE_MAX - n);
            }
        }
        let slack = if self.rng.chance(50) {
            0
        } else {
            self.rng.range(0, wide)
        };
        let high = ((low + n - 1).max(0) + slack).min(EDGE_MAX);
        let g = self.rng.pick(&[1, 1, 1, 2, 3, 4, 7, 60]);
        let raw_low = low * g - self.rng.range(0, g - 1);
        let raw_high = high * g + self.rng.range(0, g - 1);
        if raw_low.abs() > EDGE_MAX || raw_high > EDGE_MAX || l * g > RATE_MAX {
            return [low, high, l, n];
        }
        [raw_low, raw_high, l * g, n * g]
    }

    /// A `not` or `on` whose result just keeps the limits, or just passes them (9).
    pub fn edge_node(&mut self, beyond: bool) -> (Expr, Option<Envelope>) {
        let rng = &mut *self.rng;
        let extra = if beyond {
            rng.pick(&[1, 1, 2, 5000])
        } else {
            0
        };
        let part = rng.range(5000, EDGE_MAX - 1);
        let rest = EDGE_MAX - part + extra;
        let swap = rng.chance(50);
        let (a, b) = match rng.below(6) {
            0 => ([0, part, 1, 1], Some([0, rest, 1, 1])),
            1 => {
                // k1 + 2*k2; at rate one no k is below 0
                let first = [-part - rest % 2, 0, 2, 1];
                let second = [-(rest / 2), 9, 2, 1];
                if swap {
                    (second, Some(first))
                } else {
                    (first, Some(second))
                }
            }
            2 => ([part, part, 1, 1], Some([rest, rest, 1, 1])),
            3 => {
                // l at 1,000,000 or beyond, also after a division
                let (l1, l2, n1) = if beyond {
                    rng.pick(&[
                        (101, 9901, 1),
                        (101, 9901, 100),
                        (1000, 7000, 999),
                        (500_000, 42, 3),
                        (RATE_MAX, 2, 1),
                        (RATE_MAX, RATE_MAX, 1),
                    ])
                } else {
                    rng.pick(&[
                        (1000, 1000, 1),
                        (1000, 1000, 999),
                        (500_000, 6, 3),
                        (250_000, 4, 1),
                    ])
                };
                let n2 = 1;
                (
                    [-rng.range(0, 9), n1, l1, n1],
                    Some([-rng.range(0, 9), rng.range(0, 9), l2, n2]),
                )
            }
            _ => {
                let n = rng.range(1, 7);
                let l = n + rng.range(1, 7);
                let g = gcd(l, n);
                let (l, n) = (l / g, n / g);
                let low = (l - n - EDGE_MAX - extra).max(-EDGE_MAX);
                ([low, rng.range(0, 99), l, n], None)
            }
        };
        let taken = |four: [i64; 4]| {
            let [low, high, l, n] = four;
            Envelope::declared(low, high, l, n).expect("a declared envelope with room")
        };
        match b {
            None => (not(Expr::Declared(a)), taken(a).not().ok()),
            Some(b) => {
                let (a, b) = if swap { (b, a) } else { (a, b) };
                let expr = on(Expr::Declared(a), Expr::Declared(b));
                (expr, taken(a).on(taken(b)).ok())
            }
        }
    }

    fn link(&mut self) -> (usize, usize) {
        let count = self.clock_envelopes.len();
        let wanted = self.rng.below(4);
        let mut link = (0, 0);
        for _ in 0..12 {
            link = (self.rng.below(count), self.rng.below(count));
            let (a, b) = (self.clock_envelopes[link.0], self.clock_envelopes[link.1]);
            match Verdict::judge(a, b) {
                Verdict::Accepted(1..) => break,
                Verdict::Accepted(_) if wanted < 3 => break,
                Verdict::Early if wanted < 2 => break,
                Verdict::Rates if wanted == 0 => break,
                _ => {}
            }
        }
        link
    }

    /// The last clock of a full sheet takes most of the bytes that are left.
    fn last_of_full(&mut self) -> (Expr, Envelope) {
        let used = self.model.write().bytes.len() + 1 + 4 * LINKS_MAX;
        let mut left = SHEET_MAX.saturating_sub(used + 300);
        self.rate_one(12, &mut left)
    }

    fn rate_one(&mut self, depth: usize, left: &mut usize) -> (Expr, Envelope) {
        if depth > 1 && *left > 40 {
            *left -= 1;
            let (a, first) = self.rate_one(depth - 1, left);
            let (b, second) = self.rate_one(depth - 1, left);
            let both = first.on(second).expect("small edges");
            return (on(a, b), both);
        }
        *left = left.saturating_sub(17);
        let low = self.rng.range(-99, 99);
        let high = low.max(0) + self.rng.range(0, 99);
        let expr = Expr::Declared([low, high, 1, 1]);
        (expr, Envelope::new(low, high, 1, 1))
    }

    /// Lengthens the words that no clock names until the sheet has 32,768 bytes.
    fn pad(&mut self) {
        let length = self.model.write().bytes.len();
        let mut left = SHEET_MAX.saturating_sub(length);
        if self.rng.chance(30) {
            left = left.saturating_sub(1 + self.rng.below(3));
        }
        for word in &mut self.model.words[self.spare_from..] {
            while left > 0 && word.prefix.len() < 64 {
                word.prefix.push(self.rng.below(2) as u8);
                left -= 1;
            }
        }
    }
}
