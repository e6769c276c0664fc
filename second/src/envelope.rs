//! Envelopes and verdicts.

/// The largest l (and n).
pub const RATE_MAX: i64 = 1_000_000;
/// The largest k and K; the smallest k is its opposite.
pub const EDGE_MAX: i64 = 1_000_000_000;

/// a / b toward minus infinity, for b above 0.
pub fn div_down(a: i64, b: i64) -> i64 {
    a / b - (a % b < 0) as i64
}

/// a / b toward plus infinity, for b above 0.
pub fn div_up(a: i64, b: i64) -> i64 {
    a / b + (a % b > 0) as i64
}

pub fn gcd(a: i64, b: i64) -> i64 {
    let (mut a, mut b) = (a as u64, b as u64);
    while b != 0 {
        (a, b) = (b, a % b);
    }
    a as i64
}

/// k, K, l, n of a taken, normal envelope; all of them fit 32 bits.
#[derive(Clone, Copy, Debug, Default, PartialEq, Eq)]
pub struct Envelope {
    pub low: i32,
    pub high: i32,
    pub l: i32,
    pub n: i32,
}

impl Envelope {
    /// No stream of rate one starts before position 0, so a lower edge below 0 is raised there.
    pub fn new(low: i64, high: i64, l: i64, n: i64) -> Envelope {
        let low = if l == 1 && n == 1 { low.max(0) } else { low };
        let (low, high, l, n) = (low as i32, high as i32, l as i32, n as i32);
        Envelope { low, high, l, n }
    }

    /// The four numbers k, K, l, n.
    pub fn four(self) -> [i64; 4] {
        [
            self.low as i64,
            self.high as i64,
            self.l as i64,
            self.n as i64,
        ]
    }

    /// The envelope of prefix and period; none where the period has no 1.
    pub fn word(prefix: &[u8], period: &[u8]) -> Option<Envelope> {
        let ones: i64 = period.iter().map(|&bit| bit as i64).sum();
        if ones == 0 {
            return None;
        }
        let g = gcd(period.len() as i64, ones);
        let (l, n) = (period.len() as i64 / g, ones / g);
        // at is n*p - l*j, with p bits and j 1s behind
        let (mut low, mut high, mut at) = (i64::MAX, i64::MIN, 0);
        for &bit in prefix.iter().chain(period) {
            if bit == 1 {
                low = low.min(at);
                high = high.max(at);
                at -= l;
            }
            at += n;
        }
        Some(Envelope::new(low, high, l, n))
    }

    /// Four numbers within their limits, made normal; none where no stream lies there.
    pub fn declared(low: i64, high: i64, l: i64, n: i64) -> Option<Envelope> {
        let g = gcd(l, n);
        let (low, high, l, n) = (div_up(low, g), div_down(high, g), l / g, n / g);
        (high - low >= n - 1).then(|| Envelope::new(low, high, l, n))
    }

    /// The envelope of `not`, or 8 or 9.
    pub fn not(self) -> Result<Envelope, u8> {
        let [low, high, l, n] = self.four();
        if l == n {
            return Err(8);
        }
        Envelope::limited(n - high, (l - n - low).max(0), l, l - n)
    }

    /// The envelope of `self on other`, or 9.
    pub fn on(self, other: Envelope) -> Result<Envelope, u8> {
        let [low1, high1, l1, n1] = self.four();
        let [low2, high2, l2, n2] = other.four();
        let g = gcd(l1 * l2, n1 * n2);
        let low = div_up(low1 * n2 + low2 * l1, g);
        let high = div_down(high1 * n2 + high2 * l1, g);
        Envelope::limited(low, high, l1 * l2 / g, n1 * n2 / g)
    }

    fn limited(low: i64, high: i64, l: i64, n: i64) -> Result<Envelope, u8> {
        let fits = (-EDGE_MAX..=EDGE_MAX).contains(&low)
            && (0..=EDGE_MAX).contains(&high)
            && (1..=RATE_MAX).contains(&l);
        if fits {
            Ok(Envelope::new(low, high, l, n))
        } else {
            Err(9)
        }
    }
}

#[derive(Clone, Copy, Debug, PartialEq, Eq)]
pub enum Verdict {
    Accepted(i64),
    Rates,
    Early,
}

impl Verdict {
    pub fn judge(producer: Envelope, consumer: Envelope) -> Verdict {
        let [low1, high1, l, n] = producer.four();
        let [low2, high2, l2, n2] = consumer.four();
        if l != l2 || n != n2 {
            Verdict::Rates
        } else if high1 - low2 > n - 1 {
            Verdict::Early
        } else {
            Verdict::Accepted(div_up(high2 - (n - 1) - low1, l))
        }
    }

    /// Its number and its size.
    pub fn numbers(self) -> (i64, i64) {
        match self {
            Verdict::Accepted(size) => (0, size),
            Verdict::Rates => (1, 0),
            Verdict::Early => (2, 0),
        }
    }
}
