//! Sheets as parts, written field by field; and the source of random numbers.

/// splitmix64.
pub struct Rng(u64);

impl Rng {
    pub fn new(seed: u64) -> Rng {
        Rng(seed)
    }

    pub fn next(&mut self) -> u64 {
        self.0 = self.0.wrapping_add(0x9E37_79B9_7F4A_7C15);
        let mut z = self.0;
        z = (z ^ (z >> 30)).wrapping_mul(0xBF58_476D_1CE4_E5B9);
        z = (z ^ (z >> 27)).wrapping_mul(0x94D0_49BB_1331_11EB);
        z ^ (z >> 31)
    }

    /// A number below `count`, which is above 0.
    pub fn below(&mut self, count: usize) -> usize {
        (self.next() % count as u64) as usize
    }

    /// A number from `least` to `most`.
    pub fn range(&mut self, least: i64, most: i64) -> i64 {
        let span = (most as i128 - least as i128 + 1) as u128;
        (least as i128 + (self.next() as u128 % span) as i128) as i64
    }

    pub fn chance(&mut self, percent: usize) -> bool {
        self.below(100) < percent
    }

    pub fn pick<T: Copy>(&mut self, from: &[T]) -> T {
        from[self.below(from.len())]
    }
}

pub struct Word {
    pub prefix: Vec<u8>,
    pub period: Vec<u8>,
}

pub enum Expr {
    Word(usize),
    Declared([i64; 4]),
    Not(Box<Expr>),
    On(Box<Expr>, Box<Expr>),
    Earlier(usize),
    /// The node whose tag's place is wanted.
    Marked(Box<Expr>),
}

pub fn not(part: Expr) -> Expr {
    Expr::Not(Box::new(part))
}

pub fn on(left: Expr, right: Expr) -> Expr {
    Expr::On(Box::new(left), Box::new(right))
}

pub fn marked(part: Expr) -> Expr {
    Expr::Marked(Box::new(part))
}

#[derive(Clone, Copy, PartialEq, Eq, Debug)]
pub enum Kind {
    WordCount,
    PrefixLength,
    PeriodLength,
    PrefixBit,
    PeriodBit,
    ClockCount,
    State,
    Tag,
    WordIndex,
    Low,
    High,
    L,
    N,
    ClockIndex,
    LinkCount,
    Producer,
    Consumer,
}

/// One field of a sheet; `bound` is how many things its index may name, and l for n.
#[derive(Clone, Copy)]
pub struct Field {
    pub kind: Kind,
    pub at: usize,
    pub width: usize,
    pub bound: i64,
}

#[derive(Default)]
pub struct Model {
    pub words: Vec<Word>,
    pub clocks: Vec<(u8, Expr)>,
    pub links: Vec<(usize, usize)>,
}

/// A model as bytes.
#[derive(Default)]
pub struct Written {
    pub bytes: Vec<u8>,
    pub fields: Vec<Field>,
    /// Place and length of every period.
    pub periods: Vec<(usize, usize)>,
    pub marked: Option<usize>,
}

impl Written {
    fn put(&mut self, kind: Kind, width: usize, bound: i64, value: i64) {
        let at = self.bytes.len();
        self.fields.push(Field {
            kind,
            at,
            width,
            bound,
        });
        self.bytes.extend(&value.to_le_bytes()[..width]);
    }

    fn expression(&mut self, expr: &Expr, words: usize, own: usize) {
        let tag = match expr {
            Expr::Word(_) => 1,
            Expr::Declared(_) => 2,
            Expr::Not(_) => 3,
            Expr::On(..) => 4,
            Expr::Earlier(_) => 5,
            Expr::Marked(part) => {
                self.marked = Some(self.bytes.len());
                return self.expression(part, words, own);
            }
        };
        self.put(Kind::Tag, 1, 0, tag);
        match expr {
            Expr::Word(index) => self.put(Kind::WordIndex, 2, words as i64, *index as i64),
            Expr::Declared([low, high, l, n]) => {
                self.put(Kind::Low, 4, 0, *low);
                self.put(Kind::High, 4, 0, *high);
                self.put(Kind::L, 4, 0, *l);
                self.put(Kind::N, 4, *l, *n);
            }
            Expr::Not(part) | Expr::Marked(part) => self.expression(part, words, own),
            Expr::On(left, right) => {
                self.expression(left, words, own);
                self.expression(right, words, own);
            }
            Expr::Earlier(index) => self.put(Kind::ClockIndex, 2, own as i64, *index as i64),
        }
    }
}

impl Model {
    pub fn write(&self) -> Written {
        let mut out = Written::default();
        out.put(Kind::WordCount, 2, 0, self.words.len() as i64);
        for word in &self.words {
            out.put(Kind::PrefixLength, 1, 0, word.prefix.len() as i64);
            out.put(Kind::PeriodLength, 1, 0, word.period.len() as i64);
            for &bit in &word.prefix {
                out.put(Kind::PrefixBit, 1, 0, bit as i64);
            }
            out.periods.push((out.bytes.len(), word.period.len()));
            for &bit in &word.period {
                out.put(Kind::PeriodBit, 1, 0, bit as i64);
            }
        }
        out.put(Kind::ClockCount, 2, 0, self.clocks.len() as i64);
        for (own, (state, expr)) in self.clocks.iter().enumerate() {
            out.put(Kind::State, 1, 0, *state as i64);
            out.expression(expr, self.words.len(), own);
        }
        out.put(Kind::LinkCount, 2, 0, self.links.len() as i64);
        let clocks = self.clocks.len() as i64;
        for &(producer, consumer) in &self.links {
            out.put(Kind::Producer, 2, clocks, producer as i64);
            out.put(Kind::Consumer, 2, clocks, consumer as i64);
        }
        out
    }
}
