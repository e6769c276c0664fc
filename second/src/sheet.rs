//! Sheets: reading and working out, closing, quoting.

use crate::envelope::{Envelope, Verdict, EDGE_MAX, RATE_MAX};

pub const SHEET_MAX: usize = 32_768;
pub const WORDS_MAX: usize = 64;
pub const CLOCKS_MAX: usize = 128;
pub const LINKS_MAX: usize = 256;
pub const BITS_MAX: usize = 64;
pub const DEPTH_MAX: u32 = 12;
/// A reply that is a refusal: its number and its place.
#[derive(Clone, Copy, Debug, PartialEq, Eq)]
pub struct Refusal {
    pub number: u8,
    pub place: usize,
}

pub fn refuse<T>(number: u8, place: usize) -> Result<T, Refusal> {
    Err(Refusal { number, place })
}

struct Reader<'a> {
    sheet: &'a [u8],
    at: usize,
}

impl<'a> Reader<'a> {
    fn field<const N: usize>(&mut self) -> Result<[u8; N], Refusal> {
        match self.sheet[self.at..].first_chunk::<N>() {
            Some(bytes) => {
                self.at += N;
                Ok(*bytes)
            }
            None => refuse(1, self.at),
        }
    }

    /// The count of a section, u16.
    fn count(&mut self, most: usize) -> Result<usize, Refusal> {
        let place = self.at;
        let value = u16::from_le_bytes(self.field()?) as usize;
        if value > most {
            return refuse(2, place);
        }
        Ok(value)
    }

    /// A u16 that names one of `count` things.
    fn reference(&mut self, count: usize) -> Result<usize, Refusal> {
        let place = self.at;
        let index = u16::from_le_bytes(self.field()?) as usize;
        if index >= count {
            return refuse(5, place);
        }
        Ok(index)
    }

    /// A length, u8, from `least` to 64.
    fn length(&mut self, least: usize) -> Result<usize, Refusal> {
        let place = self.at;
        let [value] = self.field()?;
        let value = value as usize;
        if value < least || value > BITS_MAX {
            return refuse(2, place);
        }
        Ok(value)
    }

    fn i32(&mut self, least: i64, most: i64) -> Result<i64, Refusal> {
        let place = self.at;
        let value = i32::from_le_bytes(self.field()?) as i64;
        if value < least || value > most {
            return refuse(2, place);
        }
        Ok(value)
    }

    fn u32(&mut self, least: i64, most: i64) -> Result<i64, Refusal> {
        let place = self.at;
        let value = u32::from_le_bytes(self.field()?) as i64;
        if value < least || value > most {
            return refuse(2, place);
        }
        Ok(value)
    }

    /// Bits, each a field of one byte.
    fn bits(&mut self, count: usize) -> Result<&'a [u8], Refusal> {
        let rest = &self.sheet[self.at..];
        let there = &rest[..count.min(rest.len())];
        if let Some(i) = there.iter().position(|&bit| bit > 1) {
            return refuse(3, self.at + i);
        }
        self.at += there.len();
        if there.len() < count {
            return refuse(1, self.at);
        }
        Ok(there)
    }

    fn word(&mut self) -> Result<Envelope, Refusal> {
        let prefix_length = self.length(0)?;
        let period_length = self.length(1)?;
        let prefix = self.bits(prefix_length)?;
        let place = self.at;
        let period = self.bits(period_length)?;
        Envelope::word(prefix, period).ok_or(Refusal { number: 4, place })
    }

    fn expression(
        &mut self,
        words: &[Envelope],
        clocks: &[Clock],
        depth: u32,
    ) -> Result<Envelope, Refusal> {
        let place = self.at;
        let [tag] = self.field()?;
        if !(1..=5).contains(&tag) {
            return refuse(3, place);
        }
        if depth > DEPTH_MAX {
            return refuse(6, place);
        }
        let at_tag = |number| Refusal { number, place };
        match tag {
            1 => self.reference(words.len()).map(|i| words[i]),
            2 => {
                let low = self.i32(-EDGE_MAX, EDGE_MAX)?;
                let high = self.i32(0, EDGE_MAX)?;
                let l = self.u32(1, RATE_MAX)?;
                let n = self.u32(1, l)?;
                Envelope::declared(low, high, l, n).ok_or(at_tag(7))
            }
            3 => {
                let part = self.expression(words, clocks, depth + 1)?;
                part.not().map_err(at_tag)
            }
            4 => {
                let left = self.expression(words, clocks, depth + 1)?;
                let right = self.expression(words, clocks, depth + 1)?;
                left.on(right).map_err(at_tag)
            }
            _ => self.reference(clocks.len()).map(|i| clocks[i].envelope),
        }
    }
}

/// A clock that was read: its envelope, the place of its state and the end of its expression.
#[derive(Clone, Copy, Default)]
pub struct Clock {
    pub envelope: Envelope,
    pub state_at: u32,
    pub end: u32,
}

/// A link that was read and judged.
#[derive(Clone, Copy, Debug)]
pub struct Link {
    pub producer: usize,
    pub consumer: usize,
    pub closed: bool,
    pub verdict: Verdict,
}

/// A whole sheet that was read without a refusal.
pub struct Design<'a> {
    sheet: &'a [u8],
    clocks: [Clock; CLOCKS_MAX],
    clock_count: usize,
    links_at: usize,
    link_count: usize,
}

impl<'a> Design<'a> {
    pub fn new(sheet: &'a [u8]) -> Design<'a> {
        Design {
            sheet,
            clocks: [Clock::default(); CLOCKS_MAX],
            clock_count: 0,
            links_at: 0,
            link_count: 0,
        }
    }

    /// Reads the sheet, from left to right: refusals 1 to 10.
    pub fn read(&mut self) -> Result<(), Refusal> {
        if self.sheet.len() > SHEET_MAX {
            return refuse(2, SHEET_MAX);
        }
        let mut reader = Reader {
            sheet: self.sheet,
            at: 0,
        };
        let word_count = reader.count(WORDS_MAX)?;
        let mut words = [Envelope::default(); WORDS_MAX];
        for word in &mut words[..word_count] {
            *word = reader.word()?;
        }
        let words = &words[..word_count];

        let clock_count = reader.count(CLOCKS_MAX)?;
        for own in 0..clock_count {
            let state_at = reader.at as u32;
            let [state] = reader.field()?;
            if state > 1 {
                return refuse(3, state_at as usize);
            }
            let envelope = reader.expression(words, &self.clocks[..own], 1)?;
            let end = reader.at as u32;
            self.clocks[own] = Clock {
                envelope,
                state_at,
                end,
            };
        }

        let link_count = reader.count(LINKS_MAX)?;
        self.links_at = reader.at;
        for _ in 0..link_count * 2 {
            reader.reference(clock_count)?;
        }
        if reader.at < self.sheet.len() {
            return refuse(10, reader.at);
        }
        self.clock_count = clock_count;
        self.link_count = link_count;
        Ok(())
    }

    pub fn link_count(&self) -> usize {
        self.link_count
    }

    pub fn clocks(&self) -> &[Clock] {
        &self.clocks[..self.clock_count]
    }

    pub fn closed(&self, clock: &Clock) -> bool {
        self.sheet[clock.state_at as usize] == 1
    }

    pub fn links(&self) -> impl Iterator<Item = Link> + '_ {
        let rows = &self.sheet[self.links_at..][..self.link_count * 4];
        rows.chunks_exact(4).map(|row| {
            let producer = u16::from_le_bytes([row[0], row[1]]) as usize;
            let consumer = u16::from_le_bytes([row[2], row[3]]) as usize;
            let (first, second) = (&self.clocks[producer], &self.clocks[consumer]);
            Link {
                producer,
                consumer,
                closed: self.closed(first) || self.closed(second),
                verdict: Verdict::judge(first.envelope, second.envelope),
            }
        })
    }
}

/// What working out gives back beside the lent slices.
#[derive(Clone, Copy, Debug, Default, PartialEq, Eq)]
pub struct Counts {
    pub clocks: usize,
    pub links: usize,
    pub open: i64,
    pub whole: i64,
}

/// Fills k, K, l, n per clock and verdict, size, state per link: refusals 1 to 11.
pub fn work_out(
    sheet: &[u8],
    clock_numbers: &mut [i64],
    link_numbers: &mut [i64],
) -> Result<Counts, Refusal> {
    let mut design = Design::new(sheet);
    design.read()?;
    let (clocks, links) = (design.clock_count, design.link_count);
    if clock_numbers.len() < 4 * clocks || link_numbers.len() < 3 * links {
        return refuse(11, 0);
    }
    for (row, clock) in clock_numbers.chunks_exact_mut(4).zip(design.clocks()) {
        row.copy_from_slice(&clock.envelope.four());
    }
    let (mut open, mut whole) = (0, 0);
    for (row, link) in link_numbers.chunks_exact_mut(3).zip(design.links()) {
        let (verdict, size) = link.verdict.numbers();
        row.copy_from_slice(&[verdict, size, link.closed as i64]);
        whole += size;
        open += if link.closed { 0 } else { size };
    }
    Ok(Counts {
        clocks,
        links,
        open,
        whole,
    })
}

/// The clock with that index: refusals 1 to 10 and 16.
fn find(sheet: &[u8], clock: u64) -> Result<Clock, Refusal> {
    let mut design = Design::new(sheet);
    design.read()?;
    if clock >= design.clock_count as u64 {
        return refuse(16, 0);
    }
    Ok(design.clocks[clock as usize])
}

/// Closes a clock and gives the place of the byte that changed: refusals 1 to 10, 16, 17.
pub fn close(sheet: &mut [u8], clock: u64) -> Result<usize, Refusal> {
    let place = find(sheet, clock)?.state_at as usize;
    if sheet[place] == 1 {
        return refuse(17, 0);
    }
    sheet[place] = 1;
    Ok(place)
}

/// The clock's expression as a part of the sheet: refusals 1 to 10, 16.
pub fn quote(sheet: &[u8], clock: u64) -> Result<&[u8], Refusal> {
    let found = find(sheet, clock)?;
    Ok(&sheet[found.state_at as usize + 1..found.end as usize])
}
