//! The listing program's text.

use crate::envelope::Verdict;
use crate::sheet::{refuse, Design, Refusal};

/// The text of the listing, given piece by piece.
fn text(design: &Design, out: &mut impl Sink) {
    for (index, clock) in design.clocks().iter().enumerate() {
        out.word(b"clock ");
        out.number(index as i64);
        out.word(state_text(design.closed(clock)));
        let [low, high, l, n] = clock.envelope.four();
        out.number(low);
        for value in [high, l, n] {
            out.word(b" ");
            out.number(value);
        }
        out.word(b"\n");
    }
    let (mut open, mut whole) = (0, 0);
    for (index, link) in design.links().enumerate() {
        out.word(b"link ");
        for value in [index, link.producer] {
            out.number(value as i64);
            out.word(b" ");
        }
        out.number(link.consumer as i64);
        out.word(state_text(link.closed));
        match link.verdict {
            Verdict::Accepted(size) => {
                whole += size;
                open += if link.closed { 0 } else { size };
                out.word(b"accepted ");
                out.number(size);
                out.word(b"\n");
            }
            Verdict::Rates => out.word(b"rates 0\n"),
            Verdict::Early => out.word(b"early 0\n"),
        }
    }
    out.word(b"room ");
    out.number(open);
    out.word(b" ");
    out.number(whole);
    out.word(b"\n");
}

fn state_text(closed: bool) -> &'static [u8] {
    if closed {
        b" closed "
    } else {
        b" open "
    }
}

trait Sink {
    fn word(&mut self, bytes: &[u8]);
    fn number(&mut self, value: i64);
}

fn digits(value: u64) -> usize {
    value.checked_ilog10().map_or(1, |log| log as usize + 1)
}

/// Only the length of a text.
struct Length(usize);

impl Sink for Length {
    fn word(&mut self, bytes: &[u8]) {
        self.0 += bytes.len();
    }

    fn number(&mut self, value: i64) {
        self.0 += (value < 0) as usize + digits(value.unsigned_abs());
    }
}

/// A text written into lent bytes, which are long enough.
struct Lent<'b> {
    bytes: &'b mut [u8],
    at: usize,
}

impl Sink for Lent<'_> {
    fn word(&mut self, bytes: &[u8]) {
        self.bytes[self.at..][..bytes.len()].copy_from_slice(bytes);
        self.at += bytes.len();
    }

    fn number(&mut self, value: i64) {
        if value < 0 {
            self.word(b"-");
        }
        let mut rest = value.unsigned_abs();
        let count = digits(rest);
        for place in self.bytes[self.at..][..count].iter_mut().rev() {
            *place = b'0' + (rest % 10) as u8;
            rest /= 10;
        }
        self.at += count;
    }
}

/// No line of a listing is longer.
const LINE_MAX: usize = 64;

/// No listing is longer.
pub const LISTING_MAX: usize = 18_463;

/// Writes the listing of a sheet that isn't refused and gives its length; 11 where the lent bytes are too few.
pub fn list(sheet: &[u8], lent: &mut [u8]) -> Result<usize, Refusal> {
    let mut design = Design::new(sheet);
    design.read()?;
    if lent.len() < LINE_MAX * (design.clocks().len() + design.link_count() + 1) {
        let mut length = Length(0);
        text(&design, &mut length);
        if length.0 > lent.len() {
            return refuse(11, 0);
        }
    }
    let mut out = Lent { bytes: lent, at: 0 };
    text(&design, &mut out);
    Ok(out.at)
}

/// The line that the listing program prints of a refused sheet.
pub fn refusal_line(refusal: Refusal) -> String {
    format!("refused {} at {}\n", refusal.number, refusal.place)
}
