//! The batch protocol: cases and their answers as bytes.

use crate::listing;
use crate::pattern::{self, Four};
use crate::sheet::{self, Refusal};
use std::io::{self, BufRead, BufReader, BufWriter, Read, Write};

pub const BYTES_MAX: usize = 40_000;
pub const NUMBERS_MAX: usize = 1_024;
pub const TEXT_MAX: usize = 65_536;
/// The number that stands for "last".
pub const LAST: u8 = 255;

pub const NAMES: [&str; 7] = [
    "work_out", "close", "quote", "check", "first", "next", "list",
];

#[derive(Clone, Debug, PartialEq)]
pub enum Case {
    WorkOut {
        clocks: usize,
        links: usize,
        sheet: Vec<u8>,
    },
    Close {
        clock: u64,
        sheet: Vec<u8>,
    },
    Quote {
        clock: u64,
        sheet: Vec<u8>,
    },
    Check(Four, Vec<u8>),
    First(Four, Vec<u8>),
    Next(Four, Vec<u8>),
    List {
        room: usize,
        sheet: Vec<u8>,
    },
}

fn put(out: &mut Vec<u8>, number: u8, place: u64) {
    out.push(number);
    out.extend(place.to_le_bytes());
}

/// Puts the reply's number and place; gives what was there without a refusal.
fn put_reply<T>(out: &mut Vec<u8>, reply: Result<T, Refusal>) -> Option<T> {
    match reply {
        Ok(value) => {
            put(out, 0, 0);
            Some(value)
        }
        Err(refusal) => {
            put(out, refusal.number, refusal.place as u64);
            None
        }
    }
}

impl Case {
    pub fn op(&self) -> u8 {
        match self {
            Case::WorkOut { .. } => 1,
            Case::Close { .. } => 2,
            Case::Quote { .. } => 3,
            Case::Check(..) => 4,
            Case::First(..) => 5,
            Case::Next(..) => 6,
            Case::List { .. } => 7,
        }
    }

    pub fn encode(&self, out: &mut Vec<u8>) {
        out.push(self.op());
        let bytes = match self {
            Case::WorkOut {
                clocks,
                links,
                sheet,
            } => {
                out.extend((*clocks as u32).to_le_bytes());
                out.extend((*links as u32).to_le_bytes());
                sheet
            }
            Case::Close { clock, sheet } | Case::Quote { clock, sheet } => {
                out.extend(clock.to_le_bytes());
                sheet
            }
            Case::Check(four, bits) | Case::First(four, bits) | Case::Next(four, bits) => {
                out.extend(four.low.to_le_bytes());
                out.extend(four.high.to_le_bytes());
                out.extend(four.l.to_le_bytes());
                out.extend(four.n.to_le_bytes());
                bits
            }
            Case::List { room, sheet } => {
                out.extend((*room as u32).to_le_bytes());
                sheet
            }
        };
        out.extend((bytes.len() as u32).to_le_bytes());
        out.extend(bytes);
    }

    /// The next case; none where the input ends before it, an error where it is malformed.
    pub fn decode(input: &mut impl BufRead) -> io::Result<Option<Case>> {
        if input.fill_buf()?.is_empty() {
            return Ok(None);
        }
        let mut input = Input(input);
        let op = input.array::<1>()?[0];
        let case = match op {
            1 => {
                let clocks = input.length(NUMBERS_MAX)?;
                let links = input.length(NUMBERS_MAX)?;
                let sheet = input.bytes()?;
                Case::WorkOut {
                    clocks,
                    links,
                    sheet,
                }
            }
            2 | 3 => {
                let clock = u64::from_le_bytes(input.array()?);
                let sheet = input.bytes()?;
                if op == 2 {
                    Case::Close { clock, sheet }
                } else {
                    Case::Quote { clock, sheet }
                }
            }
            4..=6 => {
                let four = Four {
                    low: i64::from_le_bytes(input.array()?),
                    high: i64::from_le_bytes(input.array()?),
                    l: u64::from_le_bytes(input.array()?),
                    n: u64::from_le_bytes(input.array()?),
                };
                let bits = input.bytes()?;
                match op {
                    4 => Case::Check(four, bits),
                    5 => Case::First(four, bits),
                    _ => Case::Next(four, bits),
                }
            }
            7 => {
                let room = input.length(TEXT_MAX)?;
                let sheet = input.bytes()?;
                Case::List { room, sheet }
            }
            _ => return Err(io::ErrorKind::InvalidData.into()),
        };
        Ok(Some(case))
    }

    /// Puts the answer that the rules ask for.
    pub fn answer(&self, out: &mut Vec<u8>) {
        match self {
            Case::WorkOut {
                clocks,
                links,
                sheet,
            } => {
                let mut first: Vec<i64> = (0..*clocks as i64).map(|i| -1000 - i).collect();
                let mut second: Vec<i64> = (0..*links as i64).map(|i| -2000 - i).collect();
                let reply = sheet::work_out(sheet, &mut first, &mut second);
                let counts = put_reply(out, reply).unwrap_or_default();
                out.extend((counts.clocks as u64).to_le_bytes());
                out.extend((counts.links as u64).to_le_bytes());
                out.extend((counts.open as u64).to_le_bytes());
                out.extend((counts.whole as u64).to_le_bytes());
                for value in first.iter().chain(&second) {
                    out.extend(value.to_le_bytes());
                }
            }
            Case::Close { clock, sheet } => {
                let mut sheet = sheet.clone();
                match sheet::close(&mut sheet, *clock) {
                    Ok(place) => put(out, 0, place as u64),
                    Err(refusal) => put(out, refusal.number, refusal.place as u64),
                }
                out.extend(sheet);
            }
            Case::Quote { clock, sheet } => {
                let reply = sheet::quote(sheet, *clock);
                let part = put_reply(out, reply).unwrap_or(&[]);
                out.extend((part.len() as u32).to_le_bytes());
                out.extend(part);
            }
            Case::Check(four, bits) => {
                put_reply(out, pattern::check(four, bits));
            }
            Case::First(four, bits) => {
                let mut bits = bits.clone();
                put_reply(out, pattern::first(four, &mut bits));
                out.extend(bits);
            }
            Case::Next(four, bits) => {
                let mut bits = bits.clone();
                match pattern::next(four, &mut bits) {
                    Ok(true) => put(out, 0, 0),
                    Ok(false) => put(out, LAST, 0),
                    Err(refusal) => put(out, refusal.number, refusal.place as u64),
                }
                out.extend(bits);
            }
            Case::List { room, sheet } => {
                let mut text: Vec<u8> = (0..*room).map(|i| (i % 251) as u8).collect();
                let reply = listing::list(sheet, &mut text);
                let length = put_reply(out, reply).unwrap_or(0);
                out.extend((length as u64).to_le_bytes());
                out.extend(text);
            }
        }
    }

    /// How many bytes an answer to this case has, given those of it that came so far;
    /// none where that can't be said yet.
    pub fn answer_length(&self, so_far: &[u8]) -> Option<usize> {
        match self {
            Case::WorkOut { clocks, links, .. } => Some(41 + 8 * (clocks + links)),
            Case::Close { sheet, .. } => Some(9 + sheet.len()),
            Case::Quote { .. } => {
                let length = so_far.get(9..13)?.try_into().ok()?;
                Some(13 + u32::from_le_bytes(length) as usize)
            }
            Case::Check(..) => Some(9),
            Case::First(_, bits) | Case::Next(_, bits) => Some(9 + bits.len()),
            Case::List { room, .. } => Some(17 + room),
        }
    }
}

/// Number and place in an answer.
pub fn reply(answer: &[u8]) -> (u8, u64) {
    let place = u64::from_le_bytes(answer[1..9].try_into().unwrap());
    (answer[0], place)
}

struct Input<'r, R>(&'r mut R);

impl<R: Read> Input<'_, R> {
    fn array<const N: usize>(&mut self) -> io::Result<[u8; N]> {
        let mut bytes = [0; N];
        self.0.read_exact(&mut bytes)?;
        Ok(bytes)
    }

    fn length(&mut self, most: usize) -> io::Result<usize> {
        let length = u32::from_le_bytes(self.array()?) as usize;
        if length > most {
            return Err(io::ErrorKind::InvalidData.into());
        }
        Ok(length)
    }

    fn bytes(&mut self) -> io::Result<Vec<u8>> {
        let mut bytes = vec![0; self.length(BYTES_MAX)?];
        self.0.read_exact(&mut bytes)?;
        Ok(bytes)
    }
}

/// Answers the cases on standard input; false where one is malformed.
pub fn serve() -> bool {
    let mut input = BufReader::with_capacity(1 << 16, io::stdin().lock());
    let mut output = BufWriter::with_capacity(1 << 16, io::stdout().lock());
    let mut answer = Vec::new();
    loop {
        match Case::decode(&mut input) {
            Ok(Some(case)) => {
                answer.clear();
                case.answer(&mut answer);
                if output.write_all(&answer).is_err() {
                    return true;
                }
            }
            Ok(None) => return output.flush().is_ok(),
            Err(_) => {
                output.flush().ok();
                eprintln!("bad case");
                return false;
            }
        }
    }
}
