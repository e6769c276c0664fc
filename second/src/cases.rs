//! Random cases: valid and damaged sheets for the first three operations and the listing.

use crate::envelope::{gcd, EDGE_MAX, RATE_MAX};
use crate::generate::{Maker, Scale};
use crate::listing::{self, LISTING_MAX};
use crate::model::{marked, not, on, Expr, Field, Kind, Model, Rng, Written};
use crate::protocol::{Case, BYTES_MAX, NUMBERS_MAX, TEXT_MAX};
use crate::sheet::SHEET_MAX;
use crate::walks;

/// What a case was made for: the reply that must come.
pub struct Aim {
    pub name: String,
    pub number: u8,
    pub place: u64,
}

pub fn aim(name: impl Into<String>, number: u8, place: usize) -> Option<Aim> {
    Some(Aim {
        name: name.into(),
        number,
        place: place as u64,
    })
}

/// The case with that number in the run of that seed; `op` is chosen where it is none.
pub fn case(seed: u64, number: u64, op: Option<u8>) -> (Case, Option<Aim>) {
    let mut rng = Rng::new(seed ^ number.wrapping_mul(0xD6E8_FEB8_6659_FD93));
    rng.next();
    let rng = &mut rng;
    let op = op.unwrap_or_else(|| match rng.below(100) {
        0..=34 => 1,
        35..=46 => 2,
        47..=58 => 3,
        59..=67 => 4,
        68..=72 => 5,
        73..=87 => 6,
        _ => 7,
    });
    match op {
        1 => work_out(rng),
        2 | 3 => close_or_quote(rng, op),
        7 => list(rng),
        _ => walks::case(rng, op),
    }
}

/// A sheet with what is known of it; the counts are 0 where it is refused.
struct Sample {
    bytes: Vec<u8>,
    /// State and its place, per clock.
    states: Vec<(u8, usize)>,
    links: usize,
    aim: Option<Aim>,
    valid: bool,
}

fn scale(rng: &mut Rng) -> Scale {
    match rng.below(1000) {
        0..=679 => Scale::Small,
        680..=939 => Scale::Medium,
        940..=989 => Scale::Large,
        _ => Scale::Full,
    }
}

fn sample(rng: &mut Rng) -> Sample {
    let scale = scale(rng);
    let choice = rng.below(100);
    let model = Maker::new(rng).make(scale, (40..80).contains(&choice));
    let mut sample = Sample {
        bytes: Vec::new(),
        states: Vec::new(),
        links: 0,
        aim: None,
        valid: false,
    };
    match choice {
        0..=39 => {
            let written = model.write();
            let states = written.fields.iter().filter(|f| f.kind == Kind::State);
            sample.states = states.map(|f| (written.bytes[f.at], f.at)).collect();
            sample.links = model.links.len();
            sample.bytes = written.bytes;
            sample.valid = true;
        }
        40..=89 => {
            let (bytes, aim) = damaged(rng, model);
            sample.bytes = bytes;
            sample.aim = aim;
        }
        90..=94 => {
            // a few bytes changed, anything may come of it
            sample.bytes = model.write().bytes;
            for _ in 0..1 + rng.below(3) {
                let place = rng.below(sample.bytes.len());
                sample.bytes[place] = match rng.below(3) {
                    0 => rng.next() as u8,
                    1 => sample.bytes[place] ^ (1 << rng.below(8)),
                    _ => rng.below(6) as u8,
                };
            }
        }
        95..=97 => {
            // bytes taken out or put in
            sample.bytes = model.write().bytes;
            let place = rng.below(sample.bytes.len());
            if rng.chance(50) {
                sample.bytes.remove(place);
            } else {
                sample.bytes.insert(place, rng.below(6) as u8);
            }
        }
        _ => {
            let length = rng.below(60);
            sample.bytes = (0..length).map(|_| rng.next() as u8 % 4).collect();
        }
    }
    if sample.bytes.len() > SHEET_MAX {
        sample.aim = aim("beyond: sheet length", 2, SHEET_MAX);
    }
    sample
}

/// A sheet with one fault, and the refusal that it must bring.
fn damaged(rng: &mut Rng, model: Model) -> (Vec<u8>, Option<Aim>) {
    match rng.below(16) {
        0..=3 => cut(rng, model.write()),
        4..=5 => beyond(rng, model.write()),
        6 => bad_value(rng, model.write()),
        7 => no_one(rng, model.write()),
        8 => missing(rng, model.write()),
        9..=10 => trailing(rng, model.write()),
        11 => too_deep(rng, model),
        12 => empty(rng, model),
        13 => full_rate(rng, model),
        14 => outgrown(rng, model),
        _ => {
            // two faults: which one comes first is for the reader to say
            let (mut bytes, _) = damaged(rng, model);
            if bytes.is_empty() {
                return (bytes, None);
            }
            let place = rng.below(bytes.len());
            bytes[place] = rng.next() as u8;
            (bytes, None)
        }
    }
}

/// A random field of one of these kinds, each kind as likely as the others.
fn field(rng: &mut Rng, written: &Written, kinds: &[Kind]) -> Option<Field> {
    for _ in 0..20 {
        let kind = rng.pick(kinds);
        let count = written.fields.iter().filter(|f| f.kind == kind).count();
        if count > 0 {
            let which = rng.below(count);
            return written
                .fields
                .iter()
                .filter(|f| f.kind == kind)
                .nth(which)
                .copied();
        }
    }
    None
}

fn set(written: &mut Written, field: Field, value: i64) {
    let bytes = &value.to_le_bytes()[..field.width];
    written.bytes[field.at..][..field.width].copy_from_slice(bytes);
}

fn cut(rng: &mut Rng, mut written: Written) -> (Vec<u8>, Option<Aim>) {
    use Kind::*;
    let kinds = [
        WordCount,
        PrefixLength,
        PeriodLength,
        PrefixBit,
        PeriodBit,
        ClockCount,
        State,
        Tag,
        WordIndex,
        Low,
        High,
        L,
        N,
        ClockIndex,
        LinkCount,
        Producer,
        Consumer,
    ];
    let Some(field) = field(rng, &written, &kinds) else {
        return (written.bytes, None);
    };
    written.bytes.truncate(field.at + rng.below(field.width));
    (
        written.bytes,
        aim(format!("cut: {:?}", field.kind), 1, field.at),
    )
}

fn beyond(rng: &mut Rng, mut written: Written) -> (Vec<u8>, Option<Aim>) {
    use Kind::*;
    if rng.chance(10) {
        // too long, with or without other faults
        let length = SHEET_MAX
            + 1
            + if rng.chance(50) {
                0
            } else {
                rng.below(BYTES_MAX - SHEET_MAX)
            };
        let fill = rng.below(3) as u8;
        written.bytes.resize(length, fill);
        return (written.bytes, aim("beyond: sheet length", 2, SHEET_MAX));
    }
    let kinds = [
        WordCount,
        PrefixLength,
        PeriodLength,
        ClockCount,
        LinkCount,
        Low,
        High,
        L,
        N,
    ];
    let Some(field) = field(rng, &written, &kinds) else {
        return (written.bytes, None);
    };
    let over = |rng: &mut Rng, limit: i64, most: i64| {
        let some = rng.range(limit + 1, most);
        rng.pick(&[limit + 1, limit + 1, most, some])
    };
    let value = match field.kind {
        WordCount => over(rng, 64, 65_535),
        ClockCount => over(rng, 128, 65_535),
        LinkCount => over(rng, 256, 65_535),
        PrefixLength => over(rng, 64, 255),
        PeriodLength if rng.chance(50) => 0,
        PeriodLength => over(rng, 64, 255),
        Low if rng.chance(50) => over(rng, EDGE_MAX, i32::MAX as i64),
        Low => -over(rng, EDGE_MAX, 1 << 31),
        High if rng.chance(50) => over(rng, EDGE_MAX, i32::MAX as i64),
        High => -over(rng, 0, 1 << 31),
        L if rng.chance(30) => 0,
        L => over(rng, RATE_MAX, u32::MAX as i64),
        N if rng.chance(30) => 0,
        _ => over(rng, field.bound, u32::MAX as i64),
    };
    set(&mut written, field, value);
    if rng.chance(20) {
        // the field is tested as it is fetched: what follows may be missing
        written.bytes.truncate(field.at + field.width);
    }
    (
        written.bytes,
        aim(format!("beyond: {:?}", field.kind), 2, field.at),
    )
}

fn bad_value(rng: &mut Rng, mut written: Written) -> (Vec<u8>, Option<Aim>) {
    use Kind::*;
    let Some(field) = field(rng, &written, &[PrefixBit, PeriodBit, State, Tag]) else {
        return (written.bytes, None);
    };
    let some = rng.range(6, 255);
    let value = match field.kind {
        Tag => rng.pick(&[0, 6, 255, some]),
        _ => rng.pick(&[2, 3, 255, some]),
    };
    set(&mut written, field, value);
    (
        written.bytes,
        aim(format!("value: {:?}", field.kind), 3, field.at),
    )
}

fn no_one(rng: &mut Rng, mut written: Written) -> (Vec<u8>, Option<Aim>) {
    if written.periods.is_empty() {
        return (written.bytes, None);
    }
    let (place, length) = rng.pick(&written.periods);
    written.bytes[place..][..length].fill(0);
    if rng.chance(10) {
        written.bytes.truncate(place + length);
    }
    (written.bytes, aim("period without a 1", 4, place))
}

fn missing(rng: &mut Rng, mut written: Written) -> (Vec<u8>, Option<Aim>) {
    use Kind::*;
    let kinds = [WordIndex, ClockIndex, Producer, Consumer];
    let Some(field) = field(rng, &written, &kinds) else {
        return (written.bytes, None);
    };
    let some = rng.range(field.bound, 65_535);
    let value = rng.pick(&[field.bound, field.bound, field.bound + 1, 65_535, some]);
    set(&mut written, field, value);
    if rng.chance(20) {
        written.bytes.truncate(field.at + field.width);
    }
    (
        written.bytes,
        aim(format!("missing: {:?}", field.kind), 5, field.at),
    )
}

fn trailing(rng: &mut Rng, mut written: Written) -> (Vec<u8>, Option<Aim>) {
    let length = written.bytes.len();
    if length == SHEET_MAX {
        written.bytes.push(0);
        return (written.bytes, aim("beyond: sheet length", 2, SHEET_MAX));
    }
    let all = SHEET_MAX - length;
    let more = match rng.below(20) {
        0 => all,
        1 => 1 + rng.below(all),
        _ => 1 + rng.below(all.min(8)),
    };
    let fill = rng.below(4) as u8;
    written.bytes.resize(length + more, fill);
    (written.bytes, aim("trailing bytes", 10, length))
}

/// Puts an expression with a marked fault into a random clock, under nodes that are not
/// complete before it.
fn plant(rng: &mut Rng, mut model: Model, mut expr: Expr, wraps: usize) -> Written {
    if model.clocks.is_empty() {
        model.clocks.push((0, Expr::Declared([0, 0, 1, 1])));
    }
    for wrap in 0..wraps {
        // a side that can't fail before it
        let side = if model.words.is_empty() || rng.chance(50) {
            Expr::Declared([-rng.range(0, 5), rng.range(0, 5), 7, 1])
        } else {
            Expr::Word(rng.below(model.words.len()))
        };
        expr = match rng.below(3) {
            0 => not(expr),
            // a left side that is as deep as the fault at depth 13 would come before it
            1 if wrap > 0 || wraps < 12 => on(side, expr),
            _ => on(expr, side),
        };
    }
    let which = rng.below(model.clocks.len());
    model.clocks[which].1 = expr;
    model.write()
}

fn too_deep(rng: &mut Rng, model: Model) -> (Vec<u8>, Option<Aim>) {
    let inner = match rng.below(4) {
        0 => Expr::Earlier(0),
        1 => Expr::Word(0),
        2 => on(Expr::Declared([0, 0, 1, 1]), Expr::Word(0)),
        _ => not(not(Expr::Declared([0, 0, 2, 1]))),
    };
    let mut written = plant(rng, model, marked(inner), 12);
    let place = written.marked.expect("a marked node");
    match rng.below(8) {
        0 => {
            written.bytes[place] = rng.pick(&[0, 6, 200]);
            (written.bytes, aim("value: Tag at depth 13", 3, place))
        }
        1 => {
            written.bytes.truncate(place);
            (written.bytes, aim("cut: Tag at depth 13", 1, place))
        }
        _ => (written.bytes, aim("depth 13", 6, place)),
    }
}

fn empty(rng: &mut Rng, model: Model) -> (Vec<u8>, Option<Aim>) {
    let l = rng.range(1, 12);
    let n = rng.range(1, l);
    let g = gcd(l, n);
    let (l, n) = (l / g, n / g);
    let g = rng.pick(&[1, 1, 2, 3, 10, 1000]);
    let low = rng.range(if n == 1 { 1 } else { 2 - n }, 50);
    let room = if n == 1 {
        -1
    } else {
        rng.range(-low.max(0), n - 2)
    };
    let high = (low + room).max(0);
    // the most that rounds to these edges
    let raw_low = low * g - rng.pick(&[0, g - 1]);
    let raw_high = high * g + rng.pick(&[0, g - 1]);
    assert!(high - low < n - 1, "no room");
    let expr = marked(Expr::Declared([raw_low, raw_high, l * g, n * g]));
    let wraps = rng.below(12);
    let written = plant(rng, model, expr, wraps);
    let place = written.marked.expect("a marked node");
    (written.bytes, aim("declared empty", 7, place))
}

fn full_rate(rng: &mut Rng, model: Model) -> (Vec<u8>, Option<Aim>) {
    let one = |rng: &mut Rng| {
        let l = rng.pick(&[1, 1, 2, 5, 1_000_000]);
        Expr::Declared([-l * rng.range(0, 3), l * rng.range(0, 3), l, l])
    };
    let part = match rng.below(3) {
        0 => on(one(rng), one(rng)),
        _ => one(rng),
    };
    let wraps = rng.below(10);
    let written = plant(rng, model, marked(not(part)), wraps);
    let place = written.marked.expect("a marked node");
    (written.bytes, aim("not of full rate", 8, place))
}

fn outgrown(rng: &mut Rng, model: Model) -> (Vec<u8>, Option<Aim>) {
    let (expr, envelope) = Maker::new(rng).edge_node(true);
    assert!(envelope.is_none(), "a node beyond the limits");
    let name = match expr {
        Expr::Not(_) => "outgrown: not",
        _ => "outgrown: on",
    };
    let wraps = rng.below(11);
    let written = plant(rng, model, marked(expr), wraps);
    let place = written.marked.expect("a marked node");
    (written.bytes, aim(name, 9, place))
}

fn work_out(rng: &mut Rng) -> (Case, Option<Aim>) {
    let mut sample = sample(rng);
    let (need_clocks, need_links) = (4 * sample.states.len(), 3 * sample.links);
    let longer = |rng: &mut Rng, need: usize| (need + rng.below(20)).min(NUMBERS_MAX);
    let (mut clocks, mut links) = (need_clocks, need_links);
    if !sample.valid {
        clocks = rng.below(40);
        links = rng.below(40);
    } else {
        sample.aim = aim("worked out", 0, 0);
        let choice = rng.below(10);
        if choice < 4 {
            clocks = longer(rng, clocks);
            links = longer(rng, links);
        }
        if choice >= 8 && clocks > 0 {
            clocks = if rng.chance(60) {
                clocks - 1
            } else {
                rng.below(clocks)
            };
            sample.aim = aim("short: clocks", 11, 0);
        }
        if (choice == 7 || choice == 9) && links > 0 {
            links = if rng.chance(60) {
                links - 1
            } else {
                rng.below(links)
            };
            sample.aim = aim("short: links", 11, 0);
        }
    }
    let case = Case::WorkOut {
        clocks,
        links,
        sheet: sample.bytes,
    };
    (case, sample.aim)
}

fn close_or_quote(rng: &mut Rng, op: u8) -> (Case, Option<Aim>) {
    let mut sample = sample(rng);
    let count = sample.states.len() as u64;
    let inside = if count > 0 { rng.next() % count } else { 0 };
    let some = rng.next();
    let clock = match rng.below(10) {
        0 => count,
        1 => rng.pick(&[
            count + 1,
            255,
            65_535,
            u64::MAX,
            some,
            (1 << 16) + inside,
            (1 << 32) + inside,
            (1 << 63) + inside,
        ]),
        _ => inside,
    };
    if sample.valid {
        sample.aim = if clock >= count {
            aim("no such clock", 16, 0)
        } else if op == 3 {
            aim("quoted", 0, 0)
        } else {
            match sample.states[clock as usize] {
                (0, place) => aim("closed", 0, place),
                _ => aim("closed already", 17, 0),
            }
        };
    }
    let sheet = sample.bytes;
    let case = match op {
        2 => Case::Close { clock, sheet },
        _ => Case::Quote { clock, sheet },
    };
    (case, sample.aim)
}

fn list(rng: &mut Rng) -> (Case, Option<Aim>) {
    let mut sample = sample(rng);
    if sample.valid {
        sample.aim = aim("listed", 0, 0);
    }
    let mut text = vec![0; TEXT_MAX];
    let listed = listing::list(&sample.bytes, &mut text);
    // about as much room as the line that the program prints of a refused sheet: it must not be written
    let length = listed.unwrap_or_else(|refusal| listing::refusal_line(refusal).len());
    let room = match rng.below(20) {
        0..=8 => length,
        9..=11 => length - 1,
        12 => 0,
        13 => rng.below(length),
        14 if rng.chance(20) => TEXT_MAX,
        14 => LISTING_MAX,
        _ => length + 1 + rng.below(300),
    };
    if listed.is_ok() && room < length.min(LISTING_MAX) {
        sample.aim = aim("short: text", 11, 0);
    }
    let case = Case::List {
        room,
        sheet: sample.bytes,
    };
    (case, sample.aim)
}
