//! What is timed. Each row is made only where both sides give the same answer.

use crate::{ours, same};
use second::listing;
use second::pattern::{self, Four};
use second::protocol::TEXT_MAX;
use second::samples::{full, irregular, scaled, turned_at_once, typical, EXAMPLE, WALK, WIDE};
use second::sheet::{self, CLOCKS_MAX, LINKS_MAX};
use std::hint::black_box;

pub struct Row {
    pub name: String,
    /// How long the sheet or the pattern is.
    pub bytes: usize,
    pub ours: Box<dyn FnMut()>,
    pub rust: Box<dyn FnMut()>,
}

fn row(
    name: String,
    bytes: usize,
    ours: impl FnMut() + 'static,
    rust: impl FnMut() + 'static,
) -> Row {
    let (ours, rust) = (Box::new(ours), Box::new(rust));
    Row {
        name,
        bytes,
        ours,
        rust,
    }
}

fn work_out(name: &str, bytes: Vec<u8>) -> Row {
    let (mut clocks, mut links) = (vec![0; 4 * CLOCKS_MAX], vec![0; 3 * LINKS_MAX]);
    let (mut clocks2, mut links2) = (clocks.clone(), links.clone());
    let a = ours::work_out(&bytes, &mut clocks, &mut links);
    let b = sheet::work_out(&bytes, &mut clocks2, &mut links2).expect("a valid sheet");
    assert_eq!([a.number, a.place], [0, 0]);
    assert_eq!([a.clocks, a.links], [b.clocks as u64, b.links as u64]);
    assert_eq!([a.opened, a.whole], [b.open as u64, b.whole as u64]);
    assert_eq!((&clocks, &links), (&clocks2, &links2));
    let copy = bytes.clone();
    row(
        format!("work_out, {name}"),
        bytes.len(),
        move || _ = black_box(ours::work_out(black_box(&bytes), &mut clocks, &mut links)),
        move || _ = black_box(sheet::work_out(black_box(&copy), &mut clocks2, &mut links2)),
    )
}

fn list(name: &str, bytes: Vec<u8>) -> Row {
    let (mut text, mut text2) = (vec![0; TEXT_MAX], vec![0; TEXT_MAX]);
    let a = ours::list(&bytes, &mut text);
    let length = listing::list(&bytes, &mut text2).expect("room");
    assert_eq!([a.number, a.place, a.length], [0, 0, length as u64]);
    assert_eq!(text, text2);
    let copy = bytes.clone();
    row(
        format!("list, {name}"),
        bytes.len(),
        move || _ = black_box(ours::list(black_box(&bytes), &mut text)),
        move || _ = black_box(listing::list(black_box(&copy), &mut text2)),
    )
}

/// The clock is opened again after each call.
fn close(name: &str, mut bytes: Vec<u8>, clock: usize) -> Row {
    let mut copy = bytes.clone();
    let (mut a, mut b) = (bytes.clone(), bytes.clone());
    let place = sheet::close(&mut b, clock as u64).expect("an open clock");
    let reply = ours::close(&mut a, clock);
    assert_eq!([reply.number, reply.place], [0, place as u64]);
    assert_eq!(a, b);
    row(
        format!("close, {name}"),
        bytes.len(),
        move || {
            let reply = ours::close(black_box(&mut bytes), clock);
            assert_eq!((reply.number, bytes[reply.place as usize]), (0, 1));
            bytes[reply.place as usize] = 0;
        },
        move || {
            let place = sheet::close(black_box(&mut copy), clock as u64).expect("an open clock");
            assert_eq!(copy[place], 1);
            copy[place] = 0;
        },
    )
}

fn quote(name: &str, bytes: Vec<u8>, clock: usize) -> Row {
    let mut out = vec![0; bytes.len()];
    let mut out2 = out.clone();
    let copy = bytes.clone();
    let part = sheet::quote(&bytes, clock as u64).expect("a clock");
    let reply = ours::quote(&bytes, clock, &mut out);
    assert_eq!([reply.number, reply.length], [0, part.len() as u64]);
    assert_eq!(&out[..part.len()], part);
    row(
        format!("quote, {name}"),
        bytes.len(),
        move || {
            let reply = ours::quote(black_box(&bytes), clock, &mut out);
            assert_eq!(black_box(reply).number, 0);
        },
        move || {
            let part = sheet::quote(black_box(&copy), clock as u64).expect("a clock");
            out2[..part.len()].copy_from_slice(part);
            black_box(part.len());
        },
    )
}

/// From the first pattern on, again and again.
fn next(length: usize) -> Row {
    let mut pattern = vec![0; length];
    pattern::first(&WALK, &mut pattern).expect("a taken envelope");
    let mut pattern2 = pattern.clone();
    let (mut a, mut b) = (pattern.clone(), pattern.clone());
    for _ in 0..50 {
        assert_eq!(ours::next(&WALK, &mut a).number, 0);
        assert_eq!(pattern::next(&WALK, &mut b), Ok(true));
        assert_eq!(a, b);
    }
    row(
        format!("next, {length}"),
        length,
        move || _ = black_box(ours::next(black_box(&WALK), &mut pattern)),
        move || _ = black_box(pattern::next(black_box(&WALK), &mut pattern2)),
    )
}

/// A pattern whose successor differs from its first bit on: the most that `next` can have to do.
fn next_turned(length: usize) -> Row {
    let start = turned_at_once(length);
    let copy = start.clone();
    let (mut pattern, mut pattern2) = (start.clone(), start.clone());
    assert_eq!(ours::next(&WALK, &mut pattern).number, 0);
    assert_eq!(pattern::next(&WALK, &mut pattern2), Ok(true));
    assert_eq!(pattern, pattern2);
    row(
        format!("next, {length}, turned at its start"),
        length,
        move || {
            pattern.copy_from_slice(&start);
            let reply = ours::next(black_box(&WALK), &mut pattern);
            assert_eq!((reply.number, pattern[0]), (0, 1));
        },
        move || {
            pattern2.copy_from_slice(&copy);
            let reply = pattern::next(black_box(&WALK), &mut pattern2);
            assert_eq!((reply, pattern2[0]), (Ok(true), 1));
        },
    )
}

fn first(length: usize) -> Row {
    let (mut pattern, mut pattern2) = (vec![0; length], vec![0; length]);
    assert_eq!(ours::first(&WALK, &mut pattern).number, 0);
    pattern::first(&WALK, &mut pattern2).expect("a taken envelope");
    assert_eq!(pattern, pattern2);
    row(
        format!("first, {length}"),
        length,
        move || _ = black_box(ours::first(black_box(&WALK), &mut pattern)),
        move || _ = black_box(pattern::first(black_box(&WALK), &mut pattern2)),
    )
}

type Check = fn(&Four, &[u8]) -> Result<(), sheet::Refusal>;

fn check(name: &str, four: Four, pattern: Vec<u8>, rust: Check) -> Row {
    assert_eq!(ours::check(&four, &pattern).number, 0);
    assert_eq!(rust(&four, &pattern), Ok(()));
    let copy = pattern.clone();
    row(
        format!("check, {}{name}", pattern.len()),
        pattern.len(),
        move || _ = black_box(ours::check(black_box(&four), black_box(&pattern))),
        move || _ = black_box(rust(black_box(&four), black_box(&copy))),
    )
}

pub fn all() -> Vec<Row> {
    let small = || EXAMPLE.to_vec();
    let mut rows = vec![
        work_out("small", small()),
        work_out("typical", typical()),
        work_out("full", full()),
        list("small", small()),
        list("typical", typical()),
        list("full", full()),
        close("typical", typical(), 20),
        quote("typical", typical(), 20),
    ];
    for length in [64, 4_096] {
        rows.push(next(length));
        rows.push(next_turned(length));
        rows.push(first(length));
        rows.push(check("", WALK, turned_at_once(length), pattern::check));
        rows.push(check(
            ", irregular",
            WIDE,
            irregular(length),
            pattern::check,
        ));
        rows.push(check(", as ours", WIDE, irregular(length), same::check));
    }
    for clocks in [4, 8, 16, 32, 64] {
        rows.push(work_out(&format!("{clocks} clocks"), scaled(clocks)));
    }
    for length in [128, 256, 512, 1_024, 2_048] {
        rows.push(next(length));
    }
    rows
}
