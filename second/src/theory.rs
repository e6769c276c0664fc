//! The definitions by brute force, on small envelopes.
//!
//! A beginning is a run of bits that some stream of an envelope starts with. Which ones there
//! are is found from l*j + k <= n*p(j) <= l*j + K alone: its 1s keep that, and a chain of
//! further 1s without an end can be found after it. Runs of bits are numbers here, the
//! earliest bit heaviest.

use crate::envelope::{gcd, Envelope, Verdict};
use crate::model::{not, on, Expr, Model, Rng, Word};
use crate::pattern::{self, Four};
use crate::sheet::Design;

type Numbers = [i64; 4];
/// Which of the runs of one length are there.
type Runs = Vec<bool>;

#[derive(Default)]
struct Count {
    passed: u64,
    failed: u64,
}

impl Count {
    fn claim(&mut self, holds: bool, what: impl FnOnce() -> String) {
        if holds {
            self.passed += 1;
            return;
        }
        self.failed += 1;
        if self.failed <= 5 {
            println!("  fails: {}", what());
        }
    }
}

fn bit(run: usize, length: usize, place: usize) -> usize {
    run >> (length - 1 - place) & 1
}

/// For each value from k to K of n*p(j) - l*j: can the 1s go on without an end after it?
fn endless(four: Numbers) -> Vec<bool> {
    let [low, high, l, n] = four;
    let mut alive = vec![true; (high - low + 1).max(0) as usize];
    loop {
        let before = alive.clone();
        for value in low..=high {
            let mut later = (1..).map(|steps| value + n * steps - l);
            let goes_on = later
                .by_ref()
                .take_while(|&next| next <= high)
                .any(|next| next >= low && before[(next - low) as usize]);
            alive[(value - low) as usize] &= goes_on;
        }
        if alive == before {
            return alive;
        }
    }
}

/// The beginnings of that length.
fn beginnings(four: Numbers, length: usize) -> Runs {
    let [low, high, l, n] = four;
    let alive = endless(four);
    let starts = |run: usize| {
        let mut j = 0;
        for p in 0..length {
            if bit(run, length, p) == 1 {
                let value = n * p as i64 - l * j;
                if value < low || value > high {
                    return false;
                }
                j += 1;
            }
        }
        let later = (length as i64..).map(|p| n * p - l * j);
        later
            .take_while(|&value| value <= high)
            .any(|value| value >= low && alive[(value - low) as usize])
    };
    (0..1 << length).map(starts).collect()
}

/// All four numbers within these bounds.
fn all(lows: i64, highs: i64, rates: i64) -> Vec<Numbers> {
    let mut found = Vec::new();
    for l in 1..=rates {
        for n in 1..=l {
            for low in -lows..=lows {
                found.extend((0..=highs).map(|high| [low, high, l, n]));
            }
        }
    }
    found
}

fn normal(four: &Numbers) -> bool {
    gcd(four[2], four[3]) == 1
}

fn room(four: &Numbers) -> bool {
    four[1] - four[0] >= four[3] - 1
}

/// At l = n = 1 the lower edge is not below 0.
fn started(four: &Numbers) -> bool {
    four[2..] != [1, 1] || four[0] >= 0
}

fn taken(lows: i64, highs: i64, rates: i64) -> Vec<Numbers> {
    let mut found = all(lows, highs, rates);
    found.retain(|four| normal(four) && room(four) && started(four));
    found
}

fn envelope([low, high, l, n]: Numbers) -> Envelope {
    Envelope::new(low, high, l, n)
}

fn rooms(count: &mut Count) {
    for four in all(12, 14, 10).into_iter().filter(normal) {
        let some = beginnings(four, 0)[0];
        count.claim(some == room(&four), || format!("room of {four:?}"));
    }
}

fn normals(count: &mut Count) {
    let changed = |four: &Numbers| !normal(four) || !started(four);
    for four in all(8, 10, 9).into_iter().filter(changed) {
        let [low, high, l, n] = four;
        let made = Envelope::declared(low, high, l, n);
        for length in 0..=10 {
            let raw = beginnings(four, length);
            let same = match made {
                Some(made) => raw == beginnings(made.four(), length),
                None => !raw.contains(&true),
            };
            count.claim(same, || {
                format!("{four:?} made normal and raised, length {length}")
            });
        }
    }
}

/// Inside is the same as being a beginning; 15 comes where the beginnings end; first and next
/// give the beginnings in their order.
fn patterns(count: &mut Count) {
    for four in taken(7, 8, 7) {
        let [low, high, l, n] = four;
        let numbers = Four {
            low,
            high,
            l: l as u64,
            n: n as u64,
        };
        let upto: Vec<Runs> = (0..=11).map(|length| beginnings(four, length)).collect();
        for length in 0..=11 {
            let bits = |run: usize| -> Vec<u8> {
                (0..length)
                    .map(|place| bit(run, length, place) as u8)
                    .collect()
            };
            for run in 0..1 << length {
                let end = (1..=length).find(|&end| !upto[end][run >> (length - end)]);
                let reply = pattern::check(&numbers, &bits(run));
                let holds = match (end, reply) {
                    (None, Ok(())) => true,
                    (Some(end), Err(refusal)) => (refusal.number, refusal.place) == (15, end - 1),
                    _ => false,
                };
                count.claim(holds, || format!("check of {run:b} in {four:?}"));
            }
            let mut walked = vec![2; length];
            let mut moved = pattern::first(&numbers, &mut walked).is_ok();
            for run in (0..1 << length).filter(|&run| upto[length][run]) {
                let holds = moved && walked == bits(run);
                count.claim(holds, || format!("walk to {run:b} in {four:?}"));
                moved = pattern::next(&numbers, &mut walked) == Ok(true);
            }
            count.claim(!moved, || format!("last of {length} in {four:?}"));
        }
    }
}

fn nots(count: &mut Count) {
    let length = 13;
    for four in taken(8, 9, 8).into_iter().filter(|four| four[2] > four[3]) {
        let turned = envelope(four).not().expect("small numbers");
        let after = beginnings(turned.four(), length);
        let before = beginnings(four, length);
        for run in (0..1 << length).filter(|&run| before[run]) {
            let other = !run & ((1 << length) - 1);
            count.claim(after[other], || format!("not {run:b} of {four:?}"));
        }
    }
}

/// a on b, where a has that length and b as many bits as a has 1s.
fn compose(a: usize, length: usize, b: usize) -> usize {
    let mut left = a.count_ones() as usize;
    (0..length).fold(0, |made, place| {
        let one = bit(a, length, place);
        left -= one;
        made << 1 | one & (b >> left)
    })
}

fn ons(count: &mut Count) {
    let length = 9;
    let small = taken(4, 4, 5);
    let runs: Vec<Vec<Runs>> = small
        .iter()
        .map(|&four| {
            (0..=length)
                .map(|length| beginnings(four, length))
                .collect()
        })
        .collect();
    for (first, first_runs) in small.iter().zip(&runs) {
        for (second, second_runs) in small.iter().zip(&runs) {
            let both = envelope(*first).on(envelope(*second));
            let after = beginnings(both.expect("small numbers").four(), length);
            for a in (0..1 << length).filter(|&a| first_runs[length][a]) {
                let read = &second_runs[a.count_ones() as usize];
                for b in (0..read.len()).filter(|&b| read[b]) {
                    let made = compose(a, length, b);
                    count.claim(after[made], || {
                        format!("{a:b} on {b:b}, {first:?} on {second:?}")
                    });
                }
            }
        }
    }
}

/// All runs of bits from `least` to `most` long.
fn bit_runs(least: usize, most: usize) -> Vec<Vec<u8>> {
    let mut found = Vec::new();
    for length in least..=most {
        for run in 0..1 << length {
            found.push((0..length).map(|i| bit(run, length, i) as u8).collect());
        }
    }
    found
}

/// A word's envelope is normal, has room, holds the word, and no smaller one does.
fn words(count: &mut Count) {
    for prefix in bit_runs(0, 5) {
        for period in bit_runs(1, 6) {
            let ones = period.iter().filter(|&&bit| bit == 1).count() as i64;
            let Some(made) = Envelope::word(&prefix, &period) else {
                count.claim(ones == 0, || format!("{prefix:?}({period:?})"));
                continue;
            };
            let four = made.four();
            let [low, high, l, n] = four;
            let stream = prefix.iter().chain(period.iter().cycle()).take(80);
            let places = stream.enumerate().filter(|(_, &bit)| bit == 1);
            let values: Vec<i64> = places
                .enumerate()
                .map(|(j, (p, _))| n * p as i64 - l * j as i64)
                .collect();
            let least = *values.iter().min().expect("a 1");
            let most = *values.iter().max().expect("a 1");
            let holds = (low, high) == (least, most)
                && l * ones == n * period.len() as i64
                && normal(&four)
                && room(&four);
            count.claim(holds, || format!("{prefix:?}({period:?}): {four:?}"));
        }
    }
}

/// Per instant the fewest and the most 1s up to and with it.
fn spread(runs: &Runs, length: usize) -> Vec<(i64, i64)> {
    let mut found = vec![(i64::MAX, i64::MIN); length];
    for run in (0..runs.len()).filter(|&run| runs[run]) {
        for (instant, (least, most)) in found.iter_mut().enumerate() {
            let ones = (run >> (length - 1 - instant)).count_ones() as i64;
            *least = ones.min(*least);
            *most = ones.max(*most);
        }
    }
    found
}

/// Whether a read comes early, and the largest fill, over all pairs of these runs.
fn pairs(first: &[(i64, i64)], second: &[(i64, i64)]) -> (bool, i64) {
    let mut early = false;
    let mut fill = 0;
    for ((fewest, most), (least_read, most_read)) in first.iter().zip(second) {
        early |= fewest < most_read;
        fill = fill.max(most - least_read);
    }
    (early, fill)
}

fn links(count: &mut Count) {
    let length = 14;
    let (mut accepted, mut reached, mut early, mut seen) = (0, 0, 0, 0);
    let all = taken(6, 8, 6);
    let spreads: Vec<_> = all
        .iter()
        .map(|&four| spread(&beginnings(four, length), length))
        .collect();
    for (first, writes) in all.iter().zip(&spreads) {
        for (second, reads) in all.iter().zip(&spreads) {
            let verdict = Verdict::judge(envelope(*first), envelope(*second));
            let same_rate = first[2..] == second[2..];
            let (too_early, fill) = pairs(writes, reads);
            let holds = match verdict {
                Verdict::Rates => !same_rate,
                Verdict::Early => same_rate,
                Verdict::Accepted(size) => same_rate && !too_early && (0..=size).contains(&fill),
            };
            count.claim(holds, || format!("{first:?} to {second:?}: {verdict:?}"));
            match verdict {
                Verdict::Accepted(size) => {
                    accepted += 1;
                    reached += (fill == size) as u64;
                }
                Verdict::Early => {
                    early += 1;
                    seen += too_early as u64;
                }
                Verdict::Rates => {}
            }
        }
    }
    println!("  {accepted} accepted links, {reached} reach their size in {length} instants");
    println!("  {early} early links, {seen} read early in {length} instants");
}

/// The same pair by pair and instant by instant, on fewer envelopes.
fn link_pairs(count: &mut Count) {
    let length = 9;
    let all = taken(4, 5, 4);
    for first in &all {
        let writes = beginnings(*first, length);
        for second in &all {
            let verdict = Verdict::judge(envelope(*first), envelope(*second));
            let Verdict::Accepted(size) = verdict else {
                continue;
            };
            let reads = beginnings(*second, length);
            for a in (0..1 << length).filter(|&a| writes[a]) {
                for b in (0..1 << length).filter(|&b| reads[b]) {
                    let mut fill = 0;
                    let mut holds = true;
                    for instant in 0..length {
                        fill += bit(a, length, instant) as i64;
                        fill -= bit(b, length, instant) as i64;
                        holds &= (0..=size).contains(&fill);
                    }
                    count.claim(holds, || format!("{a:b} {b:b}, {first:?} to {second:?}"));
                }
            }
        }
    }
}

const SHEET_LENGTH: usize = 8;

/// What an expression can stand for, as far as that length.
fn stands_for(expr: &Expr, words: &[Word], clocks: &[Runs]) -> Runs {
    let length = SHEET_LENGTH;
    let mut found = vec![false; 1 << length];
    match expr {
        Expr::Word(index) => {
            let word = &words[*index];
            let stream = word.prefix.iter().chain(word.period.iter().cycle());
            let run = stream
                .take(length)
                .fold(0, |run, &bit| run << 1 | bit as usize);
            found[run] = true;
        }
        Expr::Declared(four) => found = beginnings(*four, length),
        Expr::Not(part) | Expr::Marked(part) => {
            found = stands_for(part, words, clocks);
            found.reverse();
        }
        Expr::On(left, right) => {
            let left = stands_for(left, words, clocks);
            let right = stands_for(right, words, clocks);
            for a in (0..left.len()).filter(|&a| left[a]) {
                let unread = length - a.count_ones() as usize;
                for b in (0..right.len()).filter(|&b| right[b]) {
                    found[compose(a, length, b >> unread)] = true;
                }
            }
        }
        Expr::Earlier(index) => found = clocks[*index].clone(),
    }
    found
}

fn small_expression(rng: &mut Rng, depth: usize, words: usize, clocks: usize) -> Expr {
    match rng.below(if depth == 1 { 5 } else { 9 }) {
        0 | 1 => Expr::Word(rng.below(words)),
        2 if clocks > 0 => Expr::Earlier(rng.below(clocks)),
        5 | 6 => not(small_expression(rng, depth - 1, words, clocks)),
        7 | 8 => on(
            small_expression(rng, depth - 1, words, clocks),
            small_expression(rng, depth - 1, words, clocks),
        ),
        _ => {
            let l = rng.range(1, 4);
            let n = rng.range(1, l);
            let low = rng.range(-3, 3);
            let high = low.max(0) + rng.range(0, 4);
            Expr::Declared([low, high, l, n])
        }
    }
}

/// Whole small sheets: every stream a clock can stand for lies in its envelope, and no pair
/// reads early or overfills an accepted link.
fn sheets(count: &mut Count) {
    let mut taken = 0;
    for seed in 0..20_000 {
        let mut rng = Rng::new(seed);
        let mut model = Model::default();
        for _ in 0..2 {
            let mut bits = |least| -> Vec<u8> {
                (0..rng.range(least, 4))
                    .map(|_| rng.below(2) as u8)
                    .collect()
            };
            let (prefix, mut period) = (bits(0), bits(1));
            period[0] |= !period.contains(&1) as u8;
            model.words.push(Word { prefix, period });
        }
        for own in 0..4 {
            let expr = small_expression(&mut rng, 4, 2, own);
            model.clocks.push((0, expr));
        }
        model.links = (0..16).map(|link| (link / 4, link % 4)).collect();
        let bytes = model.write().bytes;
        let mut design = Design::new(&bytes);
        if design.read().is_err() {
            continue;
        }
        taken += 1;
        let mut runs: Vec<Runs> = Vec::new();
        for (clock, (_, expr)) in design.clocks().iter().zip(&model.clocks) {
            let stands = stands_for(expr, &model.words, &runs);
            let inside = beginnings(clock.envelope.four(), SHEET_LENGTH);
            let holds = stands.iter().zip(&inside).all(|(some, all)| !some || *all);
            count.claim(holds, || format!("sheet of seed {seed}"));
            runs.push(stands);
        }
        for link in design.links() {
            let writes = spread(&runs[link.producer], SHEET_LENGTH);
            let reads = spread(&runs[link.consumer], SHEET_LENGTH);
            if let Verdict::Accepted(size) = link.verdict {
                let (early, fill) = pairs(&writes, &reads);
                count.claim(!early && fill <= size, || format!("link, seed {seed}"));
            }
        }
    }
    println!("  {taken} sheets taken");
}

/// Tries everything; true where all of it holds.
pub fn run() -> bool {
    type Part = fn(&mut Count);
    let parts: [(&str, Part); 9] = [
        (
            "room: K - k >= n - 1 just where some stream lies inside",
            rooms,
        ),
        ("made normal and raised: the same streams", normals),
        (
            "patterns: check, first and next against the beginnings",
            patterns,
        ),
        ("not: every stream lies in the new envelope", nots),
        ("on: every pair of streams lies in the new envelope", ons),
        ("words: normal, with room, and the smallest", words),
        ("links: verdicts and sizes", links),
        ("links: pair by pair", link_pairs),
        ("sheets: what clocks can stand for", sheets),
    ];
    let (mut passed, mut failed) = (0, 0);
    for (name, part) in parts {
        let mut count = Count::default();
        println!("{name}");
        part(&mut count);
        println!("  {} passed, {} failed", count.passed, count.failed);
        passed += count.passed;
        failed += count.failed;
    }
    println!("{passed} passed, {failed} failed");
    failed == 0
}
