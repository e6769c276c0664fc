//! The driver: cases go to the batch command, every byte of its answers is compared.

use crate::cases;
use crate::protocol::{reply, Case, LAST, NAMES};
use crate::tally::Tally;
use std::fs;
use std::io::{self, Read, Write};
use std::path::PathBuf;
use std::process::{Command, Stdio};
use std::sync::mpsc::{self, RecvTimeoutError};
use std::thread;
use std::time::{Duration, Instant};

/// From so many cases on, every reply number must have been met.
const LARGE: u64 = 20_000;

pub struct Options {
    pub cases: u64,
    pub seed: u64,
    pub op: Option<u8>,
    pub batch: String,
    pub per_run: u64,
    pub most_failures: u64,
    pub timeout: Duration,
    /// The folder that gets `failures/`.
    pub home: PathBuf,
}

/// What one run of the batch command gave: whole answers, and what was wrong besides.
struct Exchange {
    answers: Vec<Vec<u8>>,
    fault: Option<String>,
}

/// Runs the batch command once on these cases.
fn exchange(options: &Options, cases: &[Case]) -> io::Result<Exchange> {
    let mut input = Vec::new();
    for case in cases {
        case.encode(&mut input);
    }
    let mut child = Command::new("bash")
        .args(["-c", &options.batch])
        .stdin(Stdio::piped())
        .stdout(Stdio::piped())
        .spawn()?;
    let mut stdin = child.stdin.take().expect("a pipe");
    let mut stdout = child.stdout.take().expect("a pipe");
    let writer = thread::spawn(move || stdin.write_all(&input));
    let (sender, receiver) = mpsc::channel();
    thread::spawn(move || loop {
        let mut chunk = vec![0; 1 << 16];
        match stdout.read(&mut chunk) {
            Ok(count) if count > 0 => {
                chunk.truncate(count);
                if sender.send(chunk).is_err() {
                    return;
                }
            }
            _ => return,
        }
    });

    let mut answers: Vec<Vec<u8>> = Vec::new();
    let mut rest: Vec<u8> = Vec::new();
    let mut fault = None;
    loop {
        match receiver.recv_timeout(options.timeout) {
            Ok(chunk) => rest.extend(chunk),
            Err(RecvTimeoutError::Disconnected) => break,
            Err(RecvTimeoutError::Timeout) => {
                fault = Some("no answer in time".to_string());
                child.kill().ok();
                break;
            }
        }
        let mut at = 0;
        while let Some(case) = cases.get(answers.len()) {
            match case.answer_length(&rest[at..]) {
                Some(length) if length <= rest.len() - at => {
                    answers.push(rest[at..at + length].to_vec());
                    at += length;
                }
                _ => break,
            }
        }
        rest.drain(..at);
    }
    let status = child.wait()?;
    if answers.is_empty() && matches!(status.code(), Some(126 | 127)) {
        return Err(io::Error::other("the batch command can't be run"));
    }
    if fault.is_none() {
        let written = writer.join().expect("the writer ends");
        if answers.len() < cases.len() {
            fault = Some(format!("the output ended early ({status})"));
        } else if !rest.is_empty() {
            fault = Some(format!("{} bytes after the last answer", rest.len()));
        } else if !status.success() {
            fault = Some(format!("{status}"));
        } else if written.is_err() {
            fault = Some("the input was not read to its end".to_string());
        }
    }
    Ok(Exchange { answers, fault })
}

/// Where two answers differ, in words.
fn difference(expected: &[u8], got: &[u8]) -> String {
    let head = |answer: &[u8]| {
        let (number, place) = reply(answer);
        format!("{number} at {place}")
    };
    if expected[..9] != got[..9] {
        return format!("reply {}, not {}", head(got), head(expected));
    }
    let place = expected.iter().zip(got).position(|(a, b)| a != b);
    let place = place.unwrap_or(expected.len().min(got.len()));
    format!("byte {place} of the answer after reply {}", head(got))
}

/// Whether all cases passed and all numbers were met.
pub fn run(options: &Options) -> io::Result<bool> {
    println!(
        "seed {}, {} cases, batch: {}",
        options.seed, options.cases, options.batch
    );
    let start = Instant::now();
    let mut tally = Tally::default();
    let (mut number, mut passed, mut failed) = (0, 0, 0);
    'runs: while number < options.cases {
        let count = options.per_run.min(options.cases - number);
        let (made, aims): (Vec<_>, Vec<_>) = (number..number + count)
            .map(|number| cases::case(options.seed, number, options.op))
            .unzip();
        let mut expected = Vec::with_capacity(made.len());
        for (case, aim) in made.iter().zip(&aims) {
            let mut answer = Vec::new();
            case.answer(&mut answer);
            let own = tally.count(case, aim, &answer);
            expected.push((answer, own));
        }
        let mut from = 0;
        // after output that ended early: why, and case by case until the one to blame is found
        let mut alone: Option<(usize, String)> = None;
        while from < made.len() {
            let to = if alone.is_some() {
                from + 1
            } else {
                made.len()
            };
            let exchange = exchange(options, &made[from..to])?;
            let mut failures = Vec::new();
            for (i, got) in exchange.answers.iter().enumerate() {
                let (wanted, own) = &expected[from + i];
                if got != wanted {
                    failures.push((from + i, difference(wanted, got)));
                } else if let Some(own) = own {
                    failures.push((from + i, own.clone()));
                } else {
                    passed += 1;
                }
            }
            from += exchange.answers.len();
            match exchange.fault {
                None => {}
                Some(fault) if from < to && alone.is_none() && to - from > 1 => {
                    alone = Some((from, fault));
                }
                Some(fault) => {
                    failures.push((from.min(to - 1), fault));
                    from = to;
                    alone = None;
                }
            }
            if from == made.len() {
                if let Some((which, fault)) = alone.take() {
                    failures.push((which, format!("{fault}, but alone each case passes")));
                }
            }
            for (i, what) in failures {
                failed += 1;
                report(options, number + i as u64, &made[i], &what)?;
                if failed >= options.most_failures {
                    println!("stopped after {failed} failures");
                    break 'runs;
                }
            }
        }
        number += count;
    }
    let spent = start.elapsed();
    let unmet = tally.print(options.op);
    if options.cases >= LARGE && !unmet.is_empty() && failed == 0 {
        println!("never met: {unmet:?}");
        failed += 1;
    }
    let per_thousand = spent.as_secs_f64() * 1000.0 * 1000.0 / options.cases.max(1) as f64;
    println!(
        "{:.1} s, {per_thousand:.1} ms per 1,000 cases",
        spent.as_secs_f64()
    );
    println!("{passed} passed, {failed} failed");
    Ok(failed == 0)
}

/// Writes the case to a file and says how to try it again.
fn report(options: &Options, number: u64, case: &Case, what: &str) -> io::Result<()> {
    let folder = options.home.join("failures");
    fs::create_dir_all(&folder)?;
    let name = format!("{}-{number}.case", options.seed);
    let mut bytes = Vec::new();
    case.encode(&mut bytes);
    fs::write(folder.join(&name), bytes)?;
    let op = NAMES[case.op() as usize - 1];
    println!("case {number} ({op}): {what}; replay: second/run --replay second/failures/{name}");
    Ok(())
}

/// Tries the cases of a file again and prints both answers.
pub fn replay(options: &Options, file: &str) -> io::Result<bool> {
    let bytes = fs::read(file)?;
    let mut input = &bytes[..];
    let mut cases = Vec::new();
    while let Some(case) = Case::decode(&mut input)? {
        cases.push(case);
    }
    let exchange = exchange(options, &cases)?;
    let (mut passed, mut failed) = (0, 0);
    for (i, case) in cases.iter().enumerate() {
        let mut expected = Vec::new();
        case.answer(&mut expected);
        describe(case);
        println!("expected {}", hexadecimal(&expected));
        match exchange.answers.get(i) {
            Some(got) => {
                println!("answered {}", hexadecimal(got));
                if *got == expected {
                    passed += 1;
                    println!("the same");
                } else {
                    failed += 1;
                    println!("{}", difference(&expected, got));
                }
            }
            None => failed += 1,
        }
    }
    if let Some(fault) = exchange.fault {
        println!("{fault}");
        failed = failed.max(1);
    }
    println!("{passed} passed, {failed} failed");
    Ok(failed == 0)
}

/// Malformed input must end the run with `bad case` on standard error, after no wrong answer.
pub fn malformed(options: &Options) -> io::Result<bool> {
    let (good, _) = cases::case(options.seed, 0, Some(4));
    let (mut before, mut answer) = (Vec::new(), Vec::new());
    good.encode(&mut before);
    good.answer(&mut answer);
    let over = |numbers: &[u32]| -> Vec<u8> {
        let all = numbers.iter().flat_map(|number| number.to_le_bytes());
        all.chain(vec![0; 70_000]).collect()
    };
    let mut inputs = vec![vec![0], vec![8], vec![255; 100]];
    inputs.push([vec![1], over(&[1_025, 0, 0])].concat());
    inputs.push([vec![1], over(&[0, 1_025, 0])].concat());
    inputs.push([vec![1], over(&[0, 0, 40_001])].concat());
    inputs.push([vec![2], over(&[0, 0, 40_001])].concat());
    inputs.push([vec![3], over(&[0, 0, 40_001])].concat());
    for op in 4..=6 {
        inputs.push([vec![op], over(&[0, 0, 0, 0, 0, 0, 0, 0, 40_001])].concat());
    }
    inputs.push([vec![7], over(&[65_537, 0])].concat());
    inputs.push([vec![7], over(&[0, 40_001])].concat());
    for op in 1..=7 {
        let mut whole = Vec::new();
        cases::case(options.seed, 1, Some(op)).0.encode(&mut whole);
        for end in (1..whole.len()).take(48).chain([whole.len() - 1]) {
            inputs.push(whole[..end].to_vec());
        }
    }
    let (mut passed, mut failed) = (0, 0);
    for input in inputs {
        let mut child = Command::new("bash")
            .args(["-c", &options.batch])
            .stdin(Stdio::piped())
            .stdout(Stdio::piped())
            .stderr(Stdio::piped())
            .spawn()?;
        let mut stdin = child.stdin.take().expect("a pipe");
        let bytes = [&before[..], &input].concat();
        let writer = thread::spawn(move || stdin.write_all(&bytes));
        let output = child.wait_with_output()?;
        writer.join().expect("the writer ends").ok();
        if output.stderr == b"bad case\n" && answer.starts_with(&output.stdout) {
            passed += 1;
        } else {
            failed += 1;
            println!(
                "not ended as a bad case: {}",
                hexadecimal(&input[..input.len().min(60)])
            );
        }
    }
    println!("{passed} passed, {failed} failed");
    Ok(failed == 0)
}

fn describe(case: &Case) {
    let name = NAMES[case.op() as usize - 1];
    match case {
        Case::WorkOut {
            clocks,
            links,
            sheet,
        } => println!(
            "{name}: {clocks} and {links} numbers lent, sheet of {} bytes\n{}",
            sheet.len(),
            hexadecimal(sheet)
        ),
        Case::Close { clock, sheet } | Case::Quote { clock, sheet } => println!(
            "{name}: clock {clock}, sheet of {} bytes\n{}",
            sheet.len(),
            hexadecimal(sheet)
        ),
        Case::Check(four, bits) | Case::First(four, bits) | Case::Next(four, bits) => println!(
            "{name}: {} {} {} {}, pattern of {} bytes\n{}",
            four.low,
            four.high,
            four.l,
            four.n,
            bits.len(),
            hexadecimal(bits)
        ),
        Case::List { room, sheet } => println!(
            "{name}: {room} bytes lent, sheet of {} bytes\n{}",
            sheet.len(),
            hexadecimal(sheet)
        ),
    }
}

fn hexadecimal(bytes: &[u8]) -> String {
    let mut text: String = bytes.iter().map(|byte| format!("{byte:02x} ")).collect();
    if bytes.len() > 2_000 {
        text.truncate(3 * 2_000);
        text.push_str("...");
    }
    text
}

/// The numbers that an operation can give.
pub fn numbers_of(op: u8) -> Vec<u8> {
    match op {
        1 => (0..=11).collect(),
        2 => (0..=10).chain([16, 17]).collect(),
        3 => (0..=10).chain([16]).collect(),
        4 => [0].into_iter().chain(12..=15).collect(),
        5 => vec![0, 12, 13],
        6 => [0].into_iter().chain(12..=15).chain([LAST]).collect(),
        _ => (0..=11).collect(),
    }
}
