//! The command line of the second program.

use second::{drive, listing, protocol, theory};
use std::env;
use std::io::{self, Read, Write};
use std::process::ExitCode;
use std::time::Duration;

const USAGE: &str = "usage: run [--cases N] [--seed S] [--op NAME] [--batch CMD] [--per-run N]
           [--max-failures N] [--timeout SECONDS]
       run --replay FILE [--batch CMD]
       run --malformed [--batch CMD]
       run --theory | --list | --serve";

fn main() -> ExitCode {
    match work() {
        Ok(true) => ExitCode::SUCCESS,
        Ok(false) => ExitCode::FAILURE,
        Err(what) => {
            eprintln!("{what}");
            ExitCode::FAILURE
        }
    }
}

fn work() -> Result<bool, String> {
    let mut options = drive::Options {
        cases: 100_000,
        seed: 1,
        op: None,
        batch: env::var("BATCH").unwrap_or_default(),
        per_run: 2_000,
        most_failures: 20,
        timeout: Duration::from_secs(120),
        home: env::var_os("SECOND_HOME").unwrap_or(".".into()).into(),
    };
    let mut replay = None;
    let mut malformed = false;
    let mut arguments = env::args().skip(1);
    while let Some(argument) = arguments.next() {
        let mut value = || arguments.next().ok_or(USAGE);
        match argument.trim_start_matches('-') {
            "cases" => options.cases = number(&value()?)?,
            "seed" => options.seed = number(&value()?)?,
            "op" => options.op = Some(operation(&value()?)?),
            "batch" => options.batch = value()?,
            "per-run" => options.per_run = number(&value()?)?.max(1),
            "max-failures" => options.most_failures = number(&value()?)?.max(1),
            "timeout" => options.timeout = Duration::from_secs(number(&value()?)?),
            "replay" => replay = Some(value()?),
            "malformed" => malformed = true,
            "serve" => return Ok(protocol::serve()),
            "theory" => return Ok(theory::run()),
            "list" => return list().map_err(|error| error.to_string()),
            _ => return Err(USAGE.to_string()),
        }
    }
    let done = match replay {
        Some(file) => drive::replay(&options, &file),
        None if malformed => drive::malformed(&options),
        None => drive::run(&options),
    };
    done.map_err(|error| error.to_string())
}

fn number(text: &str) -> Result<u64, String> {
    let digits = text.replace([',', '_'], "");
    digits.parse().map_err(|_| format!("not a number: {text}"))
}

fn operation(name: &str) -> Result<u8, String> {
    match protocol::NAMES.iter().position(|each| *each == name) {
        Some(place) => Ok(place as u8 + 1),
        None => Err(format!("no such operation: {name}")),
    }
}

/// The listing program: a sheet from standard input, its text or its refusal to standard output.
fn list() -> io::Result<bool> {
    let mut sheet = Vec::new();
    io::stdin().read_to_end(&mut sheet)?;
    let mut text = vec![0; listing::LISTING_MAX];
    match listing::list(&sheet, &mut text) {
        Ok(length) => io::stdout().write_all(&text[..length])?,
        Err(refusal) => print!("{}", listing::refusal_line(refusal)),
    }
    Ok(true)
}
