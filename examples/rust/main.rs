//! Works a sheet file out and prints its clocks, its links and its rooms: size-rust SHEET
//! Built without cargo: rustc --edition 2021 examples/rust/main.rs -L crates/export/out -o size-rust

use std::process::ExitCode;

/// A sheet's most bytes, clocks and links (include/txoribeltza.h).
const SHEET_MOST: usize = 32768;
const CLOCKS_MOST: usize = 128;
const LINKS_MOST: usize = 256;

/// Numbers per clock (k, K, l, n) and per link (verdict, size, state).
const PER_CLOCK: usize = 4;
const PER_LINK: usize = 3;

const VERDICTS: [&str; 3] = ["accepted", "rates", "early"];
const STATES: [&str; 2] = ["open", "closed"];

#[repr(C)]
struct TxoriWorkOut {
    number: u64,
    place: u64,
    clocks: u64,
    links: u64,
    opened: u64,
    whole: u64,
}

#[link(name = "export", kind = "static")]
extern "C" {
    fn txori_work_out(
        sheet: *const u8,
        sheet_length: usize,
        clocks: *mut i64,
        clocks_length: usize,
        links: *mut i64,
        links_length: usize,
    ) -> TxoriWorkOut;
}

/// Slices are valid, aligned and never null, and borrowed mutably they don't overlap: all that the library asks for.
fn work_out(sheet: &[u8], clocks: &mut [i64], links: &mut [i64]) -> TxoriWorkOut {
    unsafe {
        txori_work_out(
            sheet.as_ptr(),
            sheet.len(),
            clocks.as_mut_ptr(),
            clocks.len(),
            links.as_mut_ptr(),
            links.len(),
        )
    }
}

fn print(r: &TxoriWorkOut, clocks: &[i64], links: &[i64]) {
    for (i, c) in clocks.chunks(PER_CLOCK).take(r.clocks as usize).enumerate() {
        println!("clock {i}: k {} K {} l {} n {}", c[0], c[1], c[2], c[3]);
    }
    for (i, l) in links.chunks(PER_LINK).take(r.links as usize).enumerate() {
        println!(
            "link {i}: {} size {} {}",
            VERDICTS[l[0] as usize], l[1], STATES[l[2] as usize]
        );
    }
    println!("room: open {} whole {}", r.opened, r.whole);
}

fn main() -> ExitCode {
    let path = match std::env::args_os().nth(1) {
        Some(path) => path,
        None => {
            eprintln!("size-rust SHEET");
            return ExitCode::from(2);
        }
    };
    let mut sheet = match std::fs::read(&path) {
        Ok(sheet) => sheet,
        Err(error) => {
            eprintln!("{}: {error}", path.to_string_lossy());
            return ExitCode::from(2);
        }
    };
    // One byte more than a sheet has is enough to have it refused as too long.
    sheet.truncate(SHEET_MOST + 1);

    let mut clocks = [0; PER_CLOCK * CLOCKS_MOST];
    let mut links = [0; PER_LINK * LINKS_MOST];
    let r = work_out(&sheet, &mut clocks, &mut links);
    if r.number != 0 {
        println!("refused {} at {}", r.number, r.place);
        return ExitCode::FAILURE;
    }
    print(&r, &clocks, &links);
    ExitCode::SUCCESS
}
