//! What was aimed at and what was met.

use crate::cases::Aim;
use crate::drive::numbers_of;
use crate::envelope::Verdict;
use crate::protocol::{reply, Case, LAST, NAMES};
use crate::sheet::Design;
use std::collections::BTreeMap;

#[derive(Default)]
pub struct Tally {
    /// How often each number was met, per operation.
    met: BTreeMap<u8, [u64; 7]>,
    /// How often each aim was taken and met, by its number and name.
    aims: BTreeMap<(u8, String), (u64, u64)>,
    verdicts: [u64; 3],
    sizes_above_zero: u64,
    clocks: u64,
    closed_links: u64,
    /// Links of one rate with K1 - k2 at n - 1, the last accepted, and at n, the first early.
    at_edge: [u64; 2],
    longest_taken: usize,
}

impl Tally {
    /// Counts one case and its answer; says so where the answer isn't the one aimed at.
    pub fn count(&mut self, case: &Case, aim: &Option<Aim>, answer: &[u8]) -> Option<String> {
        let (number, place) = reply(answer);
        self.met.entry(number).or_default()[case.op() as usize - 1] += 1;
        if let (Case::WorkOut { sheet, .. }, 0) = (case, number) {
            self.look(sheet);
        }
        let aim = aim.as_ref()?;
        let counts = self.aims.entry((aim.number, aim.name.clone())).or_default();
        counts.0 += 1;
        if (number, place) == (aim.number, aim.place) {
            counts.1 += 1;
            return None;
        }
        Some(format!(
            "made for {} at {} ({}), but gives {number} at {place}",
            aim.number, aim.place, aim.name
        ))
    }

    fn look(&mut self, sheet: &[u8]) {
        let mut design = Design::new(sheet);
        design.read().expect("a sheet that was worked out");
        self.clocks += design.clocks().len() as u64;
        self.longest_taken = self.longest_taken.max(sheet.len());
        for link in design.links() {
            self.verdicts[link.verdict.numbers().0 as usize] += 1;
            self.sizes_above_zero += matches!(link.verdict, Verdict::Accepted(1..)) as u64;
            self.closed_links += link.closed as u64;
            let first = design.clocks()[link.producer].envelope;
            let second = design.clocks()[link.consumer].envelope;
            let over = first.high - second.low - (first.n - 1);
            if link.verdict != Verdict::Rates && (0..=1).contains(&over) {
                self.at_edge[over as usize] += 1;
            }
        }
    }

    /// Prints the tables; gives the numbers that should have been met and were not.
    pub fn print(&self, op: Option<u8>) -> Vec<u8> {
        println!(
            "\n{:<10} {:<26} {:>9} {:>9}",
            "number", "aim", "aimed", "met"
        );
        for ((number, name), (aimed, met)) in &self.aims {
            println!("{:<10} {name:<26} {aimed:>9} {met:>9}", show(*number));
        }
        print!("\n{:<8} {:>9} {:>9}", "number", "aimed", "met");
        NAMES.iter().for_each(|name| print!(" {name:>9}"));
        println!();
        let mut unmet = Vec::new();
        for number in (0..=17).chain([LAST]) {
            let aims = self.aims.iter().filter(|((of, _), _)| *of == number);
            let aimed: u64 = aims.map(|(_, counts)| counts.0).sum();
            let met = self.met.get(&number).copied().unwrap_or_default();
            print!(
                "{:<8} {aimed:>9} {:>9}",
                show(number),
                met.iter().sum::<u64>()
            );
            met.iter().for_each(|count| print!(" {count:>9}"));
            println!();
            let due = (1..=7).filter(|&each| op.is_none() || op == Some(each));
            let missing = due
                .filter(|&each| numbers_of(each).contains(&number))
                .any(|each| met[each as usize - 1] == 0);
            if missing {
                unmet.push(number);
            }
        }
        println!(
            "\nworked out: {} clocks; links: {} accepted ({} with a size above 0), {} rates, {} early; {} just accepted, {} just early; {} closed; longest sheet {} bytes",
            self.clocks,
            self.verdicts[0],
            self.sizes_above_zero,
            self.verdicts[1],
            self.verdicts[2],
            self.at_edge[0],
            self.at_edge[1],
            self.closed_links,
            self.longest_taken
        );
        unmet
    }
}

fn show(number: u8) -> String {
    if number == LAST {
        "last".to_string()
    } else {
        number.to_string()
    }
}
