//! The tables: a line for each mix, nanoseconds a record, and the range of all ratios.

use crate::mixes::{CHECKS, Mix, STEADY, Sort, mixes_of};
use crate::timing::{self, Clock, Freeing, Timed};

/// What the ratio of each mix must not be above.
const BOUND: f64 = 0.75;

/// The mixes of two sorts, timed alike.
pub struct Table {
    title: &'static str,
    /// What the two sorts differ in.
    difference: &'static str,
    sorts: [Sort; 2],
    /// The Rust's freeing that the ratio is for, and others that are only shown.
    freeings: &'static [Freeing],
}

pub const TABLES: [Table; 2] = [
    Table {
        title: "**Programs in blocks.** The Rust's plan is freed after its time",
        difference: "components",
        sorts: STEADY,
        freeings: &[Freeing::After],
    },
    Table {
        title: "**Check circuits.** The Rust's plan is freed inside its time",
        difference: "positions",
        sorts: CHECKS,
        freeings: &[Freeing::Inside, Freeing::After],
    },
];

/// A mix and its times.
pub struct Entry {
    pub mix: Mix,
    timed: Timed,
    /// With the freeings that are only shown.
    further: Vec<Timed>,
}

impl Entry {
    /// A line of the first table.
    fn line(&self) -> String {
        let (mix, timed) = (&self.mix, &self.timed);
        let further = self.further.iter();
        let further = further.map(|timed| format!(" {:.0} | {:.2} |", timed.theirs, timed.ratio));
        format!(
            "| {} | {} | {} | {:.2} | {:.1} | {:.1} | {:.0} | {:.0} | {:.2} | {:.2} to {:.2} |{}",
            mix.records,
            mix.width_name(),
            mix.sort_name(),
            mix.classical_share(),
            mix.mean_support(),
            mix.live_components(),
            timed.ours,
            timed.theirs,
            timed.ratio,
            timed.least_ratio,
            timed.most_ratio,
            further.collect::<String>()
        )
    }

    /// A line of the second table: nanoseconds a record, here and in the longest programs.
    fn record_line(&self, long: &Self) -> String {
        let each = |entry: &Self, time: f64| time / entry.mix.records as f64;
        format!(
            "| {} | {} | {:.0} | {:.0} | {:.0} | {:.0} |",
            self.mix.width_name(),
            self.mix.sort_name(),
            each(self, self.timed.ours),
            each(long, long.timed.ours),
            each(self, self.timed.theirs),
            each(long, long.timed.theirs)
        )
    }
}

impl Table {
    /// Prints the head of the first table.
    fn print_head(&self) {
        let further = self.freeings.len() - 1;
        println!();
        println!("{}:", self.title);
        println!();
        println!(
            "| records | width | {} | classical | support | live at the end | library | Rust | ratio | ratios seen |{}",
            self.difference,
            " Rust, not freed | ratio, not freed |".repeat(further)
        );
        println!(
            "|---|---|---|---|---|---|---|---|---|---|{}",
            "---|---|".repeat(further)
        );
    }

    /// Times the mixes and prints a line for each.
    fn print_mixes(&self, clock: &Clock, runs: usize) -> Result<Vec<Entry>, String> {
        let mut entries = Vec::new();
        for (records, width, sort) in mixes_of(self.sorts) {
            let mut mix = Mix::new(records, width, sort)?;
            let mut further = timing::time(&mut mix, clock, runs, self.freeings);
            let timed = further.remove(0);
            let entry = Entry {
                mix,
                timed,
                further,
            };
            println!("{}", entry.line());
            entries.push(entry);
        }
        Ok(entries)
    }

    /// Prints nanoseconds a record, from the mixes of fewest and of most records.
    fn print_records(&self, entries: &[Entry]) {
        let records = || entries.iter().map(|entry| entry.mix.records);
        let (least, most) = (records().min().unwrap_or(0), records().max().unwrap_or(0));
        println!();
        println!("Nanoseconds a record:");
        println!();
        println!(
            "| width | {} | library, {least} records | library, {most} | Rust, {least} | Rust, {most} |",
            self.difference
        );
        println!("|---|---|---|---|---|---|");
        for short in entries.iter().filter(|entry| entry.mix.records == least) {
            let is_long =
                |entry: &&Entry| entry.mix.records == most && entry.mix.is_like(&short.mix);
            if let Some(long) = entries.iter().find(is_long) {
                println!("{}", short.record_line(long));
            }
        }
    }

    /// Times the mixes and prints both tables.
    pub fn print(&self, clock: &Clock, runs: usize) -> Result<Vec<Entry>, String> {
        self.print_head();
        let entries = self.print_mixes(clock, runs)?;
        self.print_records(&entries);
        Ok(entries)
    }
}

/// Prints the least and the most of the ratios of all mixes, and those above the bound.
pub fn print_range(entries: &[Entry]) {
    let ratios = || entries.iter().map(|entry| entry.timed.ratio);
    println!();
    println!(
        "All mixes: {:.2} to {:.2}; the bound is {BOUND}.",
        ratios().fold(f64::INFINITY, f64::min),
        ratios().fold(0.0, f64::max)
    );
    let above = entries.iter().filter(|entry| entry.timed.ratio > BOUND);
    let names: Vec<String> = above
        .map(|entry| format!("{} ({:.3})", entry.mix.name(), entry.timed.ratio))
        .collect();
    if !names.is_empty() {
        println!();
        println!("Above the bound: {}.", names.join("; "));
    }
}
