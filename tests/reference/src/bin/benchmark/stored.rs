//! Stored plans: the time of loading one beside that of planning its program again and that of
//! storing it.

use std::hint::black_box;
use std::time::Duration;

use midvokt::{Sections, load_words, store_words};
use midvokt_reference::refusals::least_lengths;

use crate::mixes::{Mix, Prepared, Room};
use crate::tables::Entry;
use crate::timing::{Clock, median, passes_for, run};

/// The mixes that are timed have as many records.
const RECORDS: usize = 1024;
/// Words of a whole result of loading.
const LOAD_RESULT: usize = 15;
/// The outputs that a file has.
const STORED_OUTPUTS: usize = 6;
/// Words of a file behind the outputs: the scalar fields and the trailer.
const FURTHER_WORDS: u64 = 8 + 16;

/// Nanoseconds a program of planning, storing and loading.
type Times = [f64; 3];

/// A mix with its files, a buffer for any of them, and room to load them into.
struct Stored<'a> {
    mix: &'a Mix,
    room: Room,
    file: Vec<u8>,
    files: Vec<Vec<u8>>,
    outputs: [Vec<u64>; STORED_OUTPUTS],
    result: [u64; LOAD_RESULT],
}

/// Bytes that are enough for the file of any program of so many records.
fn enough_bytes(records: usize) -> usize {
    let words: u64 = least_lengths(records as u64)[..STORED_OUTPUTS].iter().sum();
    8 * (words + FURTHER_WORDS) as usize
}

impl<'a> Stored<'a> {
    /// The mix's programs stored, each found to load again as it was planned.
    fn new(mix: &'a Mix) -> Result<Self, String> {
        let lengths = least_lengths(mix.records as u64);
        let mut stored = Self {
            mix,
            room: Room::new(mix.records),
            file: vec![0; enough_bytes(mix.records)],
            files: Vec::new(),
            outputs: std::array::from_fn(|place| vec![0; lengths[place] as usize]),
            result: [0; LOAD_RESULT],
        };
        for program in &mix.programs {
            let number = stored.store(program);
            let length = stored.room.result()[1] as usize;
            let file = stored.file[..length].to_vec();
            if number != 0 || stored.load(&file) != 0 || !stored.is_loaded() {
                return Err(format!("{}: a plan does not load again", mix.name()));
            }
            stored.files.push(file);
        }
        Ok(stored)
    }

    /// The call that stores, into a buffer that is enough for any file.
    fn store(&mut self, program: &Prepared) -> u64 {
        let Prepared { head, words, .. } = program;
        let (mut buffers, result) = self.room.lend();
        store_words(head, words, &mut buffers, &mut self.file, result)
    }

    /// The call that loads, into outputs as long as planning asks for.
    fn load(&mut self, file: &[u8]) -> u64 {
        let outputs = self.outputs.each_mut().map(Vec::as_mut_slice);
        load_words(file, &mut Sections::from(outputs), &mut self.result)
    }

    /// Whether the outputs are those that storing has planned.
    fn is_loaded(&self) -> bool {
        self.outputs[..] == self.room.words()[..STORED_OUTPUTS]
    }

    /// One pass of a call over the mix. Before each call there is noise in what it writes, and
    /// nothing else is touched.
    fn pass(
        &mut self,
        clock: &Clock,
        noise: impl Fn(&mut Self, u64),
        call: impl Fn(&mut Self, usize) -> u64,
    ) -> Duration {
        let mut total = Duration::ZERO;
        for index in 0..self.mix.programs.len() {
            noise(self, index as u64);
            let (number, time) = clock.time(|| call(self, black_box(index)));
            assert_eq!(number, 0, "the mix has plans only");
            total += time;
        }
        total
    }

    /// One pass of planning.
    fn plan_all(&mut self, clock: &Clock) -> Duration {
        let noise = |stored: &mut Self, noise| stored.room.make_noise(noise);
        let programs = &self.mix.programs;
        self.pass(clock, noise, |stored, index| {
            stored.room.plan(&programs[index])
        })
    }

    /// One pass of storing.
    fn store_all(&mut self, clock: &Clock) -> Duration {
        let noise = |stored: &mut Self, noise| {
            stored.room.make_noise(noise);
            stored.file.fill(noise as u8 | 1);
        };
        let programs = &self.mix.programs;
        self.pass(clock, noise, |stored, index| stored.store(&programs[index]))
    }

    /// One pass of loading.
    fn load_all(&mut self, clock: &Clock) -> Duration {
        let noise = |stored: &mut Self, noise| {
            let outputs = stored.outputs.iter_mut();
            outputs.for_each(|output| output.fill(noise | 1));
        };
        let files = std::mem::take(&mut self.files);
        let time = self.pass(clock, noise, |stored, index| stored.load(&files[index]));
        self.files = files;
        time
    }

    /// So many runs of each, in turn, after a pass of each that is not counted.
    fn time(&mut self, clock: &Clock, runs: usize) -> Vec<Times> {
        let passes: [fn(&mut Self, &Clock) -> Duration; 3] =
            [Self::plan_all, Self::store_all, Self::load_all];
        let programs = self.mix.programs.len();
        let counts = passes.map(|pass| {
            pass(self, clock);
            passes_for(pass(self, clock), programs)
        });
        let mut times = Vec::new();
        for _ in 0..runs {
            times.push(std::array::from_fn(|place| {
                run(counts[place], programs, || passes[place](self, clock))
            }));
        }
        times
    }

    /// The mean length of the files in bytes.
    fn mean_length(&self) -> usize {
        self.files.iter().map(Vec::len).sum::<usize>() / self.files.len()
    }
}

/// A mix by name, and what part of planning's time loading takes.
struct Line {
    name: String,
    ratio: f64,
}

/// Times a mix and prints its line.
fn print_mix(mix: &Mix, clock: &Clock, runs: usize) -> Result<Line, String> {
    let mut stored = Stored::new(mix)?;
    let times = stored.time(clock, runs);
    let [plan, store, load] = [0, 1, 2].map(|place| median(times.iter().map(|all| all[place])));
    let ratios = || times.iter().map(|[plan, _, load]| load / plan);
    let ratio = median(ratios());
    println!(
        "| {} | {} | {} | {} | {plan:.0} | {store:.0} | {load:.0} | {ratio:.2} | {:.2} to {:.2} |",
        mix.programs_name(),
        mix.width_name(),
        mix.sort_name(),
        stored.mean_length(),
        ratios().fold(f64::INFINITY, f64::min),
        ratios().fold(0.0, f64::max)
    );
    Ok(Line {
        name: mix.name(),
        ratio,
    })
}

/// Times all mixes of the most records and prints the table, and whether loading is ever slower
/// than planning.
pub fn print(entries: &[Entry], clock: &Clock, runs: usize) -> Result<(), String> {
    println!();
    println!("**Stored plans.** Programs of {RECORDS} records, planned, stored and loaded:");
    println!();
    println!(
        "| programs | width | components or positions | file, bytes | plan | store | load | load / plan | ratios seen |"
    );
    println!("|---|---|---|---|---|---|---|---|---|");
    let mixes = entries.iter().map(|entry| &entry.mix);
    let lines = mixes
        .filter(|mix| mix.records == RECORDS)
        .map(|mix| print_mix(mix, clock, runs))
        .collect::<Result<Vec<Line>, String>>()?;
    let ratios = || lines.iter().map(|line| line.ratio);
    let slower = lines.iter().filter(|line| line.ratio > 1.0);
    let slower: Vec<&str> = slower.map(|line| line.name.as_str()).collect();
    println!();
    println!(
        "Loading takes {:.2} to {:.2} of planning's time; slower than planning: {}.",
        ratios().fold(f64::INFINITY, f64::min),
        ratios().fold(0.0, f64::max),
        if slower.is_empty() {
            "no mix".to_owned()
        } else {
            slower.join("; ")
        }
    );
    Ok(())
}
