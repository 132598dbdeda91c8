//! The programs of a run, by number: the listed ones first, then the random ones.

use midvokt_reference::generator::{self, Draw, around_ceilings, probes, small_programs};
use midvokt_reference::input::Program;
use midvokt_reference::stored;

pub struct Inputs {
    name: &'static str,
    listed: Vec<Program>,
    /// How many of the listed programs come from where.
    parts: Vec<(&'static str, usize)>,
    draw: Draw,
    seed: u64,
    count: u64,
}

impl Inputs {
    /// The programs of these lists, none drawn yet.
    fn listed(name: &'static str, lists: Vec<(&'static str, Vec<Program>)>, draw: Draw) -> Self {
        let count = |list: &(&'static str, Vec<Program>)| (list.0, list.1.len());
        Self {
            name,
            parts: lists.iter().map(count).collect(),
            listed: lists.into_iter().flat_map(|list| list.1).collect(),
            draw,
            seed: 0,
            count: 0,
        }
    }

    /// The same with so many random programs.
    fn with_random(self, seed: u64, count: u64) -> Self {
        Self {
            seed,
            count,
            ..self
        }
    }

    /// The listed programs at the ceiling 62 and so many random ones.
    pub fn at_62(seed: u64, count: u64) -> Result<Self, String> {
        let lists = vec![
            ("stored", stored::at_62()?),
            ("up to two records", small_programs()),
            ("several faults", probes()),
        ];
        Ok(Self::listed("programs", lists, generator::AT_62).with_random(seed, count))
    }

    /// The listed programs under other ceilings and so many random ones.
    pub fn under_ceilings(seed: u64, count: u64) -> Result<Self, String> {
        let lists = vec![
            ("stored", stored::under_ceilings()?),
            ("around ceilings", around_ceilings()),
        ];
        let listed = Self::listed("programs under ceilings", lists, generator::UNDER_CEILINGS);
        Ok(listed.with_random(seed, count))
    }

    /// How many programs there are.
    pub fn len(&self) -> u64 {
        self.listed.len() as u64 + self.count
    }

    /// The program of a number.
    pub fn program(&self, index: u64) -> Result<Program, String> {
        let listed = self.listed.len() as u64;
        match index.checked_sub(listed) {
            Some(random) => (self.draw)(self.seed, random),
            None => Ok(self.listed[index as usize].clone()),
        }
    }

    /// How many programs there are of each part.
    pub fn text(&self) -> String {
        let parts = self.parts.iter();
        let parts: Vec<String> = parts
            .map(|(name, count)| format!("{name} {count}"))
            .collect();
        format!(
            "{} {}: {}, random {} of seed {}",
            self.name,
            self.len(),
            parts.join(", "),
            self.count,
            self.seed
        )
    }
}
