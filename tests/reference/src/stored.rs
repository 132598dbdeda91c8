//! The stored programs: 01's circuits, further circuits, and edges.

use crate::input::{LARGEST_CEILING, Program, is_skipped};

const TEXTS: [&str; 3] = [
    include_str!("../circuits.txt"),
    include_str!("../further.txt"),
    include_str!("../edges.txt"),
];

/// The programs of a text, one a line.
fn programs_of(text: &str) -> Result<Vec<Program>, String> {
    text.lines()
        .filter(|line| !is_skipped(line))
        .map(Program::parse)
        .collect()
}

/// The programs of some texts.
fn programs_of_all(texts: &[&str]) -> Result<Vec<Program>, String> {
    let all: Result<Vec<_>, String> = texts.iter().map(|text| programs_of(text)).collect();
    Ok(all?.concat())
}

/// 01's own circuits and the further ones.
pub fn circuits() -> Result<Vec<Program>, String> {
    programs_of_all(&TEXTS[..2])
}

/// All stored programs with the largest ceiling, or all others.
fn programs(is_largest: bool) -> Result<Vec<Program>, String> {
    let mut programs = programs_of_all(&TEXTS)?;
    programs.retain(|program| (program.ceiling == LARGEST_CEILING) == is_largest);
    Ok(programs)
}

/// The stored programs at the ceiling 62.
pub fn at_62() -> Result<Vec<Program>, String> {
    programs(true)
}

/// The stored programs under other ceilings.
pub fn under_ceilings() -> Result<Vec<Program>, String> {
    programs(false)
}
