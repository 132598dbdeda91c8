//! Random programs under a ceiling (02, CR 4): many come to 14 at their ceiling, and many just do
//! not. The records are those of random programs, and the sizes of their joins are the Rust's.

use super::random::Random;
use crate::ceiling::join_sizes;
use crate::input::{LARGEST_CEILING, Program};
use crate::refusals::{before_the_walk, is_left_unread, of_head};
use crate::walk::walk;

/// The least ceiling under which records are read.
const LEAST_READ: u64 = 9;
/// The largest ceiling below 62.
const MOST: u64 = LARGEST_CEILING - 1;
/// How many programs are drawn for one with a join of that size.
const MOST_DRAWN: usize = 20;

/// A way to make a random program under a ceiling.
type Sort = fn(&mut Random) -> Result<Program, String>;

/// How often each sort of program is made.
const SORTS: [(u64, Sort); 5] = [
    (60, near_a_join),
    (24, any_ceiling),
    (5, large_max_k),
    (6, unread),
    (5, outside),
];

/// Program number `index` of a seed under a ceiling, whichever others are made.
pub fn program(seed: u64, index: u64) -> Result<Program, String> {
    // The numbers of this seed itself are those of the programs at 62.
    let mut random = Random::new(!seed, index);
    let weights = SORTS.map(|(weight, _)| weight);
    let (_, sort) = SORTS[random.weighted(&weights)];
    sort(&mut random)
}

/// Any random program, at the ceiling 62.
fn drawn(random: &mut Random) -> Program {
    super::program(random.word(), 0)
}

/// Whether the walk begins.
fn is_walked(program: &Program) -> bool {
    of_head(program).is_none() && !is_left_unread(program) && before_the_walk(program).is_none()
}

/// The sizes that the joins of a program's walk make, of those that can come to a ceiling.
fn large_joins(program: &Program) -> Result<Vec<u64>, String> {
    if !is_walked(program) {
        return Ok(Vec::new());
    }
    let records = program.records();
    let walked = walk(program, &records)?;
    let sizes = join_sizes(program, &records, &walked)?;
    let sizes = sizes.into_iter().map(|size| size as u64);
    Ok(sizes.filter(|&size| size >= LEAST_READ).collect())
}

/// The program under a ceiling, with a max_k below it that has the records read.
fn read_under(mut program: Program, ceiling: u64, random: &mut Random) -> Program {
    let most = ceiling - 1;
    let any = random.between(LEAST_READ - 1, most);
    program.max_k = random.pick(&[program.max_k.min(most), most, any]);
    program.ceiling = ceiling;
    program
}

/// A ceiling at the size of a join or beside it. The last join is that of the record at which
/// the Rust stops, where it stops behind a join.
fn near_a_join(random: &mut Random) -> Result<Program, String> {
    for _ in 0..MOST_DRAWN {
        let program = drawn(random);
        let sizes = large_joins(&program)?;
        if let (Some(&largest), Some(&last)) = (sizes.iter().max(), sizes.last()) {
            let any = random.pick(&sizes);
            let size = random.pick(&[largest, last, any]);
            let near = [size, size, size + 1, size - 1, largest + 1, largest + 1];
            let ceiling = random.pick(&near).clamp(LEAST_READ, MOST);
            return Ok(read_under(program, ceiling, random));
        }
    }
    any_ceiling(random)
}

/// Any ceiling below 62 for any program, with its own head but for a max_k that is too large.
fn any_ceiling(random: &mut Random) -> Result<Program, String> {
    let program = drawn(random);
    let ceiling = random.between(LEAST_READ, MOST);
    Ok(match program.max_k < ceiling || random.chance(10) {
        true => program.under(ceiling),
        false => read_under(program, ceiling, random),
    })
}

/// Refusal 1: a max_k at the ceiling or above, whether the records are read or not.
fn large_max_k(random: &mut Random) -> Result<Program, String> {
    let ceiling = random.between(1, MOST);
    let mut program = drawn(random).under(ceiling);
    let any = random.between(ceiling, u64::MAX);
    let below_62 = random.between(ceiling, MOST);
    program.max_k = random.pick(&[ceiling, ceiling, ceiling + 1, below_62, any]);
    program.nexpvals = random.pick(&[0, 0, 1]);
    Ok(program)
}

/// A small ceiling, or any with a nexpvals, under which no record is read.
fn unread(random: &mut Random) -> Result<Program, String> {
    let small = random.between(1, LEAST_READ - 1);
    let any = random.between(1, MOST);
    let ceiling = random.pick(&[small, small, any]);
    let mut program = drawn(random).under(ceiling);
    let below = random.below(ceiling);
    program.max_k = random.pick(&[ceiling - 1, below]);
    if program.max_k >= LEAST_READ - 1 {
        program.nexpvals = random.pick(&[1, u64::MAX]);
    }
    Ok(program)
}

/// Refusal 24, whatever the rest of the head is.
fn outside(random: &mut Random) -> Result<Program, String> {
    let any = random.between(LARGEST_CEILING + 1, u64::MAX);
    let ceiling = random.pick(&[0, 0, LARGEST_CEILING + 1, u64::MAX, any]);
    Ok(drawn(random).under(ceiling))
}
