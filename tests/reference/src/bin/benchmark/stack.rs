//! Plans of the most records on a thread with a small stack. A thread that needs more ends
//! the whole program.

use std::thread;

use crate::mixes::{Mix, Room};

const STACK: usize = 64 * 1024;
const MOST_RECORDS: usize = 1024;

/// Plans each program of the most records on a small stack, and says how many there were.
pub fn plan_on_small_stack<'a>(mixes: impl Iterator<Item = &'a Mix>) -> Result<String, String> {
    let mut count = 0;
    for program in mixes
        .filter(|mix| mix.records == MOST_RECORDS)
        .flat_map(|mix| &mix.programs)
    {
        let mut room = Room::new(MOST_RECORDS);
        room.make_noise(count);
        let number = thread::scope(|scope| {
            let thread = thread::Builder::new().stack_size(STACK);
            let begun = thread.spawn_scoped(scope, || room.plan(program));
            let begun = begun.map_err(|error| error.to_string())?;
            begun
                .join()
                .map_err(|_| "the thread ended early".to_owned())
        })?;
        if number != 0 {
            return Err(format!("refused with {number} on a small stack"));
        }
        count += 1;
    }
    Ok(format!(
        "{count} plans of {MOST_RECORDS} records were made on threads with a stack of {} KiB.",
        STACK / 1024
    ))
}
