//! What the Rust takes from this machine, tried before anything is answered; and its processors.

use std::thread;

/// 01 reads exp2 as the exact power of two; the Rust takes it from this machine, which
/// is tried here for every exponent that planning can ask for.
pub fn check_exact_powers() -> Result<(), String> {
    for exponent in 0..=512u64 {
        let power = std::hint::black_box(exponent as f64).exp2();
        if power.to_bits() != (1023 + exponent) << 52 {
            return Err(format!("exp2 of {exponent} is not exact on this machine"));
        }
    }
    Ok(())
}

/// Does this work on as many threads as the machine has processors; what each of them gives.
pub fn on_all_processors<T: Send>(
    work: impl Fn() -> Result<T, String> + Sync,
) -> Result<Vec<T>, String> {
    let threads = thread::available_parallelism().map_or(1, |count| count.get());
    thread::scope(|scope| {
        let begun: Vec<_> = (0..threads).map(|_| scope.spawn(&work)).collect();
        begun
            .into_iter()
            .map(|worker| worker.join().map_err(|_| "a thread ended early")?)
            .collect()
    })
}
