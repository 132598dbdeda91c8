//! Options of the programs that compare many inputs, and their exit status.

use std::process::ExitCode;

/// Reads `[--spoil N] [NUMBER ...]` into the numbers that are given; the number behind `--spoil`.
pub fn read(
    words: impl Iterator<Item = String>,
    numbers: &mut [&mut u64],
) -> Result<Option<u64>, String> {
    let mut words = words.peekable();
    let number = |text: Option<String>| {
        let text = text.unwrap_or_default();
        text.parse::<u64>()
            .map_err(|error| format!("{text:?} is not a number: {error}"))
    };
    let spoils = words.next_if(|word| word == "--spoil").is_some();
    let spoiled = spoils.then(|| number(words.next())).transpose()?;
    for option in numbers {
        if words.peek().is_some() {
            **option = number(words.next())?;
        }
    }
    match words.next() {
        None => Ok(spoiled),
        Some(word) => Err(format!("{word:?} is one word too many")),
    }
}

/// Runs with these options. Exit status: 0 where the run is good, 1 where it is not, 2 for a
/// malformed option, 3 for anything that was not foreseen.
pub fn run<O>(
    name: &str,
    options: Result<O, String>,
    run: impl Fn(&O) -> Result<bool, String>,
) -> ExitCode {
    let told = |status: u8, message: String| {
        eprintln!("{name}: {message}");
        ExitCode::from(status)
    };
    let options = match options {
        Ok(options) => options,
        Err(message) => return told(2, message),
    };
    match run(&options) {
        Ok(true) => ExitCode::SUCCESS,
        Ok(false) => ExitCode::FAILURE,
        Err(message) => told(3, message),
    }
}

#[cfg(test)]
mod tests {
    use super::*;

    /// What the words give, with two numbers that are 1 and 2 unless given.
    fn given(words: &str) -> Result<(Option<u64>, u64, u64), String> {
        let (mut seed, mut count) = (1, 2);
        let words = words.split_whitespace().map(str::to_owned);
        let spoiled = read(words, &mut [&mut seed, &mut count])?;
        Ok((spoiled, seed, count))
    }

    #[test]
    fn words_are_read_in_order() {
        assert_eq!(given(""), Ok((None, 1, 2)));
        assert_eq!(given("5"), Ok((None, 5, 2)));
        assert_eq!(given("--spoil 9 5 6"), Ok((Some(9), 5, 6)));
    }

    #[test]
    fn malformed_words_are_told() {
        for words in ["x", "--spoil", "--spoil x", "5 --spoil 9", "5 6 7", "-1"] {
            assert!(given(words).is_err(), "{words}");
        }
    }
}
