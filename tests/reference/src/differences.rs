//! What differs in a run of many inputs, by their numbers, and counts of several threads in one.

/// How many inputs differ, and the one of the smallest number.
#[derive(Default)]
pub struct Differences {
    pub count: u64,
    first: Option<(u64, String)>,
}

impl Differences {
    /// Notes that the input of a number differs.
    pub fn note(&mut self, index: u64, text: String) {
        self.count += 1;
        self.keep_first(index, text);
    }

    /// Adds what another thread has noted.
    pub fn add(&mut self, other: Self) {
        self.count += other.count;
        if let Some((index, text)) = other.first {
            self.keep_first(index, text);
        }
    }

    /// The difference of the smallest number, with a name for what is numbered.
    pub fn first(&self, name: &str) -> Option<String> {
        let (index, text) = self.first.as_ref()?;
        Some(format!("{name} {index} differs: {text}"))
    }

    fn keep_first(&mut self, index: u64, text: String) {
        if self.first.as_ref().is_none_or(|(first, _)| index < *first) {
            self.first = Some((index, text));
        }
    }
}

/// Adds counts to as many others.
pub fn add_counts(mine: &mut [u64], theirs: &[u64]) {
    mine.iter_mut()
        .zip(theirs)
        .for_each(|(mine, theirs)| *mine += theirs);
}

#[cfg(test)]
mod tests {
    use super::*;

    #[test]
    fn the_smallest_number_is_told() {
        let mut differences = Differences::default();
        assert_eq!(differences.first("call"), None);
        differences.note(7, "seven".to_owned());
        differences.note(9, "nine".to_owned());
        let mut other = Differences::default();
        other.note(8, "eight".to_owned());
        other.note(3, "three".to_owned());
        differences.add(other);
        assert_eq!(differences.count, 4);
        let told = differences.first("call");
        assert_eq!(told.as_deref(), Some("call 3 differs: three"));
    }
}
