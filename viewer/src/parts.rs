//! A picture that is too wide goes on below, in parts: which events a part has, and which
//! components are drawn in it.

use crate::lives::{Event, Life, Replay};

/// A part of a picture.
pub struct Part<'a> {
    /// Its events; none only where the plan has none.
    pub events: &'a [Event],
    /// Whether it begins the picture.
    pub is_first: bool,
    /// Whether it ends the picture.
    pub is_last: bool,
}

impl<'a> Part<'a> {
    /// The parts of a picture, each of so many events; one part where there is no event.
    pub fn all(events: &'a [Event], most: usize) -> Vec<Self> {
        let most = most.max(1);
        let parts = events.len().div_ceil(most).max(1);
        let part = |number: usize| Self {
            events: &events[number * most..events.len().min((number + 1) * most)],
            is_first: number == 0,
            is_last: number + 1 == parts,
        };
        (0..parts).map(part).collect()
    }

    /// Whether an event of the part names the component.
    fn names(&self, component: usize) -> bool {
        self.events
            .iter()
            .any(|event| event.component == component || event.joined.contains(&component))
    }

    /// Whether the component lives where the part begins.
    pub fn enters(&self, life: &Life) -> bool {
        match self.events.first() {
            Some(first) => life.before(first.record),
            None => true,
        }
    }

    /// Whether the component lives where the part stops.
    pub fn leaves(&self, life: &Life) -> bool {
        match self.events.last() {
            Some(last) => life.after(last.record),
            None => true,
        }
    }

    /// Whether the component's end, or the end of the picture, is in the part.
    pub fn ends(&self, life: &Life) -> bool {
        self.is_last || !self.leaves(life)
    }

    /// The components that are drawn: those that the part's events name, and all where there is no
    /// other part. Then those that live in it unchanged, and are not drawn.
    pub fn components(&self, replay: &Replay) -> (Vec<usize>, Vec<usize>) {
        let is_whole = self.is_first && self.is_last;
        let lives = replay.lives.iter().enumerate();
        let held = lives.filter(|&(component, life)| {
            self.names(component) || self.enters(life) || self.leaves(life)
        });
        held.map(|(component, _)| component)
            .partition(|&component| is_whole || self.names(component))
    }
}

#[cfg(test)]
mod tests {
    use super::*;
    use crate::circuit;
    use crate::planning::View;

    /// For each part of so many events: its records, what is drawn and what is not.
    fn parts(text: &str, most: usize) -> Vec<(Vec<usize>, Vec<usize>, Vec<usize>)> {
        let circuit = circuit::parse(text.as_bytes()).unwrap();
        let replay = View::of("-", &circuit).unwrap().replay;
        let part = |part: Part<'_>| {
            let records = part.events.iter().map(|event| event.record).collect();
            let (drawn, quiet) = part.components(&replay);
            (records, drawn, quiet)
        };
        let all = Part::all(&replay.events, most);
        all.into_iter().map(part).collect()
    }

    #[test]
    fn each_component_stands_in_the_parts_where_it_lives() {
        let text = "initial 4\nmax 8\nrotate X0 1\nrecord\nrotate X0*X2 1\nrotate X3 1\n\
                    promote\nmeasure Z1 pivot 1\n";
        assert_eq!(
            parts(text, 2),
            [
                (vec![0, 2], vec![0, 2], vec![1, 3]),
                (vec![3, 4], vec![3, 4], vec![0, 1]),
                (vec![5], vec![1], vec![0, 3, 4]),
            ]
        );
        let whole = (vec![0, 2, 3, 4, 5], vec![0, 1, 2, 3, 4], vec![]);
        assert_eq!(parts(text, 5), [whole]);
    }

    #[test]
    fn nothing_has_one_part() {
        assert_eq!(
            parts("initial 2\nmax 8\n", 0),
            [(vec![], vec![0, 1], vec![])]
        );
    }
}
