//! The works of a plan as a person reads them: whole numbers where the plan has them, else floats,
//! and how many times cheaper the components are, with the exact remainder. A stored plan has its
//! works as floats only.

use midvokt::WholeWorks;

use crate::figures;
use crate::planning::View;

/// What is said where the plan has no whole numbers.
const TOO_WIDE: &str =
    "too wide for whole numbers: the works of more than 38 coordinates are floats";

/// How many times one float is another: two digits behind the point, none where it is large.
fn times(number: f64) -> String {
    match number {
        number if number < 100.0 => format!("{number:.2}"),
        number => figures::float(number.round()),
    }
}

/// How two float works compare.
fn roughly(dense: f64, component: f64) -> String {
    if component == 0.0 {
        return "the components have no work".to_owned();
    }
    if dense == 0.0 {
        return "the components have work, and one wide register has none".to_owned();
    }
    let (number, word) = match dense >= component {
        true => (dense / component, "cheaper"),
        false => (component / dense, "dearer"),
    };
    format!("the components are about {} times {word}", times(number))
}

/// How two whole works compare, by their quotient and its remainder, and by how many times dearer
/// the components are where they are. A quotient of 0 or 1 is no number of times by which something
/// is cheaper, so that other words stand there.
fn exactly(quotient: u64, remainder: u64, dearer: f64) -> String {
    let rest = format!("remainder {}", figures::whole(remainder));
    match (quotient, remainder) {
        (0, _) => format!(
            "the components are not cheaper: quotient 0, {rest} ({} times dearer)",
            times(dearer)
        ),
        (1, 0) => format!("the components cost just as much: quotient 1, {rest}"),
        (1, _) => format!("the components are cheaper, but not 2 times: quotient 1, {rest}"),
        _ => format!(
            "the components are {} times cheaper, {rest}",
            figures::whole(quotient)
        ),
    }
}

/// The works of a plan.
#[derive(Clone, Copy)]
pub struct Works {
    /// That of one wide register.
    dense: f64,
    /// That of the components.
    component: f64,
    /// Both as whole numbers; none for a stored plan.
    whole: Option<WholeWorks>,
}

impl Works {
    /// The works of a plan.
    pub fn of(view: &View<'_>) -> Self {
        Self {
            dense: view.plan.estimated_dense_work,
            component: view.plan.estimated_component_work,
            whole: view.whole_works(),
        }
    }

    /// Both in digits: that of one wide register, then that of the components.
    pub fn digits(&self) -> (String, String) {
        match self.whole {
            None | Some(WholeWorks::TooWide) => {
                (figures::float(self.dense), figures::float(self.component))
            }
            Some(WholeWorks::WithoutQuotient { dense }) => {
                (figures::whole(dense), figures::whole(0))
            }
            Some(WholeWorks::WithQuotient {
                dense, component, ..
            }) => (figures::whole(dense), figures::whole(component)),
        }
    }

    /// How the components' work compares with that of one wide register, a line or two.
    pub fn comparison(&self) -> Vec<String> {
        let rough = roughly(self.dense, self.component);
        match self.whole {
            None => vec![rough],
            Some(WholeWorks::TooWide) => vec![rough, TOO_WIDE.to_owned()],
            Some(WholeWorks::WithoutQuotient { .. }) => {
                vec!["no quotient: the component work is 0".to_owned()]
            }
            Some(WholeWorks::WithQuotient {
                quotient,
                remainder,
                ..
            }) => vec![exactly(quotient, remainder, self.component / self.dense)],
        }
    }
}

#[cfg(test)]
mod tests {
    use super::*;

    /// Works of a plan that was made now.
    fn works(whole: WholeWorks, dense: f64, component: f64) -> Works {
        Works {
            dense,
            component,
            whole: Some(whole),
        }
    }

    /// What is said of two whole works: both in digits, and how they compare.
    fn said(dense: u64, component: u64) -> (String, String, Vec<String>) {
        let whole = WholeWorks::WithQuotient {
            dense,
            component,
            quotient: dense / component,
            remainder: dense % component,
        };
        let works = works(whole, dense as f64, component as f64);
        let (dense, component) = works.digits();
        (dense, component, works.comparison())
    }

    #[test]
    fn whole_works_have_quotient_and_remainder() {
        let (dense, component, compared) = said(26_624, 334);
        assert_eq!((dense.as_str(), component.as_str()), ("26,624", "334"));
        assert_eq!(
            compared,
            ["the components are 79 times cheaper, remainder 238"]
        );
        assert_eq!(
            said(1 << 49, 34).2,
            ["the components are 16,557,351,571,215 times cheaper, remainder 2"]
        );
        assert_eq!(
            said(68, 34).2,
            ["the components are 2 times cheaper, remainder 0"]
        );
    }

    #[test]
    fn a_quotient_below_2_is_no_number_of_times() {
        assert_eq!(
            said(106_496, 86_804).2,
            ["the components are cheaper, but not 2 times: quotient 1, remainder 19,692"]
        );
        assert_eq!(
            said(272, 272).2,
            ["the components cost just as much: quotient 1, remainder 0"]
        );
        assert_eq!(
            said(8, 44).2,
            ["the components are not cheaper: quotient 0, remainder 8 (5.50 times dearer)"]
        );
    }

    #[test]
    fn without_component_work_there_is_no_quotient() {
        let works = works(WholeWorks::WithoutQuotient { dense: 1024 }, 1024.0, 0.0);
        assert_eq!(works.digits(), ("1,024".to_owned(), "0".to_owned()));
        assert_eq!(works.comparison(), ["no quotient: the component work is 0"]);
    }

    #[test]
    fn wide_works_are_floats() {
        let wide = |dense, component| works(WholeWorks::TooWide, dense, component);
        let large = wide(2f64.powi(512), 2f64.powi(61));
        let (dense, component) = large.digits();
        assert_eq!(dense, "1.3408e154");
        assert_eq!(component, "2,305,843,009,213,693,952");
        let first = |dense, component| wide(dense, component).comparison()[0].clone();
        assert_eq!(
            first(80.0, 10.0),
            "the components are about 8.00 times cheaper"
        );
        assert_eq!(
            first(8.0, 44.0),
            "the components are about 5.50 times dearer"
        );
        assert_eq!(
            first(1e6, 2.0),
            "the components are about 500,000 times cheaper"
        );
        assert_eq!(first(0.0, 0.0), "the components have no work");
        assert_eq!(
            first(0.0, 1.0),
            "the components have work, and one wide register has none"
        );
        assert!(large.comparison()[1].starts_with("too wide for whole numbers"));
    }

    #[test]
    fn stored_works_are_floats_and_not_too_wide() {
        let stored = Works {
            dense: 26_624.0,
            component: 334.0,
            whole: None,
        };
        assert_eq!(stored.digits(), ("26,624".to_owned(), "334".to_owned()));
        assert_eq!(
            stored.comparison(),
            ["the components are about 79.71 times cheaper"]
        );
    }
}
