//! A figure's two ends, and the stages that round them outward.

/// A figure: "a lower end rounded down and an upper end rounded up".
#[derive(Clone, Copy, Debug, PartialEq, Eq)]
pub struct Figure {
    pub lower: i128,
    pub upper: i128,
}

impl Figure {
    /// The ends as two choices.
    pub(crate) fn both(self) -> [i128; 2] {
        [self.lower, self.upper]
    }

    /// A stage that divides: rounded down, and up.
    pub(crate) fn over(lower: i128, upper: i128, divisor: i128) -> Figure {
        Figure { lower: lower.div_euclid(divisor), upper: -(-upper).div_euclid(divisor) }
    }

    /// A stage of whole numbers alone.
    pub(crate) fn of(numerator: i128, divisor: i128) -> Figure {
        Figure::over(numerator, numerator, divisor)
    }

    /// "The smallest and largest outcome" of some, which are not none; then divided.
    pub(crate) fn outermost(outcomes: &[i128], divisor: i128) -> Figure {
        Figure::over(*outcomes.iter().min().unwrap(), *outcomes.iter().max().unwrap(), divisor)
    }

    /// "A product of ends takes the smallest and largest outcome"; then divided.
    pub(crate) fn times(self, other: Figure, divisor: i128) -> Figure {
        let outcomes = self.both().map(|one| other.both().map(|two| one * two));
        Figure::outermost(outcomes.as_flattened(), divisor)
    }

    /// Multiplied by a number that is not negative, and divided.
    pub(crate) fn scaled(self, factor: u32, divisor: i128) -> Figure {
        combined(&[(factor, self)], divisor)
    }
}

/// The sum of figures, each with its own factor, divided.
pub(crate) fn combined(terms: &[(u32, Figure)], divisor: i128) -> Figure {
    let lower = terms.iter().map(|(factor, figure)| i128::from(*factor) * figure.lower).sum();
    let upper = terms.iter().map(|(factor, figure)| i128::from(*factor) * figure.upper).sum();
    Figure::over(lower, upper, divisor)
}
