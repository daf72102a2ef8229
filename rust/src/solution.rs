//! A solution with its marks.

/// Whether the night's numbers say anything of a scalar.
#[derive(Clone, Copy, Debug, PartialEq, Eq, Hash)]
#[repr(u8)]
pub enum Mark {
    /// Its pivot was dropped: nothing was left to say what it is, and the 0.0 beside it is no evidence.
    Silent = 0,
    /// There is evidence.
    Heard = 1,
}

impl Mark {
    /// The label of a scalar with this value: none where it is silent, and none where the value is NaN or infinite, which a right side
    /// brings in. A calm −0.0 is the label 0.0.
    pub fn label(self, value: f64) -> Option<f64> {
        (self == Mark::Heard && value.is_finite()).then_some(value + 0.0)
    }
}

/// A number and a mark for each scalar, in old order.
#[derive(Clone, Debug, PartialEq)]
pub struct Solution {
    pub(crate) values: Vec<f64>,
    pub(crate) marks: Vec<Mark>,
    pub(crate) silent: usize,
}

impl Solution {
    /// The numbers.
    pub fn values(&self) -> &[f64] {
        &self.values
    }

    /// The marks.
    pub fn marks(&self) -> &[Mark] {
        &self.marks
    }

    /// How many scalars are silent.
    pub fn silent(&self) -> usize {
        self.silent
    }

    /// The scalars in old order.
    pub fn iter(&self) -> impl ExactSizeIterator<Item = (f64, Mark)> + '_ {
        self.values.iter().copied().zip(self.marks.iter().copied())
    }

    /// The label of a scalar, as [`Mark::label`] has it; none where there is no such scalar.
    pub fn label(&self, scalar: usize) -> Option<f64> {
        self.marks.get(scalar)?.label(self.values[scalar])
    }

    /// The labels in old order.
    pub fn labels(&self) -> impl ExactSizeIterator<Item = Option<f64>> + '_ {
        self.iter().map(|(value, mark)| mark.label(value))
    }
}
