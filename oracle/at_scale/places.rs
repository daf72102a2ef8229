//! Lent places before and after a call, and how many of them were compared.
use std::collections::BTreeMap;

use bench::run::bits;

use crate::solves::Told;

/// What document 01 fills L's values, the diagonal factors and d with after 13 and 14.
const WORTHLESS: u64 = 0x7FF8000000000000;

/// What is to stand in the first places of a buffer after a call; those behind them are as they were.
pub enum After<'a, T> {
    Same,
    /// So many zeros.
    Zeros(usize),
    /// These numbers; of a NaN, that it is one.
    Filled(&'a [T]),
    /// So many NaN of exactly these bits.
    Worthless(usize),
}

/// A place of a buffer as its bits.
pub trait Place: Copy {
    /// Any bits, by a drawn word.
    fn mark(word: u64) -> Self;
    fn exact(self) -> u64;
    /// The same, with one NaN for all.
    fn told(self) -> u64;
}

impl Place for u32 {
    fn mark(word: u64) -> Self {
        word as u32
    }
    fn exact(self) -> u64 {
        self as u64
    }
    fn told(self) -> u64 {
        self as u64
    }
}

impl Place for f64 {
    fn mark(word: u64) -> Self {
        f64::from_bits(word)
    }
    fn exact(self) -> u64 {
        self.to_bits()
    }
    fn told(self) -> u64 {
        bits(self)
    }
}

/// The figures of a run.
#[derive(Default)]
pub struct Tally {
    pub systems: usize,
    pub large: bool,
    /// By call, whether the system is large, and number.
    pub outcomes: BTreeMap<(&'static str, bool, u32), usize>,
    /// What 12 told of: the first and the third number that it carries.
    pub mismatches: BTreeMap<(u64, u64), usize>,
    pub buffers: usize,
    pub words: usize,
    pub floats: usize,
    /// Places that the source's answer fills.
    pub filled: usize,
    pub wrong: usize,
    mark: u64,
}

impl Tally {
    /// Marks every place with bits of its own.
    pub fn mark<T: Place>(&mut self, buffers: &mut [Vec<T>]) {
        for place in buffers.iter_mut().flatten() {
            self.mark = self.mark.wrapping_mul(6364136223846793005).wrapping_add(1442695040888963407);
            *place = T::mark(self.mark >> 7 ^ self.mark << 33);
        }
    }

    pub fn outcome(&mut self, call: &'static str, (number, carried): Told) {
        *self.outcomes.entry((call, self.large, number)).or_default() += 1;
        if number == 12 {
            *self.mismatches.entry((carried[0], carried[2])).or_default() += 1;
        }
    }

    /// Says what is wrong, and counts it.
    pub fn fault(&mut self, what: &str) {
        self.wrong += 1;
        if self.wrong <= 20 {
            println!("system {}: {what}", self.systems);
        }
    }

    /// Are the places after the call what they are to be?
    pub fn held<T: Place>(&mut self, what: &str, before: &[T], after: &[T], told: After<'_, T>) {
        self.buffers += 1;
        match size_of::<T>() {
            8 => self.floats += after.len(),
            _ => self.words += after.len(),
        }
        let (filled, good) = match told {
            After::Same => (0, true),
            After::Zeros(need) => (need, after[..need].iter().all(|p| p.exact() == 0)),
            After::Worthless(need) => (need, after[..need].iter().all(|p| p.exact() == WORTHLESS)),
            After::Filled(right) => {
                self.filled += right.len();
                (right.len(), right.iter().zip(after).all(|(r, p)| r.told() == p.told()))
            }
        };
        let beyond = before[filled..].iter().zip(&after[filled..]).all(|(b, a)| b.exact() == a.exact());
        if !good || !beyond || before.len() != after.len() {
            self.fault(&format!("{what}: {} places, {filled} of them filled, are not what they are to be", after.len()));
        }
    }
}

/// A place that is not what it is to be is found, wherever it is.
pub fn assert_seen() {
    let other = f64::from_bits(WORTHLESS + 1);
    let seen = |before: &[f64], after: &[f64], told: After<'_, f64>| {
        let mut tally = Tally { wrong: 20, ..Tally::default() };
        tally.held("", before, after, told);
        tally.wrong == 21
    };
    let worthless = f64::from_bits(WORTHLESS);
    assert!(!seen(&[1.0, other], &[1.0, other], After::Same));
    assert!(seen(&[1.0, other], &[1.0, worthless], After::Same));
    assert!(!seen(&[1.0, 2.0], &[0.0, 2.0], After::Zeros(1)));
    assert!(seen(&[1.0, 2.0], &[-0.0, 2.0], After::Zeros(1)));
    assert!(seen(&[1.0, 2.0], &[0.0, 0.0], After::Zeros(1)));
    assert!(!seen(&[1.0, 2.0], &[worthless, 2.0], After::Worthless(1)));
    assert!(seen(&[1.0, 2.0], &[other, 2.0], After::Worthless(1)));
    assert!(!seen(&[1.0, 2.0], &[other, 2.0], After::Filled(&[worthless])));
    assert!(seen(&[1.0, 2.0], &[-0.0, 2.0], After::Filled(&[0.0])));
    assert!(seen(&[1.0, 2.0], &[0.0, 3.0], After::Filled(&[0.0])));
}
