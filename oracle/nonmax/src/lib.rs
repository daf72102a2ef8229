//! A stand-in for nonmax: any usize but the greatest, stored so that the option of one takes no more room.
use std::num::NonZeroUsize;

#[derive(Clone, Copy, Debug, PartialEq, Eq)]
pub struct NonMaxUsize(NonZeroUsize);

impl NonMaxUsize {
    #[inline]
    pub const fn new(value: usize) -> Option<Self> {
        match NonZeroUsize::new(!value) {
            Some(stored) => Some(Self(stored)),
            None => None,
        }
    }
    #[inline]
    pub const fn get(self) -> usize {
        !self.0.get()
    }
}
