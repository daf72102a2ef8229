//! Scratch that is kept from call to call.
use crate::calls::PlanScratch;

/// The scratch of plans.
#[derive(Clone, Debug, Default)]
pub(crate) struct PlanSpace {
    inverse: Vec<u32>,
    pub(crate) sizes: Vec<u32>,
    count: Vec<u32>,
    heads: Vec<u32>,
    into: Vec<u32>,
    stamps: Vec<u32>,
    table: Vec<u32>,
    upper: Vec<u32>,
}

impl PlanSpace {
    fn grow(&mut self, needs: [usize; 8]) {
        let PlanSpace { inverse, sizes, count, heads, into, stamps, table, upper } = self;
        for (buffer, need) in [inverse, sizes, count, heads, into, stamps, table, upper].into_iter().zip(needs) {
            grow(buffer, need);
        }
    }

    pub(crate) fn lend(&mut self) -> PlanScratch<'_> {
        let PlanSpace { inverse, sizes, count, heads, into, stamps, table, upper } = self;
        PlanScratch { inverse, sizes, count, heads, into, stamps, table, upper }
    }
}

/// The scratch of plans, factorizations and solves. It grows where a call needs more and never shrinks, so a call on a system no larger
/// than one before allocates nothing. A factorization is lent a cache too, of as many numbers as L has at most, so that a block of L times the
/// unit factor of its column is not worked out again for every block product; [`without_cache`](Workspace::without_cache) spares that
/// memory. The factor is the same, number by number.
#[derive(Clone, Debug, Default)]
pub struct Workspace {
    pub(crate) plan: PlanSpace,
    pub(crate) bodies: Vec<u32>,
    pub(crate) unit_starts: Vec<u32>,
    pub(crate) d_starts: Vec<u32>,
    pub(crate) places: Vec<u32>,
    pub(crate) scalar_perm: Vec<u32>,
    pub(crate) scalar_starts: Vec<u32>,
    pub(crate) column: Vec<f64>,
    pub(crate) y: Vec<f64>,
    pub(crate) cache: Vec<f64>,
    /// Factorizations are lent no cache.
    pub(crate) uncached: bool,
}

impl Workspace {
    /// No scratch yet.
    pub fn new() -> Self {
        Self::default()
    }

    /// No scratch yet, and never a cache.
    pub fn without_cache() -> Self {
        Self { uncached: true, ..Self::default() }
    }

    // the needs of each call, in its order

    pub(crate) fn for_plan(&mut self, [_, _, _, _, scratch @ ..]: [usize; 12]) {
        self.plan.grow(scratch);
    }

    pub(crate) fn for_factor(&mut self, needs: [usize; 21]) {
        let [_, _, _, _, _, _, _, _, column, scratch @ .., bodies, unit_starts, d_starts, places] = needs;
        self.plan.grow(scratch);
        grow(&mut self.column, column);
        grow(&mut self.bodies, bodies);
        grow(&mut self.unit_starts, unit_starts);
        grow(&mut self.d_starts, d_starts);
        grow(&mut self.places, places);
    }

    pub(crate) fn for_cache(&mut self, cache: usize) {
        if !self.uncached {
            grow(&mut self.cache, cache);
        }
    }

    pub(crate) fn for_solve(&mut self, [_, y, scalar_perm, sizes, scalar_starts]: [usize; 5]) {
        grow(&mut self.y, y);
        grow(&mut self.scalar_perm, scalar_perm);
        grow(&mut self.plan.sizes, sizes);
        grow(&mut self.scalar_starts, scalar_starts);
    }
}

/// A buffer at least as long as its need.
pub(crate) fn grow<T: Clone + Default>(buffer: &mut Vec<T>, need: usize) {
    if buffer.len() < need {
        buffer.resize(need, T::default());
    }
}
