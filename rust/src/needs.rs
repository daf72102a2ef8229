//! What the buffers of each call need, in the order of the call, as the library tells it. Of L's rows, offsets and values and of the
//! cache nothing is known before the plan.
//!
//! Tables that 1, 2 or 4 refuse have no needs: the call refuses them before it looks at a buffer.
use crate::calls;
use crate::system::FlatTables;

pub(crate) fn elimination_tree(blocks: usize) -> [usize; 2] {
    calls::elimination_tree_needs(blocks).unwrap_or_default()
}

pub(crate) fn reach(blocks: usize) -> [usize; 2] {
    calls::reach_needs(blocks).unwrap_or_default()
}

pub(crate) fn plan(a: &FlatTables) -> [usize; 12] {
    calls::plan_needs(a.dims.len(), a.rows.len(), 0).unwrap_or_default()
}

pub(crate) fn factorize(a: &FlatTables) -> [usize; 21] {
    calls::factorize_needs(&a.dims, a.rows.len(), 0, 0).unwrap_or_default()
}

/// What the cache of a factorization needs where L has so many numbers.
pub(crate) fn cache(a: &FlatTables, l_numbers: usize) -> usize {
    let numbers = a.values.len().try_into().unwrap_or(u32::MAX);
    let needs = calls::factorize_with_cache_needs(&a.dims, a.rows.len(), numbers, 0, l_numbers as u32);
    needs.map_or(0, |[.., cache]| cache)
}

pub(crate) fn solve_inplace(a: &FlatTables) -> [usize; 5] {
    calls::solve_inplace_needs(&a.dims).unwrap_or_default()
}

pub(crate) fn marks(dims: &[u32]) -> [usize; 1] {
    calls::marks_needs(dims).unwrap_or_default()
}
