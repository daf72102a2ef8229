//! The proved library's plan, factorization and solve, with the buffers that are lent to each.
use beyqaloosh::{abi, calls};

use crate::plans::Tables;

fn words<const N: usize>(lengths: &[usize]) -> [Vec<u32>; N] {
    std::array::from_fn(|b| vec![0; lengths[b]])
}

fn floats<const N: usize>(lengths: &[usize]) -> [Vec<f64>; N] {
    std::array::from_fn(|b| vec![0.0; lengths[b]])
}

/// The buffers lent to a plan, in the call's order.
#[derive(Clone)]
pub struct PlanLent {
    pub outputs: [Vec<u32>; 4],
    pub scratch: [Vec<u32>; 8],
}

impl PlanLent {
    pub fn new(lengths: &[usize; 12]) -> Self {
        Self { outputs: words(&lengths[..4]), scratch: words(&lengths[4..]) }
    }

    /// What the library says that it needs where L has so many blocks.
    pub fn needed(t: &Tables, l_blocks: u64) -> Self {
        Self::new(&calls::plan_needs(t.dims.len(), t.rows.len(), l_blocks as u32).unwrap())
    }
}

pub fn plan(t: &Tables, lent: &mut PlanLent, told: &mut [u64; 3]) -> u32 {
    let [order, parents, l_starts, l_rows] = &mut lent.outputs;
    let [inverse, sizes, count, heads, into, stamps, table, upper] = &mut lent.scratch;
    abi::beyqaloosh_plan(
        &t.dims, &t.starts, &t.rows, &t.perm, &t.late, order, parents, l_starts, l_rows, inverse, sizes, count, heads, into, stamps,
        table, upper, told,
    )
}

/// The buffers lent to a factorization, in the call's order.
#[derive(Clone)]
pub struct FactorLent {
    pub plan: [Vec<u32>; 5],
    pub numbers: [Vec<f64>; 4],
    pub scratch: [Vec<u32>; 12],
}

impl FactorLent {
    pub fn new(lengths: &[usize; 21]) -> Self {
        Self { plan: words(&lengths[..5]), numbers: floats(&lengths[5..9]), scratch: words(&lengths[9..]) }
    }

    /// What the library says that it needs where L has so many blocks and numbers.
    pub fn needed(t: &Tables, l_blocks: u64, l_numbers: u64) -> Self {
        Self::new(&calls::factorize_needs(&t.dims, t.rows.len(), l_blocks as u32, l_numbers as u32).unwrap())
    }

    pub fn factor(&self) -> Factor<'_> {
        Factor {
            plan: std::array::from_fn(|b| self.plan[b].as_slice()),
            numbers: std::array::from_fn(|b| self.numbers[b].as_slice()),
        }
    }
}

/// A cache as long as the library says that it needs, where L has so many blocks and numbers.
pub fn cache_needed(t: &Tables, values: &[f64], l_blocks: u64, l_numbers: u64) -> Vec<f64> {
    let needs = calls::factorize_with_cache_needs(&t.dims, t.rows.len(), values.len() as u32, l_blocks as u32, l_numbers as u32);
    vec![0.0; needs.unwrap()[21]]
}

/// The factorization, with the cache that is lent, if any.
pub fn factorize(
    t: &Tables, values: &[f64], tolerance: f64, lent: &mut FactorLent, cache: Option<&mut [f64]>, told: &mut [u64; 3],
    value: &mut [f64; 1],
) -> u32 {
    let [order, parents, l_starts, l_rows, l_offsets] = &mut lent.plan;
    let [l_values, diag, d, column] = &mut lent.numbers;
    let [inverse, sizes, count, heads, into, stamps, table, upper, bodies, unit_starts, d_starts, places] = &mut lent.scratch;
    match cache {
        None => abi::beyqaloosh_factorize(
            &t.dims, &t.starts, &t.rows, values, &t.perm, &t.late, tolerance, order, parents, l_starts, l_rows, l_offsets, l_values,
            diag, d, column, inverse, sizes, count, heads, into, stamps, table, upper, bodies, unit_starts, d_starts, places, told,
            value,
        ),
        Some(cache) => abi::beyqaloosh_factorize_with_cache(
            &t.dims, &t.starts, &t.rows, values, &t.perm, &t.late, tolerance, order, parents, l_starts, l_rows, l_offsets, l_values,
            diag, d, column, inverse, sizes, count, heads, into, stamps, table, upper, bodies, unit_starts, d_starts, places, cache,
            told, value,
        ),
    }
}

/// A factor as a solve reads it: order, parents, L's starts, rows and offsets; L's values, the diagonal factors and d.
#[derive(Clone, Copy)]
pub struct Factor<'a> {
    pub plan: [&'a [u32]; 5],
    pub numbers: [&'a [f64]; 3],
}

/// The scratch of a solve, in the call's order.
#[derive(Clone)]
pub struct SolveLent {
    pub y: Vec<f64>,
    pub words: [Vec<u32>; 3],
}

impl SolveLent {
    pub fn new(lengths: &[usize; 4]) -> Self {
        Self { y: vec![0.0; lengths[0]], words: words(&lengths[1..]) }
    }

    /// What the library says that it needs.
    pub fn needed(t: &Tables) -> Self {
        let [_, y, scalar_perm, sizes, scalar_starts] = calls::solve_inplace_needs(&t.dims).unwrap();
        Self::new(&[y, scalar_perm, sizes, scalar_starts])
    }
}

pub fn solve_inplace(t: &Tables, factor: Factor, x: &mut [f64], lent: &mut SolveLent, told: &mut [u64; 3]) -> u32 {
    let [order, parents, l_starts, l_rows, l_offsets] = factor.plan;
    let [l_values, diag, d] = factor.numbers;
    let [scalar_perm, sizes, scalar_starts] = &mut lent.words;
    abi::beyqaloosh_solve_inplace(
        &t.dims, &t.starts, &t.rows, &t.perm, &t.late, order, parents, l_starts, l_rows, l_offsets, l_values, diag, d, x, &mut lent.y,
        scalar_perm, sizes, scalar_starts, told,
    )
}
