//! The systems that are timed, the proved factorization of them, and calls timed beside each other.
use sophus_solver::{
    ldlt::block_sparse_ldlt,
    matrix::block_sparse::{BlockSparseMatrix, BlockSparseSymmetricMatrix},
};
use std::hint::black_box;

use crate::calls::{FactorLent, PlanLent, factorize, plan};
use crate::factors::{self, bodies, filled};
use crate::nights::{Draw, Night, chain, grid, tables, time};
use crate::plans::Tables;

/// The best of so many rounds is told, with the first, which sets the calls of a round, where one call makes one; a round of one of
/// them runs for at least so many nanoseconds, and what has run for so many in all takes part in no further round.
pub const ROUNDS: usize = 7;
const AT_LEAST: f64 = 3e6;
const AT_MOST: f64 = 1e9;
/// Blocks across and down of the grids; as many blocks in the other patterns.
pub const SHAPES: [(usize, usize); 3] = [(16, 8), (32, 32), (64, 64)];
pub const DIMS: [usize; 3] = [3, 6, 16];
pub const TOLERANCE: f64 = 1e-12;

/// Points in the unit square, those of one half first, then those of the other, then those of the first that have a link across.
fn dissect_points(points: &[(f64, f64)], links: &[Vec<usize>], mut part: Vec<usize>, order: &mut Vec<usize>) {
    if part.len() <= 4 {
        order.extend(part);
        return;
    }
    let spread = |of: fn(&(f64, f64)) -> f64| {
        let all = part.iter().map(|&k| of(&points[k]));
        all.clone().fold(f64::MIN, f64::max) - all.fold(f64::MAX, f64::min)
    };
    let of: fn(&(f64, f64)) -> f64 = if spread(|p| p.0) >= spread(|p| p.1) { |p| p.0 } else { |p| p.1 };
    part.sort_by(|&a, &b| of(&points[a]).total_cmp(&of(&points[b])));
    let other = part.split_off(part.len() / 2);
    let across: std::collections::HashSet<usize> = other.iter().copied().collect();
    let (between, one): (Vec<usize>, Vec<usize>) = part.into_iter().partition(|&k| links[k].iter().any(|l| across.contains(l)));
    dissect_points(points, links, one, order);
    dissect_points(points, links, other, order);
    order.extend(between);
}

/// Points drawn in the unit square, linked where they are near: six links a point, but for the border.
pub fn geometric(n: usize) -> Night {
    let mut draw = Draw(n as u64);
    let points: Vec<(f64, f64)> = (0..n).map(|_| (draw.fraction(), draw.fraction())).collect();
    let near = 6.0 / (std::f64::consts::PI * n as f64);
    let apart = |a: usize, b: usize| (points[a].0 - points[b].0).powi(2) + (points[a].1 - points[b].1).powi(2);
    let links: Vec<(usize, usize)> =
        (0..n).flat_map(|a| (a + 1..n).map(move |b| (a, b))).filter(|&(a, b)| apart(a, b) < near).collect();
    let mut of = vec![vec![]; n];
    for &(a, b) in &links {
        of[a].push(b);
        of[b].push(a);
    }
    let mut perm = vec![];
    dissect_points(&points, &of, (0..n).collect(), &mut perm);
    Night { name: "geometric, dissected", n, links, perm }
}

/// The patterns of so many blocks across and down.
pub fn nights(width: usize, height: usize) -> Vec<Night> {
    let n = width * height;
    vec![grid(width, height), geometric(n), chain(n)]
}

/// A pattern, what its dimensions are called, and they.
pub type Timed = (Night, String, Vec<u32>);

/// All blocks of one dimension.
pub fn even(night: Night, dim: u32) -> Timed {
    let dims = vec![dim; night.n];
    (night, dim.to_string(), dims)
}

/// Points linked where they are near, the last few of the order with links all over; dimensions 1 to 6, and a few of 16.
pub fn hubs(n: usize) -> Timed {
    let mut night = geometric(n);
    night.name = "geometric with hubs";
    let mut draw = Draw(n as u64 + 1);
    for k in 1..=2 {
        let hub = night.perm[n - k];
        night.links.extend((0..n / 8).map(|_| (hub, draw.below(n))).filter(|l| l.0 != l.1));
    }
    let dims = (0..n).map(|_| if draw.below(20) == 0 { 16 } else { 1 + draw.below(6) as u32 }).collect();
    (night, "1 to 16".into(), dims)
}

/// A pattern with blocks of these dimensions: values between -1/2 and 1/2, with a diagonal that outweighs its row.
pub fn system(night: &Night, dims: Vec<u32>) -> factors::Night {
    let n = night.n;
    let (starts, rows) = tables(night);
    let perm = night.perm.iter().map(|&k| k as u32).collect();
    let tables = Tables { dims, starts, rows, perm, late: vec![0; n] };
    let mut weight = vec![0; n];
    let stored = |j: usize| tables.starts[j] as usize..tables.starts[j + 1] as usize;
    for j in 0..n {
        for p in stored(j) {
            let i = tables.rows[p] as usize;
            weight[j] += tables.dims[i];
            weight[i] += tables.dims[j];
        }
    }
    let at = bodies(&tables);
    let mut draw = Draw(tables.dims[0] as u64);
    let mut values: Vec<f64> = (0..at[tables.rows.len()]).map(|_| draw.fraction() - 0.5).collect();
    for j in 0..n {
        // the diagonal block is the first of its column
        let (body, dim) = (&mut values[at[stored(j).start]..], tables.dims[j] as usize);
        for c in 0..dim {
            for r in 0..c {
                body[r + c * dim] = body[c + r * dim];
            }
            body[c + c * dim] += weight[j] as f64;
        }
    }
    factors::Night { tables, values, tolerance: TOLERANCE }
}

/// The same as the source's matrix.
pub fn matrix(system: &factors::Night) -> BlockSparseSymmetricMatrix {
    BlockSparseSymmetricMatrix { lower: filled(system) }
}

/// What the functions of the source's plan give: order, rows of L by column, and the scalars' order.
pub type Planned = (Vec<usize>, Vec<Vec<usize>>, Vec<usize>);

/// The source's plan: the late move, the permuted matrix, the tree and the rows of L, the scalars' order.
pub fn source_plan(a: &BlockSparseMatrix, perm: &[usize]) -> Planned {
    let (order, inverse) = block_sparse_ldlt::order(a, perm.to_vec());
    let (flat_sub, a_perm) = block_sparse_ldlt::permute(a, &order, &inverse);
    let (l_col_rows, l_region_nf) = block_sparse_ldlt::symbolic(&a_perm, &flat_sub);
    black_box(&l_region_nf);
    let scalars = block_sparse_ldlt::scalars(&a.subdivision, &order, &flat_sub);
    (order, l_col_rows, scalars)
}

/// The proved factorization of a system that it accepts.
pub fn ours(system: &factors::Night, lent: &mut FactorLent) -> [u64; 3] {
    accepted(system, lent, None)
}

/// The same with a cache.
pub fn ours_with_cache(system: &factors::Night, lent: &mut FactorLent, cache: &mut [f64]) -> [u64; 3] {
    accepted(system, lent, Some(cache))
}

fn accepted(system: &factors::Night, lent: &mut FactorLent, cache: Option<&mut [f64]>) -> [u64; 3] {
    let (mut told, mut value) = ([0; 3], [0.0]);
    let number = factorize(&system.tables, &system.values, system.tolerance, lent, cache, &mut told, &mut value);
    assert_eq!(number, 0, "refused: {told:?}");
    told
}

/// The counts of L's blocks, its numbers and the products, from the proved plan.
pub fn planned(t: &Tables) -> [u64; 3] {
    let mut told = [0; 3];
    let mut number = plan(t, &mut PlanLent::needed(t, 0), &mut told);
    if number == 11 {
        // L's row table, whose need only the plan shows
        number = plan(t, &mut PlanLent::needed(t, told[1]), &mut told);
    }
    assert_eq!(number, 0, "refused: {told:?}");
    told
}

/// The proved factor in buffers that have exactly their needs, and the same counts.
pub fn factored(system: &factors::Night) -> (FactorLent, [u64; 3]) {
    let told = planned(&system.tables);
    let mut lent = FactorLent::needed(&system.tables, told[0], told[1]);
    let told = ours(system, &mut lent);
    (lent, told)
}

/// The best time of one call of each, in nanoseconds; their rounds take turns.
pub fn beside<const N: usize>(mut each: [&mut dyn FnMut(); N]) -> [f64; N] {
    let best = turns(N, AT_MOST, |k| each[k]());
    std::array::from_fn(|k| best[k])
}

/// What callgrind counts: one call, in a function of its own.
#[unsafe(no_mangle)]
#[inline(never)]
pub fn counted(call: &mut dyn FnMut()) {
    black_box(call)();
}

/// The same of so many calls by number. One that has run for so many nanoseconds in all takes part in no further round.
pub fn turns(count: usize, at_most: f64, mut call: impl FnMut(usize)) -> Vec<f64> {
    let mut best = vec![f64::MAX; count];
    let mut calls = vec![1; count];
    let mut spent = vec![0.0; count];
    for round in 0..=ROUNDS {
        for k in 0..count {
            if spent[k] > at_most && best[k] < f64::MAX {
                continue;
            }
            let taken = time(calls[k], || call(k));
            spent[k] += taken * calls[k] as f64;
            // the first round says how many calls make one, and counts where one call is enough
            if round == 0 {
                calls[k] = (AT_LEAST / taken).ceil().max(1.0) as usize;
            }
            if round > 0 || calls[k] == 1 {
                best[k] = best[k].min(taken);
            }
        }
    }
    best
}
