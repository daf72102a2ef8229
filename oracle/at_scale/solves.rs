//! What a solve is to answer: 1 to 12 as document 01 has them, read apart from this repository's code, the plan that a factor must have
//! being the source's; and the solution with any numbers, by the source's kernels in the order of document 01.
use bench::plans::{Plan, Tables, bad_order, bad_parent, bad_row, bad_start, column, refused};
use nalgebra::{DMatrixView, DVectorView, DVectorViewMut};
use sophus_solver::{
    kernel::{sub_mat_plus_vec_inplace, sub_mat_transpose_plus_vec_in_place},
    ldlt::ldlt_solve_inplace,
};

/// The lent buffers behind x, in the call's order.
pub const BUFFERS: usize = 4;

/// A factor's tables, and how many numbers it has: L's, those of the diagonal factors, and d's.
#[derive(Clone)]
pub struct Held {
    pub order: Vec<u32>,
    pub parents: Vec<u32>,
    pub l_starts: Vec<u32>,
    pub l_rows: Vec<u32>,
    pub l_offsets: Vec<u32>,
    pub numbers: [usize; 3],
}

/// A refusal's number and what it carries.
pub type Told = (u32, [u64; 3]);

pub fn scalars(t: &Tables) -> usize {
    t.dims.iter().map(|&d| d.min(16) as usize).sum()
}

pub fn needs(t: &Tables) -> [usize; BUFFERS] {
    let (n, all) = (t.dims.len(), scalars(t));
    [all, all, n, n + 1]
}

/// The permutation with the flagged blocks moved behind the others.
pub fn moved(t: &Tables) -> Vec<u32> {
    let of = |flag: u32| t.perm.iter().copied().filter(move |&old| t.late[old as usize] == flag);
    of(0).chain(of(1)).collect()
}

/// Where each body of a factor begins, and their end.
fn offsets(t: &Tables, f: &Held) -> Vec<usize> {
    let order = moved(t);
    let dim = |new: usize| t.dims[order[new] as usize] as usize;
    let mut ends = vec![0];
    for j in 0..t.dims.len() {
        for p in column(&f.l_starts, j) {
            ends.push(ends[p] + dim(j) * dim(f.l_rows[p] as usize));
        }
    }
    ends
}

/// The refusal of a call with a right side of `x` numbers and buffers of these lengths, if there is one. `plan` is the source's, of the
/// same tables.
pub fn refusal(t: &Tables, f: &Held, x: usize, lent: &[usize; BUFFERS], plan: impl FnOnce() -> Plan) -> Option<Told> {
    let n = t.dims.len();
    let told = |number: u32, first: usize, second: u64, third: u64| Some((number, [first as u64, second, third]));
    let system = refused(t, None);
    let up_to = |number: u32| system.filter(|r| r.0 <= number).and_then(|r| told(r.0, r.1 as usize, 0, 0));
    if let Some(of_system) = up_to(3) {
        return Some(of_system);
    }
    // 2 behind the place: it is in the factor's starts or rows; 1: in its parents
    if let Some(k) = bad_start(&f.l_starts, n, f.l_rows.len()) {
        return told(3, k, 2, 0);
    }
    if let Some(of_system) = up_to(5) {
        return Some(of_system);
    }
    if let Some(p) = bad_row(&f.l_starts, &f.l_rows, n, |j| j + 1) {
        return told(5, p, 2, 0);
    }
    if let Some(k) = bad_parent(&f.parents, n) {
        return told(5, k, 1, 0);
    }
    if let Some(of_system) = up_to(6) {
        return Some(of_system);
    }
    if let Some(p) = bad_order(&f.l_starts, &f.l_rows, n) {
        return told(6, p, 2, 0);
    }
    // the areas of a factor go by the order of elimination, so a permutation and flags that are none come first
    if let Some(of_system) = up_to(9) {
        return Some(of_system);
    }
    let offsets = offsets(t, f);
    if offsets[f.l_rows.len()] != f.numbers[0] {
        return told(7, 0, 0, 0);
    }
    let needs = needs(t);
    if let Some(b) = (0..BUFFERS).find(|&b| lent[b] < needs[b]) {
        // x is the first of what is lent
        return told(11, b + 1, needs[b] as u64, 0);
    }
    // 12: a slice of the call by its place in it; of a column of L also the column and what is wrong with it
    if f.order != moved(t) {
        return told(12, 5, 0, 0);
    }
    if f.parents.len() != n {
        return told(12, 6, 0, 0);
    }
    let plan = plan();
    for j in 0..n {
        let rows = &f.l_rows[column(&f.l_starts, j)];
        let right = &plan.l_rows[column(&plan.l_starts, j)];
        if right.iter().any(|row| !rows.contains(row)) {
            return told(12, 8, j as u64, 0);
        }
        if rows.iter().any(|row| !right.contains(row)) {
            return told(12, 8, j as u64, 1);
        }
        if f.parents[j] != plan.parents[j] {
            return told(12, 6, j as u64, 2);
        }
    }
    if !f.l_offsets.iter().map(|&o| o as usize).eq(offsets) {
        return told(12, 9, 0, 0);
    }
    let squares = t.dims.iter().map(|&d| (d * d) as usize).sum();
    let all = scalars(t);
    [(11, f.numbers[1], squares), (12, f.numbers[2], all), (13, x, all)]
        .into_iter()
        .find(|(_, has, right)| has != right)
        .and_then(|(place, _, _)| told(12, place, 0, 0))
}

/// The solution with the factor's numbers, whatever they are: forward columns ascending, blocks, backward columns descending.
pub fn solved(t: &Tables, f: &Held, numbers: [&[f64]; 3], right: &[f64]) -> Vec<f64> {
    let n = t.dims.len();
    let dims: Vec<usize> = f.order.iter().map(|&old| t.dims[old as usize] as usize).collect();
    let sums = |sizes: Vec<usize>| {
        let mut sums = vec![0];
        sizes.iter().for_each(|s| sums.push(sums[sums.len() - 1] + s));
        sums
    };
    let (at, old_at) = (sums(dims.clone()), sums(t.dims.iter().map(|&d| d as usize).collect()));
    let unit_at = sums(dims.iter().map(|d| d * d).collect());
    let old_scalar = |j: usize, r: usize| old_at[f.order[j] as usize] + r;
    let mut y: Vec<f64> = (0..n).flat_map(|j| (0..dims[j]).map(move |r| (j, r))).map(|(j, r)| right[old_scalar(j, r)]).collect();
    let rows = |j: usize| column(&f.l_starts, j).map(|p| (p, f.l_rows[p] as usize));
    let body = |p: usize, i: usize, j: usize| {
        DMatrixView::from_slice(&numbers[0][f.l_offsets[p] as usize..][..dims[i] * dims[j]], dims[i], dims[j])
    };
    for j in 0..n {
        for (p, i) in rows(j) {
            let (head, tail) = y.split_at_mut(at[i]);
            sub_mat_plus_vec_inplace(&mut tail[..dims[i]], body(p, i, j), &head[at[j]..at[j + 1]]);
        }
    }
    for j in 0..n {
        let unit = DMatrixView::from_slice(&numbers[1][unit_at[j]..unit_at[j + 1]], dims[j], dims[j]);
        let d = DVectorView::from_slice(&numbers[2][at[j]..at[j + 1]], dims[j]);
        ldlt_solve_inplace(unit, d, DVectorViewMut::from_slice(&mut y[at[j]..at[j + 1]], dims[j]));
    }
    for j in (0..n).rev() {
        for (p, i) in rows(j) {
            let (head, tail) = y.split_at_mut(at[i]);
            sub_mat_transpose_plus_vec_in_place(&mut head[at[j]..at[j + 1]], body(p, i, j), &tail[..dims[i]]);
        }
    }
    let mut x = right.to_vec();
    for j in 0..n {
        (0..dims[j]).for_each(|r| x[old_scalar(j, r)] = y[at[j] + r]);
    }
    x
}
