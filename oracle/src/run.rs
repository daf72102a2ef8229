//! One case: the checks of document 01 that come before the numbers, then the source's own function.
use std::panic::{AssertUnwindSafe, catch_unwind};

use nalgebra::{DMatrixView, DMatrixViewMut, DVectorView, DVectorViewMut};
use sophus_solver::{
    BlockSparseLdltError, Definiteness, LdltDecompositionError, LdltResult, fallback_threshold, fell_back,
    kernel::*,
    ldlt::*,
    matrix::{PartitionBlockIndex, PartitionSpec},
};

pub struct Op {
    pub name: &'static str,
    pub sizes: usize,
    // each slice's shape, as places of sizes in the call
    pub slices: &'static [&'static [usize]],
    // which slice is a unit lower-triangular factor
    pub factor: Option<usize>,
    // which slice is a diagonal
    pub diagonal: Option<usize>,
    pub tolerance: bool,
    // the least size that passes
    pub least: u64,
}

const fn op(
    name: &'static str,
    sizes: usize,
    slices: &'static [&'static [usize]],
    factor: Option<usize>,
    diagonal: Option<usize>,
) -> Op {
    Op { name, sizes, slices, factor, diagonal, tolerance: false, least: 0 }
}

pub const OPS: [Op; 20] = [
    op("lower_solve_inplace", 1, &[&[0, 0], &[0]], Some(0), None),
    op("lower_matsolve_inplace", 2, &[&[0, 0], &[0, 1]], Some(0), None),
    op("lower_transpose_solve_inplace", 1, &[&[0, 0], &[0]], Some(0), None),
    op("lower_transpose_matsolve_inplace", 2, &[&[0, 0], &[0, 1]], Some(0), None),
    op("diag_solve_inplaced", 1, &[&[0], &[0]], None, Some(0)),
    op("diag_matsolve_inplaced", 2, &[&[0], &[0, 1]], None, Some(0)),
    op("lower_right_solve_inplace", 2, &[&[1, 1], &[0, 1]], Some(0), None),
    op("lower_transpose_rightsolve_inplace", 2, &[&[1, 1], &[0, 1]], Some(0), None),
    op("diag_right_matsolve_inplace", 2, &[&[1], &[0, 1]], None, Some(0)),
    op("sub_mat_diag_mat_t_inplace", 3, &[&[0, 1], &[0, 2], &[2], &[1, 2]], None, Some(2)),
    op("add_mat_diag_mat_t_inplace", 3, &[&[0, 1], &[0, 2], &[2], &[1, 2]], None, Some(2)),
    op("sub_mat_plus_vec_inplace", 2, &[&[0], &[0, 1], &[1]], None, None),
    op("sub_mat_transpose_plus_vec_in_place", 2, &[&[1], &[0, 1], &[0]], None, None),
    Op { tolerance: true, ..op("ldlt_decompose_inplace", 1, &[&[0, 0], &[0]], None, None) },
    op("ldlt_solve_inplace", 1, &[&[0, 0], &[0], &[0]], Some(0), Some(1)),
    op("ldlt_matsolve_inplace", 2, &[&[0, 0], &[0], &[0, 1]], Some(0), Some(1)),
    op("ldlt_right_matsolve_inplace", 2, &[&[1, 1], &[1], &[0, 1]], Some(0), Some(1)),
    Op { tolerance: true, least: 1, ..op("block decompose", 1, &[&[0, 0], &[0, 0], &[0]], None, None) },
    Op { least: 1, ..op("block solve_inplace_vec", 1, &[&[0, 0], &[0], &[0]], Some(0), Some(1)) },
    Op { least: 1, ..op("block right_solve_inplace", 2, &[&[1, 1], &[1], &[0, 1]], Some(0), Some(1)) },
];

impl Op {
    pub fn lengths(&self, sizes: &[u64]) -> Vec<usize> {
        self.slices.iter().map(|shape| shape.iter().map(|&s| sizes[s] as usize).product()).collect()
    }
}

#[derive(Clone)]
pub struct Case {
    pub op: usize,
    pub sizes: Vec<u64>,
    pub tolerance: f64,
    pub slices: Vec<Vec<f64>>,
}

pub struct Answer {
    pub number: u64,
    pub indices: Vec<u64>,
    pub floats: Vec<f64>,
    pub after: Vec<Vec<f64>>,
}

// What the source did where it falls back to Bunch-Kaufman, for the report at the end.
#[derive(Default)]
pub struct Fallbacks {
    pub solved: usize,
    pub failed: usize,
    pub panicked: usize,
}

// 2, 10 and 12, from document 01 alone: the source asserts, panics or goes on here.
fn refused_before(case: &Case) -> Option<(u64, Vec<u64>)> {
    let op = &OPS[case.op - 1];
    if let Some(place) = case.sizes.iter().position(|&s| s < op.least || s > 16) {
        return Some((2, vec![place as u64]));
    }
    if op.tolerance && !(case.tolerance.is_finite() && case.tolerance >= 0.0) {
        return Some((10, vec![]));
    }
    let lengths = op.lengths(&case.sizes);
    let wrong = case.slices.iter().zip(&lengths).position(|(s, &l)| s.len() != l);
    wrong.map(|place| (12, vec![place as u64]))
}

pub fn run(case: &Case, fallbacks: &mut Fallbacks) -> Answer {
    let op = &OPS[case.op - 1];
    assert_eq!((case.sizes.len(), case.slices.len()), (op.sizes, op.slices.len()));
    match refused_before(case) {
        Some((number, indices)) => Answer { number, indices, floats: vec![], after: case.slices.clone() },
        None => {
            let answer = call(case, fallbacks);
            assert_unread(case, &answer);
            answer
        }
    }
}

// A factor's diagonal and all above it, and all above the diagonal of a block to decompose, are not read: other numbers
// there leave the answer as it is.
fn assert_unread(case: &Case, answer: &Answer) {
    let op = &OPS[case.op - 1];
    let (which, whole) = match (op.factor, op.tolerance) {
        (Some(f), _) => (f, true),
        (None, true) => (0, false),
        (None, false) => return,
    };
    let n = case.sizes[op.slices[which][0]] as usize;
    for other in [f64::NAN, f64::INFINITY, 0.0] {
        let mut changed = case.clone();
        for column in 0..n {
            for row in 0..column + whole as usize {
                changed.slices[which][row + column * n] = other;
            }
        }
        let again = call(&changed, &mut Fallbacks::default());
        let mut same = again.number == answer.number && again.indices == answer.indices;
        same &= all_same(&again.floats, &answer.floats);
        for (s, (a, b)) in again.after.iter().zip(&answer.after).enumerate() {
            same &= (s == which && (whole || case.op == 18)) || all_same(a, b);
        }
        assert!(same, "{} reads what it should not", op.name);
    }
}

pub fn bits(x: f64) -> u64 {
    if x.is_nan() { 0x7FF8000000000000 } else { x.to_bits() }
}

fn all_same(a: &[f64], b: &[f64]) -> bool {
    a.len() == b.len() && a.iter().zip(b).all(|(&x, &y)| bits(x) == bits(y))
}

const BLOCK: PartitionBlockIndex = PartitionBlockIndex { partition: 0, block: 0 };

fn one_block(n: usize, tolerance: f64) -> BlockDiagonalLdltSystem {
    let spec = PartitionSpec { block_count: 1, block_dim: n, eliminate_last: false };
    BlockDiagonalLdltSystem::zero(&[spec], tolerance)
}

pub fn numbers(view: DMatrixView<'_, f64>) -> Vec<f64> {
    (0..view.ncols()).flat_map(|c| (0..view.nrows()).map(move |r| view[(r, c)])).collect()
}

fn record(result: &LdltResult) -> (Vec<u64>, Vec<f64>) {
    let definiteness = match result.definiteness {
        Definiteness::PositiveDefinite => 0,
        Definiteness::PositiveSemiDefinite => 1,
        Definiteness::Indefinite => 2,
    };
    (vec![result.rank as u64, definiteness], vec![result.pivot_condition])
}

fn call(case: &Case, fallbacks: &mut Fallbacks) -> Answer {
    let mut s = case.slices.clone();
    let size = |i: usize| case.sizes[i] as usize;
    fn mat(x: &[f64], r: usize, c: usize) -> DMatrixView<'_, f64> {
        DMatrixView::from_slice(x, r, c)
    }
    fn mat_mut(x: &mut [f64], r: usize, c: usize) -> DMatrixViewMut<'_, f64> {
        DMatrixViewMut::from_slice(x, r, c)
    }
    fn vec(x: &[f64]) -> DVectorView<'_, f64> {
        DVectorView::from_slice(x, x.len())
    }
    fn vec_mut(x: &mut [f64]) -> DVectorViewMut<'_, f64> {
        let count = x.len();
        DVectorViewMut::from_slice(x, count)
    }
    let (mut number, mut indices, mut floats) = (0, vec![], vec![]);
    let (before, last) = s.split_at_mut(case.slices.len() - 1);
    let last = &mut last[0][..];
    match case.op {
        1 => lower_solve_inplace(&mat(&before[0], size(0), size(0)), &mut vec_mut(last)),
        2 => lower_matsolve_inplace(&mat(&before[0], size(0), size(0)), &mut mat_mut(last, size(0), size(1))),
        3 => lower_transpose_solve_inplace(&mat(&before[0], size(0), size(0)), &mut vec_mut(last)),
        4 => lower_transpose_matsolve_inplace(&mat(&before[0], size(0), size(0)), &mut mat_mut(last, size(0), size(1))),
        5 => diag_solve_inplaced(vec(&before[0]), &mut vec_mut(last)),
        6 => diag_matsolve_inplaced(vec(&before[0]), &mut mat_mut(last, size(0), size(1))),
        7 => lower_right_solve_inplace(mat(&before[0], size(1), size(1)), &mut mat_mut(last, size(0), size(1))),
        8 => lower_transpose_rightsolve_inplace(mat(&before[0], size(1), size(1)), &mut mat_mut(last, size(0), size(1))),
        9 => diag_right_matsolve_inplace(vec(&before[0]), &mut mat_mut(last, size(0), size(1))),
        10 | 11 => {
            let (m, n, k) = (size(0), size(1), size(2));
            let (y, rest) = before.split_at_mut(1);
            let work = if case.op == 10 { sub_mat_diag_mat_t_inplace } else { add_mat_diag_mat_t_inplace };
            work(&mut mat_mut(&mut y[0], m, n), mat(&rest[0], m, k), vec(&rest[1]), mat(last, n, k));
        }
        12 | 13 => {
            let (y, rest) = before.split_at_mut(1);
            let a = mat(&rest[0], size(0), size(1));
            if case.op == 12 {
                sub_mat_plus_vec_inplace(&mut y[0], a, last)
            } else {
                sub_mat_transpose_plus_vec_in_place(&mut y[0], a, last)
            }
        }
        14 => {
            let result = ldlt_decompose_inplace(mat_mut(&mut before[0], size(0), size(0)), vec_mut(last), case.tolerance);
            match result {
                Ok(result) => (indices, floats) = record(&result),
                Err(LdltDecompositionError::NonFinitePivot { j, d_jj }) => {
                    (number, indices, floats) = (13, vec![0, j as u64], vec![d_jj]);
                    before[0].fill(f64::NAN);
                    last.fill(f64::NAN);
                }
            }
        }
        15 => ldlt_solve_inplace(mat(&before[0], size(0), size(0)), vec(&before[1]), vec_mut(last)),
        16 => ldlt_matsolve_inplace(
            mat(&before[0], size(0), size(0)),
            vec(&before[1]),
            mat_mut(last, size(0), size(1)),
        ),
        17 => ldlt_right_matsolve_inplace(
            mat(&before[0], size(1), size(1)),
            vec(&before[1]),
            mat_mut(last, size(0), size(1)),
        ),
        18 => {
            let told = block_decompose(size(0), &before[0], case.tolerance, fallbacks);
            (number, indices, floats) = (told.0, told.1, told.2);
            let (mat_l, d) = told.3.unwrap_or((vec![f64::NAN; before[1].len()], vec![f64::NAN; last.len()]));
            before[1].copy_from_slice(&mat_l);
            last.copy_from_slice(&d);
        }
        19 | 20 => {
            let n = size(case.op - 19);
            let mut system = one_block(n, 0.0);
            system.mat_l.get_block_mut(BLOCK).copy_from(&mat(&before[0], n, n));
            system.d.get_block_mut(BLOCK).as_mut_slice().copy_from_slice(&before[1]);
            if case.op == 19 {
                system.solve_inplace_vec(vec_mut(last), BLOCK)
            } else {
                system.right_solve_inplace(mat_mut(last, size(0), n), BLOCK)
            }
        }
        _ => unreachable!(),
    }
    Answer { number, indices, floats, after: s }
}

type Block = (u64, Vec<u64>, Vec<f64>, Option<(Vec<f64>, Vec<f64>)>);

// `decompose` keeps the record to itself, so the record is that of the dense routine on the same block, which is what
// `decompose` calls; everything that `decompose` does show is asserted to agree with it.
fn block_decompose(n: usize, mat_a: &[f64], tolerance: f64, fallbacks: &mut Fallbacks) -> Block {
    let (mut dense_l, mut dense_d) = (mat_a.to_vec(), vec![f64::NAN; n]);
    let dense = ldlt_decompose_inplace(
        DMatrixViewMut::from_slice(&mut dense_l, n, n),
        DVectorViewMut::from_slice(&mut dense_d, n),
        tolerance,
    );
    let mut system = one_block(n, tolerance);
    let view = DMatrixView::from_slice(mat_a, n, n);
    let shown = catch_unwind(AssertUnwindSafe(|| system.decompose(BLOCK, view)));
    let result = match dense {
        Err(LdltDecompositionError::NonFinitePivot { j, d_jj }) => {
            let Ok(Err(BlockSparseLdltError::BlockDiagLdltError { source, .. })) = shown else {
                panic!("decompose accepts what the dense routine refuses")
            };
            let LdltDecompositionError::NonFinitePivot { j: block_j, d_jj: block_d } = source;
            assert_eq!((block_j, bits(block_d)), (j, bits(d_jj)));
            return (13, vec![0, j as u64], vec![d_jj], None);
        }
        Ok(result) => result,
    };
    let falls = result.definiteness == Definiteness::Indefinite && result.pivot_condition < fallback_threshold();
    if falls {
        match shown {
            Ok(Ok(())) => {
                assert!(fell_back(&system));
                fallbacks.solved += 1;
            }
            Ok(Err(BlockSparseLdltError::BlockDiagLdltError { source, .. })) => {
                // Bunch-Kaufman itself failed: told as a pivot that is not finite, with the condition in its place
                let LdltDecompositionError::NonFinitePivot { j, d_jj } = source;
                assert_eq!((j, bits(d_jj)), (0, bits(result.pivot_condition)));
                fallbacks.failed += 1;
            }
            Err(_) => fallbacks.panicked += 1,
        }
        return (14, vec![0], vec![result.pivot_condition], None);
    }
    assert!(matches!(shown, Ok(Ok(()))) && !fell_back(&system));
    let mat_l = numbers(system.mat_l.get_block(BLOCK));
    let d = system.d.get_block(BLOCK).as_slice().to_vec();
    assert!(all_same(&mat_l, &dense_l) && all_same(&d, &dense_d));
    let (indices, floats) = record(&result);
    (0, indices, floats, Some((mat_l, d)))
}
