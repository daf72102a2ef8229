//! One factorization: the refusals 1 to 11 as document 01 has them, then the source's `factorize_impl` on the same night.
use std::panic::{AssertUnwindSafe, catch_unwind, set_hook, take_hook};

use nalgebra::{DMatrixView, DMatrixViewMut, DVectorViewMut};
use sophus_solver::{
    BlockSparseLdltError, Definiteness, LdltDecompositionError, fallback_threshold, fell_back,
    ldlt::{
        block_sparse_ldlt::{self, BlockSparseLdltFactor},
        ldlt_decompose_inplace,
    },
    matrix::{
        PartitionBlockIndex,
        block_sparse::{BlockSparseMatrix, BlockSparseSymmetricMatrix},
    },
};

use crate::plans::{Plan, Tables, matrix, planned, refused};
use crate::run::{bits, numbers};

/// The buffers lent, in the call's order, and those whose need only the plan shows, in the order of their test.
pub const BUFFERS: usize = 21;
pub const SHOWN: [usize; 3] = [4, 5, 3];
/// The room that the program has for each of them.
pub const ROOM: [usize; BUFFERS] = {
    let mut room = [4112; BUFFERS];
    (room[3], room[4], room[5]) = (32768, 32768, 65536);
    (room[6], room[7], room[8]) = (16384, 16384, 16384);
    (room[15], room[16], room[17]) = (20480, 20480, 20480);
    room
};

#[derive(Clone)]
pub struct Night {
    pub tables: Tables,
    pub values: Vec<f64>,
    pub tolerance: f64,
}

#[derive(Clone)]
pub struct Case {
    pub kind: usize,
    pub night: Night,
    /// Each buffer longer than its need by so much. Where the night is refused before the plan, L's tables are lent as if
    /// nothing were stored.
    pub over: [i64; BUFFERS],
}

/// The numbers of an accepted factor.
#[derive(Clone, Default)]
pub struct Factor {
    pub l_values: Vec<f64>,
    pub diag: Vec<f64>,
    pub d: Vec<f64>,
}

/// What the numbers come to.
#[derive(Clone)]
pub enum Worked {
    Accepted(Factor),
    NotFinite { block: usize, place: usize, pivot: f64 },
    Poor { block: usize, condition: f64 },
}

pub struct Answer {
    pub lent: [u32; BUFFERS],
    pub number: u32,
    pub first: u32,
    pub second: u32,
    pub float: f64,
    /// 0 where all lent is unchanged, 1 where scratch is written, 2 where the outputs are too, 3 where their floats are NaN.
    pub state: u32,
    pub plan: Plan,
    pub factor: Factor,
}

/// What the source did where the answer is 14.
#[derive(Default)]
pub struct Fallbacks {
    pub solved: usize,
    pub failed: usize,
    pub panicked: usize,
}

/// Where each stored body of A begins among the values, and their end.
pub fn bodies(t: &Tables) -> Vec<usize> {
    let mut ends = vec![0];
    for j in 0..t.dims.len() {
        for p in t.starts[j] as usize..t.starts[j + 1] as usize {
            ends.push(ends[p] + (t.dims[j] * t.dims[t.rows[p] as usize]) as usize);
        }
    }
    ends
}

/// Where each body of L begins among its numbers, and their end.
pub fn offsets(t: &Tables, plan: &Plan) -> Vec<u32> {
    let dim = |new: usize| t.dims[plan.order[new] as usize];
    let mut ends = vec![0];
    for j in 0..t.dims.len() {
        for p in plan.l_starts[j] as usize..plan.l_starts[j + 1] as usize {
            ends.push(ends[p] + dim(j) * dim(plan.l_rows[p] as usize));
        }
    }
    ends
}

/// The needs: scalars, numbers of the diagonal factors and of the working column by dimensions that pass.
pub fn needs(t: &Tables, l_blocks: usize, l_numbers: usize) -> [usize; BUFFERS] {
    let (n, m) = (t.dims.len(), t.rows.len());
    let dims: Vec<usize> = t.dims.iter().map(|&d| d.min(16) as usize).collect();
    let scalars: usize = dims.iter().sum();
    let squares = dims.iter().map(|d| d * d).sum();
    let column = scalars * dims.iter().max().copied().unwrap_or(0);
    [n, n, n + 1, l_blocks, l_blocks + 1, l_numbers, squares, scalars, column, n, n, n, n + 1, n + 1, n, m, m, m + 1, n + 1, n + 1, n]
}

/// The refusal 1 to 10, if there is one.
pub fn refused_before(night: &Night) -> Option<(u32, u32, u32)> {
    let tolerant = night.tolerance.is_finite() && night.tolerance >= 0.0;
    refused(&night.tables, Some(night.values.len() as u32)).or((!tolerant).then_some((10, 0, 0)))
}

/// The buffer that 11 tells of, and whether only the plan shows its need.
pub fn short(lent: &[usize; BUFFERS], needs: &[usize; BUFFERS]) -> Option<(usize, bool)> {
    let short = |b: &usize| lent[*b] < needs[*b];
    let known = (0..BUFFERS).filter(|b| !SHOWN.contains(b)).find(short);
    known.map(|b| (b, false)).or(SHOWN.into_iter().find(short).map(|b| (b, true)))
}

pub fn run(case: &Case, fallbacks: &mut Fallbacks) -> Answer {
    let t = &case.night.tables;
    let refusal = refused_before(&case.night);
    let plan = if refusal.is_none() { planned(t) } else { Plan::default() };
    let needs = needs(t, plan.l_rows.len(), plan.numbers);
    let mut lent: [u32; BUFFERS] = std::array::from_fn(|b| (needs[b] as i64 + case.over[b]).max(0) as u32);
    let mut answer = Answer {
        lent,
        number: 0,
        first: 0,
        second: 0,
        float: 0.0,
        state: 0,
        plan: Plan::default(),
        factor: Factor::default(),
    };
    if let Some(told) = refusal {
        for (length, room) in lent.iter_mut().zip(ROOM) {
            *length = (*length).min(room as u32);
        }
        answer.lent = lent;
        (answer.number, answer.first, answer.second) = told;
        return answer;
    }
    if let Some((b, shown)) = short(&lent.map(|l| l as usize), &needs) {
        answer.state = shown as u32;
        (answer.number, answer.first, answer.second) = (11, b as u32, needs[b] as u32);
        return answer;
    }
    match worked(&case.night, &plan, fallbacks) {
        Worked::Accepted(factor) => {
            answer.state = 2;
            answer.factor = factor;
        }
        Worked::NotFinite { block, place, pivot } => {
            answer.state = 3;
            (answer.number, answer.first, answer.second, answer.float) = (13, block as u32, place as u32, pivot);
        }
        Worked::Poor { block, condition } => {
            answer.state = 3;
            (answer.number, answer.first, answer.float) = (14, block as u32, condition);
        }
    }
    answer.plan = plan;
    answer
}

/// The matrix that the tables describe, with the values bit for bit: `to_compressed` would add each to 0.0.
pub fn filled(night: &Night) -> BlockSparseMatrix {
    let t = &night.tables;
    let mut made = matrix(t);
    let bodies = bodies(t);
    assert_eq!(bodies[t.rows.len()], night.values.len());
    for j in 0..t.dims.len() {
        for p in t.starts[j] as usize..t.starts[j + 1] as usize {
            let block = made.block_col_pattern.nonzero_blocks[p];
            let (row, column) = (made.subdivision.idx(t.rows[p] as usize), made.subdivision.idx(j));
            let body = &night.values[bodies[p]..bodies[p + 1]];
            let storage = &mut made.regions.get_mut(&[row.partition, column.partition]).storage;
            storage[block.storage_base as usize..][..body.len()].copy_from_slice(body);
        }
    }
    made
}

/// The source's numbers of a night that no refusal meets before them.
fn worked(night: &Night, plan: &Plan, fallbacks: &mut Fallbacks) -> Worked {
    if night.tables.dims.is_empty() {
        // the source asks for the greatest dimension of no block, and panics
        let a_lower = BlockSparseSymmetricMatrix { lower: matrix(&night.tables) };
        let hook = take_hook();
        set_hook(Box::new(|_| ()));
        let told = catch_unwind(AssertUnwindSafe(|| block_sparse_ldlt::factorize(&a_lower, vec![], night.tolerance)));
        set_hook(hook);
        assert!(told.is_err(), "the source factors no block");
        return Worked::Accepted(Factor::default());
    }
    let told = numeric(night, plan, fallbacks);
    assert_unread(night, plan, &told);
    told
}

fn numeric(night: &Night, plan: &Plan, fallbacks: &mut Fallbacks) -> Worked {
    let a_lower = BlockSparseSymmetricMatrix { lower: filled(night) };
    source_factor(&a_lower, night, plan, true, fallbacks).0
}

/// What the numbers of the matrix come to, with the source's factor where it is accepted. The source's steps are gone through once more
/// where the source refuses or has fallen back, and with `again` in any case.
pub fn source_factor(
    a_lower: &BlockSparseSymmetricMatrix,
    night: &Night,
    plan: &Plan,
    again: bool,
    fallbacks: &mut Fallbacks,
) -> (Worked, Option<BlockSparseLdltFactor>) {
    let perm: Vec<usize> = night.tables.perm.iter().map(|&k| k as usize).collect();
    nalgebra::products();
    let told = catch_unwind(AssertUnwindSafe(|| block_sparse_ldlt::factorize(a_lower, perm.clone(), night.tolerance)));
    let products = nalgebra::products();
    let clean = matches!(&told, Ok(Ok(factor)) if !fell_back(block_sparse_ldlt::diagonal(factor)));
    let met = if clean && !again { None } else { met(&a_lower.lower, perm, night.tolerance) };
    let worked = match met {
        None => {
            let Ok(Ok(factor)) = told else { panic!("the source refuses what its steps accept") };
            assert!(!fell_back(block_sparse_ldlt::diagonal(&factor)));
            assert_eq!(products, plan.products, "the products are not those of the plan");
            let mut worked = Factor::default();
            for j in 0..plan.order.len() {
                let idx = PartitionBlockIndex { partition: j, block: 0 };
                let rows = plan.l_starts[j] as usize..plan.l_starts[j + 1] as usize;
                let blocks: Vec<_> = factor.mat_l.col(j).iter().map(|e| (e.global_block_row_idx, numbers(e.view))).collect();
                assert!(blocks.iter().map(|b| b.0 as u32).eq(plan.l_rows[rows].iter().copied()));
                worked.l_values.extend(blocks.into_iter().flat_map(|b| b.1));
                let diagonal = block_sparse_ldlt::diagonal(&factor);
                worked.diag.extend(numbers(diagonal.mat_l.get_block(idx)));
                worked.d.extend(diagonal.d.get_block(idx).as_slice());
            }
            assert_eq!(worked.l_values.len(), plan.numbers);
            return (Worked::Accepted(worked), Some(factor));
        }
        Some(Worked::NotFinite { block, place, pivot }) => {
            let Ok(Err(BlockSparseLdltError::BlockDiagLdltError { source, idx })) = told else {
                panic!("the source accepts what its steps refuse")
            };
            let LdltDecompositionError::NonFinitePivot { j, d_jj } = source;
            assert_eq!((idx.partition, idx.block, j, bits(d_jj)), (block, 0, place, bits(pivot)));
            Worked::NotFinite { block, place, pivot }
        }
        Some(poor) => {
            match told {
                Ok(Ok(factor)) => {
                    assert!(fell_back(block_sparse_ldlt::diagonal(&factor)));
                    fallbacks.solved += 1;
                }
                Ok(Err(_)) => fallbacks.failed += 1,
                Err(_) => fallbacks.panicked += 1,
            }
            poor
        }
    };
    (worked, None)
}

/// The first diagonal block that the source's steps come to and that 13 or 14 meets: `decompose` keeps its record to itself, so
/// the record is that of the dense routine on the same numbers, the call that `decompose` makes.
pub fn met(a_lower: &BlockSparseMatrix, perm: Vec<usize>, tolerance: f64) -> Option<Worked> {
    let mut met = None;
    block_sparse_ldlt::watch(a_lower, perm, tolerance, |block, view: DMatrixView<'_, f64>| {
        let n = view.nrows();
        let (mut mat_l, mut d) = (numbers(view), vec![0.0; n]);
        let dense = ldlt_decompose_inplace(
            DMatrixViewMut::from_slice(&mut mat_l, n, n),
            DVectorViewMut::from_slice(&mut d, n),
            tolerance,
        );
        met = match dense {
            Err(LdltDecompositionError::NonFinitePivot { j, d_jj }) => Some(Worked::NotFinite { block, place: j, pivot: d_jj }),
            Ok(r) if r.definiteness == Definiteness::Indefinite && r.pivot_condition < fallback_threshold() => {
                Some(Worked::Poor { block, condition: r.pivot_condition })
            }
            Ok(_) => None,
        };
        met.is_none()
    });
    met
}

fn same(a: &Worked, b: &Worked) -> bool {
    let all = |x: &[f64], y: &[f64]| x.len() == y.len() && x.iter().zip(y).all(|(&x, &y)| bits(x) == bits(y));
    match (a, b) {
        (Worked::Accepted(a), Worked::Accepted(b)) => all(&a.l_values, &b.l_values) && all(&a.diag, &b.diag) && all(&a.d, &b.d),
        (Worked::NotFinite { block, place, pivot }, Worked::NotFinite { block: b, place: p, pivot: x }) => {
            (block, place, bits(*pivot)) == (b, p, bits(*x))
        }
        (Worked::Poor { block, condition }, Worked::Poor { block: b, condition: x }) => (block, bits(*condition)) == (b, bits(*x)),
        _ => false,
    }
}

/// What stands above the diagonal of A's diagonal blocks is not read: other numbers there leave the answer as it is.
fn assert_unread(night: &Night, plan: &Plan, told: &Worked) {
    let t = &night.tables;
    if t.dims.len() > 100 {
        return;
    }
    let bodies = bodies(t);
    for other in [f64::NAN, 0.0] {
        let mut changed = night.clone();
        for j in 0..t.dims.len() {
            let p = t.starts[j] as usize;
            if p < t.starts[j + 1] as usize && t.rows[p] as usize == j {
                let n = t.dims[j] as usize;
                for column in 0..n {
                    changed.values[bodies[p] + column * n..][..column].fill(other);
                }
            }
        }
        let again = numeric(&changed, plan, &mut Fallbacks::default());
        assert!(same(told, &again), "what stands above a diagonal is read");
    }
}
