//! One plan: the refusals as document 01 has them, then the source's own functions on the same tables.
use std::ops::Range;

use sophus_solver::{
    ldlt::{EliminationTree, block_sparse_ldlt},
    matrix::{
        Grid, PartitionSet, PartitionSpec,
        block_sparse::{BlockSparseMatrix, BlockSparseTripletMatrix, BlockTriplet, BlockTripletRegion},
        sparse::ColumnCompressedPattern,
    },
};

pub const NONE: u32 = u32::MAX;
/// The buffers lent, in the call's order, and the place of L's row table among them.
pub const BUFFERS: usize = 12;
pub const L_ROWS: usize = 3;

/// A's tables with the permutation and the late flags.
#[derive(Clone, Default)]
pub struct Tables {
    pub dims: Vec<u32>,
    pub starts: Vec<u32>,
    pub rows: Vec<u32>,
    pub perm: Vec<u32>,
    pub late: Vec<u32>,
}

#[derive(Clone)]
pub enum Call {
    /// The plan, each buffer longer than its need by so much. Where the tables are refused, L's row table is lent as if
    /// nothing were stored.
    Plan { over: [i64; BUFFERS] },
    /// The check of a system with so many values and this tolerance.
    System { values: u32, tolerance: f64 },
}

#[derive(Clone)]
pub struct Case {
    pub kind: usize,
    pub tables: Tables,
    pub call: Call,
}

#[derive(Clone, Default)]
pub struct Plan {
    pub order: Vec<u32>,
    pub parents: Vec<u32>,
    pub l_starts: Vec<u32>,
    pub l_rows: Vec<u32>,
    pub numbers: usize,
    pub products: u64,
}

/// A refusal's number with its place, or with the buffer and its need.
pub type Refusal = (u32, u32, u32);

/// What a call comes to: the lengths lent, the refusal, and of an accepted plan its answer.
pub struct Answer {
    pub lent: [u32; BUFFERS],
    pub refusal: Option<Refusal>,
    pub plan: Option<Plan>,
    /// Whether the scratch ends as zeros.
    pub cleared: bool,
}

/// The first refusal of the tables, by number and then by place, read from document 01: 1 to 6, `values` for 7, then 8 and 9.
pub fn refused(t: &Tables, values: Option<u32>) -> Option<Refusal> {
    let (n, m) = (t.dims.len(), t.rows.len());
    let told = |number: u32, place: usize| Some((number, place as u32, 0));
    if n > 4096 {
        return told(1, 0);
    }
    if let Some(k) = t.dims.iter().position(|&d| !(1..=16).contains(&d)) {
        return told(2, k);
    }
    if let Some(k) = bad_start(&t.starts, n, m) {
        return told(3, k);
    }
    if m > 65536 {
        return told(4, 0);
    }
    if let Some(p) = bad_row(&t.starts, &t.rows, n, |j| j) {
        return told(5, p);
    }
    if let Some(p) = bad_order(&t.starts, &t.rows, n) {
        return told(6, p);
    }
    if let Some(values) = values {
        let area = |j: usize| column(&t.starts, j).map(|p| t.dims[j] * t.dims[t.rows[p] as usize]).sum::<u32>();
        if values != (0..n).map(area).sum() {
            return told(7, 0);
        }
    }
    let mut seen = std::collections::HashSet::new();
    let bad = t.perm.iter().take(n).position(|&old| old as usize >= n || !seen.insert(old));
    if let Some(k) = bad.or((t.perm.len() != n).then_some(t.perm.len().min(n))) {
        return told(8, k);
    }
    let bad = t.late.iter().take(n).position(|&flag| flag > 1);
    if let Some(k) = bad.or((t.late.len() != n).then_some(t.late.len().min(n))) {
        return told(9, k);
    }
    None
}

/// The first wrong entry of the column starts of n blocks and m stored ones. A table of another length is refused at its first missing or
/// its first superfluous entry.
pub fn bad_start(starts: &[u32], n: usize, m: usize) -> Option<usize> {
    for k in 0..=n {
        let before = if k == 0 { Some(0) } else { starts.get(k - 1).copied() };
        let good = match (before, starts.get(k)) {
            (Some(b), Some(&s)) => (if k == 0 { s == 0 } else { s >= b }) && (k < n || s as usize == m),
            _ => false,
        };
        if !good {
            return Some(k);
        }
    }
    (starts.len() > n + 1).then_some(n + 1)
}

/// The places of column j in a row table.
pub fn column(starts: &[u32], j: usize) -> Range<usize> {
    starts[j] as usize..starts[j + 1] as usize
}

/// The first row of n columns that is below the least of its column or past the last block.
pub fn bad_row(starts: &[u32], rows: &[u32], n: usize, least: impl Fn(usize) -> usize) -> Option<usize> {
    let outside = |j: usize, p: usize| !(least(j)..n).contains(&(rows[p] as usize));
    (0..n).find_map(|j| column(starts, j).find(|&p| outside(j, p)))
}

/// The first row of n columns that is not greater than the one before it in its column.
pub fn bad_order(starts: &[u32], rows: &[u32], n: usize) -> Option<usize> {
    (0..n).find_map(|j| column(starts, j).skip(1).find(|&p| rows[p] <= rows[p - 1]))
}

/// The first parent that is neither none nor a greater one of n blocks.
pub fn bad_parent(parents: &[u32], n: usize) -> Option<usize> {
    parents.iter().enumerate().position(|(k, &p)| p != NONE && !(k + 1..n).contains(&(p as usize)))
}

/// The needs of the lent buffers; that of L's row table is only known after the plan.
pub fn needs(t: &Tables, l_rows: usize) -> [usize; BUFFERS] {
    let (n, m) = (t.dims.len(), t.rows.len());
    [n, n, n + 1, l_rows, n, n, n, n + 1, n + 1, n, m, m]
}

pub fn run(case: &Case) -> Answer {
    match &case.call {
        Call::System { values, tolerance } => {
            let mut refusal = refused(&case.tables, Some(*values));
            if refusal.is_none() && !(tolerance.is_finite() && *tolerance >= 0.0) {
                refusal = Some((10, 0, 0));
            }
            Answer { lent: [0; BUFFERS], refusal, plan: None, cleared: false }
        }
        Call::Plan { over } => {
            let mut refusal = refused(&case.tables, None);
            let plan = refusal.is_none().then(|| planned(&case.tables));
            let stored = plan.as_ref().map_or(0, |p| p.l_rows.len());
            let needs = needs(&case.tables, stored);
            let lent: [u32; BUFFERS] = std::array::from_fn(|b| (needs[b] as i64 + over[b]).max(0) as u32);
            let mut cleared = false;
            if plan.is_some() {
                let short = |b: &usize| (lent[*b] as usize) < needs[*b];
                let known = (0..BUFFERS).filter(|&b| b != L_ROWS).find(short);
                let which = known.or(Some(L_ROWS).filter(short));
                refusal = which.map(|b| (11, b as u32, needs[b] as u32));
                cleared = known.is_none();
            }
            Answer { lent, plan: plan.filter(|_| refusal.is_none()), refusal, cleared }
        }
    }
}

/// The matrix that the tables describe, made by the source's `to_compressed`. Blocks that follow each other with the same
/// dimension and the same flag are a partition. The bodies are of no account to a plan: every third is zeros.
pub fn matrix(t: &Tables) -> BlockSparseMatrix {
    let n = t.dims.len();
    let mut specs: Vec<PartitionSpec> = vec![];
    let mut place: Vec<(usize, usize)> = vec![];
    for k in 0..n {
        let (dim, last) = (t.dims[k] as usize, t.late[k] == 1);
        match specs.last_mut() {
            Some(s) if s.block_dim == dim && s.eliminate_last == last => s.block_count += 1,
            _ => specs.push(PartitionSpec { block_count: 1, block_dim: dim, eliminate_last: last }),
        }
        place.push((specs.len() - 1, specs[specs.len() - 1].block_count - 1));
    }
    let mut grid = Grid::new([specs.len(), specs.len()], BlockTripletRegion::default());
    for j in 0..n {
        for p in t.starts[j] as usize..t.starts[j + 1] as usize {
            let i = t.rows[p] as usize;
            let region = grid.get_mut(&[place[i].0, place[j].0]);
            let storage_base = region.flattened_block_storage.len();
            region.triplets.push(BlockTriplet { block_idx: [place[i].1, place[j].1], storage_base });
            let body = if p % 3 == 0 { 0.0 } else { p as f64 };
            let end = storage_base + (t.dims[i] * t.dims[j]) as usize;
            region.flattened_block_storage.resize(end, body);
        }
    }
    let made = BlockSparseTripletMatrix { partitions: PartitionSet::new(specs), triplet_grid: grid }.to_compressed();
    let same = |a: &[usize], b: &[u32]| a.iter().copied().eq(b.iter().map(|&x| x as usize));
    assert!(same(&made.block_col_pattern.nonzero_idx_by_block_col, &t.starts), "the tables are not the matrix's");
    let rows: Vec<usize> = made.block_col_pattern.nonzero_blocks.iter().map(|b| b.block_row_idx as usize).collect();
    assert!(same(&rows, &t.rows), "the tables are not the matrix's");
    made
}

pub fn words(xs: &[usize]) -> Vec<u32> {
    xs.iter().map(|&x| x as u32).collect()
}

pub fn parents_of(etree: &EliminationTree) -> Vec<u32> {
    etree.parent_array().iter().map(|p| p.map_or(NONE, |p| p.get() as u32)).collect()
}

/// The source's upper pattern of tables that are right, in the order of elimination.
pub fn upper(t: &Tables) -> ColumnCompressedPattern {
    let a_lower = matrix(t);
    let (order, inverse) = block_sparse_ldlt::order(&a_lower, t.perm.iter().map(|&k| k as usize).collect());
    block_sparse_ldlt::permute(&a_lower, &order, &inverse).1.build_pattern_upper()
}

/// The source's plan of tables that are right.
pub fn planned(t: &Tables) -> Plan {
    plan_of(&matrix(t), t)
}

/// The same with the matrix made already.
pub fn plan_of(a_lower: &BlockSparseMatrix, t: &Tables) -> Plan {
    let (order, inverse) = block_sparse_ldlt::order(a_lower, t.perm.iter().map(|&k| k as usize).collect());
    let (flat_sub, a_lower_perm) = block_sparse_ldlt::permute(a_lower, &order, &inverse);
    let (l_col_rows, l_region_nf) = block_sparse_ldlt::symbolic(&a_lower_perm, &flat_sub);
    let scalars = block_sparse_ldlt::scalars(&a_lower.subdivision, &order, &flat_sub);
    assert_eq!(scalars.len(), t.dims.iter().sum::<u32>() as usize);
    let mut etree = EliminationTree::new(a_lower_perm.build_pattern_upper());
    let parents = parents_of(&etree);
    let products = products(&a_lower_perm, &mut etree, &l_col_rows);
    let [height, width] = l_region_nf.size();
    let regions = (0..height).flat_map(|i| (0..width).map(move |j| [i, j]));
    let mut l_starts = vec![0];
    for column in &l_col_rows {
        l_starts.push(l_starts[l_starts.len() - 1] + column.len() as u32);
    }
    Plan {
        order: words(&order),
        parents,
        l_starts,
        l_rows: words(&l_col_rows.concat()),
        numbers: regions.map(|at| *l_region_nf.get(&at)).sum(),
        products,
    }
}

/// The triples (i, j, k) that the numeric phase works through, found by its steps: `load_column`, `apply_to_col_k_in_reach` for
/// each column of the reach in its order, `append_to_ldlt`. The rows that these append must be those of the symbolic phase.
fn products(a: &BlockSparseMatrix, etree: &mut EliminationTree, l_col_rows: &[Vec<usize>]) -> u64 {
    let nb = a.block_count();
    let mut columns: Vec<Vec<usize>> = vec![vec![]; nb];
    let mut was_touched = vec![false; nb];
    let mut count = 0;
    for col_j in 0..nb {
        let mut touched: Vec<usize> = vec![];
        let mut touch = |row: usize| {
            if !was_touched[row] {
                was_touched[row] = true;
                touched.push(row);
            }
        };
        for entry in a.col(col_j).iter() {
            touch(entry.global_block_row_idx);
        }
        for &col_k in etree.reach(col_j) {
            if columns[col_k].binary_search(&col_j).is_err() {
                continue;
            }
            count += 1; // (j, j, k)
            for &row_i in &columns[col_k] {
                if row_i > col_j {
                    touch(row_i);
                    count += 1; // (i, j, k)
                }
            }
        }
        touched.sort_unstable();
        columns[col_j] = touched.iter().copied().filter(|&row| row > col_j).collect();
        for row in touched {
            was_touched[row] = false;
        }
        assert_eq!(columns[col_j], l_col_rows[col_j], "column {col_j}: the two phases store other rows");
    }
    count
}
