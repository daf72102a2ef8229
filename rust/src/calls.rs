//! The library's calls on slices that the caller lends: nothing is allocated, and a short buffer is refused by 11.
use crate::abi;
use crate::error::{who, Column, Error, Table, Wrong};
use crate::Mark;

/// The tables of a system: A from the diagonal down, column after column, the permutation and the late flags.
#[derive(Clone, Copy, Debug)]
pub struct Tables<'a> {
    /// The dimension of each block.
    pub dims: &'a [u32],
    /// Where each column begins in `rows`, and the number of stored blocks last.
    pub starts: &'a [u32],
    /// The row of each stored block.
    pub rows: &'a [u32],
    /// The old number of each new block.
    pub perm: &'a [u32],
    /// 1 for a block that is to be eliminated last, else 0.
    pub late: &'a [u32],
}

/// What an accepted plan or factorization counts.
#[derive(Clone, Copy, Debug, Default, PartialEq, Eq)]
pub struct Counts {
    /// L's blocks below the diagonal.
    pub stored: usize,
    /// The numbers in them.
    pub numbers: usize,
    /// The block products that make them.
    pub products: u64,
}

/// The scratch of a plan, which a factorization is lent too.
#[derive(Debug)]
pub struct PlanScratch<'a> {
    pub inverse: &'a mut [u32],
    pub sizes: &'a mut [u32],
    pub count: &'a mut [u32],
    pub heads: &'a mut [u32],
    pub into: &'a mut [u32],
    pub stamps: &'a mut [u32],
    pub table: &'a mut [u32],
    pub upper: &'a mut [u32],
}

/// What a plan is lent: four outputs, then scratch.
#[derive(Debug)]
pub struct PlanLent<'a> {
    pub order: &'a mut [u32],
    pub parents: &'a mut [u32],
    pub l_starts: &'a mut [u32],
    pub l_rows: &'a mut [u32],
    pub scratch: PlanScratch<'a>,
}

/// What a factorization is lent: eight outputs, the working column, then scratch.
#[derive(Debug)]
pub struct FactorLent<'a> {
    pub order: &'a mut [u32],
    pub parents: &'a mut [u32],
    pub l_starts: &'a mut [u32],
    pub l_rows: &'a mut [u32],
    pub l_offsets: &'a mut [u32],
    pub l_values: &'a mut [f64],
    pub diag: &'a mut [f64],
    pub d: &'a mut [f64],
    pub column: &'a mut [f64],
    pub scratch: PlanScratch<'a>,
    pub bodies: &'a mut [u32],
    pub unit_starts: &'a mut [u32],
    pub d_starts: &'a mut [u32],
    pub places: &'a mut [u32],
}

/// The lists of a factor, each exactly the places that the factorization filled.
#[derive(Clone, Copy, Debug)]
pub struct FactorLists<'a> {
    pub order: &'a [u32],
    pub parents: &'a [u32],
    pub l_starts: &'a [u32],
    pub l_rows: &'a [u32],
    pub l_offsets: &'a [u32],
    pub l_values: &'a [f64],
    pub diag: &'a [f64],
    pub d: &'a [f64],
}

/// What a solve is lent: the right side, which becomes the solution, then scratch.
#[derive(Debug)]
pub struct SolveLent<'a> {
    pub x: &'a mut [f64],
    pub y: &'a mut [f64],
    pub scalar_perm: &'a mut [u32],
    pub sizes: &'a mut [u32],
    pub scalar_starts: &'a mut [u32],
}

/// What an accepted walk tells.
#[derive(Clone, Copy, Debug, PartialEq, Eq)]
pub struct Walked {
    /// The mark that it used, for the next walk.
    pub mark: u32,
    /// Where its list begins in the first n places.
    pub top: usize,
}

// the lent buffers of each call, and the slices of those that can refuse by 12, in the order of the call
const TREE_LENT: [&str; 2] = ["parents", "ancestors"];
const REACH_LENT: [&str; 2] = ["stamps", "found"];
const PLAN_LENT: [&str; 12] =
    ["order", "parents", "l_starts", "l_rows", "inverse", "sizes", "count", "heads", "into", "stamps", "table", "upper"];
#[rustfmt::skip]
const FACTOR_LENT: [&str; 22] = [
    "order", "parents", "l_starts", "l_rows", "l_offsets", "l_values", "diag", "d", "column", "inverse", "sizes", "count", "heads",
    "into", "stamps", "table", "upper", "bodies", "unit_starts", "d_starts", "places", "cache",
];
const SOLVE_LENT: [&str; 5] = ["x", "y", "scalar_perm", "sizes", "scalar_starts"];
#[rustfmt::skip]
const SOLVE_SLICES: [&str; 14] = [
    "dims", "starts", "rows", "perm", "late", "order", "parents", "l_starts", "l_rows", "l_offsets", "l_values", "diag", "d", "x",
];
const MARKS_LENT: [&str; 1] = ["marks"];
const MARKS_SLICES: [&str; 3] = ["dims", "order", "d"];

/// The elimination tree of n blocks from an upper pattern: `elimination_tree::new` of the proved library. A block without a parent has
/// 4,294,967,295; `ancestors` is scratch.
#[rustfmt::skip]
pub fn elimination_tree(
    n: usize, starts: &[u32], rows: &[u32], parents: &mut [u32], ancestors: &mut [u32],
) -> Result<(), Error> {
    let mut told = [0; 3];
    match abi::beyqaloosh_elimination_tree(n, starts, rows, parents, ancestors, &mut told) {
        0 => Ok(()),
        11 => Err(short(told, &TREE_LENT)),
        number => Err(bad_table(number, told, &OF_A_WALK)),
    }
}

/// The walk of block j over the parents of an upper pattern: `reach::reach` of the proved library. What it finds ends the first n places
/// of `found`, last found first. `mark` and `stamps` are what the last walk left; 0 and zeros begin.
#[rustfmt::skip]
pub fn reach(
    starts: &[u32], rows: &[u32], parents: &[u32], j: usize, mark: u32, stamps: &mut [u32], found: &mut [u32],
) -> Result<Walked, Error> {
    let mut told = [0; 3];
    match abi::beyqaloosh_reach(starts, rows, parents, j, mark, stamps, found, &mut told) {
        0 => Ok(Walked { mark: told[0] as u32, top: told[1] as usize }),
        11 => Err(short(told, &REACH_LENT)),
        12 => Err(Error::Past { block: j }),
        number => Err(bad_table(number, told, &OF_A_WALK)),
    }
}

/// The plan of a night: `plan::plan` of the proved library, whose text says what each buffer holds and needs.
pub fn plan(a: Tables, lent: PlanLent) -> Result<Counts, Error> {
    let Tables { dims, starts, rows, perm, late } = a;
    let PlanLent { order, parents, l_starts, l_rows, scratch } = lent;
    let PlanScratch { inverse, sizes, count, heads, into, stamps, table, upper } = scratch;
    let mut told = [0; 3];
    #[rustfmt::skip]
    let number = abi::beyqaloosh_plan(
        dims, starts, rows, perm, late, order, parents, l_starts, l_rows, inverse, sizes, count, heads, into, stamps, table, upper,
        &mut told,
    );
    match number {
        0 => Ok(counts(told)),
        11 => Err(short(told, &PLAN_LENT)),
        _ => Err(bad_table(number, told, &OF_A_NIGHT)),
    }
}

/// The factorization of a night: `factorize::factorize` of the proved library, whose text says what each buffer holds and needs.
pub fn factorize(a: Tables, values: &[f64], tol: f64, lent: FactorLent) -> Result<Counts, Error> {
    factorize_by(a, values, tol, lent, None)
}

/// The same with a cache: `factorize_with_cache::factorize_with_cache` of the proved library. A cache shorter than its need is refused by 11; else the
/// answer and what is left in every other buffer are those of [`factorize`].
#[rustfmt::skip]
pub fn factorize_with_cache(
    a: Tables, values: &[f64], tol: f64, lent: FactorLent, cache: &mut [f64],
) -> Result<Counts, Error> {
    factorize_by(a, values, tol, lent, Some(cache))
}

/// With the cache that is lent, if any.
#[rustfmt::skip]
fn factorize_by(
    a: Tables, values: &[f64], tol: f64, lent: FactorLent, cache: Option<&mut [f64]>,
) -> Result<Counts, Error> {
    let Tables { dims, starts, rows, perm, late } = a;
    let FactorLent { order, parents, l_starts, l_rows, l_offsets, l_values, diag, d, column, .. } = lent;
    let FactorLent { scratch, bodies, unit_starts, d_starts, places, .. } = lent;
    let PlanScratch { inverse, sizes, count, heads, into, stamps, table, upper } = scratch;
    let (mut told, mut value) = ([0; 3], [0.0]);
    #[rustfmt::skip]
    let number = match cache {
        None => abi::beyqaloosh_factorize(
            dims, starts, rows, values, perm, late, tol, order, parents, l_starts, l_rows, l_offsets, l_values, diag, d, column,
            inverse, sizes, count, heads, into, stamps, table, upper, bodies, unit_starts, d_starts, places, &mut told, &mut value,
        ),
        Some(cache) => abi::beyqaloosh_factorize_with_cache(
            dims, starts, rows, values, perm, late, tol, order, parents, l_starts, l_rows, l_offsets, l_values, diag, d, column,
            inverse, sizes, count, heads, into, stamps, table, upper, bodies, unit_starts, d_starts, places, cache, &mut told,
            &mut value,
        ),
    };
    // after 13 and 14 the order is there
    let [block, place] = [told[0] as usize, told[1] as usize];
    match number {
        0 => Ok(counts(told)),
        11 => Err(short(told, &FACTOR_LENT)),
        13 => Err(Error::NotFinite { block, old: order[block] as usize, place, pivot: value[0] }),
        14 => Err(Error::Poor { block, old: order[block] as usize, condition: value[0] }),
        _ => Err(bad_table(number, told, &OF_A_NIGHT)),
    }
}

/// The solve of a night with its factor: `solve::solve_inplace` of the proved library. `x` becomes the solution, in old order.
pub fn solve_inplace(a: Tables, factor: FactorLists, lent: SolveLent) -> Result<(), Error> {
    let Tables { dims, starts, rows, perm, late } = a;
    let FactorLists { order, parents, l_starts, l_rows, l_offsets, l_values, diag, d } = factor;
    let SolveLent { x, y, scalar_perm, sizes, scalar_starts } = lent;
    let mut told = [0; 3];
    #[rustfmt::skip]
    let number = abi::beyqaloosh_solve_inplace(
        dims, starts, rows, perm, late, order, parents, l_starts, l_rows, l_offsets, l_values, diag, d, x, y, scalar_perm, sizes,
        scalar_starts, &mut told,
    );
    match number {
        0 => Ok(()),
        7 => Err(Error::Values { of: Table::Factor, body: None }),
        11 => Err(short(told, &SOLVE_LENT)),
        12 => Err(mismatch(told, &SOLVE_SLICES)),
        _ => Err(bad_table(number, told, &OF_A_NIGHT)),
    }
}

/// The marks of a night: `marks::marks` of the proved library, which writes a mark for each scalar in old order. How many are silent.
pub fn marks(dims: &[u32], order: &[u32], d: &[f64], tol: f64, marks: &mut [Mark]) -> Result<usize, Error> {
    let mut told = [0; 3];
    match abi::beyqaloosh_marks(dims, order, d, tol, marks, &mut told) {
        0 => Ok(told[0] as usize),
        11 => Err(short(told, &MARKS_LENT)),
        12 => Err(mismatch(told, &MARKS_SLICES)),
        number => Err(bad_table(number, told, &OF_A_NIGHT)),
    }
}

// ---- needs

/// What the buffers of [`elimination_tree`] need, in its order, on so many blocks.
pub fn elimination_tree_needs(blocks: usize) -> Result<[usize; 2], Error> {
    needed(|needs, told| abi::beyqaloosh_elimination_tree_needs(blocks, needs, told))
}

/// What the buffers of [`reach`] need, in its order, on so many blocks.
pub fn reach_needs(blocks: usize) -> Result<[usize; 2], Error> {
    needed(|needs, told| abi::beyqaloosh_reach_needs(blocks, needs, told))
}

/// What the buffers of [`plan`] need, in its order, on so many blocks with so many stored. L's blocks are 0 where no plan has told them.
pub fn plan_needs(blocks: usize, stored: usize, l_blocks: u32) -> Result<[usize; 12], Error> {
    needed(|needs, told| abi::beyqaloosh_plan_needs(blocks, stored, l_blocks, needs, told))
}

/// What the buffers of [`factorize`] need, in its order, with L's blocks and numbers as a plan has told them.
pub fn factorize_needs(dims: &[u32], stored: usize, l_blocks: u32, l_numbers: u32) -> Result<[usize; 21], Error> {
    needed(|needs, told| abi::beyqaloosh_factorize_needs(dims, stored, l_blocks, l_numbers, needs, told))
}

/// What the buffers of [`factorize_with_cache`] need, the cache last, where A's values are so many numbers.
#[rustfmt::skip]
pub fn factorize_with_cache_needs(
    dims: &[u32], stored: usize, numbers: u32, l_blocks: u32, l_numbers: u32,
) -> Result<[usize; 22], Error> {
    needed(|needs, told| abi::beyqaloosh_factorize_with_cache_needs(dims, stored, numbers, l_blocks, l_numbers, needs, told))
}

/// What the buffers of [`solve_inplace`] need, in its order; of x it is the exact length.
pub fn solve_inplace_needs(dims: &[u32]) -> Result<[usize; 5], Error> {
    needed(|needs, told| abi::beyqaloosh_solve_inplace_needs(dims, needs, told))
}

/// What [`marks`] needs.
pub fn marks_needs(dims: &[u32]) -> Result<[usize; 1], Error> {
    needed(|needs, told| abi::beyqaloosh_marks_needs(dims, needs, told))
}

fn needed<const N: usize>(ask: impl FnOnce(&mut [u64; N], &mut [u64; 3]) -> u32) -> Result<[usize; N], Error> {
    let (mut needs, mut told) = ([0; N], [0; 3]);
    match ask(&mut needs, &mut told) {
        0 => Ok(needs.map(|need| need as usize)),
        number => Err(bad_table(number, told, &OF_A_NIGHT)),
    }
}

// ---- one block

/// The refusal of a call on one block: document 01's number, 2, 10, 12, 13 or 14. These calls carry nothing more.
#[derive(Clone, Copy, Debug, PartialEq, Eq)]
pub struct Refused(pub u32);

impl std::fmt::Display for Refused {
    fn fmt(&self, f: &mut std::fmt::Formatter) -> std::fmt::Result {
        write!(f, "refused {}, caused by {}", self.0, who(self.0))
    }
}

impl std::error::Error for Refused {}

fn one_block(number: u32) -> Result<(), Refused> {
    if number == 0 {
        Ok(())
    } else {
        Err(Refused(number))
    }
}

/// `mat_a_lower`, of n rows and columns, becomes L, and `mat_d` the diagonal of D.
pub fn ldlt_decompose_inplace(n: usize, mat_a_lower: &mut [f64], mat_d: &mut [f64], rel_tol: f64) -> Result<(), Refused> {
    one_block(abi::beyqaloosh_ldlt_decompose_inplace(n, mat_a_lower, mat_d, rel_tol))
}

/// `mat_l` and `d` become the factor of the block `mat_a` of a diagonal.
pub fn decompose(n: usize, mat_a: &[f64], mat_l: &mut [f64], d: &mut [f64], tol_rel: f64) -> Result<(), Refused> {
    one_block(abi::beyqaloosh_decompose(n, mat_a, mat_l, d, tol_rel))
}

/// x := A⁻¹ x.
pub fn ldlt_solve_inplace(n: usize, mat_l: &[f64], mat_d: &[f64], x: &mut [f64]) -> Result<(), Refused> {
    one_block(abi::beyqaloosh_ldlt_solve_inplace(n, mat_l, mat_d, x))
}

/// X := A⁻¹ X, with nrhs columns.
pub fn ldlt_matsolve_inplace(n: usize, nrhs: usize, mat_l: &[f64], mat_d: &[f64], mat_x: &mut [f64]) -> Result<(), Refused> {
    one_block(abi::beyqaloosh_ldlt_matsolve_inplace(n, nrhs, mat_l, mat_d, mat_x))
}

/// X := X A⁻¹, with m rows.
pub fn ldlt_right_matsolve_inplace(m: usize, n: usize, ld: &[f64], d: &[f64], x: &mut [f64]) -> Result<(), Refused> {
    one_block(abi::beyqaloosh_ldlt_right_matsolve_inplace(m, n, ld, d, x))
}

/// y := A⁻¹ y, for one block of a diagonal.
pub fn solve_inplace_vec(n: usize, mat_l: &[f64], d: &[f64], y: &mut [f64]) -> Result<(), Refused> {
    one_block(abi::beyqaloosh_solve_inplace_vec(n, mat_l, d, y))
}

/// X := X A⁻¹, for one block of a diagonal.
pub fn right_solve_inplace(m: usize, n: usize, mat_l: &[f64], d: &[f64], x: &mut [f64]) -> Result<(), Refused> {
    one_block(abi::beyqaloosh_right_solve_inplace(m, n, mat_l, d, x))
}

/// Y := Y − A diag(d) Bᵀ, with k columns of A and B.
#[rustfmt::skip]
pub fn sub_mat_diag_mat_t_inplace(
    m: usize, n: usize, k: usize, y: &mut [f64], mat_a: &[f64], d: &[f64], mat_b: &[f64],
) -> Result<(), Refused> {
    one_block(abi::beyqaloosh_sub_mat_diag_mat_t_inplace(m, n, k, y, mat_a, d, mat_b))
}

// ---- what is told

fn counts(told: [u64; 3]) -> Counts {
    Counts { stored: told[0] as usize, numbers: told[1] as usize, products: told[2] }
}

// whose tables they are: behind the place of 3, 5 and 6 a 1 stands for a parent, and a 2 for the factor's tables
const OF_A_NIGHT: [Table; 3] = [Table::System, Table::Parents, Table::Factor];
const OF_A_WALK: [Table; 2] = [Table::Pattern, Table::Tree];

/// 1 to 10.
fn bad_table(number: u32, told: [u64; 3], whose: &[Table]) -> Error {
    let (place, of) = (told[0] as usize, whose[told[1] as usize]);
    match number {
        1 => Error::Blocks,
        2 => Error::Dimension { place },
        3 => Error::Starts { of, place },
        4 => Error::Stored,
        5 => Error::Row { of, place },
        6 => Error::Order { of, place },
        7 => Error::Values { of, body: None },
        8 => Error::Permutation { place },
        9 => Error::Late { place },
        10 => Error::Tolerance,
        _ => unreachable!("the library answered {number}"),
    }
}

fn short(told: [u64; 3], lent: &[&'static str]) -> Error {
    let which = told[0] as usize;
    Error::Short { which, name: lent[which], need: told[1] as usize }
}

/// Of a wrong column the place is 8, or 6 where its parent is off; the rows are no other matter of 12, and how many parents there are is
/// told with zeros behind it.
fn mismatch(told: [u64; 3], slices: &[&'static str]) -> Error {
    let (place, column) = (told[0] as usize, told[1] as usize);
    let wrong = match (told[0], told[2]) {
        (8, 0) => Some(Wrong::Missing),
        (8, _) => Some(Wrong::Extra),
        (6, 2) => Some(Wrong::Parent),
        _ => None,
    };
    Error::Mismatch { place, name: slices[place], column: wrong.map(|wrong| Column { column, wrong }) }
}
