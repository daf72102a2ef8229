// Head by the oracle: what the source keeps to its module, shown; the permutation handed in where `factorize_impl` asks for one; and
// the first lines of a function for the late move. From the comment on partitions marked `eliminate_last` in `block_amd_ordering` to
// the end, the text is the source's.
use std::cell::RefCell;

use nalgebra::{DMatrix, DMatrixView, DVector};

use crate::{
    BlockSparseLdltError,
    kernel::sub_mat_diag_mat_t_inplace,
    ldlt::{
        EliminationTree, IsLMatBuilder, IsLdltTracer, IsLdltWorkspace, NoopLdltTracer, block_diag_ldlt::BlockDiagonalLdltSystem,
    },
    matrix::{
        PartitionSet, PartitionSpec,
        block::BlockColumn,
        block_sparse::{
            BlockMatrixSubdivision, BlockRegion, BlockSparseMatrix, BlockSparsePattern, BlockSparseSymmetricMatrix, NonZeroBlock,
        },
        grid::Grid,
    },
};

macro_rules! profile_scope {
    ($($arg:tt)*) => {};
}

#[derive(Copy, Clone, Debug)]
pub struct BlockSparseLdlt {
    tol_rel: f64,
}

thread_local! {
    static PERM: RefCell<Vec<usize>> = const { RefCell::new(vec![]) };
}

fn block_amd_ordering(a_lower: &BlockSparseMatrix) -> (Vec<usize>, Vec<usize>) {
    moved_late(a_lower, PERM.take())
}

// `factorize_impl` with the permutation handed in.
pub fn factorize(
    a_lower: &BlockSparseSymmetricMatrix,
    perm: Vec<usize>,
    tol_rel: f64,
) -> Result<BlockSparseLdltFactor, BlockSparseLdltError> {
    PERM.set(perm);
    BlockSparseLdlt { tol_rel }.factorize_impl(a_lower, &mut NoopLdltTracer::new())
}

// What a factor keeps to its crate.
pub fn diagonal(factor: &BlockSparseLdltFactor) -> &BlockDiagonalLdltSystem {
    &factor.block_diag
}

// The steps of `factorize_impl` once more, with a look at each diagonal block before it is decomposed; they end where the look says
// false, or at the source's own error.
pub fn watch(a_lower: &BlockSparseMatrix, perm: Vec<usize>, tol_rel: f64, mut look: impl FnMut(usize, DMatrixView<'_, f64>) -> bool) {
    let (order, inverse) = moved_late(a_lower, perm);
    let (flat_sub, a_lower_perm) = permute(a_lower, &order, &inverse);
    let (l_col_rows, l_region_nf) = symbolic(&a_lower_perm, &flat_sub);
    let nb = a_lower_perm.block_count();
    let mut etree = BlockLdltWorkspace::calc_etree(&a_lower_perm);
    let mut ws = BlockLdltWorkspace::new(nb, &flat_sub);
    let mut mat_l = BlockSparseLFactorBuilder::with_symbolic(&flat_sub, &l_col_rows, &l_region_nf);
    let mut diag_d = BlockDiagonalLdltSystem::zero(flat_sub.partitions().specs(), tol_rel);
    for col_j in 0..nb {
        ws.activate_col(col_j);
        ws.load_column(&a_lower_perm);
        for &col_k in etree.reach(col_j) {
            ws.apply_to_col_k_in_reach(col_k, &mat_l, &diag_d, &mut NoopLdltTracer::new());
        }
        if !look(col_j, ws.mat_c.get_block(flat_sub.idx(col_j))) || ws.append_to_ldlt(&mut mat_l, &mut diag_d).is_err() {
            return;
        }
        ws.clear();
    }
}

// The order of a permutation handed in: `block_amd_ordering` from the comment on, with its inverse.
pub fn order(a_lower: &BlockSparseMatrix, perm: Vec<usize>) -> (Vec<usize>, Vec<usize>) {
    moved_late(a_lower, perm)
}

// The flat subdivision and the permuted matrix, as `factorize_impl` makes them.
pub fn permute(a_lower: &BlockSparseMatrix, perm: &[usize], inverse: &[usize]) -> (BlockMatrixSubdivision, BlockSparseMatrix) {
    let flat_sub = make_flat_subdivision(&a_lower.subdivision, perm);
    let a_lower_perm = permute_block_sparse_lower(a_lower, inverse, &flat_sub);
    (flat_sub, a_lower_perm)
}

// The rows of L, and how many numbers each region of L has.
pub fn symbolic(a_lower_perm: &BlockSparseMatrix, flat_sub: &BlockMatrixSubdivision) -> (Vec<Vec<usize>>, Grid<usize>) {
    symbolic_factorize_l(a_lower_perm, flat_sub)
}

pub fn scalars(orig_sub: &BlockMatrixSubdivision, perm: &[usize], flat_sub: &BlockMatrixSubdivision) -> Vec<usize> {
    make_scalar_perm(orig_sub, perm, flat_sub)
}

fn moved_late(a_lower: &BlockSparseMatrix, mut perm: Vec<usize>) -> (Vec<usize>, Vec<usize>) {
    let nb = a_lower.block_count();

