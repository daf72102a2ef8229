// Head by the oracle: the solve with a factor of the block-sparse matrix. From the line `impl IsFactor` on, the text is the source's.
use nalgebra::DVector;
use sophus_assert::assert_gt;

use crate::{
    IsFactor, LinearSolverError,
    kernel::{sub_mat_plus_vec_inplace, sub_mat_transpose_plus_vec_in_place},
    ldlt::block_sparse_ldlt::BlockSparseLdltFactor,
    matrix::block_sparse::BlockSparseSymmetricMatrix,
};

macro_rules! profile_scope {
    ($($arg:tt)*) => {};
}

