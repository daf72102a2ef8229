// Head by the oracle; the threshold below, and the traits from the doc comment of `IsLdltWorkspace` on, are cut from the source.
use std::marker::PhantomData;

pub(crate) mod block_diag_ldlt;
pub mod block_sparse_ldlt;
mod block_sparse_solve;
pub(crate) mod dense_bunch_kaufman;
pub(crate) mod dense_ldlt;
pub(crate) mod elimination_tree;

pub use block_diag_ldlt::*;
pub use dense_ldlt::*;
pub use elimination_tree::*;

// A type that one method of the tracer's trait names; its text is not in the source folder.
pub struct SparseLFactorBuilder;

