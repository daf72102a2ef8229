//! Stand-in for the crate root: the modules that the oracle compiles, the context selector that snafu's derive would
//! write for `BlockSparseLdltError`, and a look at what the source keeps to its own crate.
#![allow(dead_code, unused_imports, clippy::all)]
pub mod error;
pub mod kernel;
pub mod ldlt;
pub mod matrix;

pub use error::*;
use matrix::PartitionBlockIndex;

pub(crate) struct BlockDiagLdltSnafu {
    pub(crate) idx: PartitionBlockIndex,
}

impl snafu::IntoError<BlockSparseLdltError> for BlockDiagLdltSnafu {
    type Source = LdltDecompositionError;
    fn into_error(self, source: LdltDecompositionError) -> BlockSparseLdltError {
        BlockSparseLdltError::BlockDiagLdltError { source, idx: self.idx }
    }
}

// The part of the trait that the factor's solve stands under.
pub trait IsFactor {
    type Matrix;
    fn solve_inplace(&self, b: &mut nalgebra::DVector<f64>) -> Result<(), LinearSolverError>;
}

pub fn fell_back(system: &ldlt::BlockDiagonalLdltSystem) -> bool {
    system.used_bk_fallback
}

pub fn fallback_threshold() -> f64 {
    ldlt::BK_FALLBACK_THRESHOLD
}

// whether the source's debug assertions were compiled in
pub fn debug_assertions() -> bool {
    cfg!(debug_assertions)
}
