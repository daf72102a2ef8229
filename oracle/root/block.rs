// Stand-in for the module file of the block structures, whose text the source folder does not hold.
pub(crate) mod block_column;
pub(crate) mod block_diag;
pub(crate) mod block_vector;

pub(crate) use block_column::BlockColumn;
pub use block_diag::BlockDiag;
pub use block_vector::BlockVector;
