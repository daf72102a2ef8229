// Head by the oracle; the partition types below are cut from the source.
pub mod block;
pub mod block_sparse;
pub(crate) mod grid;
pub mod sparse;

pub use grid::*;

