// Stand-in for the module file of the block-sparse structures and for the triplets that `to_compressed` reads, whose text the
// source folder does not hold, and for the newtype that `factorize_impl` takes. They store.
pub(crate) mod block_sparse_matrix;

pub use block_sparse_matrix::*;

use crate::matrix::{Grid, PartitionSet};

#[derive(Clone, Debug)]
pub struct BlockTriplet {
    pub block_idx: [usize; 2],
    pub storage_base: usize,
}

#[derive(Clone, Debug, Default)]
pub struct BlockTripletRegion {
    pub triplets: Vec<BlockTriplet>,
    pub flattened_block_storage: Vec<f64>,
}

#[derive(Clone, Debug)]
pub struct BlockSparseTripletMatrix {
    pub partitions: PartitionSet,
    pub triplet_grid: Grid<BlockTripletRegion>,
}

impl BlockSparseTripletMatrix {
    pub fn scalar_dimension(&self) -> usize {
        self.partitions.scalar_dim()
    }
}

#[derive(Clone, Debug)]
pub struct BlockSparseSymmetricMatrix {
    pub lower: BlockSparseMatrix,
}

impl BlockSparseSymmetricMatrix {
    pub fn subdivision(&self) -> &BlockMatrixSubdivision {
        &self.lower.subdivision
    }
}
