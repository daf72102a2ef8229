// Stand-in for the sparse structures. The `ColumnCompressedPattern` that elimination_tree.rs and block_sparse_matrix.rs call,
// with three arguments and `scalar_dim`, is not in the source folder: its column_compresssed_matrix.rs has one with four and
// without. This one stores.
#[derive(Clone, Debug)]
pub struct ColumnCompressedPattern {
    scalar_dim: usize,
    storage_idx_by_col: Vec<usize>,
    row_idx_storage: Vec<usize>,
}

impl ColumnCompressedPattern {
    pub fn new(scalar_dim: usize, storage_idx_by_col: Vec<usize>, row_idx_storage: Vec<usize>) -> Self {
        assert_eq!(storage_idx_by_col.len(), scalar_dim + 1);
        assert_eq!(storage_idx_by_col[scalar_dim], row_idx_storage.len());
        Self { scalar_dim, storage_idx_by_col, row_idx_storage }
    }
    #[inline]
    pub fn scalar_dim(&self) -> usize {
        self.scalar_dim
    }
    #[inline]
    pub fn storage_idx_by_col(&self) -> &[usize] {
        &self.storage_idx_by_col
    }
    #[inline]
    pub fn row_idx_storage(&self) -> &[usize] {
        &self.row_idx_storage
    }
}
