//! The plan of a night.
use crate::calls::Counts;

/// Which blocks L has, and how much work it is, before a number is read. Blocks are told by new number.
#[derive(Clone, Debug, Default, PartialEq, Eq)]
pub struct Plan {
    pub(crate) order: Vec<u32>,
    pub(crate) parents: Vec<u32>,
    pub(crate) starts: Vec<u32>,
    pub(crate) rows: Vec<u32>,
    pub(crate) counts: Counts,
}

/// The parents of a tree, where the tables write 4,294,967,295 for none.
pub(crate) fn parents(table: &[u32]) -> impl ExactSizeIterator<Item = Option<u32>> + '_ {
    table.iter().map(|&parent| (parent != u32::MAX).then_some(parent))
}

impl Plan {
    /// The old number of each new block: the permutation, late blocks moved behind the others.
    pub fn order(&self) -> &[u32] {
        &self.order
    }

    /// The elimination tree: the parent of each block, none for a root. An [`EliminationTree`](crate::EliminationTree) can be walked.
    pub fn parents(&self) -> impl ExactSizeIterator<Item = Option<u32>> + '_ {
        parents(&self.parents)
    }

    /// Where each column of L begins in [`rows`](Plan::rows), and the number of L's blocks last.
    pub fn starts(&self) -> &[u32] {
        &self.starts
    }

    /// The rows of L below the diagonal, column after column, ascending.
    pub fn rows(&self) -> &[u32] {
        &self.rows
    }

    /// The rows of one column of L; panics where there is no such column.
    pub fn column(&self, column: usize) -> &[u32] {
        &self.rows[self.starts[column] as usize..self.starts[column + 1] as usize]
    }

    /// L's blocks and numbers, and the block products.
    pub fn counts(&self) -> Counts {
        self.counts
    }
}
