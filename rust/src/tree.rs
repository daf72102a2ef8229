//! The elimination tree of an upper pattern, and walks over it.
use crate::calls::{self, Walked};
use crate::error::Error;
use crate::needs;
use crate::plan;

/// The elimination tree of an upper pattern. Column j of the pattern lists rows, ascending; those from j on count for nothing.
///
/// ```
/// // block 2 is linked to 0 and to 1
/// let tree = beyqaloosh::EliminationTree::new(3, &[0, 0, 0, 2], &[0, 1])?;
/// assert_eq!(tree.parents().collect::<Vec<_>>(), [Some(2), Some(2), None]);
/// assert_eq!(tree.walker().reach(2)?, [1, 0]);
/// # Ok::<(), beyqaloosh::Error>(())
/// ```
#[derive(Clone, Debug, PartialEq, Eq)]
pub struct EliminationTree {
    starts: Vec<u32>,
    rows: Vec<u32>,
    parents: Vec<u32>,
}

impl EliminationTree {
    /// The tree of n blocks. `starts` has where each column begins in `rows`, and their number last.
    pub fn new(n: usize, starts: &[u32], rows: &[u32]) -> Result<Self, Error> {
        let [mut parents, mut ancestors] = needs::elimination_tree(n).map(|need| vec![0; need]);
        calls::elimination_tree(n, starts, rows, &mut parents, &mut ancestors)?;
        Ok(Self { starts: starts.to_vec(), rows: rows.to_vec(), parents })
    }

    /// The parent of each block, none for a root.
    pub fn parents(&self) -> impl ExactSizeIterator<Item = Option<u32>> + '_ {
        plan::parents(&self.parents)
    }

    /// A walker over this tree.
    pub fn walker(&self) -> Walker<'_> {
        let [stamps, found] = needs::reach(self.parents.len()).map(|need| vec![0; need]);
        Walker { tree: self, mark: 0, stamps, found }
    }
}

/// Walks over a tree, in memory and with marks that are kept from walk to walk.
#[derive(Clone, Debug)]
pub struct Walker<'a> {
    tree: &'a EliminationTree,
    mark: u32,
    stamps: Vec<u32>,
    found: Vec<u32>,
}

impl Walker<'_> {
    /// The blocks that block j reaches, last found first: those in whose columns L stores row j.
    pub fn reach(&mut self, j: usize) -> Result<&[u32], Error> {
        let EliminationTree { starts, rows, parents } = self.tree;
        let Walked { mark, top } = calls::reach(starts, rows, parents, j, self.mark, &mut self.stamps, &mut self.found)?;
        self.mark = mark;
        Ok(&self.found[top..])
    }
}
