//! A tree or a walk: the refusals as document 01 has them, the source's parents and lists, and document 01's rule for marks, stamps
//! and any parents.
use sophus_solver::{ldlt::EliminationTree, matrix::sparse::ColumnCompressedPattern};

use crate::plans::{NONE, Refusal, bad_order, bad_parent, bad_row, bad_start, column, parents_of, words};

/// An upper pattern: column j lists rows ascending, of which those from j on are skipped.
#[derive(Clone, Default)]
pub struct Upper {
    pub starts: Vec<u32>,
    pub rows: Vec<u32>,
}

#[derive(Clone, Copy)]
pub enum Call {
    /// The tree of so many blocks. The parents and the ancestors are lent.
    Tree(u32),
    /// The walk for a block. The stamps and the list are lent.
    Walk(u32),
}

/// Calls one after the other on the same tables, each with the two lent buffers and the mark as the one before left them.
#[derive(Clone)]
pub struct Calls {
    pub kind: usize,
    pub upper: Upper,
    /// What a walk is handed, and the mark of the first.
    pub parents: Vec<u32>,
    pub mark: u32,
    pub lent: [Vec<u32>; 2],
    pub calls: Vec<Call>,
}

/// What a call comes to.
pub struct Answer {
    /// The mark that it is handed.
    pub mark: u32,
    /// The refusal's number or 0; its place, or the buffer that is short; 1 where the place is in the parents, or the need. Of an accepted
    /// walk 0, the mark that it used, and where its list begins.
    pub told: Refusal,
    /// The two lent buffers afterwards.
    pub after: [Vec<u32>; 2],
    /// Whether the source has given the parents or the list.
    pub source: bool,
}

impl Upper {
    pub fn new(columns: &[Vec<u32>]) -> Self {
        let mut starts = vec![0];
        for column in columns {
            starts.push(starts[starts.len() - 1] + column.len() as u32);
        }
        Self { starts, rows: columns.concat() }
    }

    pub fn of(pattern: &ColumnCompressedPattern) -> Self {
        Self { starts: words(pattern.storage_idx_by_col()), rows: words(pattern.row_idx_storage()) }
    }

    /// The source's tree of a pattern that is right.
    pub fn tree(&self) -> EliminationTree {
        let wide = |xs: &[u32]| xs.iter().map(|&x| x as usize).collect::<Vec<_>>();
        EliminationTree::new(ColumnCompressedPattern::new(self.starts.len() - 1, wide(&self.starts), wide(&self.rows)))
    }

    pub fn parents(&self) -> Vec<u32> {
        parents_of(&self.tree())
    }
}

/// The refusal of a call with n blocks, if there is one: 1, 3, 5, 6, 11, and 12 for a walk's block. Of 5 the rows come before the parents,
/// as in the call.
fn refused(upper: &Upper, n: usize, parents: &[u32], lent: &[Vec<u32>; 2], block: Option<u32>) -> Option<Refusal> {
    let Upper { starts, rows } = upper;
    if n > 4096 {
        return Some((1, 0, 0));
    }
    if let Some(k) = bad_start(starts, n, rows.len()) {
        return Some((3, k as u32, 0));
    }
    if let Some(p) = bad_row(starts, rows, n, |_| 0) {
        return Some((5, p as u32, 0));
    }
    if let Some(k) = bad_parent(parents, n) {
        return Some((5, k as u32, 1));
    }
    if let Some(p) = bad_order(starts, rows, n) {
        return Some((6, p as u32, 0));
    }
    if let Some(b) = lent.iter().position(|buffer| buffer.len() < n) {
        return Some((11, b as u32, n as u32));
    }
    block.filter(|&j| j as usize >= n).map(|_| (12, 0, 0))
}

/// A walk for a block of tables that are right, by document 01's rule. Gives the mark that it used, and the list; stamps the blocks.
fn walk(upper: &Upper, parents: &[u32], j: u32, mark: u32, stamps: &mut [u32]) -> (u32, Vec<u32>) {
    let mut mark = mark.wrapping_add(1);
    if mark == 0 || stamps.contains(&mark) {
        stamps.fill(0);
        mark = 1;
    }
    stamps[j as usize] = mark;
    let mut found = vec![];
    for p in column(&upper.starts, j as usize) {
        let mut at = upper.rows[p];
        if at >= j {
            continue;
        }
        while at != NONE && stamps[at as usize] != mark {
            stamps[at as usize] = mark;
            found.push(at);
            at = parents[at as usize];
        }
    }
    found.reverse();
    (mark, found)
}

/// The answer to one call with the buffers as they are. The list of a walk along the tree of its own pattern must be the source's.
fn answer(c: &Calls, call: Call, mark: u32, lent: &[Vec<u32>; 2]) -> Answer {
    let mut after = lent.clone();
    let (n, parents, block) = match call {
        Call::Tree(n) => (n as usize, &[][..], None),
        Call::Walk(j) => (c.parents.len(), &c.parents[..], Some(j)),
    };
    if let Some(told) = refused(&c.upper, n, parents, lent, block) {
        return Answer { mark, told, after, source: false };
    }
    let mut tree = c.upper.tree();
    let grown = parents_of(&tree);
    match call {
        Call::Tree(_) => {
            after[0][..n].copy_from_slice(&grown);
            after[1][..n].fill(0);
            Answer { mark, told: (0, 0, 0), after, source: true }
        }
        Call::Walk(j) => {
            let (used, found) = walk(&c.upper, parents, j, mark, &mut after[0][..n]);
            let source = grown == parents;
            assert!(!source || words(tree.reach(j as usize)) == found, "the walk is not the source's");
            let top = n - found.len();
            after[1][top..n].copy_from_slice(&found);
            Answer { mark, told: (0, used, top as u32), after, source }
        }
    }
}

/// The answers to the calls in turn.
pub fn run(c: &Calls) -> Vec<Answer> {
    let mut answers: Vec<Answer> = vec![];
    let mut mark = c.mark;
    for &call in &c.calls {
        let made = answer(c, call, mark, answers.last().map_or(&c.lent, |a| &a.after));
        if let (Call::Walk(_), 0) = (call, made.told.0) {
            mark = made.told.1;
        }
        answers.push(made);
    }
    answers
}
