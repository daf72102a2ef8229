//! The refusals of document 01: a case for each number, with what it carries, and who caused it.
use std::fmt;

/// Whose tables a refusal speaks of.
#[derive(Clone, Copy, Debug, PartialEq, Eq)]
pub enum Table {
    /// The system's: A as it is stored.
    System,
    /// The factor's: L below the diagonal.
    Factor,
    /// The factor's elimination tree.
    Parents,
    /// An upper pattern.
    Pattern,
    /// The elimination tree of a walk.
    Tree,
}

/// What is wrong with a column of a factor.
#[derive(Clone, Copy, Debug, PartialEq, Eq)]
pub enum Wrong {
    /// It lacks a row.
    Missing,
    /// It lists a row too many.
    Extra,
    /// Its parent is another than the system has there.
    Parent,
}

/// The first wrong column of a factor, by new number.
#[derive(Clone, Copy, Debug, PartialEq, Eq)]
pub struct Column {
    pub column: usize,
    pub wrong: Wrong,
}

/// A refusal. After [`Error::NotFinite`] and [`Error::Poor`] the numbers of the factor are NaN in full; after any other what the
/// call was to write is as it was.
#[derive(Clone, Copy, Debug, PartialEq)]
pub enum Error {
    /// 1: more than 4,096 blocks.
    Blocks,
    /// 2: a dimension 0 or above 16. The block.
    Dimension { place: usize },
    /// 3: column starts that do not fit. The entry.
    Starts { of: Table, place: usize },
    /// 4: more than 65,536 stored blocks.
    Stored,
    /// 5: a row or a parent outside its range. The entry of the row table, or the block whose parent it is.
    Row { of: Table, place: usize },
    /// 6: rows of a column that do not increase strictly. The entry of the row table.
    Order { of: Table, place: usize },
    /// 7: not as many values as the blocks have numbers. Where a [`Builder`](crate::Builder) was given a body of another length than
    /// its block has, the row and the column of the first.
    Values { of: Table, body: Option<(u32, u32)> },
    /// 8: no permutation of the blocks. The entry.
    Permutation { place: usize },
    /// 9: late flags of another length, or one neither 0 nor 1. The entry.
    Late { place: usize },
    /// 10: a tolerance NaN, infinite or below zero.
    Tolerance,
    /// 11: a buffer shorter than needed. Which of the call's buffers, from 0, with its name, and the need.
    Short { which: usize, name: &'static str, need: usize },
    /// 12: a slice that is not what the system has there. Its place in the call, from 0, with its name; of a factor's wrong column
    /// also that column. Of `dims` it is [`Factor`](crate::Factor)'s own test.
    Mismatch { place: usize, name: &'static str, column: Option<Column> },
    /// 12: a walk of a block past the last. The block.
    Past { block: usize },
    /// 13: a pivot NaN or infinite. The block by new and by old number, the row in it, the pivot.
    NotFinite { block: usize, old: usize, place: usize, pivot: f64 },
    /// 14: a diagonal block that is indefinite with a condition below 1e-10. The block by new and by old number, the condition.
    Poor { block: usize, old: usize, condition: f64 },
    /// 15: a sheet's length or offsets are wrong. Only the program `fit` reads sheets.
    Sheet,
    /// 16: a sheet beyond the room of the program `fit`.
    Room,
}

impl Error {
    /// Document 01's number.
    pub fn number(&self) -> u32 {
        match self {
            Error::Blocks => 1,
            Error::Dimension { .. } => 2,
            Error::Starts { .. } => 3,
            Error::Stored => 4,
            Error::Row { .. } => 5,
            Error::Order { .. } => 6,
            Error::Values { .. } => 7,
            Error::Permutation { .. } => 8,
            Error::Late { .. } => 9,
            Error::Tolerance => 10,
            Error::Short { .. } => 11,
            Error::Mismatch { .. } | Error::Past { .. } => 12,
            Error::NotFinite { .. } => 13,
            Error::Poor { .. } => 14,
            Error::Sheet => 15,
            Error::Room => 16,
        }
    }

    /// Who caused it.
    pub fn who(&self) -> &'static str {
        who(self.number())
    }

    /// What to do about it, in the words of the README.
    pub fn what_to_do(&self) -> &'static str {
        match self {
            Error::Blocks => "send at most 4,096 blocks: sites without a stored block between them can be nights of their own",
            Error::Dimension { .. } => "give the block that is named a dimension from 1 to 16",
            Error::Starts { of: Table::System | Table::Pattern, .. } => {
                "make the column starts again: one more than the blocks, from 0 to the row count, never falling"
            }
            Error::Stored => "store at most 65,536 blocks",
            Error::Row { of: Table::System, .. } => {
                "store a block from the diagonal down; one above it is transposed and stored as its mirror image"
            }
            Error::Row { of: Table::Pattern, .. } => "in an upper pattern list rows below the number of blocks",
            Error::Row { of: Table::Tree, .. } => "a parent is a greater block, or 4,294,967,295 for none",
            Error::Order { of: Table::System | Table::Pattern, .. } => "sort the rows of each column, and store each block once",
            Error::Values { of: Table::System, .. } => "send as many numbers as the blocks have, rows × columns each",
            Error::Permutation { .. } => "name each block exactly once in the permutation",
            Error::Late { .. } => "send a flag 0 or 1 for each block",
            Error::Tolerance => "set a finite tolerance from 0 on, such as 1e-12",
            Error::Short { .. } => "lend the buffer that is named with the need that the refusal carries",
            Error::Mismatch { name, .. } if is_counted(name) => "give the slice that is named its exact length",
            Error::Past { .. } => "ask for the walk of a block that there is",
            // the tables of a factor
            Error::Starts { .. } | Error::Row { .. } | Error::Order { .. } | Error::Values { .. } | Error::Mismatch { .. } => {
                "factorize tonight's system again"
            }
            Error::NotFinite { .. } => {
                "look at the numbers of the block that is named, and of those linked to it, for NaN, infinities and sums that overflow"
            }
            Error::Poor { .. } => "look at the block that is named for a wrong sign: it is indefinite and nearly singular",
            Error::Sheet => "send it again whole",
            Error::Room => {
                "stay within 128 blocks, 512 scalars, 1,024 stored blocks and 4,096 values, and find an order in which L has 8,192 values \
                 at most"
            }
        }
    }
}

/// Who causes a refusal by this number.
pub(crate) fn who(number: u32) -> &'static str {
    match number {
        1..=7 => "the assembler of the tables",
        8 | 9 => "the night planner",
        10 => "the operator",
        11 | 12 => "whoever lends buffers",
        13 | 14 => "the data",
        _ => "the sender of the sheet",
    }
}

impl fmt::Display for Table {
    fn fmt(&self, f: &mut fmt::Formatter) -> fmt::Result {
        f.write_str(match self {
            Table::System => "A",
            Table::Factor => "the factor",
            Table::Pattern => "the pattern",
            Table::Parents | Table::Tree => "the tree",
        })
    }
}

impl fmt::Display for Column {
    fn fmt(&self, f: &mut fmt::Formatter) -> fmt::Result {
        let wrong = match self.wrong {
            Wrong::Missing => "lacks a row",
            Wrong::Extra => "lists a row too many",
            Wrong::Parent => "has another parent",
        };
        write!(f, "its column {}, by new number, {wrong}", self.column)
    }
}

/// Where it is wrong.
struct Where<'a>(&'a Error);

impl fmt::Display for Where<'_> {
    fn fmt(&self, f: &mut fmt::Formatter) -> fmt::Result {
        match self.0 {
            Error::Blocks => write!(f, "there are more than 4,096 blocks"),
            Error::Dimension { place } => write!(f, "block {place} has a dimension 0 or above 16"),
            Error::Starts { of, place } => write!(f, "entry {place} of the column starts of {of} does not fit"),
            Error::Stored => write!(f, "more than 65,536 blocks are stored"),
            Error::Row { of: Table::Parents | Table::Tree, place } => {
                write!(f, "the parent of block {place}, by new number, is neither none nor a greater block")
            }
            Error::Row { of, place } => write!(f, "entry {place} of the row table of {of} is outside its range"),
            Error::Order { of, place } => {
                write!(f, "entry {place} of the row table of {of} is not greater than the one before it in its column")
            }
            Error::Values { body: Some((row, column)), .. } => {
                write!(f, "the body of block ({row}, {column}) has not rows × columns numbers")
            }
            Error::Values { of, .. } => write!(f, "there are not as many values as the blocks of {of} have numbers"),
            Error::Permutation { place } => {
                write!(f, "entry {place} of the permutation is missing, too large, twice the same or one too many")
            }
            Error::Late { place } => write!(f, "late flag {place} is missing, neither 0 nor 1 or one too many"),
            Error::Tolerance => write!(f, "the tolerance is NaN, infinite or below zero"),
            Error::Short { which, name, need } => {
                write!(f, "buffer {which} of the call, {name}, is shorter than its need {need}")
            }
            Error::Mismatch { name, column: Some(column), .. } => {
                write!(f, "the factor is stale, {name} is not that of this system: {column}")
            }
            Error::Mismatch { place, name, .. } if is_counted(name) => {
                write!(f, "slice {place} of the call, {name}, has another length than the system has there")
            }
            Error::Mismatch { name, .. } => write!(f, "the factor is stale, {name} is not that of this system"),
            Error::Past { block } => write!(f, "block {block} is past the last"),
            Error::NotFinite { block, old, place, pivot } => {
                write!(f, "the pivot of row {place} of block {block} by new number, {old} by old, is {pivot}")
            }
            Error::Poor { block, old, condition } => {
                write!(f, "block {block} by new number, {old} by old, is indefinite with the condition {condition:e}")
            }
            Error::Sheet => write!(f, "the sheet is cut, goes on after the right side, or has other offsets"),
            Error::Room => write!(f, "the sheet is beyond the room of the program fit"),
        }
    }
}

impl fmt::Display for Error {
    fn fmt(&self, f: &mut fmt::Formatter) -> fmt::Result {
        write!(f, "refused {}, caused by {}: {}. {}", self.number(), self.who(), Where(self), sentence(self.what_to_do()))
    }
}

impl std::error::Error for Error {}

/// A slice of which only the length can disagree.
fn is_counted(name: &str) -> bool {
    matches!(name, "diag" | "d" | "x")
}

fn sentence(words: &str) -> String {
    let mut letters = words.chars();
    letters.next().into_iter().flat_map(char::to_uppercase).chain(letters).chain(['.']).collect()
}
