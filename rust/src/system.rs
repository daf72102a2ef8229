//! A night's system.
use crate::calls::{self, PlanLent, Tables};
use crate::error::{Error, Table};
use crate::factor::Factor;
use crate::needs;
use crate::plan::Plan;
use crate::workspace::{grow, Workspace};
use std::ops::Range;

/// The tables of a system as they are handed to the library, ready or not: they are tested there.
#[derive(Clone, Debug, Default, PartialEq)]
pub struct FlatTables {
    /// The dimension of each block.
    pub dims: Vec<u32>,
    /// Where each column begins in `rows`, and the number of stored blocks last.
    pub starts: Vec<u32>,
    /// The row of each stored block, column after column.
    pub rows: Vec<u32>,
    /// The bodies of the stored blocks, back to back, each column-major.
    pub values: Vec<f64>,
    /// The old number of each new block.
    pub perm: Vec<u32>,
    /// 1 for a block that is to be eliminated last, else 0.
    pub late: Vec<u32>,
    /// The relative tolerance of a pivot.
    pub tolerance: f64,
}

/// A symmetric block matrix, the order in which its blocks are eliminated, and the tolerance of a pivot.
#[derive(Clone, Debug, PartialEq)]
pub struct System {
    tables: FlatTables,
    /// Where each body begins in the values, as far as the tables say.
    offsets: Vec<usize>,
    /// The first body that a builder was given at another length than its block has.
    unfit: Option<(u32, u32)>,
}

impl System {
    /// A system block by block.
    pub fn builder(tolerance: f64) -> Builder {
        Builder { dims: vec![], late: vec![], stored: vec![], order: None, tolerance }
    }

    /// A system of ready tables, whatever they hold.
    pub fn from_tables(tables: FlatTables) -> Self {
        let offsets = offsets(&tables);
        Self { tables, offsets, unfit: None }
    }

    /// The tables.
    pub fn tables(&self) -> &FlatTables {
        &self.tables
    }

    /// How many scalars there are: the sum of the dimensions.
    pub fn scalars(&self) -> usize {
        self.tables.dims.iter().map(|&dim| dim as usize).sum()
    }

    /// The scalars of a block in old order, in which right sides, solutions and marks are; panics where there is no such block.
    ///
    /// ```
    /// use beyqaloosh::{Mark, System};
    ///
    /// // a stage, a sensor that heard it, and one that sent nothing
    /// let mut night = System::builder(1e-9);
    /// let (stage, heard, quiet) = (night.block(2), night.block(1), night.block(1));
    /// night.store(stage, stage, &[12.0, 1.0, 1.0, 6.0]).store(heard, stage, &[2.0, 0.5]).store(heard, heard, &[8.0]);
    /// let system = night.build();
    /// let solution = system.factorize()?.solve(&system, &[20.0, 3.0, 9.0, 0.0])?;
    /// let is_heard = |sensor: u32| solution.marks()[system.scalars_of(sensor)].iter().all(|&mark| mark == Mark::Heard);
    /// assert_eq!([heard, quiet].map(is_heard), [true, false]);
    /// # Ok::<(), beyqaloosh::Error>(())
    /// ```
    pub fn scalars_of(&self, block: u32) -> Range<usize> {
        let (before, from) = self.tables.dims.split_at(block as usize);
        let first = before.iter().map(|&dim| dim as usize).sum();
        first..first + from[0] as usize
    }

    /// The bodies, back to back in the order of the tables, to be overwritten by the numbers of another night of the same pattern.
    pub fn values_mut(&mut self) -> &mut [f64] {
        &mut self.tables.values
    }

    /// The body of a stored block, to be overwritten.
    pub fn body_mut(&mut self, row: u32, column: u32) -> Option<&mut [f64]> {
        let FlatTables { starts, rows, values, .. } = &mut self.tables;
        let column = column as usize;
        let (first, end) = (*starts.get(column)? as usize, *starts.get(column + 1)? as usize);
        let entry = first + rows.get(first..end)?.binary_search(&row).ok()?;
        values.get_mut(*self.offsets.get(entry)?..*self.offsets.get(entry + 1)?)
    }

    /// Another tolerance.
    pub fn set_tolerance(&mut self, tolerance: f64) {
        self.tables.tolerance = tolerance;
    }

    /// The plan, which reads no numbers and no tolerance.
    pub fn plan(&self) -> Result<Plan, Error> {
        self.plan_in(&mut Workspace::new())
    }

    /// The plan, with scratch that is kept.
    pub fn plan_in(&self, workspace: &mut Workspace) -> Result<Plan, Error> {
        let needs = needs::plan(&self.tables);
        workspace.for_plan(needs);
        let mut plan = Plan::default();
        for (list, need) in [&mut plan.order, &mut plan.parents, &mut plan.starts].into_iter().zip(needs) {
            grow(list, need);
        }
        plan.counts = match self.plan_into(&mut plan, workspace) {
            // L's row table, whose need only the plan shows
            Err(Error::Short { need, .. }) => {
                grow(&mut plan.rows, need);
                self.plan_into(&mut plan, workspace)?
            }
            answer => answer?,
        };
        Ok(plan)
    }

    fn plan_into(&self, plan: &mut Plan, workspace: &mut Workspace) -> Result<calls::Counts, Error> {
        let lent = PlanLent {
            order: &mut plan.order,
            parents: &mut plan.parents,
            l_starts: &mut plan.starts,
            l_rows: &mut plan.rows,
            scratch: workspace.plan.lend(),
        };
        calls::plan(self.lent(), lent)
    }

    /// The factor.
    pub fn factorize(&self) -> Result<Factor, Error> {
        self.factorize_in(&mut Workspace::new())
    }

    /// The factor, with scratch that is kept.
    pub fn factorize_in(&self, workspace: &mut Workspace) -> Result<Factor, Error> {
        let mut factor = Factor::default();
        factor.refit(self, workspace)?;
        Ok(factor)
    }

    pub(crate) fn lent(&self) -> Tables<'_> {
        let FlatTables { dims, starts, rows, perm, late, .. } = &self.tables;
        Tables { dims, starts, rows, perm, late }
    }

    /// A refusal by 7 with the body that the builder found.
    pub(crate) fn named(&self, why: Error) -> Error {
        match why {
            Error::Values { of: Table::System, .. } => Error::Values { of: Table::System, body: self.unfit },
            _ => why,
        }
    }
}

/// Where each body begins, and the end of the last; as far as the tables have columns, rows and dimensions for it.
fn offsets(tables: &FlatTables) -> Vec<usize> {
    let dim = |block: usize| tables.dims.get(block).map(|&dim| dim as usize);
    let mut offsets: Vec<usize> = vec![0];
    for (column, ends) in tables.starts.windows(2).enumerate() {
        for entry in ends[0] as usize..ends[1] as usize {
            let row = tables.rows.get(entry).map(|&row| row as usize);
            let area = row.and_then(dim).zip(dim(column)).and_then(|(h, w)| h.checked_mul(w));
            let end = area.and_then(|area| offsets[offsets.len() - 1].checked_add(area));
            let Some(end) = end.filter(|_| entry + 1 == offsets.len()) else { return offsets };
            offsets.push(end);
        }
    }
    offsets
}

/// A system block by block. Blocks are numbered from 0 as they come; that is the old order, in which right sides and solutions are.
#[derive(Clone, Debug)]
pub struct Builder {
    dims: Vec<u32>,
    late: Vec<u32>,
    stored: Vec<(u32, u32, Vec<f64>)>,
    order: Option<Vec<u32>>,
    tolerance: f64,
}

impl Builder {
    /// A block of this dimension: its number.
    pub fn block(&mut self, dim: u32) -> u32 {
        self.add(dim, 0)
    }

    /// A block that is moved behind the others, to be eliminated last: its number.
    pub fn late_block(&mut self, dim: u32) -> u32 {
        self.add(dim, 1)
    }

    fn add(&mut self, dim: u32, late: u32) -> u32 {
        self.dims.push(dim);
        self.late.push(late);
        self.dims.len() as u32 - 1
    }

    /// Stores the block in this row and column, from the diagonal down, its numbers column by column. Blocks may come in any order.
    pub fn store(&mut self, row: u32, column: u32, body: &[f64]) -> &mut Self {
        self.stored.push((row, column, body.to_vec()));
        self
    }

    /// The old number of each new block. Where it is not given, blocks keep their numbers.
    pub fn order(&mut self, order: &[u32]) -> &mut Self {
        self.order = Some(order.to_vec());
        self
    }

    /// The system. Nothing is refused here. A block in no column stands behind the last one, where the library finds it by 3; and the
    /// values end before the first body of another length than its block has, so that the library finds them too few, by 7.
    pub fn build(&self) -> System {
        let mut stored: Vec<&(u32, u32, Vec<f64>)> = self.stored.iter().collect();
        stored.sort_by_key(|(row, column, _)| (*column, *row));
        let blocks = self.dims.len() as u32;
        let before = |column: u32| stored.partition_point(|(_, of, _)| *of < column) as u32;
        let area = |row: u32, column: u32| {
            let dim = |block: u32| self.dims.get(block as usize).map(|&dim| dim as usize);
            dim(row)?.checked_mul(dim(column)?)
        };
        let unfit = stored.iter().position(|(row, column, body)| area(*row, *column) != Some(body.len()));
        let tables = FlatTables {
            dims: self.dims.clone(),
            starts: (0..=blocks).map(before).collect(),
            rows: stored.iter().map(|(row, _, _)| *row).collect(),
            values: stored[..unfit.unwrap_or(stored.len())].iter().flat_map(|(_, _, body)| body).copied().collect(),
            perm: self.order.clone().unwrap_or_else(|| (0..blocks).collect()),
            late: self.late.clone(),
            tolerance: self.tolerance,
        };
        System { unfit: unfit.map(|p| (stored[p].0, stored[p].1)), ..System::from_tables(tables) }
    }
}
