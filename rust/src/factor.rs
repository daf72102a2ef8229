//! The factor of a night's system.
use crate::calls::{self, FactorLent, FactorLists, SolveLent};
use crate::error::Error;
use crate::needs;
use crate::plan::Plan;
use crate::solution::{Mark, Solution};
use crate::system::{FlatTables, System};
use crate::workspace::{grow, Workspace};

/// L D Lᵀ of a system, by new numbers, bodies column-major. It solves for the system that it was made of; where its tables are not those
/// of the system that is handed over, a solve is refused, by 12 or a lower number. A factor's lists have no dimensions, so the library
/// cannot compare these: that is this face's own test, before the call, and a 12 too. Numbers are not compared: after they change, refit.
#[derive(Clone, Debug, Default, PartialEq)]
pub struct Factor {
    plan: Plan,
    offsets: Vec<u32>,
    values: Vec<f64>,
    diag: Vec<f64>,
    d: Vec<f64>,
    /// Of the system that it was made of.
    dims: Vec<u32>,
    tolerance: f64,
    /// The refusal of the last refit that wrote numbers, where there was one: they are NaN.
    spoilt: Option<Error>,
}

impl Factor {
    /// The order, the tree and the rows of L, with the count of block products worked through.
    pub fn plan(&self) -> &Plan {
        &self.plan
    }

    /// Where the body of each block of L begins in [`values`](Factor::values), and their number last.
    pub fn offsets(&self) -> &[u32] {
        &self.offsets
    }

    /// L's values: the bodies of the blocks below the diagonal.
    pub fn values(&self) -> &[f64] {
        &self.values
    }

    /// The unit factors of the diagonal blocks.
    pub fn diag(&self) -> &[f64] {
        &self.diag
    }

    /// The pivots; 0.0 where one was dropped.
    pub fn d(&self) -> &[f64] {
        &self.d
    }

    /// The block products that were worked through. 0 after a refit that was refused by 13 or 14, which counts none.
    pub fn products(&self) -> u64 {
        self.plan.counts.products
    }

    /// The factor of a system in the memory of this one: where that is enough, nothing is allocated. Refused by 1 to 12 this factor is as
    /// it was; by 13 or 14 its tables are those of the system, all its numbers NaN, and until the next refit that is accepted it answers
    /// every solve and [`marks_into`](Factor::marks_into) with that refusal.
    pub fn refit(&mut self, system: &System, workspace: &mut Workspace) -> Result<(), Error> {
        let needs = needs::factorize(system.tables());
        workspace.for_factor(needs);
        let were = self.lengths();
        self.grow(needs);
        let mut answer = self.factorize_into(system, workspace);
        // what only the plan shows: L's blocks and one more, then L's numbers, then the cache
        while let Err(Error::Short { name, need, .. }) = answer {
            match name {
                "l_rows" => grow(&mut self.plan.rows, need),
                "l_offsets" => {
                    grow(&mut self.offsets, need);
                    grow(&mut self.plan.rows, need - 1);
                }
                "l_values" => {
                    grow(&mut self.values, need);
                    workspace.for_cache(needs::cache(system.tables(), need));
                }
                "cache" => workspace.for_cache(need),
                _ => break,
            }
            answer = self.factorize_into(system, workspace);
        }
        match answer {
            Ok(counts) => {
                self.keep(system, needs);
                self.plan.counts = counts;
                self.spoilt = None;
            }
            Err(why @ (Error::NotFinite { .. } | Error::Poor { .. })) => {
                self.keep(system, needs);
                self.spoilt = Some(why);
            }
            Err(_) => self.cut(were),
        }
        answer.map(|_| ()).map_err(|why| system.named(why))
    }

    fn factorize_into(&mut self, system: &System, workspace: &mut Workspace) -> Result<calls::Counts, Error> {
        let Workspace { plan, bodies, unit_starts, d_starts, places, column, cache, uncached, .. } = workspace;
        let lent = FactorLent {
            order: &mut self.plan.order,
            parents: &mut self.plan.parents,
            l_starts: &mut self.plan.starts,
            l_rows: &mut self.plan.rows,
            l_offsets: &mut self.offsets,
            l_values: &mut self.values,
            diag: &mut self.diag,
            d: &mut self.d,
            column,
            scratch: plan.lend(),
            bodies,
            unit_starts,
            d_starts,
            places,
        };
        let (tables, FlatTables { values, tolerance, .. }) = (system.lent(), system.tables());
        if *uncached {
            calls::factorize(tables, values, *tolerance, lent)
        } else {
            calls::factorize_with_cache(tables, values, *tolerance, lent, cache)
        }
    }

    /// As long as is known without the plan.
    fn grow(&mut self, [order, parents, starts, _, _, _, diag, d, ..]: [usize; 21]) {
        grow(&mut self.plan.order, order);
        grow(&mut self.plan.parents, parents);
        grow(&mut self.plan.starts, starts);
        grow(&mut self.diag, diag);
        grow(&mut self.d, d);
    }

    /// The lists at the lengths that the factorization filled.
    fn keep(&mut self, system: &System, [order, parents, starts, _, _, _, diag, d, ..]: [usize; 21]) {
        let stored = self.plan.starts[starts - 1] as usize;
        let numbers = self.offsets[stored] as usize;
        self.cut([order, parents, starts, stored, stored + 1, numbers, diag, d]);
        self.plan.counts = calls::Counts { stored, numbers, products: 0 };
        self.dims.clear();
        self.dims.extend_from_slice(&system.tables().dims);
        self.tolerance = system.tables().tolerance;
    }

    fn lengths(&self) -> [usize; 8] {
        let Plan { order, parents, starts, rows, .. } = &self.plan;
        let [values, diag, d] = [&self.values, &self.diag, &self.d].map(Vec::len);
        [order.len(), parents.len(), starts.len(), rows.len(), self.offsets.len(), values, diag, d]
    }

    fn cut(&mut self, [order, parents, starts, rows, offsets, values, diag, d]: [usize; 8]) {
        self.plan.order.truncate(order);
        self.plan.parents.truncate(parents);
        self.plan.starts.truncate(starts);
        self.plan.rows.truncate(rows);
        self.offsets.truncate(offsets);
        self.values.truncate(values);
        self.diag.truncate(diag);
        self.d.truncate(d);
    }

    /// The solution for a right side in old order, with its marks.
    pub fn solve(&self, system: &System, right: &[f64]) -> Result<Solution, Error> {
        let mut values = right.to_vec();
        self.solve_inplace(system, &mut values, &mut Workspace::new())?;
        let [scalars] = needs::marks(&self.dims);
        let mut marks = vec![Mark::Heard; scalars];
        let silent = self.marks_into(&mut marks)?;
        Ok(Solution { values, marks, silent })
    }

    /// A right side in old order becomes the solution; where the scratch is enough, nothing is allocated.
    pub fn solve_inplace(&self, system: &System, x: &mut [f64], workspace: &mut Workspace) -> Result<(), Error> {
        self.whole()?;
        if system.tables().dims != self.dims {
            return Err(Error::Mismatch { place: 0, name: "dims", column: None });
        }
        workspace.for_solve(needs::solve_inplace(system.tables()));
        let Workspace { y, scalar_perm, scalar_starts, plan, .. } = workspace;
        let sizes = &mut plan.sizes;
        calls::solve_inplace(system.lent(), self.lists(), SolveLent { x, y, scalar_perm, sizes, scalar_starts })
    }

    /// A mark for each scalar in old order goes to the first places of `marks`: how many are silent.
    pub fn marks_into(&self, marks: &mut [Mark]) -> Result<usize, Error> {
        self.whole()?;
        calls::marks(&self.dims, &self.plan.order, &self.d, self.tolerance, marks)
    }

    /// The refusal that spoilt it, where one did.
    fn whole(&self) -> Result<(), Error> {
        self.spoilt.map_or(Ok(()), Err)
    }

    /// The lists as the library takes them.
    pub fn lists(&self) -> FactorLists<'_> {
        FactorLists {
            order: &self.plan.order,
            parents: &self.plan.parents,
            l_starts: &self.plan.starts,
            l_rows: &self.plan.rows,
            l_offsets: &self.offsets,
            l_values: &self.values,
            diag: &self.diag,
            d: &self.d,
        }
    }
}
