//! The safe face of Beyqaloosh, a block-sparse LDLᵀ solver that is proved: from a night's tables to a plan, its numbers and a solution
//! with a mark for each scalar. What each call promises is in the repository's README and in its contracts; this package adds memory
//! and names. Whatever is handed over reaches the library, which accepts it or refuses it by a number, but for two tests of a [`Factor`]
//! before it solves or marks: that its dimensions are the system's, and that no refit has spoilt it.
//!
//! ```
//! use beyqaloosh::{Mark, System};
//!
//! let mut night = System::builder(1e-12);
//! let stage = night.block(1);
//! let sensor = night.block(1);
//! night.store(stage, stage, &[4.0]).store(sensor, stage, &[2.0]).store(sensor, sensor, &[5.0]);
//! let system = night.build();
//!
//! let factor = system.factorize()?;
//! let solution = factor.solve(&system, &[8.0, 8.0])?;
//! assert_eq!(solution.iter().collect::<Vec<_>>(), [(1.5, Mark::Heard), (1.0, Mark::Heard)]);
//! # Ok::<(), beyqaloosh::Error>(())
//! ```
#![deny(unsafe_code)]

#[allow(unsafe_code)]
pub mod abi;
pub mod calls;
mod error;
mod factor;
mod needs;
mod plan;
mod solution;
mod system;
mod tree;
mod workspace;

pub use calls::Counts;
pub use error::{Column, Error, Table, Wrong};
pub use factor::Factor;
pub use plan::Plan;
pub use solution::{Mark, Solution};
pub use system::{Builder, FlatTables, System};
pub use tree::{EliminationTree, Walker};
pub use workspace::Workspace;
