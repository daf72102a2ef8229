//! Nights for the tests.
#![allow(dead_code)]
use beyqaloosh::{Error, FlatTables, Mark, System};
use std::path::Path;

pub const README: &str = include_str!("../../../README.md");

/// A sheet of the repository, whose tables are good: its system and its right side.
pub fn sheet(name: &str) -> (System, Vec<f64>) {
    let bytes = std::fs::read(Path::new(env!("CARGO_MANIFEST_DIR")).join("../nights").join(name)).unwrap();
    let word = |at: usize| u32::from_le_bytes(bytes[at..at + 4].try_into().unwrap());
    let words = |at: usize, count: usize, step: usize| (0..count).map(|k| word(at + step * k)).collect::<Vec<u32>>();
    let float = |at: usize| f64::from_le_bytes(bytes[at..at + 8].try_into().unwrap());
    let (n, m) = (word(0) as usize, word(4) as usize);
    let contents = 16 + 12 * n;
    let dims = words(16, n, 8);
    let columns = words(contents + 4, m, 12);
    let scalars = dims.iter().sum::<u32>() as usize;
    let mut values: Vec<f64> = (contents + 12 * m..bytes.len()).step_by(8).map(float).collect();
    let right = values.split_off(values.len() - scalars);
    let tables = FlatTables {
        starts: (0..=n as u32).map(|j| columns.iter().filter(|&&c| c < j).count() as u32).collect(),
        rows: words(contents, m, 12),
        values,
        perm: words(16 + 8 * n, n, 4),
        late: words(20, n, 8),
        tolerance: float(8),
        dims,
    };
    (System::from_tables(tables), right)
}

/// What the program `fit` prints for a night.
pub fn answer(system: &System, right: &[f64]) -> Result<String, Error> {
    let factor = system.factorize()?;
    let solution = factor.solve(system, right)?;
    let counts = factor.plan().counts();
    let (blocks, scalars) = (system.tables().dims.len(), system.scalars());
    let (stored, products, silent) = (counts.stored, factor.products(), solution.silent());
    let mut lines = format!("blocks {blocks} scalars {scalars} stored {stored} products {products} silent {silent}\n");
    for (scalar, (value, mark)) in solution.iter().enumerate() {
        let word = if mark == Mark::Silent { "silent" } else { "heard" };
        lines += &format!("{scalar} {:016X} {word}\n", value.to_bits());
    }
    Ok(lines)
}

/// n blocks of dimension 1 with these links, 10.0 on the diagonal and 1.0 below it, in their own order.
pub fn links(n: u32, links: &[(u32, u32)]) -> FlatTables {
    let mut night = System::builder(1e-12);
    for _ in 0..n {
        let block = night.block(1);
        night.store(block, block, &[10.0]);
    }
    for &(row, column) in links {
        night.store(row, column, &[1.0]);
    }
    night.build().tables().clone()
}

/// Document 01's two-block night.
pub fn two_blocks() -> FlatTables {
    let mut tables = links(2, &[(1, 0)]);
    tables.values = vec![4.0, 2.0, 5.0];
    tables
}

pub fn system(tables: FlatTables) -> System {
    System::from_tables(tables)
}
