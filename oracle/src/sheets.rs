//! One sheet: document 01's order of `fit`'s refusals on its bytes, then the source's factorization and solve, and the lines that
//! `fit` prints.
use std::fmt::Write;

use nalgebra::DVector;
use sophus_solver::{
    IsFactor,
    ldlt::block_sparse_ldlt,
    matrix::{PartitionBlockIndex, block_sparse::BlockSparseSymmetricMatrix},
};

use crate::factors::{Night, Worked, bodies, filled, met};
use crate::plans::{Plan, Tables, matrix, planned, refused};
use crate::run::bits;

/// The room of `fit`: blocks, scalars, stored blocks, values of A and values of L.
pub const BLOCKS: usize = 128;
pub const SCALARS: usize = 512;
pub const STORED: usize = 1024;
pub const VALUES: usize = 4096;
pub const L_VALUES: usize = 8192;

/// A sheet as it is written, its parts whatever they are.
#[derive(Clone, Default)]
pub struct Sheet {
    pub blocks: u32,
    pub stored: u32,
    pub tolerance: u64,
    /// Dimension and late flag of each block.
    pub pairs: Vec<[u32; 2]>,
    pub perm: Vec<u32>,
    /// Row, column and offset of each stored block.
    pub contents: Vec<[u32; 3]>,
    pub bodies: Vec<u64>,
    pub right: Vec<u64>,
    /// Bytes behind the right side.
    pub tail: Vec<u8>,
}

impl Sheet {
    /// The good sheet of a night and a right side.
    pub fn of(night: &Night, right: &[f64]) -> Self {
        let t = &night.tables;
        let first = 16 + 12 * t.dims.len() + 12 * t.rows.len();
        let at = bodies(t);
        let mut contents = vec![];
        for j in 0..t.dims.len() {
            for p in t.starts[j] as usize..t.starts[j + 1] as usize {
                contents.push([t.rows[p], j as u32, (first + 8 * at[p]) as u32]);
            }
        }
        Self {
            blocks: t.dims.len() as u32,
            stored: t.rows.len() as u32,
            tolerance: night.tolerance.to_bits(),
            pairs: t.dims.iter().zip(&t.late).map(|(&d, &l)| [d, l]).collect(),
            perm: t.perm.clone(),
            contents,
            bodies: night.values.iter().map(|x| x.to_bits()).collect(),
            right: right.iter().map(|x| x.to_bits()).collect(),
            tail: vec![],
        }
    }

    pub fn bytes(&self) -> Vec<u8> {
        let mut bytes: Vec<u8> = [self.blocks, self.stored].iter().flat_map(|w| w.to_le_bytes()).collect();
        bytes.extend(self.tolerance.to_le_bytes());
        let words = self.pairs.iter().flatten().chain(&self.perm).chain(self.contents.iter().flatten());
        bytes.extend(words.flat_map(|w| w.to_le_bytes()));
        bytes.extend(self.bodies.iter().chain(&self.right).flat_map(|w| w.to_le_bytes()));
        bytes.extend(&self.tail);
        bytes
    }
}

/// What `fit` answers: a refusal's number, or the lines of an accepted night.
pub enum Printed {
    Refused(u32),
    Accepted(String),
}

impl Printed {
    pub fn number(&self) -> u32 {
        match self {
            Printed::Refused(number) => *number,
            Printed::Accepted(_) => 0,
        }
    }

    pub fn text(&self) -> String {
        match self {
            Printed::Refused(number) => format!("refused {number}\n"),
            Printed::Accepted(lines) => lines.clone(),
        }
    }
}

struct Bytes<'a>(&'a [u8]);

impl Bytes<'_> {
    fn word(&self, at: usize) -> u32 {
        u32::from_le_bytes(self.0[at..at + 4].try_into().unwrap())
    }

    fn float(&self, at: usize) -> f64 {
        f64::from_bits(u64::from_le_bytes(self.0[at..at + 8].try_into().unwrap()))
    }

    fn floats(&self, at: usize, count: usize) -> Vec<f64> {
        (0..count).map(|k| self.float(at + 8 * k)).collect()
    }
}

/// The answer to any bytes.
pub fn answer(bytes: &[u8]) -> Printed {
    let (night, right) = match read(bytes) {
        Ok(good) => good,
        Err(number) => return Printed::Refused(number),
    };
    let plan = planned(&night.tables);
    if plan.numbers > L_VALUES {
        return Printed::Refused(16);
    }
    solved(&night, &plan, &right)
}

/// The night and the right side of a sheet, or the first refusal in the order of `fit`, before the plan.
fn read(bytes: &[u8]) -> Result<(Night, Vec<f64>), u32> {
    let s = Bytes(bytes);
    if bytes.len() < 16 {
        return Err(15);
    }
    let (n, m) = (s.word(0) as usize, s.word(4) as usize);
    if n > BLOCKS || m > STORED {
        return Err(16);
    }
    let first = 16 + 12 * n + 12 * m;
    if bytes.len() < first {
        return Err(15);
    }
    let dims: Vec<u32> = (0..n).map(|k| s.word(16 + 8 * k)).collect();
    let late: Vec<u32> = (0..n).map(|k| s.word(20 + 8 * k)).collect();
    let perm: Vec<u32> = (0..n).map(|k| s.word(16 + 8 * n + 4 * k)).collect();
    let entry = |e: usize, part: usize| s.word(16 + 12 * n + 12 * e + 4 * part);
    if dims.iter().any(|&d| d == 0 || d > 16) {
        return Err(2);
    }
    if (0..m).any(|e| entry(e, 1) as usize >= n || e > 0 && entry(e, 1) < entry(e - 1, 1)) {
        return Err(3);
    }
    let starts = (0..=n).map(|j| (0..m).filter(|&e| (entry(e, 1) as usize) < j).count() as u32).collect();
    let rows = (0..m).map(|e| entry(e, 0)).collect();
    let tables = Tables { dims, starts, rows, perm, late };
    // 1, 3, 4 and 7 cannot arise here; 5, 6, 8 and 9 are those of any table
    if let Some((number, _, _)) = refused(&tables, None) {
        assert!([5, 6, 8, 9].contains(&number));
        return Err(number);
    }
    let tolerance = s.float(8);
    if !(tolerance.is_finite() && tolerance >= 0.0) {
        return Err(10);
    }
    let scalars = tables.dims.iter().sum::<u32>() as usize;
    let bodies = bodies(&tables);
    let values = bodies[m];
    if scalars > SCALARS || values > VALUES {
        return Err(16);
    }
    if (0..m).any(|e| entry(e, 2) as usize != first + 8 * bodies[e]) || bytes.len() != first + 8 * (values + scalars) {
        return Err(15);
    }
    Ok((Night { tables, values: s.floats(first, values), tolerance }, s.floats(first + 8 * values, scalars)))
}

/// The lines of a night: the source's own factor, and its solve.
fn solved(night: &Night, plan: &Plan, right: &[f64]) -> Printed {
    let t = &night.tables;
    let (mut x, mut heard) = (vec![], vec![true; right.len()]);
    // the source has no answer for no blocks: it panics
    if !t.dims.is_empty() {
        let a_lower = BlockSparseSymmetricMatrix { lower: filled(night) };
        let perm: Vec<usize> = t.perm.iter().map(|&k| k as usize).collect();
        match met(&a_lower.lower, perm.clone(), night.tolerance) {
            Some(Worked::NotFinite { .. }) => return Printed::Refused(13),
            Some(Worked::Poor { .. }) => return Printed::Refused(14),
            _ => (),
        }
        let Ok(factor) = block_sparse_ldlt::factorize(&a_lower, perm, night.tolerance) else {
            panic!("the source refuses what its steps accept")
        };
        let mut b = DVector::from_column_slice(right);
        let Ok(()) = factor.solve_inplace(&mut b) else { panic!("the source's solve refuses") };
        x = b.as_slice().to_vec();
        // the marks: the stored d by new number, brought back by the source's scalar permutation
        let a_plain = matrix(t);
        let order: Vec<usize> = plan.order.iter().map(|&k| k as usize).collect();
        let mut inverse = vec![0; order.len()];
        order.iter().enumerate().for_each(|(new, &old)| inverse[old] = new);
        let (flat_sub, _) = block_sparse_ldlt::permute(&a_plain, &order, &inverse);
        let scalar_perm = block_sparse_ldlt::scalars(&a_plain.subdivision, &order, &flat_sub);
        let d: Vec<f64> = (0..order.len())
            .flat_map(|partition| {
                let idx = PartitionBlockIndex { partition, block: 0 };
                block_sparse_ldlt::diagonal(&factor).d.get_block(idx).as_slice().to_vec()
            })
            .collect();
        scalar_perm.iter().zip(&d).for_each(|(&old, &d)| heard[old] = d != 0.0);
    }
    let silent = heard.iter().filter(|&&h| !h).count();
    let mut lines = format!(
        "blocks {} scalars {} stored {} products {} silent {silent}\n",
        t.dims.len(),
        right.len(),
        plan.l_rows.len(),
        plan.products
    );
    for (k, (&x, &heard)) in x.iter().zip(&heard).enumerate() {
        writeln!(lines, "{k} {:016X} {}", bits(x), if heard { "heard" } else { "silent" }).unwrap();
    }
    Printed::Accepted(lines)
}
