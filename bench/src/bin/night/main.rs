//! Times whole nights beside each other in one run, on the same matrices in the same orders: the source's text, the proved library with a
//! cache and without one, Eigen's SimplicialLDLT and CHOLMOD, simplicial LDLᵀ and supernodal LLᵀ. Each is timed by its parts and as a whole.
mod others;

use bench::calls::{FactorLent, PlanLent, SolveLent, cache_needed, plan, solve_inplace};
use bench::factors::{self, bodies};
use bench::nights::{Draw, Night, arrow, chain, grid};
use bench::systems::{Timed, even, factored, hubs, matrix, ours, ours_with_cache, source_plan, system, turns};
use nalgebra::DVector;
use others::{OTHERS, Other};
use sophus_solver::{
    IsFactor,
    ldlt::block_sparse_ldlt::{self, BlockSparseLdltFactor},
    matrix::block_sparse::BlockSparseSymmetricMatrix,
};
use std::hint::black_box;

/// A call that has run for so many nanoseconds in all takes part in no further round.
const AT_MOST: f64 = 2e9;
/// The tables of the parts.
const PARTS: [&str; 4] = ["night plan", "night numbers", "night solve", "night"];
/// The variant of ours that is lent no cache.
const PLAIN: &str = "without cache";
/// Two solutions are the same where no number is further apart than this part of the greatest.
const NEAR: f64 = 1e-9;

/// One that solves a night. A call does one part; where `plans` is true, the one of the numbers works out its own plan, which is taken off
/// again.
trait Solver {
    fn name(&self) -> &'static str;
    fn plans(&self) -> bool;
    fn call(&mut self, part: usize);
    /// The solution of the last solve, in old order.
    fn solution(&self) -> Vec<f64>;
}

// ---- the proved library

type Factorize = Box<dyn FnMut(&factors::Night, &mut FactorLent)>;

struct Ours<'a> {
    name: &'static str,
    factorize: Factorize,
    system: &'a factors::Night,
    right: &'a [f64],
    plan: PlanLent,
    lent: FactorLent,
    x: Vec<f64>,
    scratch: SolveLent,
}

impl<'a> Ours<'a> {
    fn new(name: &'static str, system: &'a factors::Night, right: &'a [f64], factorize: Factorize) -> Self {
        let (lent, told) = factored(system);
        Self {
            name,
            factorize,
            system,
            right,
            plan: PlanLent::needed(&system.tables, told[0]),
            lent,
            x: vec![0.0; right.len()],
            scratch: SolveLent::needed(&system.tables),
        }
    }
}

impl Solver for Ours<'_> {
    fn name(&self) -> &'static str {
        self.name
    }
    fn plans(&self) -> bool {
        true
    }
    fn call(&mut self, part: usize) {
        let t = &self.system.tables;
        if part == 0 {
            assert_eq!(plan(black_box(t), &mut self.plan, &mut [0; 3]), 0);
        }
        if part == 1 || part == 3 {
            (self.factorize)(black_box(self.system), &mut self.lent);
        }
        if part >= 2 {
            self.x.copy_from_slice(self.right);
            assert_eq!(solve_inplace(black_box(t), self.lent.factor(), &mut self.x, &mut self.scratch, &mut [0; 3]), 0);
        }
    }
    fn solution(&self) -> Vec<f64> {
        self.x.clone()
    }
}

// ---- the source's text

struct Source {
    a: BlockSparseSymmetricMatrix,
    perm: Vec<usize>,
    tolerance: f64,
    right: DVector<f64>,
    factor: BlockSparseLdltFactor,
    x: DVector<f64>,
}

impl Source {
    fn new(system: &factors::Night, right: &[f64]) -> Self {
        let a = matrix(system);
        let perm: Vec<usize> = system.tables.perm.iter().map(|&k| k as usize).collect();
        let factor = block_sparse_ldlt::factorize(&a, perm.clone(), system.tolerance).ok().expect("the source refuses");
        let [right, x] = [0; 2].map(|_| DVector::from_column_slice(right));
        Self { a, perm, tolerance: system.tolerance, right, factor, x }
    }
}

impl Solver for Source {
    fn name(&self) -> &'static str {
        "Rust"
    }
    fn plans(&self) -> bool {
        true
    }
    fn call(&mut self, part: usize) {
        let factorize = || block_sparse_ldlt::factorize(black_box(&self.a), self.perm.clone(), self.tolerance).ok().unwrap();
        match part {
            0 => {
                black_box(source_plan(black_box(&self.a.lower), &self.perm));
            }
            1 => {
                black_box(factorize());
            }
            _ => {
                let made = (part == 3).then(factorize);
                self.x.copy_from(&self.right);
                assert!(made.as_ref().unwrap_or(&self.factor).solve_inplace(black_box(&mut self.x)).is_ok());
            }
        }
    }
    fn solution(&self) -> Vec<f64> {
        self.x.as_slice().to_vec()
    }
}

// ---- the others

/// The others have the matrix in the order of elimination already, and so the right side. Each has three solvers: for the plan, for numbers
/// and solve, and for whole nights.
struct Given<'a> {
    others: [Other; 3],
    scalar_perm: &'a [usize],
    right: Vec<f64>,
    x: Vec<f64>,
}

impl Solver for Given<'_> {
    fn name(&self) -> &'static str {
        OTHERS[self.others[0].which]
    }
    fn plans(&self) -> bool {
        false
    }
    fn call(&mut self, part: usize) {
        let other = &mut self.others[[0, 1, 1, 2][part]];
        if part == 0 || part == 3 {
            other.analyse();
        }
        if part == 1 || part == 3 {
            other.factorize();
        }
        if part >= 2 {
            other.solve(black_box(&self.right), &mut self.x);
        }
        if part == 3 {
            other.forget();
        }
    }
    fn solution(&self) -> Vec<f64> {
        let mut x = self.x.clone();
        self.scalar_perm.iter().zip(&self.x).for_each(|(&old, &y)| x[old] = y);
        x
    }
}

/// The old number of each new scalar, and the upper triangle of the matrix by new scalars: starts and rows of its columns, values.
fn expanded(system: &factors::Night) -> (Vec<usize>, Vec<i32>, Vec<i32>, Vec<f64>) {
    let t = &system.tables;
    let n = t.dims.len();
    let mut old_at = vec![0];
    t.dims.iter().for_each(|&d| old_at.push(old_at[old_at.len() - 1] + d as usize));
    let scalar_perm: Vec<usize> = t.perm.iter().flat_map(|&old| old_at[old as usize]..old_at[old as usize + 1]).collect();
    let mut new = vec![0; scalar_perm.len()];
    scalar_perm.iter().enumerate().for_each(|(place, &old)| new[old] = place);
    let at = bodies(t);
    let mut columns: Vec<Vec<(i32, f64)>> = vec![vec![]; new.len()];
    for j in 0..n {
        for p in t.starts[j] as usize..t.starts[j + 1] as usize {
            let i = t.rows[p] as usize;
            let height = t.dims[i] as usize;
            for c in 0..t.dims[j] as usize {
                for r in if i == j { c } else { 0 }..height {
                    let (a, b) = (new[old_at[i] + r], new[old_at[j] + c]);
                    columns[a.max(b)].push((a.min(b) as i32, system.values[at[p] + c * height + r]));
                }
            }
        }
    }
    let (mut starts, mut rows, mut values) = (vec![0], vec![], vec![]);
    for mut column in columns {
        column.sort_by_key(|e| e.0);
        rows.extend(column.iter().map(|e| e.0));
        values.extend(column.iter().map(|e| e.1));
        starts.push(rows.len() as i32);
    }
    (scalar_perm, starts, rows, values)
}

// ---- the nights

/// 4,096 blocks and nearly 65,536 stored: a band of 15.
fn band() -> Night {
    let n = 4096;
    let links = (0..n).flat_map(|a| (a + 1..n.min(a + 16)).map(move |b| (a, b))).collect();
    Night { name: "band of 15", n, links, perm: (0..n).collect() }
}

/// Blocks across and down of the grids, and their dimension.
const GRIDS: [(usize, usize, u32); 12] = [
    (32, 32, 1), (64, 64, 1), (16, 8, 3), (16, 16, 3), (32, 16, 3), (32, 32, 3), (64, 32, 3), (64, 64, 3), (32, 16, 6), (64, 32, 6),
    (16, 8, 16), (32, 32, 16),
];

fn nights() -> Vec<Timed> {
    let mut nights: Vec<Timed> = GRIDS.map(|(width, height, dim)| even(grid(width, height), dim)).into();
    nights.extend([128, 512, 2048].map(hubs));
    nights.extend([chain(1024), chain(4096), arrow(1024), arrow(4096), band()].map(|night| even(night, 3)));
    nights
}

/// The names of those that were timed, and microseconds of each part of each.
fn timed(night: &Night, dims: Vec<u32>) -> Vec<(&'static str, [f64; 4])> {
    let system = system(night, dims);
    let (scalar_perm, starts, rows, values) = expanded(&system);
    let mut draw = Draw(night.n as u64);
    let right: Vec<f64> = scalar_perm.iter().map(|_| draw.fraction() - 0.5).collect();
    let permuted: Vec<f64> = scalar_perm.iter().map(|&old| right[old]).collect();

    // the first is what the others are held to; another variant of ours is one more line here
    let plain: Factorize = Box::new(|system, lent| {
        ours(system, lent);
    });
    let (_, [l_blocks, l_numbers, _]) = factored(&system);
    let mut cache = cache_needed(&system.tables, &system.values, l_blocks, l_numbers);
    let cached: Factorize = Box::new(move |system, lent| {
        ours_with_cache(system, lent, &mut cache);
    });
    let mut solvers: Vec<Box<dyn Solver + '_>> = vec![
        Box::new(Ours::new("ours", &system, &right, cached)),
        Box::new(Ours::new(PLAIN, &system, &right, plain)),
        Box::new(Source::new(&system, &right)),
    ];
    for which in 0..OTHERS.len() {
        let mut others = [0; 3].map(|_| Other::new(which, &starts, &rows, &values));
        others[1].analyse();
        others[1].factorize();
        let x = vec![0.0; right.len()];
        solvers.push(Box::new(Given { others, scalar_perm: &scalar_perm, right: permuted.clone(), x }));
    }

    // the same solution; the source's and that without a cache bit for bit
    let mut solution: Option<Vec<f64>> = None;
    for solver in &mut solvers {
        solver.call(3);
        let x = solver.solution();
        let first = solution.get_or_insert_with(|| x.clone());
        let greatest = first.iter().fold(0.0, |m: f64, x| m.max(x.abs()));
        let apart = first.iter().zip(&x).fold(0.0, |m: f64, (a, b)| m.max((a - b).abs()));
        let near = if ["Rust", PLAIN].contains(&solver.name()) { 0.0 } else { NEAR * greatest };
        assert!(apart <= near, "{}, {}: the solution of {} is {apart:e} apart", night.name, night.n, solver.name());
    }

    let times = turns(solvers.len() * 4, AT_MOST, |k| solvers[k / 4].call(k % 4));
    let of = |k: usize| {
        let mut parts: [f64; 4] = std::array::from_fn(|part| times[4 * k + part] / 1000.0);
        if solvers[k].plans() {
            parts[1] = (parts[1] - parts[0]).max(0.0);
        }
        (solvers[k].name(), parts)
    };
    (0..solvers.len()).map(of).collect()
}

fn number(x: f64) -> String {
    match x {
        x if x < 10.0 => format!("{x:.2}"),
        x if x < 100.0 => format!("{x:.1}"),
        _ => format!("{x:.0}"),
    }
}

fn main() {
    let mut rows: [Vec<String>; 4] = Default::default();
    let mut names = vec![];
    for (night, dim, dims) in nights() {
        let scalars: u32 = dims.iter().sum();
        let times = timed(&night, dims);
        names = times.iter().map(|t| t.0).collect();
        for (part, rows) in rows.iter_mut().enumerate() {
            let first = times[0].1[part];
            let ratios: Vec<String> = times[1..].iter().map(|t| number(t.1[part] / first)).collect();
            rows.push(format!(
                "| {} | {} | {dim} | {scalars} | {} | {} |",
                night.name,
                night.n,
                number(first),
                ratios.join(" | ")
            ));
        }
    }
    for (part, rows) in PARTS.iter().zip(rows) {
        println!("table {part}");
        let ratios: Vec<String> = names[1..].iter().map(|name| format!("{name} / {}", names[0])).collect();
        println!("| night | blocks | dimension | scalars | {}, µs | {} |", names[0], ratios.join(" | "));
        println!("|---|--:|--:|--:|--:|{}", "--:|".repeat(names.len() - 1));
        rows.iter().for_each(|row| println!("{row}"));
    }
}
