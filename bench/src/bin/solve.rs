//! Times the source's solve and the proved one beside each other, with the same factors and right sides, in one run.
use bench::calls::{FactorLent, SolveLent, solve_inplace};
use bench::factors;
use bench::nights::{Draw, Night};
use bench::systems::{DIMS, SHAPES, beside, factored, matrix, nights, system};
use nalgebra::DVector;
use sophus_solver::{IsFactor, ldlt::block_sparse_ldlt};
use std::hint::black_box;

/// The proved solve: its number.
fn solve(system: &factors::Night, lent: &FactorLent, x: &mut [f64], scratch: &mut SolveLent) -> u32 {
    solve_inplace(&system.tables, lent.factor(), x, scratch, &mut [0; 3])
}

fn compare(night: &Night, dim: usize) {
    let (n, scalars) = (night.n, night.n * dim);
    let system = system(night, vec![dim as u32; n]);
    let (lent, _) = factored(&system);
    let a = matrix(&system);
    let Ok(factor) = block_sparse_ldlt::factorize(&a, night.perm.clone(), system.tolerance) else {
        panic!("{}, {n}: the source refuses", night.name)
    };
    let mut draw = Draw(n as u64);
    let right: Vec<f64> = (0..scalars).map(|_| draw.fraction() - 0.5).collect();
    let mut scratch = SolveLent::needed(&system.tables);

    // one call each on the same right side, and the bits compared
    let mut theirs = DVector::from_column_slice(&right);
    assert!(factor.solve_inplace(&mut theirs).is_ok());
    let mut x = right.clone();
    assert_eq!(solve(&system, &lent, &mut x, &mut scratch), 0, "{}, {n}: refused", night.name);
    let same = (0..scalars).all(|k| x[k].to_bits() == theirs[k].to_bits());
    assert!(same, "{}, {n}: another solution", night.name);

    // a right side one short is refused last, after every check
    let (mut short, mut short_scratch) = (right[1..].to_vec(), scratch.clone());
    let same_right = DVector::from_column_slice(&right);
    let times = beside([
        &mut || {
            theirs.copy_from(&same_right);
            assert!(factor.solve_inplace(black_box(&mut theirs)).is_ok());
        },
        &mut || {
            x.copy_from_slice(&right);
            assert_eq!(solve(black_box(&system), black_box(&lent), black_box(&mut x), &mut scratch), 0);
        },
        &mut || assert_eq!(solve(black_box(&system), black_box(&lent), &mut short, &mut short_scratch), 12),
    ]);
    let [rust, proved, checks] = times.map(|t| t / 1000.0);
    let stored = lent.plan[3].len();
    println!("| {} | {n} | {dim} | {stored} | {rust:.1} | {proved:.1} | {checks:.1} | {:.2} |", night.name, rust / proved);
}

fn main() {
    println!("| pattern and order | blocks | dimension | in L | Rust | ours | of it checks | Rust / ours |");
    println!("|---|--:|--:|--:|--:|--:|--:|--:|");
    for (width, height) in SHAPES {
        for night in nights(width, height) {
            for dim in DIMS {
                compare(&night, dim);
            }
        }
    }
}
