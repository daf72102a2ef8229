//! One call of the source's text or of the proved library, made by `counted`, so that callgrind can count what it executes: `count SIDE PART
//! NIGHT`. SIDE and PART are one of
//!     rust plan|factor|solve
//!     ours plan|factor|solve    the factorization with a cache
//!     plain factor              the same without one
//! and NIGHT one of
//!     grid WIDTH HEIGHT DIM     dissected
//!     chain BLOCKS DIM
//!     random BLOCKS DIM         as many links as blocks, in a drawn order
//!     hubs BLOCKS               points that are near each other linked, with hubs, of mixed dimensions
use bench::calls::{PlanLent, SolveLent, cache_needed, plan, solve_inplace};
use bench::nights::{Draw, chain, grid, random};
use bench::systems::{counted, even, factored, hubs, matrix, ours, ours_with_cache, planned, source_plan, system};
use nalgebra::DVector;
use sophus_solver::{IsFactor, ldlt::block_sparse_ldlt};
use std::hint::black_box;

fn main() {
    let words: Vec<String> = std::env::args().skip(1).collect();
    let words: Vec<&str> = words.iter().map(String::as_str).collect();
    let [side, part, pattern, sizes @ ..] = &words[..] else { panic!("count SIDE PART NIGHT") };
    let sizes: Vec<usize> = sizes.iter().map(|word| word.parse().expect("no number")).collect();
    let (night, _, dims) = match (*pattern, &sizes[..]) {
        ("grid", &[width, height, dim]) => even(grid(width, height), dim as u32),
        ("chain", &[blocks, dim]) => even(chain(blocks), dim as u32),
        ("random", &[blocks, dim]) => even(random(blocks), dim as u32),
        ("hubs", &[blocks]) => hubs(blocks),
        _ => panic!("count: no such night"),
    };
    let system = system(&night, dims);
    let a = matrix(&system);
    let source = || block_sparse_ldlt::factorize(&a, night.perm.clone(), system.tolerance).ok().expect("the source refuses");
    let mut draw = Draw(night.n as u64);
    let mut right = || -> Vec<f64> { (0..system.tables.dims.iter().sum::<u32>()).map(|_| draw.fraction() - 0.5).collect() };
    match (*side, *part) {
        ("rust", "plan") => counted(&mut || {
            black_box(source_plan(&a.lower, &night.perm));
        }),
        ("rust", "factor") => counted(&mut || {
            black_box(source());
        }),
        ("rust", "solve") => {
            let (factor, mut b) = (source(), DVector::from_column_slice(&right()));
            counted(&mut || assert!(factor.solve_inplace(&mut b).is_ok()));
        }
        ("ours", "plan") => {
            let mut lent = PlanLent::needed(&system.tables, planned(&system.tables)[0]);
            counted(&mut || assert_eq!(plan(&system.tables, &mut lent, &mut [0; 3]), 0));
        }
        ("ours", "factor") => {
            let (mut lent, told) = factored(&system);
            let mut cache = cache_needed(&system.tables, &system.values, told[0], told[1]);
            counted(&mut || {
                ours_with_cache(&system, &mut lent, &mut cache);
            });
        }
        ("plain", "factor") => {
            let (mut lent, _) = factored(&system);
            counted(&mut || {
                ours(&system, &mut lent);
            });
        }
        ("ours", "solve") => {
            let (lent, _) = factored(&system);
            let (mut x, mut scratch) = (right(), SolveLent::needed(&system.tables));
            counted(&mut || assert_eq!(solve_inplace(&system.tables, lent.factor(), &mut x, &mut scratch, &mut [0; 3]), 0));
        }
        _ => panic!("count: no such side or part"),
    }
}
