//! Times the source's factorization and the proved one beside each other, on the same matrices and orders, in one run.
use bench::calls::{FactorLent, cache_needed};
use bench::nights::{Night, time};
use bench::systems::{DIMS, ROUNDS, SHAPES, beside, factored, matrix, nights, ours, ours_with_cache, system};
use nalgebra::{DMatrixView, DMatrixViewMut};
use sophus_solver::{
    fell_back,
    ldlt::block_sparse_ldlt::{self, BlockSparseLdltFactor},
    matrix::PartitionBlockIndex,
};
use std::hint::black_box;

/// The same rows of L and the same bits of L, of the unit factors and of d.
fn assert_same(name: &str, factor: &BlockSparseLdltFactor, lent: &FactorLent, dim: usize) {
    let n = lent.plan[0].len();
    let diagonal = block_sparse_ldlt::diagonal(factor);
    assert!(!fell_back(diagonal));
    let same = |x: f64, y: f64| x.to_bits() == y.to_bits();
    let mut p = 0;
    for k in 0..n {
        for entry in factor.mat_l.col(k).iter() {
            assert_eq!(entry.global_block_row_idx as u32, lent.plan[3][p], "{name}, {n}: other rows");
            for c in 0..dim {
                for r in 0..dim {
                    assert!(same(entry.view[(r, c)], lent.numbers[0][(p * dim + c) * dim + r]), "{name}, {n}: another L");
                }
            }
            p += 1;
        }
        assert_eq!(p as u32, lent.plan[2][k + 1], "{name}, {n}: other rows");
        let idx = PartitionBlockIndex { partition: k, block: 0 };
        let (unit, d) = (diagonal.mat_l.get_block(idx), diagonal.d.get_block(idx));
        for c in 0..dim {
            assert!(same(d.as_slice()[c], lent.numbers[2][k * dim + c]), "{name}, {n}: another d");
            for r in 0..dim {
                assert!(same(unit[(r, c)], lent.numbers[1][(k * dim + c) * dim + r]), "{name}, {n}: another unit factor");
            }
        }
    }
}

/// Nanoseconds of one call of the stand-in's `gemm` on blocks of this dimension.
fn gemm(dim: usize) -> f64 {
    let (a, b, mut q) = (vec![0.5; dim * dim], vec![0.25; dim * dim], vec![0.0; dim * dim]);
    let once = || {
        time(20_000, || {
            let (a, b) = (DMatrixView::from_slice(black_box(&a), dim, dim), DMatrixView::from_slice(black_box(&b), dim, dim));
            DMatrixViewMut::from_slice(black_box(&mut q), dim, dim).gemm(1.0, &a, &b, 0.0);
        })
    };
    std::iter::repeat_with(once).take(ROUNDS).fold(f64::MAX, f64::min)
}

fn compare(night: &Night, dim: usize, gemm: f64) {
    let n = night.n;
    let system = system(night, vec![dim as u32; n]);
    let (mut lent, told) = factored(&system);
    let stored = lent.plan[3].len();
    let columns = lent.plan[2].windows(2).map(|w| (w[1] - w[0]) as usize);
    let products: usize = columns.map(|c| c * (c + 1) / 2).sum();
    assert_eq!(told, [stored as u64, (stored * dim * dim) as u64, products as u64], "{}, {n}: other counts", night.name);

    let a = matrix(&system);
    let source = || block_sparse_ldlt::factorize(black_box(&a), night.perm.clone(), system.tolerance);
    let Ok(factor) = source() else { panic!("{}, {n}: the source refuses", night.name) };
    assert_same(night.name, &factor, &lent, dim);
    let (mut other, mut cache) = (lent.clone(), cache_needed(&system.tables, &system.values, told[0], told[1]));
    other.numbers.iter_mut().for_each(|numbers| numbers.fill(f64::NAN));
    assert_eq!(ours_with_cache(&system, &mut other, &mut cache), told, "{}, {n}: other counts with a cache", night.name);
    assert_same(night.name, &factor, &other, dim);
    drop(factor);

    let times = beside([
        &mut || {
            black_box(source().is_ok());
        },
        &mut || {
            black_box(ours(black_box(&system), black_box(&mut lent)));
        },
        &mut || {
            black_box(ours_with_cache(black_box(&system), black_box(&mut other), black_box(&mut cache)));
        },
    ]);
    let [rust, proved, cached] = times.map(|t| t / 1000.0);
    println!(
        "| {} | {n} | {dim} | {stored} | {products} | {rust:.0} | {:.0} | {proved:.0} | {:.1} | {cached:.0} | {:.1} |",
        night.name,
        products as f64 * gemm / 1000.0,
        rust / proved,
        rust / cached
    );
}

fn main() {
    println!(
        "| pattern and order | blocks | dimension | in L | products | Rust | of it `gemm` | ours | Rust / ours | with cache | Rust / that |"
    );
    println!("|---|--:|--:|--:|--:|--:|--:|--:|--:|--:|--:|");
    let gemms = DIMS.map(gemm);
    for (width, height) in SHAPES {
        for night in nights(width, height) {
            for (dim, gemm) in DIMS.into_iter().zip(gemms) {
                compare(&night, dim, gemm);
            }
        }
    }
}
