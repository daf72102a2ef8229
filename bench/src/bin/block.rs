//! Times the source's text and the proved library beside each other, on the same numbers, in one run, and a call of ours with a slice that is
//! too short, which is refused after its checks. The compiler can look into the source's calls, so what these take and write goes through
//! `black_box`; into an exported call it cannot. `block SIDE CALL N` makes one call alone by `counted`, for callgrind: SIDE is rust or ours, CALL
//! one of product, decompose, right-solve, solve, and N the rows of the block.
use bench::systems::{beside, counted};
use beyqaloosh::abi;
use nalgebra::{DMatrixView, DMatrixViewMut, DVectorView, DVectorViewMut};
use sophus_solver::kernel::sub_mat_diag_mat_t_inplace;
use sophus_solver::ldlt::{ldlt_decompose_inplace, ldlt_right_matsolve_inplace, ldlt_solve_inplace};
use std::hint::black_box;

/// The sizes of a block.
const SIZES: [usize; 8] = [1, 2, 3, 4, 6, 8, 12, 16];
const TOLERANCE: f64 = 1e-12;

/// How the source's call, ours and ours refused are run. Each is run at least once.
type Runs<'a> = &'a dyn Fn([&mut dyn FnMut(); 3]) -> [f64; 3];

/// The two answers must be the same numbers, bit for bit.
fn same(what: &str, n: usize, rust: &[f64], ours: &[f64]) {
    let bits = |xs: &[f64]| xs.iter().map(|x| x.to_bits()).collect::<Vec<u64>>();
    assert_eq!(bits(rust), bits(ours), "{what}, n = {n}: other bits");
}

fn product(runs: Runs, n: usize, a: &[f64], v: &[f64]) -> [f64; 3] {
    let (mut rust, mut ours, mut unlike) = (a.to_vec(), a.to_vec(), a.to_vec());
    let mut r = || {
        rust.copy_from_slice(a);
        sub_mat_diag_mat_t_inplace(
            &mut DMatrixViewMut::from_slice(black_box(&mut rust), n, n),
            DMatrixView::from_slice(black_box(a), n, n),
            DVectorView::from_slice(v, n),
            DMatrixView::from_slice(a, n, n),
        );
    };
    let mut o = || {
        ours.copy_from_slice(a);
        assert_eq!(abi::beyqaloosh_sub_mat_diag_mat_t_inplace(n, n, n, &mut ours, a, v, a), 0);
    };
    let mut checks = || assert_eq!(abi::beyqaloosh_sub_mat_diag_mat_t_inplace(n, n, n, &mut unlike, a, v, &a[1..]), 12);
    let best = runs([&mut r, &mut o, &mut checks]);
    same("product", n, &rust, &ours);
    best
}

/// Also hands on the factor and d.
fn decompose(runs: Runs, n: usize, a: &[f64]) -> ([f64; 3], Vec<f64>, Vec<f64>) {
    let (mut rust, mut ours, mut unlike) = ((a.to_vec(), vec![0.0; n]), (a.to_vec(), vec![0.0; n]), a.to_vec());
    let mut r = || {
        rust.0.copy_from_slice(a);
        let (l, d) = (black_box(&mut rust.0), &mut rust.1);
        let told = ldlt_decompose_inplace(DMatrixViewMut::from_slice(l, n, n), DVectorViewMut::from_slice(d, n), TOLERANCE);
        assert!(told.is_ok());
    };
    let mut o = || {
        ours.0.copy_from_slice(a);
        assert_eq!(abi::beyqaloosh_ldlt_decompose_inplace(n, &mut ours.0, &mut ours.1, TOLERANCE), 0);
    };
    let mut checks = || assert_eq!(abi::beyqaloosh_ldlt_decompose_inplace(n, &mut unlike, &mut [], TOLERANCE), 12);
    let best = runs([&mut r, &mut o, &mut checks]);
    same("factor", n, &rust.0, &ours.0);
    same("d", n, &rust.1, &ours.1);
    (best, ours.0, ours.1)
}

fn right_solve(runs: Runs, n: usize, a: &[f64], l: &[f64], d: &[f64]) -> [f64; 3] {
    let (mut rust, mut ours, mut unlike) = (a.to_vec(), a.to_vec(), a.to_vec());
    let mut r = || {
        rust.copy_from_slice(a);
        let x = DMatrixViewMut::from_slice(black_box(&mut rust), n, n);
        ldlt_right_matsolve_inplace(DMatrixView::from_slice(black_box(l), n, n), DVectorView::from_slice(d, n), x);
    };
    let mut o = || {
        ours.copy_from_slice(a);
        assert_eq!(abi::beyqaloosh_ldlt_right_matsolve_inplace(n, n, l, d, &mut ours), 0);
    };
    let mut checks = || assert_eq!(abi::beyqaloosh_ldlt_right_matsolve_inplace(n, n, l, d, &mut unlike[1..]), 12);
    let best = runs([&mut r, &mut o, &mut checks]);
    same("right solve", n, &rust, &ours);
    best
}

fn solve(runs: Runs, n: usize, v: &[f64], l: &[f64], d: &[f64]) -> [f64; 3] {
    let (mut rust, mut ours, mut unlike) = (v.to_vec(), v.to_vec(), v.to_vec());
    let mut r = || {
        rust.copy_from_slice(v);
        let x = DVectorViewMut::from_slice(black_box(&mut rust), n);
        ldlt_solve_inplace(DMatrixView::from_slice(black_box(l), n, n), DVectorView::from_slice(d, n), x);
    };
    let mut o = || {
        ours.copy_from_slice(v);
        assert_eq!(abi::beyqaloosh_ldlt_solve_inplace(n, l, d, &mut ours), 0);
    };
    let mut checks = || assert_eq!(abi::beyqaloosh_ldlt_solve_inplace(n, l, d, &mut unlike[1..]), 12);
    let best = runs([&mut r, &mut o, &mut checks]);
    same("solve", n, &rust, &ours);
    best
}

/// A block of n rows that is decomposed, and a vector.
fn numbers(n: usize) -> (Vec<f64>, Vec<f64>) {
    let entry = |i: usize| if i % n == i / n { 4.0 + (i % n) as f64 } else { 0.1 / (1.0 + (i % n + i / n) as f64) };
    ((0..n * n).map(entry).collect(), (0..n).map(|i| 1.0 + i as f64 * 0.01).collect())
}

/// Each is run once.
fn once(calls: &mut [&mut dyn FnMut(); 3]) -> [f64; 3] {
    calls.iter_mut().for_each(|call| call());
    [0.0; 3]
}

/// One call alone is counted, when each has been run once.
fn count(side: &str, call: &str, n: usize) {
    let chosen = |mut calls: [&mut dyn FnMut(); 3]| {
        once(&mut calls);
        counted(calls[usize::from(side == "ours")]);
        [0.0; 3]
    };
    let (a, v) = numbers(n);
    let (_, l, d) = decompose(if call == "decompose" { &chosen } else { &|mut calls| once(&mut calls) }, n, &a);
    match call {
        "product" => product(&chosen, n, &a, &v),
        "right-solve" => right_solve(&chosen, n, &a, &l, &d),
        "solve" => solve(&chosen, n, &v, &l, &d),
        _ => [0.0; 3],
    };
}

fn main() {
    let words: Vec<String> = std::env::args().skip(1).collect();
    if let [side, call, n] = &words[..] {
        return count(side, call, n.parse().expect("no number"));
    }
    let titles: String = ["product", "decompose", "right solve", "solve"].map(|call| format!(" {call}: Rust | ours | of it checks |")).concat();
    println!("| n |{titles}");
    println!("|--:|{}", "--:|".repeat(12));
    for n in SIZES {
        let (a, v) = numbers(n);
        let (decomposed, l, d) = decompose(&beside, n, &a);
        let all = [product(&beside, n, &a, &v), decomposed, right_solve(&beside, n, &a, &l, &d), solve(&beside, n, &v, &l, &d)];
        let row: String = all.iter().map(|[r, o, c]| format!(" {r:.0} | {o:.0} | {c:.1} |")).collect();
        println!("| {n} |{row}");
    }
}
