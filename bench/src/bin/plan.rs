//! Times the source's plan and the proved one beside each other, on the same patterns and orders, in one run.
use bench::calls::{PlanLent, plan};
use bench::nights::{Night, arrow, chain, grid, random, tables};
use bench::plans::{NONE, Tables, matrix};
use bench::systems::{beside, source_plan};
use sophus_solver::ldlt::{EliminationTree, block_sparse_ldlt};
use std::hint::black_box;

/// Blocks across and down of the grids; as many blocks in the other patterns.
const SHAPES: [(usize, usize); 5] = [(16, 8), (32, 16), (32, 32), (64, 32), (64, 64)];
const DIM: usize = 3;

fn nights(width: usize, height: usize) -> Vec<Night> {
    let n = width * height;
    let random = random(n);
    vec![
        Night { name: "grid, row by row", perm: (0..n).collect(), ..grid(width, height) },
        grid(width, height),
        chain(n),
        Night { name: "chain, drawn order", perm: random.perm.clone(), ..chain(n) },
        arrow(n),
        random,
    ]
}

fn compare(night: &Night) {
    let n = night.n;
    let (starts, rows) = tables(night);
    let perm = night.perm.iter().map(|&k| k as u32).collect();
    let t = Tables { dims: vec![DIM as u32; n], starts, rows, perm, late: vec![0; n] };
    let a = matrix(&t);

    // the same answers
    let (order, l_col_rows, scalars) = source_plan(&a, &night.perm);
    assert_eq!(scalars.len(), n * DIM);
    let inverse = {
        let mut inverse = vec![0; n];
        for (new, &old) in order.iter().enumerate() {
            inverse[old] = new;
        }
        inverse
    };
    let (flat_sub, a_perm) = block_sparse_ldlt::permute(&a, &order, &inverse);
    let etree = EliminationTree::new(a_perm.build_pattern_upper());
    let words = |xs: &[usize]| xs.iter().map(|&x| x as u32).collect::<Vec<u32>>();
    let l_rows = words(&l_col_rows.concat());
    let mut lent = PlanLent::needed(&t, l_rows.len() as u64);
    let mut told = [0; 3];
    assert_eq!(plan(&t, &mut lent, &mut told), 0, "{}, {n}: refused", night.name);
    let mut l_starts = vec![0u32];
    for column in &l_col_rows {
        l_starts.push(l_starts[l_starts.len() - 1] + column.len() as u32);
    }
    let parents: Vec<u32> = etree.parent_array().iter().map(|p| p.map_or(NONE, |p| p.get() as u32)).collect();
    assert_eq!(lent.outputs, [words(&order), parents, l_starts, l_rows.clone()], "{}, {n}: other answers", night.name);

    let products = l_col_rows.iter().map(|c| (c.len() * (c.len() + 1) / 2) as u64).sum();
    assert_eq!(told, [l_rows.len() as u64, (l_rows.len() * DIM * DIM) as u64, products], "{}, {n}: other counts", night.name);

    let best = beside([
        &mut || {
            black_box(source_plan(black_box(&a), &night.perm));
        },
        &mut || {
            black_box(block_sparse_ldlt::symbolic(black_box(&a_perm), &flat_sub));
        },
        &mut || assert_eq!(plan(black_box(&t), black_box(&mut lent), &mut told), 0),
    ]);
    let [whole, symbolic, proved] = best.map(|t| t / 1000.0);
    println!(
        "| {} | {n} | {} | {} | {whole:.0} | {symbolic:.0} | {proved:.0} |",
        night.name,
        t.rows.len(),
        l_rows.len()
    );
}

fn main() {
    println!("| pattern and order | blocks | stored in A | in L | Rust: plan | Rust: rows of L alone | ours |");
    println!("|---|--:|--:|--:|--:|--:|--:|");
    for (width, height) in SHAPES {
        for night in nights(width, height) {
            compare(&night);
        }
    }
}
