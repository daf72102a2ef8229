//! Accepted nights: known bits, plans, marks and labels, no blocks and 4,096.
mod common;
use beyqaloosh::{Counts, Error, Factor, FlatTables, Mark, System, Workspace};
use common::{answer, links, sheet, system, two_blocks, README};

#[test]
fn the_worked_night_has_the_bits_of_the_readme() {
    let (system, right) = sheet("storm.sheet");
    let printed = answer(&system, &right).unwrap();
    assert_eq!(printed.lines().count(), 12);
    let indented: String = printed.lines().map(|line| format!("    {line}\n")).collect();
    assert!(README.contains(&indented), "{printed}");
}

#[test]
fn the_two_block_sheet() {
    let (system, right) = sheet("two_blocks.sheet");
    let lines = "blocks 2 scalars 2 stored 1 products 1 silent 0\n0 3FF8000000000000 heard\n1 3FF0000000000000 heard\n";
    assert_eq!(answer(&system, &right).unwrap(), lines);
    assert_eq!(system.tables(), &two_blocks());

    let factor = system.factorize().unwrap();
    assert_eq!((factor.d(), factor.values(), factor.diag()), (&[4.0, 4.0][..], &[0.5][..], &[1.0, 1.0][..]));
    assert_eq!((factor.offsets(), factor.plan()), (&[0, 1][..], &system.plan().unwrap()));
}

#[test]
fn plans_of_document_01() {
    // P1
    let plan = system(links(4, &[(1, 0), (2, 1), (3, 0)])).plan().unwrap();
    assert_eq!(plan.parents().collect::<Vec<_>>(), [Some(1), Some(2), Some(3), None]);
    assert_eq!(plan.counts(), Counts { stored: 5, numbers: 5, products: 7 });
    assert_eq!([plan.column(0), plan.column(1), plan.column(2), plan.column(3)], [&[1, 3][..], &[2, 3], &[3], &[]]);
    assert_eq!((plan.starts(), plan.rows()), (&[0, 2, 4, 5, 5][..], &[1, 3, 2, 3, 3][..]));
    // P3 and P4
    let mut hub = links(4, &[(1, 0), (2, 0), (3, 0)]);
    assert_eq!(system(hub.clone()).plan().unwrap().counts(), Counts { stored: 6, numbers: 6, products: 10 });
    hub.perm = vec![3, 2, 1, 0];
    assert_eq!(system(hub.clone()).plan().unwrap().counts(), Counts { stored: 3, numbers: 3, products: 3 });
    // a late block is moved behind the others
    hub.late = vec![0, 1, 0, 0];
    assert_eq!(system(hub).plan().unwrap().order(), [3, 2, 0, 1]);
}

#[test]
fn the_builder_sorts_what_it_is_given() {
    let mut night = System::builder(1e-9);
    let (a, b) = (night.block(2), night.late_block(1));
    night.store(b, b, &[3.0]).store(b, a, &[1.0, 0.5]).store(a, a, &[4.0, 1.0, 1.0, 5.0]).order(&[b, a]);
    let tables = FlatTables {
        dims: vec![2, 1],
        starts: vec![0, 2, 3],
        rows: vec![0, 1, 1],
        values: vec![4.0, 1.0, 1.0, 5.0, 1.0, 0.5, 3.0],
        perm: vec![1, 0],
        late: vec![0, 1],
        tolerance: 1e-9,
    };
    let mut built = night.build();
    assert_eq!(built, System::from_tables(tables));
    assert_eq!(built.body_mut(b, a).unwrap(), [1.0, 0.5]);
    assert_eq!(built.body_mut(b, b).unwrap(), [3.0]);
    assert_eq!(built.body_mut(a, b), None);
    assert_eq!(built.body_mut(0, 7), None);
}

#[test]
fn no_blocks() {
    let empty = System::builder(0.0).build();
    assert_eq!(answer(&empty, &[]).unwrap(), "blocks 0 scalars 0 stored 0 products 0 silent 0\n");
    assert_eq!(empty.plan().unwrap().starts(), [0]);
}

#[test]
fn silence_is_not_calm() {
    // block 1 has no evidence, block 2 evidence that says calm
    let mut tables = links(3, &[]);
    tables.values[1] = 0.0;
    let night = system(tables);
    let solution = night.factorize().unwrap().solve(&night, &[20.0, 0.0, 0.0]).unwrap();
    assert_eq!(solution.values(), [2.0, 0.0, 0.0]);
    assert_eq!(solution.marks(), [Mark::Heard, Mark::Silent, Mark::Heard]);
    assert_eq!(solution.labels().collect::<Vec<_>>(), [Some(2.0), None, Some(0.0)]);
    assert_eq!((solution.silent(), solution.label(1), solution.label(2), solution.label(3)), (1, None, Some(0.0), None));
    assert_eq!(Mark::Heard.label(-0.0).map(f64::to_bits), Some(0));
}

#[test]
fn a_nan_in_the_right_side_goes_through_and_gives_no_label() {
    let night = system(links(3, &[(1, 0)]));
    let factor = night.factorize().unwrap();
    let solution = factor.solve(&night, &[f64::NAN, 1.0, 10.0]).unwrap();
    assert_eq!(solution.marks(), [Mark::Heard; 3]);
    assert!(solution.values()[0].is_nan() && solution.values()[1].is_nan());
    assert_eq!(solution.labels().collect::<Vec<_>>(), [None, None, Some(1.0)]);
    let solution = factor.solve(&night, &[0.0, 0.0, f64::INFINITY]).unwrap();
    assert_eq!((solution.values()[2], solution.label(2)), (f64::INFINITY, None));
}

#[test]
fn a_tolerance_of_minus_zero_passes() {
    let mut tables = two_blocks();
    tables.tolerance = -0.0;
    let night = system(tables);
    assert_eq!(night.factorize().unwrap().solve(&night, &[8.0, 8.0]).unwrap().values(), [1.5, 1.0]);
}

/// 64 × 64 blocks, each linked to the next one across and down, dimensions from 1 to 3.
fn grid() -> System {
    let mut night = System::builder(1e-12);
    let dim = |k: u32| 1 + k % 3;
    let body = |row: u32, column: u32| -> Vec<f64> {
        let entry = |k: u32| if row == column && k.is_multiple_of(dim(row) + 1) { 20.0 } else { f64::from((row + k) % 7) / 8.0 };
        (0..dim(row) * dim(column)).map(entry).collect()
    };
    for k in 0..4096 {
        night.block(dim(k));
    }
    for k in 0..4096 {
        night.store(k, k, &body(k, k));
        for next in [(k + 1, k % 64 != 63), (k + 64, k + 64 < 4096)] {
            if next.1 {
                night.store(next.0, k, &body(next.0, k));
            }
        }
    }
    night.build()
}

/// A x, of the lower blocks as they are stored; of a diagonal block the lower triangle counts.
fn times(a: &FlatTables, x: &[f64]) -> Vec<f64> {
    let starts: Vec<usize> = a.dims.iter().scan(0, |at, &dim| Some(std::mem::replace(at, *at + dim as usize))).collect();
    let (mut y, mut values) = (vec![0.0; x.len()], a.values.iter());
    for column in 0..a.dims.len() {
        for entry in a.starts[column]..a.starts[column + 1] {
            let row = a.rows[entry as usize] as usize;
            for c in starts[column]..starts[column] + a.dims[column] as usize {
                for r in starts[row]..starts[row] + a.dims[row] as usize {
                    let value = values.next().unwrap();
                    if r >= c {
                        y[r] += value * x[c];
                    }
                    if r > c {
                        y[c] += value * x[r];
                    }
                }
            }
        }
    }
    y
}

#[test]
fn a_night_at_full_size() {
    let system = grid();
    let plan = system.plan().unwrap();
    let factor = system.factorize().unwrap();
    assert_eq!(factor.plan(), &plan);
    // a grid in its own order: each column but the last of L reaches the one below it, 64 rows at most
    let products: u64 = (0..4096).map(|k| plan.column(k).len() as u64).map(|c| c * (c + 1) / 2).sum();
    assert_eq!((plan.counts().products, plan.counts().stored), (products, plan.rows().len()));
    assert!((0..4032).all(|k| plan.column(k).last() == Some(&(k as u32 + 64))));

    // without a cache the same, bit by bit
    let plain = system.factorize_in(&mut Workspace::without_cache()).unwrap();
    let bits = |numbers: &[f64]| numbers.iter().map(|number| number.to_bits()).collect::<Vec<_>>();
    for numbers in [Factor::values, Factor::diag, Factor::d] {
        assert!(bits(numbers(&plain)) == bits(numbers(&factor)));
    }

    let right: Vec<f64> = (0..system.scalars()).map(|k| (k % 11) as f64 - 5.0).collect();
    let solution = factor.solve(&system, &right).unwrap();
    assert_eq!((solution.silent(), solution.values().len()), (0, 1365 * 6 + 1));
    let back = times(system.tables(), solution.values());
    assert!(back.iter().zip(&right).all(|(a, b)| (a - b).abs() < 1e-12), "A x is not the right side");

    // one block more
    let mut tables = system.tables().clone();
    tables.dims.push(1);
    assert_eq!(common::system(tables).factorize(), Err(Error::Blocks));
}

#[test]
fn the_scalars_of_each_block() {
    let (night, _) = sheet("storm.sheet");
    let blocks = night.tables().dims.len() as u32;
    let all: Vec<usize> = (0..blocks).flat_map(|block| night.scalars_of(block)).collect();
    assert_eq!(all, (0..night.scalars()).collect::<Vec<usize>>());
    assert!((0..blocks).all(|block| night.scalars_of(block).len() == night.tables().dims[block as usize] as usize));
    assert!(std::panic::catch_unwind(|| night.scalars_of(blocks)).is_err());
}
