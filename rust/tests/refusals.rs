//! Every refusal that the calls can give: its number, what it carries, and the words of its message.
mod common;
use beyqaloosh::calls::{self, FactorLent, FactorLists, PlanLent, PlanScratch, SolveLent, Tables};
use beyqaloosh::{Column, Error, Factor, FlatTables, Mark, System, Table, Workspace, Wrong};
use common::{links, sheet, system, two_blocks, README};

/// The tables of the two-block night with a fault, refused by the factorization and, where it reads what is wrong, by the plan.
fn refused(why: Error, planned: bool, fault: impl Fn(&mut FlatTables)) {
    let mut tables = two_blocks();
    fault(&mut tables);
    let night = system(tables);
    assert_eq!(night.factorize().unwrap_err(), why);
    assert_eq!(night.plan().err(), planned.then_some(why));
    assert!(why.to_string().starts_with(&format!("refused {}, caused by {}: ", why.number(), why.who())));
}

#[test]
fn the_tables_of_a_system() {
    let of = Table::System;
    refused(Error::Blocks, true, |a| a.dims = vec![1; 4097]);
    refused(Error::Dimension { place: 1 }, true, |a| a.dims[1] = 17);
    refused(Error::Dimension { place: 0 }, true, |a| a.dims[0] = 0);
    refused(Error::Dimension { place: 0 }, true, |a| a.dims = vec![u32::MAX; 4096]);
    refused(Error::Starts { of, place: 0 }, true, |a| a.starts[0] = 1);
    refused(Error::Starts { of, place: 2 }, true, |a| a.starts[2] = 1);
    refused(Error::Starts { of, place: 2 }, true, |a| a.starts[2] = u32::MAX);
    refused(Error::Starts { of, place: 2 }, true, |a| a.starts.truncate(2));
    refused(Error::Stored, true, |a| {
        a.rows.resize(65537, 0);
        a.starts = vec![0, 65537, 65537];
    });
    refused(Error::Row { of, place: 2 }, true, |a| a.rows[2] = 2);
    refused(Error::Row { of, place: 2 }, true, |a| a.rows[2] = 0);
    refused(Error::Order { of, place: 1 }, true, |a| a.rows[1] = 0);
    refused(Error::Values { of, body: None }, false, |a| a.values.push(0.0));
    refused(Error::Permutation { place: 1 }, true, |a| a.perm[1] = 0);
    refused(Error::Permutation { place: 0 }, true, |a| a.perm[0] = u32::MAX);
    refused(Error::Permutation { place: 2 }, true, |a| a.perm.push(0));
    refused(Error::Late { place: 1 }, true, |a| a.late[1] = 2);
    refused(Error::Late { place: 0 }, true, |a| a.late.clear());
    for tolerance in [f64::NAN, f64::INFINITY, f64::NEG_INFINITY, -1e-300] {
        refused(Error::Tolerance, false, |a| a.tolerance = tolerance);
    }
    // the lowest number, and within it the first place
    refused(Error::Dimension { place: 0 }, true, |a| {
        a.dims = vec![99, 99];
        a.late[0] = 9;
        a.tolerance = f64::NAN;
    });
}

#[test]
fn what_a_builder_is_given() {
    let night = |stored: &[(u32, u32, &[f64])]| {
        let mut night = System::builder(1e-12);
        night.block(1);
        night.block(2);
        for (row, column, body) in stored {
            night.store(*row, *column, body);
        }
        night.build().factorize().unwrap_err()
    };
    let of = Table::System;
    // above the diagonal, in no column, in no row, twice
    assert_eq!(night(&[(0, 1, &[1.0; 2])]), Error::Row { of, place: 0 });
    assert_eq!(night(&[(2, 2, &[1.0])]), Error::Starts { of, place: 2 });
    assert_eq!(night(&[(2, 0, &[1.0])]), Error::Row { of, place: 0 });
    assert_eq!(night(&[(0, 0, &[1.0]), (0, 0, &[1.0])]), Error::Order { of, place: 1 });
    // one body too short and one too long, with as many numbers in all
    let why = night(&[(1, 1, &[1.0; 3]), (1, 0, &[1.0; 3])]);
    assert_eq!(why, Error::Values { of, body: Some((1, 0)) });
    assert_eq!(
        why.to_string(),
        "refused 7, caused by the assembler of the tables: the body of block (1, 0) has not rows × columns numbers. \
         Send as many numbers as the blocks have, rows × columns each."
    );
}

#[test]
fn the_data() {
    // block 2 is the first by new number
    let mut tables = links(3, &[(2, 0)]);
    tables.perm = vec![2, 0, 1];
    for (value, pivot) in [(f64::NAN, f64::NAN), (f64::INFINITY, f64::INFINITY), (f64::NEG_INFINITY, f64::NEG_INFINITY)] {
        tables.values[3] = value;
        let Err(why) = system(tables.clone()).factorize() else { panic!("accepted") };
        let Error::NotFinite { block: 0, old: 2, place: 0, pivot: told } = why else { panic!("{why}") };
        assert!(told == pivot || told.is_nan() && pivot.is_nan());
        assert_eq!(
            why.to_string(),
            format!(
                "refused 13, caused by the data: the pivot of row 0 of block 0 by new number, 2 by old, is {pivot}. Look at the \
                 numbers of the block that is named, and of those linked to it, for NaN, infinities and sums that overflow."
            )
        );
    }
    // P10 and P9
    tables.values[3] = -1e-11;
    let why = system(tables.clone()).factorize().unwrap_err();
    assert_eq!(why, Error::Poor { block: 0, old: 2, condition: 1e-11 });
    assert_eq!(
        why.to_string(),
        "refused 14, caused by the data: block 0 by new number, 2 by old, is indefinite with the condition 1e-11. Look at the block \
         that is named for a wrong sign: it is indefinite and nearly singular."
    );
    tables.values[3] = -1e-10;
    assert!(system(tables).factorize().is_ok());
}

// ---- solves

fn stale(factor: &Factor, night: &System, words: &str) -> Error {
    let right = vec![1.0; night.scalars()];
    let why = factor.solve(night, &right).unwrap_err();
    assert_eq!(why.number(), 12);
    assert!(why.to_string().contains(words), "{why}");
    assert!(why.to_string().ends_with("Factorize tonight's system again."), "{why}");
    why
}

#[test]
fn a_stale_factor() {
    let tables = links(4, &[(1, 0), (2, 0), (3, 1)]);
    let factor = system(tables.clone()).factorize().unwrap();
    // of another order
    let mut other = tables.clone();
    other.perm = vec![3, 2, 1, 0];
    let why = stale(&factor, &system(other.clone()), "the factor is stale, order is not that of this system. ");
    assert_eq!(why, Error::Mismatch { place: 5, name: "order", column: None });
    other.perm = tables.perm.clone();
    other.late[0] = 1;
    assert_eq!(stale(&factor, &system(other), "order"), why);
    // of a pattern with a link more, or one less
    let why = stale(&factor, &system(links(4, &[(1, 0), (2, 0), (3, 0), (3, 1)])), "its column 0, by new number, lacks a row");
    let column = Some(Column { column: 0, wrong: Wrong::Missing });
    assert_eq!(why, Error::Mismatch { place: 8, name: "l_rows", column });
    let why = stale(&factor, &system(links(4, &[(1, 0), (2, 0)])), "its column 1, by new number, lists a row too many");
    assert_eq!(why, Error::Mismatch { place: 8, name: "l_rows", column: Some(Column { column: 1, wrong: Wrong::Extra }) });
}

#[test]
fn a_factor_of_other_dimensions() {
    let night = |dims: [u32; 2]| {
        let mut night = System::builder(0.0);
        for dim in dims {
            let (block, size) = (night.block(dim), dim as usize);
            let one = |k: usize| if k % (size + 1) == 0 { 1.0 } else { 0.0 };
            night.store(block, block, &(0..size * size).map(one).collect::<Vec<f64>>());
        }
        night.build()
    };
    let (made, other) = (night([1, 2]), night([2, 1]));
    let factor = made.factorize().unwrap();
    // no offset and no count tells these two apart: the library takes the one for the other
    let (mut x, mut y) = ([1.0, 2.0, 3.0], [0.0; 3]);
    let (mut scalar_perm, mut sizes, mut scalar_starts) = ([0; 3], [0; 2], [0; 3]);
    let (scalar_perm, sizes, scalar_starts) = (&mut scalar_perm, &mut sizes, &mut scalar_starts);
    let lent = SolveLent { x: &mut x, y: &mut y, scalar_perm, sizes, scalar_starts };
    assert_eq!(calls::solve_inplace(handed(&other), factor.lists(), lent), Ok(()));
    // the face does not
    let dims = Error::Mismatch { place: 0, name: "dims", column: None };
    assert_eq!(stale(&factor, &other, "the factor is stale, dims is not that of this system. "), dims);
    let mut x = [1.0, 2.0, 3.0];
    assert_eq!(factor.solve_inplace(&other, &mut x, &mut Workspace::new()), Err(dims));
    assert_eq!(x, [1.0, 2.0, 3.0], "refused, and the right side was touched");
    assert_eq!(stale(&factor, &system(links(1, &[])), "dims"), dims);
    assert_eq!(factor.solve(&made, &[1.0, 2.0, 3.0]).unwrap().values(), [1.0, 2.0, 3.0]);
}

#[test]
fn a_right_side_of_another_length() {
    let night = system(two_blocks());
    let factor = night.factorize().unwrap();
    for right in [&[8.0][..], &[8.0; 3]] {
        let why = factor.solve(&night, right).unwrap_err();
        assert_eq!(why, Error::Mismatch { place: 13, name: "x", column: None });
        assert_eq!(
            why.to_string(),
            "refused 12, caused by whoever lends buffers: slice 13 of the call, x, has another length than the system has there. Give \
             the slice that is named its exact length."
        );
    }
}

/// A solve of the storm with a fault in the factor's lists: the factor's numbers are tried by their lengths alone.
fn solve_with(fault: impl Fn(&mut [Vec<u32>; 5], &mut [Vec<f64>; 3])) -> Error {
    let (night, right) = sheet("storm.sheet");
    let factor = night.factorize().unwrap();
    let FactorLists { order, parents, l_starts, l_rows, l_offsets, l_values, diag, d } = factor.lists();
    let mut tables = [order, parents, l_starts, l_rows, l_offsets].map(<[u32]>::to_vec);
    let mut numbers = [l_values, diag, d].map(<[f64]>::to_vec);
    fault(&mut tables, &mut numbers);
    let [order, parents, l_starts, l_rows, l_offsets] = &tables;
    let [l_values, diag, d] = &numbers;
    let lists = FactorLists { order, parents, l_starts, l_rows, l_offsets, l_values, diag, d };
    let mut x = right.clone();
    let (mut y, mut words) = (vec![0.0; 11], [vec![0; 11], vec![0; 8], vec![0; 9]]);
    let [scalar_perm, sizes, scalar_starts] = &mut words;
    let lent = SolveLent { x: &mut x, y: &mut y, scalar_perm, sizes, scalar_starts };
    let why = calls::solve_inplace(handed(&night), lists, lent).unwrap_err();
    assert_eq!(x, right, "refused, and the right side was touched");
    why
}

fn handed(night: &System) -> Tables<'_> {
    let FlatTables { dims, starts, rows, perm, late, .. } = night.tables();
    Tables { dims, starts, rows, perm, late }
}

#[test]
fn the_lists_of_a_factor() {
    let of = Table::Factor;
    let slice = |place, name| Error::Mismatch { place, name, column: None };
    assert_eq!(solve_with(|tables, _| tables[2][0] = 1), Error::Starts { of, place: 0 });
    assert_eq!(solve_with(|tables, _| tables[3][0] = 0), Error::Row { of, place: 0 });
    assert_eq!(solve_with(|tables, _| tables[3][1] = tables[3][0]), Error::Order { of, place: 1 });
    assert_eq!(solve_with(|tables, _| tables[1][2] = 1), Error::Row { of: Table::Parents, place: 2 });
    assert_eq!(solve_with(|_, numbers| numbers[0].truncate(1)), Error::Values { of, body: None });
    assert_eq!(solve_with(|tables, _| tables[0].swap(0, 1)), slice(5, "order"));
    assert_eq!(solve_with(|tables, _| tables[1].truncate(7)), slice(6, "parents"));
    let column = Some(Column { column: 0, wrong: Wrong::Parent });
    assert_eq!(solve_with(|tables, _| tables[1][0] = 7), Error::Mismatch { place: 6, name: "parents", column });
    assert_eq!(solve_with(|tables, _| tables[4][1] += 1), slice(9, "l_offsets"));
    assert_eq!(solve_with(|_, numbers| numbers[1].push(0.0)), slice(11, "diag"));
    assert_eq!(solve_with(|_, numbers| numbers[2].truncate(10)), slice(12, "d"));
    let why = Error::Row { of: Table::Parents, place: 2 }.to_string();
    assert!(why.contains("the parent of block 2, by new number, is neither none nor a greater block"), "{why}");
}

// ---- lent buffers

/// The storm's buffers at their needs, but one of them a place short.
fn lengths<const N: usize>(needs: [usize; N], short: usize) -> [usize; N] {
    let mut lengths = needs;
    if let Some(length) = lengths.get_mut(short) {
        *length -= 1;
    }
    lengths
}

#[test]
fn short_buffers_of_a_plan() {
    let (night, _) = sheet("storm.sheet");
    let needs = [8, 8, 9, 9, 8, 8, 8, 9, 9, 8, 16, 16];
    assert_eq!(calls::plan_needs(8, 16, 9), Ok(needs));
    let names =
        ["order", "parents", "l_starts", "l_rows", "inverse", "sizes", "count", "heads", "into", "stamps", "table", "upper"];
    for which in 0..=needs.len() {
        let mut words = lengths(needs, which).map(|length| vec![77; length]);
        let [order, parents, l_starts, l_rows, inverse, sizes, count, heads, into, stamps, table, upper] = &mut words;
        let scratch = PlanScratch { inverse, sizes, count, heads, into, stamps, table, upper };
        let lent = PlanLent { order, parents, l_starts, l_rows, scratch };
        let answer = calls::plan(handed(&night), lent);
        if which == needs.len() {
            assert_eq!(answer, Ok(night.plan().unwrap().counts()));
            continue;
        }
        let why = answer.unwrap_err();
        assert_eq!(why, Error::Short { which, name: names[which], need: needs[which] });
        assert_eq!(
            why.to_string(),
            format!(
                "refused 11, caused by whoever lends buffers: buffer {which} of the call, {}, is shorter than its need {}. Lend the \
                 buffer that is named with the need that the refusal carries.",
                names[which], needs[which]
            )
        );
        assert!(words[..4].iter().flatten().all(|&word| word == 77), "refused, and an output was touched");
    }
}

#[test]
fn short_buffers_of_a_factorization() {
    let (night, _) = sheet("storm.sheet");
    let factor = night.factorize().unwrap();
    let numbers = factor.values().len();
    let needs = [8, 8, 9, 9, 10, numbers, 17, 11, 22, 8, 8, 8, 9, 9, 8, 16, 16, 17, 9, 9, 8, numbers];
    let FlatTables { dims, values, tolerance, .. } = night.tables();
    assert_eq!(calls::factorize_needs(dims, 16, 9, numbers as u32).unwrap(), needs[..21]);
    assert_eq!(calls::factorize_with_cache_needs(dims, 16, values.len() as u32, 9, numbers as u32), Ok(needs));
    for (which, cached) in (0..=needs.len()).flat_map(|which| [(which, false), (which, true)]) {
        let length = lengths(needs, which);
        let mut tables = [0, 1, 2, 3, 4].map(|k| vec![0; length[k]]);
        let mut floats = [5, 6, 7, 8].map(|k| vec![0.0; length[k]]);
        let mut scratch = [9, 10, 11, 12, 13, 14, 15, 16, 17, 18, 19, 20].map(|k| vec![0; length[k]]);
        let [order, parents, l_starts, l_rows, l_offsets] = &mut tables;
        let [l_values, diag, d, column] = &mut floats;
        let [inverse, sizes, count, heads, into, stamps, table, upper, bodies, unit_starts, d_starts, places] = &mut scratch;
        let scratch = PlanScratch { inverse, sizes, count, heads, into, stamps, table, upper };
        #[rustfmt::skip]
        let lent = FactorLent {
            order, parents, l_starts, l_rows, l_offsets, l_values, diag, d, column, scratch, bodies, unit_starts, d_starts, places,
        };
        let mut cache = vec![7.0; length[21]];
        let answer = if cached {
            calls::factorize_with_cache(handed(&night), values, *tolerance, lent, &mut cache)
        } else {
            calls::factorize(handed(&night), values, *tolerance, lent)
        };
        match answer {
            Ok(counts) => {
                assert!(which == 22 || which == 21 && !cached);
                assert_eq!(counts, factor.plan().counts());
                assert_eq!([&floats[0], &floats[1], &floats[2]], [factor.values(), factor.diag(), factor.d()]);
            }
            Err(why) => {
                let Error::Short { which: told, name, need } = why else { panic!("{why}") };
                assert_eq!((told, need, name == "cache"), (which, needs[which], which == 21), "{why}");
            }
        }
        // where the call has come to the plan, zeros
        let planned = [3, 4, 5, 21, 22].contains(&which);
        assert!(cache.iter().all(|&number| number == if cached && planned { 0.0 } else { 7.0 }), "the cache, {which} short");
    }
}

#[test]
fn short_buffers_of_a_solve_and_of_marks() {
    let (night, right) = sheet("storm.sheet");
    let factor = night.factorize().unwrap();
    let (needs, names) = ([11, 11, 8, 9], ["y", "scalar_perm", "sizes", "scalar_starts"]);
    assert_eq!(calls::solve_inplace_needs(&night.tables().dims), Ok([11, 11, 11, 8, 9]));
    assert_eq!(calls::marks_needs(&night.tables().dims), Ok([11]));
    for short in 0..needs.len() {
        let length = lengths(needs, short);
        let (mut x, mut y) = (right.clone(), vec![0.0; length[0]]);
        let mut words = [1, 2, 3].map(|k| vec![0; length[k]]);
        let [scalar_perm, sizes, scalar_starts] = &mut words;
        let lent = SolveLent { x: &mut x, y: &mut y, scalar_perm, sizes, scalar_starts };
        let why = calls::solve_inplace(handed(&night), factor.lists(), lent).unwrap_err();
        assert_eq!(why, Error::Short { which: short + 1, name: names[short], need: needs[short] });
        assert_eq!(x, right);
    }
    let mut marks = [Mark::Silent; 10];
    assert_eq!(factor.marks_into(&mut marks), Err(Error::Short { which: 0, name: "marks", need: 11 }));
    assert_eq!(marks, [Mark::Silent; 10]);
    let why =
        calls::marks(&night.tables().dims, factor.plan().order(), &factor.d()[1..], 1e-9, &mut [Mark::Heard; 11]).unwrap_err();
    assert_eq!(why, Error::Mismatch { place: 2, name: "d", column: None });
    assert!(why.to_string().contains("slice 2 of the call, d, has another length"), "{why}");
}

#[test]
fn needs_that_are_refused() {
    assert_eq!(calls::elimination_tree_needs(4096), Ok([4096; 2]));
    assert_eq!(calls::elimination_tree_needs(4097), Err(Error::Blocks));
    assert_eq!(calls::reach_needs(usize::MAX), Err(Error::Blocks));
    assert_eq!(calls::plan_needs(4097, 65537, 0), Err(Error::Blocks));
    assert_eq!(calls::plan_needs(4096, 65537, 0), Err(Error::Stored));
    assert_eq!(calls::factorize_needs(&[1, 17], 65537, 0, 0), Err(Error::Dimension { place: 1 }));
    assert_eq!(calls::factorize_needs(&[1, 16], 65537, 0, 0), Err(Error::Stored));
    assert_eq!(calls::factorize_with_cache_needs(&[1, 16], 65537, 0, 0, 0), Err(Error::Stored));
    assert_eq!(calls::solve_inplace_needs(&[0]), Err(Error::Dimension { place: 0 }));
    assert_eq!(calls::marks_needs(&[1; 4097]), Err(Error::Blocks));
}

// ---- words

/// One of each number, and those whose words differ by the table.
fn every() -> Vec<Error> {
    let tables = [Table::System, Table::Factor, Table::Pattern, Table::Tree];
    let mut all = vec![
        Error::Blocks,
        Error::Dimension { place: 1 },
        Error::Stored,
        Error::Permutation { place: 4 },
        Error::Late { place: 5 },
        Error::Tolerance,
        Error::Short { which: 0, name: "marks", need: 3 },
        Error::Mismatch { place: 13, name: "x", column: None },
        Error::Mismatch { place: 5, name: "order", column: None },
        Error::Past { block: 9 },
        Error::NotFinite { block: 1, old: 2, place: 0, pivot: f64::NAN },
        Error::Poor { block: 1, old: 2, condition: 1e-11 },
        Error::Sheet,
        Error::Room,
    ];
    all.extend(tables.map(|of| Error::Starts { of, place: 2 }));
    all.extend(tables.map(|of| Error::Row { of, place: 3 }));
    all.extend(tables.map(|of| Error::Order { of, place: 3 }));
    all.extend(tables.map(|of| Error::Values { of, body: None }));
    all
}

#[test]
fn the_words_are_those_of_the_readme() {
    let (_, table) = README.split_once("| number | who caused it | what to do |").unwrap();
    let row = |number: u32| table.lines().find(|line| line.starts_with(&format!("| {number} | "))).unwrap();
    let stale = "factorize tonight's system again";
    for why in every() {
        let row = row(why.number());
        assert!(row.contains(why.who()) || why.who().starts_with("the assembler") && row.contains("the assembler"), "{why}");
        // a factor whose tables are wrong is made again, whatever the number
        assert!(row.contains(why.what_to_do()) || why.what_to_do() == stale, "{why}\n{row}");
        assert!(why.to_string().contains(why.who()), "{why}");
    }
    let mut numbers: Vec<u32> = every().iter().map(Error::number).collect();
    numbers.sort_unstable();
    numbers.dedup();
    assert_eq!(numbers, (1..=16).collect::<Vec<u32>>());
    assert!(Error::Room.what_to_do().contains("8,192 values"));
}
