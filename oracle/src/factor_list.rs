//! The list of factorizations as words, and its table.
use std::{collections::BTreeMap, fmt::Write};

use crate::factor_cases::{KINDS, cases};
use crate::factors::{Answer, Case, Fallbacks, needs, offsets, run};
use crate::run::bits;
use crate::table::table;

const HEAD: usize = 45;

fn halves(word: u64) -> [u32; 2] {
    [word as u32, (word >> 32) as u32]
}

fn words(case: &Case, answer: &Answer) -> Vec<u32> {
    let (t, night) = (&case.night.tables, &case.night);
    let mut w = vec![case.kind as u32];
    w.extend([t.dims.len(), t.starts.len(), t.rows.len(), night.values.len(), t.perm.len(), t.late.len()].map(|l| l as u32));
    w.extend(answer.lent);
    w.extend(halves(night.tolerance.to_bits()));
    w.extend([answer.number, answer.first, answer.second]);
    w.extend(halves(bits(answer.float)));
    let plan = &answer.plan;
    let accepted = answer.state == 2;
    w.extend(if accepted { [plan.l_rows.len() as u32, plan.numbers as u32] } else { [0; 2] });
    w.extend(halves(if accepted { plan.products } else { 0 }));
    let needs = needs(t, plan.l_rows.len(), plan.numbers);
    w.extend([plan.l_rows.len(), plan.numbers, needs[6], needs[7], needs[8]].map(|x| x as u32));
    w.push(answer.state);
    assert_eq!(w.len(), HEAD);
    let floats = |w: &mut Vec<u32>, xs: &[f64]| w.extend(xs.iter().flat_map(|&x| halves(bits(x))));
    for slice in [&t.dims, &t.starts, &t.rows] {
        w.extend(slice);
    }
    floats(&mut w, &night.values);
    w.extend(&t.perm);
    w.extend(&t.late);
    if answer.state >= 2 {
        for slice in [&answer.factor.l_values, &answer.factor.diag, &answer.factor.d] {
            floats(&mut w, slice);
        }
        for slice in [&plan.order, &plan.parents, &plan.l_starts, &plan.l_rows, &offsets(t, plan)] {
            w.extend(slice);
        }
    }
    w
}

/// The list and its table.
pub fn list() -> (Vec<u8>, String) {
    let mut bytes: Vec<u8> = vec![];
    let mut counts: BTreeMap<(usize, u32), usize> = BTreeMap::new();
    let mut most = (0, 0, 0, 0, 0);
    let mut fallbacks = Fallbacks::default();
    for case in &cases() {
        let answer = run(case, &mut fallbacks);
        *counts.entry((case.kind, answer.number)).or_default() += 1;
        let plan = &answer.plan;
        if answer.state == 2 {
            let t = &case.night.tables;
            let scalars = t.dims.iter().sum::<u32>();
            most = most.max((plan.numbers, t.dims.len(), scalars as usize, plan.l_rows.len(), plan.products));
        }
        bytes.extend(words(case, &answer).iter().flat_map(|w| w.to_le_bytes()));
    }
    bytes.extend(0u32.to_le_bytes());

    let numbers = [0, 1, 2, 3, 4, 5, 6, 7, 8, 9, 10, 11, 13, 14];
    let mut text = table("crates/factors/stdin", &KINDS, &numbers, &counts);
    let (values, blocks, scalars, stored, products) = most;
    writeln!(
        text,
        "\nThe greatest factor has {blocks} blocks, {scalars} scalars, {stored} blocks of L with {values} numbers, and {products} products.\n\
         Where the answer is 14, the source went on with Bunch-Kaufman to the end in {} cases, told an error in {} and panicked in {}.",
        fallbacks.solved, fallbacks.failed, fallbacks.panicked
    )
    .unwrap();
    (bytes, text)
}
