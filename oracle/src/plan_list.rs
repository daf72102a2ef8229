//! The list of plans as words, and its table.
use std::{collections::BTreeMap, fmt::Write};

use crate::plan_cases::{KINDS, cases};
use crate::plans::{Answer, Call, Case, run};
use crate::table::table;

const HEAD: usize = 27;

fn words(case: &Case, answer: &Answer) -> Vec<u32> {
    let t = &case.tables;
    let inputs = [&t.dims, &t.starts, &t.rows, &t.perm, &t.late];
    let mut w = vec![case.kind as u32];
    w.extend(inputs.iter().map(|s| s.len() as u32));
    match case.call {
        Call::Plan { .. } => w.extend(answer.lent),
        Call::System { values, tolerance } => {
            let bits = tolerance.to_bits();
            w.extend([values, bits as u32, (bits >> 32) as u32]);
            w.extend([0; 9]);
        }
    }
    let (number, first, second) = answer.refusal.unwrap_or_default();
    w.extend([number, first, second, answer.cleared as u32]);
    let plan = answer.plan.clone().unwrap_or_default();
    w.extend([plan.l_rows.len() as u32, plan.numbers as u32, plan.products as u32, (plan.products >> 32) as u32]);
    w.push(plan.l_starts.len() as u32);
    assert_eq!(w.len(), HEAD);
    for slice in inputs.into_iter().chain([&plan.order, &plan.parents, &plan.l_starts, &plan.l_rows]) {
        w.extend(slice);
    }
    w
}

/// The list and its table.
pub fn list() -> (Vec<u8>, String) {
    let mut bytes: Vec<u8> = vec![];
    let mut counts: BTreeMap<(usize, u32), usize> = BTreeMap::new();
    let mut most = (0, 0, 0);
    for case in &cases() {
        let answer = run(case);
        let number = answer.refusal.map_or(0, |r| r.0);
        *counts.entry((case.kind, number)).or_default() += 1;
        if let Some(plan) = &answer.plan {
            most = most.max((plan.order.len(), case.tables.rows.len(), plan.l_rows.len()));
        }
        bytes.extend(words(case, &answer).iter().flat_map(|w| w.to_le_bytes()));
    }
    bytes.extend(0u32.to_le_bytes());

    let numbers = [0, 1, 2, 3, 4, 5, 6, 7, 8, 9, 10, 11];
    let mut text = table("crates/plans/stdin", &KINDS, &numbers, &counts);
    let (blocks, stored, l_rows) = most;
    writeln!(text, "\nThe greatest plan has {blocks} blocks, {stored} stored blocks of A and {l_rows} of L.").unwrap();
    (bytes, text)
}
