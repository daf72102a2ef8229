//! The list of trees and walks as words, and its table.
use std::{collections::BTreeMap, fmt::Write};

use crate::table::table;
use crate::walk_cases::{KINDS, cases};
use crate::walks::{Answer, Call, Calls, run};

fn words(c: &Calls, answers: &[Answer]) -> Vec<u32> {
    let tables = [&c.upper.starts, &c.upper.rows, &c.parents, &c.lent[0], &c.lent[1]];
    let mut w = vec![c.kind as u32, c.calls.len() as u32];
    w.extend(tables.map(|t| t.len() as u32));
    w.extend(tables.into_iter().flatten());
    for (call, answer) in c.calls.iter().zip(answers) {
        w.extend(match call {
            Call::Tree(n) => [1, *n, 0],
            Call::Walk(j) => [2, *j, answer.mark],
        });
        let (number, first, second) = answer.told;
        w.extend([number, first, second]);
        w.extend(answer.after.iter().flatten());
    }
    w
}

/// The list and its table, which counts calls.
pub fn list() -> (Vec<u8>, String) {
    let mut bytes: Vec<u8> = vec![];
    let mut counts: BTreeMap<(usize, u32), usize> = BTreeMap::new();
    let mut accepted = [0; 2];
    for c in &cases() {
        let answers = run(c);
        for answer in &answers {
            let number = answer.told.0;
            *counts.entry((c.kind, number)).or_default() += 1;
            if number == 0 {
                accepted[answer.source as usize] += 1;
            }
        }
        bytes.extend(words(c, &answers).iter().flat_map(|w| w.to_le_bytes()));
    }
    bytes.extend(0u32.to_le_bytes());

    let numbers = [0, 1, 3, 5, 6, 11, 12];
    let mut text = table("crates/trees/stdin", &KINDS, &numbers, &counts);
    let [rule, source] = accepted;
    writeln!(
        text,
        "\nOf the accepted, {source} have the source's parents or list, and {rule} walk along other parents than the source's tree has."
    )
    .unwrap();
    (bytes, text)
}
