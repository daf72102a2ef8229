//! The list of sheets with `fit`'s answers, and its table. A sheet and its answer: two words of 32 bits, their lengths, then their
//! bytes; 4,294,967,295 ends the list.
use std::collections::BTreeMap;

use crate::sheet_cases::{Case, KINDS, cases, drawn};
use crate::sheets::answer;
use crate::table::table;

type Counts = BTreeMap<(usize, u32), usize>;

fn listed(cases: &[Case]) -> (Vec<u8>, Counts) {
    let mut bytes: Vec<u8> = vec![];
    let mut counts = Counts::new();
    for case in cases {
        let printed = answer(&case.bytes);
        *counts.entry((case.kind, printed.number())).or_default() += 1;
        let text = printed.text();
        bytes.extend((case.bytes.len() as u32).to_le_bytes());
        bytes.extend((text.len() as u32).to_le_bytes());
        bytes.extend(&case.bytes);
        bytes.extend(text.as_bytes());
    }
    bytes.extend(u32::MAX.to_le_bytes());
    (bytes, counts)
}

const NUMBERS: [u32; 12] = [0, 2, 3, 5, 6, 8, 9, 10, 13, 14, 15, 16];

/// The list and its table.
pub fn list() -> (Vec<u8>, String) {
    let (bytes, counts) = listed(&cases());
    (bytes, table("crates/sheets/stdin", &KINDS, &NUMBERS, &counts))
}

/// A list of so many drawn sheets.
pub fn drawn_list(seed: u64, count: usize) -> Vec<u8> {
    listed(&drawn(seed, count)).0
}
