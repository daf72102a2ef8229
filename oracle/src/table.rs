//! The table of a list's cases: a row for each kind, a column for each number of document 01.
use std::{collections::BTreeMap, fmt::Write};

/// The head of the page on the list at `path` and its table. `counts` goes by a kind's place in `kinds`, from 1, and an answer's number;
/// the first of `numbers` is 0, accepted. Each of them must have two cases, and no other has one.
pub fn table(path: &str, kinds: &[&str], numbers: &[u32], counts: &BTreeMap<(usize, u32), usize>) -> String {
    assert!(counts.keys().all(|k| numbers.contains(&k.1)));
    let of = |n: u32| counts.iter().filter(|(k, _)| k.1 == n).map(|(_, c)| c).sum::<usize>();
    assert!(numbers.iter().all(|&n| of(n) >= 2), "a number has no two cases");
    let mut text = format!("# Cases of {path}\n\nWritten by `oracle/build`.\n\n| kind | cases | accepted |");
    for number in &numbers[1..] {
        write!(text, " {number} |").unwrap();
    }
    text += "\n|---|--:|--:|";
    text += &"--:|".repeat(numbers.len() - 1);
    text += "\n";
    let mut row = |name: &str, wanted: &dyn Fn(usize) -> bool| {
        let count = |number: Option<u32>| -> usize {
            counts.iter().filter(|(k, _)| wanted(k.0) && number.is_none_or(|n| n == k.1)).map(|(_, c)| c).sum()
        };
        write!(text, "| {name} | {} |", count(None)).unwrap();
        for number in numbers {
            write!(text, " {} |", count(Some(*number))).unwrap();
        }
        text += "\n";
    };
    for (at, name) in kinds.iter().enumerate() {
        row(name, &|kind| kind == at + 1);
    }
    row("all", &|_| true);
    text
}
