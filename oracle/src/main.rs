//! Runs the source on every case and writes the five lists with their tables: `answers LIST TABLE TREES TABLE PLANS TABLE FACTORS TABLE
//! SHEETS TABLE`. `answers --drawn SEED COUNT LIST` writes a list of drawn sheets.
mod cases;
mod factor_cases;
mod factor_list;
mod factors;
mod plan_cases;
mod plan_list;
mod plans;
mod run;
mod sheet_cases;
mod sheet_list;
mod sheets;
mod table;
mod values;
mod walk_cases;
mod walk_list;
mod walks;

use std::{collections::BTreeMap, fmt::Write, process::exit};

use run::{Answer, Case, Fallbacks, OPS, bits};

const MOST_WORDS: usize = 8_000;

fn words(case: &Case, answer: &Answer) -> Vec<u64> {
    let mut w = vec![case.op as u64];
    w.extend((0..3).map(|i| case.sizes.get(i).copied().unwrap_or(0)));
    w.push(if OPS[case.op - 1].tolerance { bits(case.tolerance) } else { 0 });
    w.push(case.slices.len() as u64);
    for slice in &case.slices {
        w.push(slice.len() as u64);
        w.extend(slice.iter().map(|&x| bits(x)));
    }
    w.extend([answer.number, answer.indices.len() as u64]);
    w.extend(&answer.indices);
    w.push(answer.floats.len() as u64);
    w.extend(answer.floats.iter().map(|&x| bits(x)));
    for (after, before) in answer.after.iter().zip(&case.slices) {
        assert_eq!(after.len(), before.len());
        w.extend(after.iter().map(|&x| bits(x)));
    }
    w.insert(0, w.len() as u64);
    assert!(w.len() <= MOST_WORDS);
    w
}

fn main() {
    if sophus_solver::debug_assertions() || cfg!(debug_assertions) {
        eprintln!("the oracle is a release build: debug assertions read the diagonal of L");
        exit(1);
    }
    let to: Vec<String> = std::env::args().skip(1).collect();
    if let [drawn, seed, count, list] = &to[..] {
        let (Ok(seed), Ok(count), "--drawn") = (seed.parse(), count.parse(), drawn.as_str()) else {
            eprintln!("answers --drawn SEED COUNT LIST");
            exit(2);
        };
        std::fs::write(list, sheet_list::drawn_list(seed, count)).expect("the list of drawn sheets is written");
        return;
    }
    let [list, table, trees, trees_table, plans, plans_table, factors, factors_table, sheets, sheets_table] = &to[..] else {
        eprintln!("answers LIST TABLE TREES TABLE PLANS TABLE FACTORS TABLE SHEETS TABLE");
        exit(2);
    };
    let mut bytes: Vec<u8> = vec![];
    let mut counts: BTreeMap<(usize, u64), usize> = BTreeMap::new();
    let mut fallbacks = Fallbacks::default();
    for case in &cases::cases().all {
        let answer = run::run(case, &mut fallbacks);
        *counts.entry((case.op, answer.number)).or_default() += 1;
        bytes.extend(words(case, &answer).iter().flat_map(|w| w.to_le_bytes()));
    }
    bytes.extend(0u64.to_le_bytes());

    let numbers = [0, 2, 10, 12, 13, 14];
    assert!(counts.keys().all(|k| numbers.contains(&k.1)));
    let mut text = String::from("# Cases of crates/vectors/stdin\n\nWritten by `oracle/build`.\n\n");
    text += "| op | function | accepted | 2 | 10 | 12 | 13 | 14 | all |\n|--:|---|--:|--:|--:|--:|--:|--:|--:|\n";
    let mut row = |op: String, name: &str, wanted: &dyn Fn(usize) -> bool| {
        let count = |number: Option<u64>| -> usize {
            counts.iter().filter(|(k, _)| wanted(k.0) && number.is_none_or(|n| n == k.1)).map(|(_, c)| c).sum()
        };
        write!(text, "| {op} | {name} |").unwrap();
        for number in numbers {
            write!(text, " {} |", count(Some(number))).unwrap();
        }
        writeln!(text, " {} |", count(None)).unwrap();
    };
    for (at, op) in OPS.iter().enumerate() {
        row((at + 1).to_string(), op.name, &|o| o == at + 1);
    }
    row(String::new(), "all", &|_| true);
    writeln!(
        text,
        "\nWhere the answer is 14, the source's Bunch-Kaufman factored {} blocks, refused {} and panicked on {}.",
        fallbacks.solved, fallbacks.failed, fallbacks.panicked
    )
    .unwrap();
    std::fs::write(list, bytes).expect("the list is written");
    std::fs::write(table, text).expect("the table is written");
    let (bytes, text) = walk_list::list();
    std::fs::write(trees, bytes).expect("the list of trees is written");
    std::fs::write(trees_table, text).expect("its table is written");
    let (bytes, text) = plan_list::list();
    std::fs::write(plans, bytes).expect("the list of plans is written");
    std::fs::write(plans_table, text).expect("its table is written");
    let (bytes, text) = factor_list::list();
    std::fs::write(factors, bytes).expect("the list of factors is written");
    std::fs::write(factors_table, text).expect("its table is written");
    let (bytes, text) = sheet_list::list();
    std::fs::write(sheets, bytes).expect("the list of sheets is written");
    std::fs::write(sheets_table, text).expect("its table is written");
}
