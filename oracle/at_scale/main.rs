//! Runs the proved library beside the source's text on drawn systems, small ones and large ones: every call's outcome with what it
//! carries, and every lent place before and after. `scale SMALL LARGE` says how many of each; it ends with status 1 where anything differs.
mod draw;
mod places;
mod solves;

use bench::calls::{self, Factor, FactorLent, PlanLent, SolveLent};
use bench::factors::{self, Fallbacks, Night, Worked, filled, offsets, refused_before, short, source_factor};
use bench::plans::{self, Plan, Tables, matrix, plan_of, refused};
use draw::Drawer;
use nalgebra::DVector;
use places::{After, Tally};
use solves::{Held, Told};
use sophus_solver::{
    IsFactor,
    ldlt::block_sparse_ldlt::BlockSparseLdltFactor,
    matrix::block_sparse::BlockSparseSymmetricMatrix,
};

const SEED: u64 = 0x7363616C65;
/// A factorization's buffers with the cache, which is the last of them.
const CACHED: usize = factors::BUFFERS + 1;
/// Up to so many blocks the source's steps are gone through once more for each system, and harmless damage is worked through.
const SMALL: usize = 100;

/// What the source makes of a system.
struct Known {
    plan: Plan,
    worked: Worked,
    factor: Option<BlockSparseLdltFactor>,
}

/// The source has no answer for no blocks; document 01's is an empty factor.
fn known(night: &Night, fallbacks: &mut Fallbacks) -> Known {
    let t = &night.tables;
    if t.dims.is_empty() {
        return Known { plan: plan_of(&matrix(t), t), worked: Worked::Accepted(Default::default()), factor: None };
    }
    let a_lower = BlockSparseSymmetricMatrix { lower: filled(night) };
    let plan = plan_of(&a_lower.lower, t);
    let (worked, factor) = source_factor(&a_lower, night, &plan, t.dims.len() <= SMALL, fallbacks);
    Known { plan, worked, factor }
}

fn lengths<const N: usize>(needs: &[usize; N], over: &[i64; N]) -> [usize; N] {
    std::array::from_fn(|b| (needs[b] as i64 + over[b]).max(0) as usize)
}

struct Runs {
    drawer: Drawer,
    tally: Tally,
    fallbacks: Fallbacks,
}

impl Runs {
    fn told(&mut self, call: &'static str, got: Told, right: Told) {
        self.tally.outcome(call, got);
        if got != right {
            self.tally.fault(&format!("{call}: told {got:?}, to be told {right:?}"));
        }
    }

    // ---- the plan

    /// A plan of any tables; `plan` is the source's, where it is known already.
    fn plan(&mut self, t: &Tables, over: &[i64; plans::BUFFERS], plan: Option<&Plan>) {
        let refusal = refused(t, None);
        let made = (refusal.is_none() && plan.is_none()).then(|| plans::planned(t));
        let plan = if refusal.is_none() { plan.or(made.as_ref()) } else { None };
        let needs = plans::needs(t, plan.map_or(0, |p| p.l_rows.len()));
        let lengths = lengths(&needs, over);
        let mut lent = PlanLent::new(&lengths);
        self.tally.mark(&mut lent.outputs);
        self.tally.mark(&mut lent.scratch);
        let before = lent.clone();
        let mut told = [u64::MAX; 3];
        let number = calls::plan(t, &mut lent, &mut told);

        let short = |b: &usize| lengths[*b] < needs[*b];
        let known = (0..plans::BUFFERS).filter(|&b| b != plans::L_ROWS).find(short);
        let which = known.or(Some(plans::L_ROWS).filter(short));
        let right = match (refusal, which, plan) {
            (Some((number, place, _)), _, _) => (number, [place as u64, 0, 0]),
            (None, Some(b), _) => (11, [b as u64, needs[b] as u64, 0]),
            (None, None, Some(p)) => (0, [p.l_rows.len() as u64, p.numbers as u64, p.products]),
            _ => unreachable!(),
        };
        self.told("plan", (number, told), right);
        let accepted = plan.filter(|_| right.0 == 0);
        let outputs = accepted.map(|p| [&p.order, &p.parents, &p.l_starts, &p.l_rows]);
        for b in 0..4 {
            let after = outputs.map_or(After::Same, |o| After::Filled(o[b]));
            self.tally.held("plan, outputs", &before.outputs[b], &lent.outputs[b], after);
        }
        let cleared = right.0 == 0 || right.0 == 11 && known.is_none();
        for b in 0..8 {
            let after = if cleared { After::Zeros(needs[4 + b]) } else { After::Same };
            self.tally.held("plan, scratch", &before.scratch[b], &lent.scratch[b], after);
        }
    }

    // ---- the factorization

    /// A factorization of any night, without a cache and with one. Gives the buffers as the first call left them.
    fn factorize(&mut self, night: &Night, over: &[i64; CACHED], known: Option<&Known>) -> FactorLent {
        let refusal = refused_before(night);
        let made = (refusal.is_none() && known.is_none()).then(|| crate::known(night, &mut self.fallbacks));
        let known = if refusal.is_none() { known.or(made.as_ref()) } else { None };
        let [lent, _] = ["factorize", "with cache"].map(|call| self.factorize_by(call, night, over, refusal, known));
        lent
    }

    fn factorize_by(
        &mut self,
        call: &'static str,
        night: &Night,
        over: &[i64; CACHED],
        refusal: Option<(u32, u32, u32)>,
        known: Option<&Known>,
    ) -> FactorLent {
        let t = &night.tables;
        let (stored, numbers) = known.map_or((0, 0), |k| (k.plan.l_rows.len(), k.plan.numbers));
        let needs = factors::needs(t, stored, numbers);
        let lengths = lengths(&needs, over.first_chunk().unwrap());
        // the cache's need is L's numbers, but no more than 16 for each entry and number that is handed in, and 16
        let handed_in = t.dims.len() + t.starts.len() + t.rows.len() + night.values.len() + t.perm.len() + t.late.len();
        let cache_need = numbers.min(16 * (1 + handed_in));
        let cache_length = (cache_need as i64 + over[factors::BUFFERS]).max(0) as usize;
        let cached = call == "with cache";
        let mut lent = FactorLent::new(&lengths);
        let mut cache = [vec![0.0; if cached { cache_length } else { 0 }]];
        self.tally.mark(&mut lent.plan);
        self.tally.mark(&mut lent.numbers);
        self.tally.mark(&mut lent.scratch);
        self.tally.mark(&mut cache);
        let (before, cache_before) = (lent.clone(), cache[0].clone());
        let (mut told, mut value) = ([u64::MAX; 3], [f64::NAN]);
        let handed = cached.then_some(cache[0].as_mut_slice());
        let number = calls::factorize(t, &night.values, night.tolerance, &mut lent, handed, &mut told, &mut value);

        // the cache is tested after L's values and before L's rows
        let short = match short(&lengths, &needs).map(|(b, shown)| (b, needs[b], shown)) {
            None | Some((3, ..)) if cached && cache_length < cache_need => Some((factors::BUFFERS, cache_need, true)),
            other => other,
        };
        let (right, float) = match (refusal, short, known) {
            (Some((number, place, _)), _, _) => ((number, [place as u64, 0, 0]), 0.0),
            (None, Some((b, need, _)), _) => ((11, [b as u64, need as u64, 0]), 0.0),
            (None, None, Some(k)) => match k.worked {
                Worked::Accepted(_) => ((0, [stored as u64, numbers as u64, k.plan.products]), 0.0),
                Worked::NotFinite { block, place, pivot } => ((13, [block as u64, place as u64, 0]), pivot),
                Worked::Poor { block, condition } => ((14, [block as u64, 0, 0]), condition),
            },
            _ => unreachable!(),
        };
        self.told(call, (number, told), right);
        if bench::run::bits(value[0]) != bench::run::bits(float) {
            self.tally.fault(&format!("{call}: carries {:?}, to carry {float:?}", value[0]));
        }
        // the plan's tables are written in full after 13 and 14 too
        let written = known.filter(|_| [0, 13, 14].contains(&right.0));
        let offsets = written.map_or(vec![], |k| offsets(t, &k.plan));
        let outputs = written.map(|k| [&k.plan.order, &k.plan.parents, &k.plan.l_starts, &k.plan.l_rows, &offsets]);
        for b in 0..5 {
            let after = outputs.map_or(After::Same, |o| After::Filled(o[b]));
            self.tally.held(&format!("{call}, tables"), &before.plan[b], &lent.plan[b], after);
        }
        for b in 0..3 {
            let after = match written.map(|k| &k.worked) {
                None => After::Same,
                Some(Worked::Accepted(f)) => After::Filled([&f.l_values, &f.diag, &f.d][b]),
                Some(_) => After::Worthless(needs[5 + b]),
            };
            self.tally.held(&format!("{call}, numbers"), &before.numbers[b], &lent.numbers[b], after);
        }
        let cleared = written.is_some() || refusal.is_none() && short.is_some_and(|s| s.2);
        let after = |need: usize| if cleared { After::Zeros(need) } else { After::Same };
        self.tally.held(&format!("{call}, column"), &before.numbers[3], &lent.numbers[3], after(needs[8]));
        if cached {
            // one that is short itself ends as zeros in full
            self.tally.held("with cache, cache", &cache_before, &cache[0], after(cache_need.min(cache_length)));
        }
        for b in 0..12 {
            let after = if cleared { After::Zeros(needs[9 + b]) } else { After::Same };
            self.tally.held(&format!("{call}, scratch"), &before.scratch[b], &lent.scratch[b], after);
        }
        lent
    }

    // ---- the solve

    /// A solve of any tables with any factor.
    fn solve(
        &mut self,
        t: &Tables,
        held: &Held,
        numbers: [&[f64]; 3],
        right: &[f64],
        over: &[i64; solves::BUFFERS],
        plan: Option<&Plan>,
    ) {
        let needs = solves::needs(t);
        let lengths = lengths(&needs, over);
        let mut lent = SolveLent::new(&lengths);
        let mut y = [lent.y];
        self.tally.mark(&mut y);
        [lent.y] = y;
        self.tally.mark(&mut lent.words);
        let before = lent.clone();
        let mut x = right.to_vec();
        let factor = Factor { plan: [&held.order, &held.parents, &held.l_starts, &held.l_rows, &held.l_offsets], numbers };
        let mut told = [u64::MAX; 3];
        let number = calls::solve_inplace(t, factor, &mut x, &mut lent, &mut told);

        let refusal = solves::refusal(t, held, right.len(), &lengths, || plan.cloned().unwrap_or_else(|| plans::planned(t)));
        self.told("solve", (number, told), refusal.unwrap_or((0, [0; 3])));
        let accepted = refusal.is_none();
        let solved = if accepted { solves::solved(t, held, numbers, right) } else { vec![] };
        let after = if accepted { After::Filled(&solved) } else { After::Same };
        self.tally.held("solve, x", right, &x, after);
        let after = |need: usize| if accepted { After::Zeros(need) } else { After::Same };
        self.tally.held("solve, y", &before.y, &lent.y, after(needs[0]));
        for b in 0..3 {
            let after = if accepted { After::Zeros(needs[1 + b]) } else { After::Same };
            self.tally.held("solve, scratch", &before.words[b], &lent.words[b], after);
        }
    }

    // ---- a system

    /// The calls on a system that no table refuses, then so many damaged calls of each kind.
    fn system(&mut self, night: &Night, damaged: usize) {
        self.tally.systems += 1;
        let t = &night.tables;
        assert!(refused_before(night).is_none(), "a drawn system is refused");
        let known = known(night, &mut self.fallbacks);
        let over = self.drawer.over(false);
        self.plan(t, &over, Some(&known.plan));
        let over = self.drawer.over(false);
        let lent = self.factorize(night, &over, Some(&known));

        // the factor as the call left it, each list cut to what the answer fills
        let needs = factors::needs(t, known.plan.l_rows.len(), known.plan.numbers);
        let cut = |b: usize| lent.plan[b][..needs[b]].to_vec();
        let held = Held {
            order: cut(0),
            parents: cut(1),
            l_starts: cut(2),
            l_rows: cut(3),
            l_offsets: cut(4),
            numbers: [needs[5], needs[6], needs[7]],
        };
        let numbers: [&[f64]; 3] = std::array::from_fn(|b| &lent.numbers[b][..needs[5 + b]]);
        let right = self.drawer.right(solves::scalars(t));
        if let Some(factor) = &known.factor {
            let mut x = DVector::from_column_slice(&right);
            assert!(factor.solve_inplace(&mut x).is_ok());
            let solved = solves::solved(t, &held, numbers, &right);
            self.tally.held("the source's solve", &right, x.as_slice(), After::Filled(&solved));
        }
        let over = self.drawer.over(false);
        self.solve(t, &held, numbers, &right, &over, Some(&known.plan));

        for _ in 0..damaged {
            self.damaged_plan(t, &known);
            self.damaged_factorize(night, &known);
            self.damaged_solve(t, &known, &held, numbers, &right);
        }
    }

    /// A short buffer, or damaged tables, or both.
    fn damaged_plan(&mut self, t: &Tables, known: &Known) {
        let what = self.drawer.below(4);
        let over = self.drawer.over(what != 1);
        if what < 2 {
            self.plan(t, &over, Some(&known.plan));
            return;
        }
        let mut damaged = t.clone();
        self.drawer.damage_tables(&mut damaged);
        if self.drawer.below(3) == 0 {
            self.drawer.damage_tables(&mut damaged);
        }
        // of a large system harmless damage would ask for a new plan
        if t.dims.len() <= SMALL || refused(&damaged, None).is_some() {
            self.plan(&damaged, &over, None);
        }
    }

    fn damaged_factorize(&mut self, night: &Night, known: &Known) {
        let what = self.drawer.below(4);
        let over = self.drawer.over(what != 1);
        if what < 2 {
            self.factorize(night, &over, Some(known));
            return;
        }
        let mut damaged = night.clone();
        self.drawer.damage_night(&mut damaged);
        if self.drawer.below(3) == 0 {
            self.drawer.damage_night(&mut damaged);
        }
        if night.tables.dims.len() <= SMALL || refused_before(&damaged).is_some() {
            self.factorize(&damaged, &over, None);
        }
    }

    fn damaged_solve(&mut self, t: &Tables, known: &Known, held: &Held, numbers: [&[f64]; 3], right: &[f64]) {
        let what = self.drawer.below(8);
        let over = self.drawer.over(what == 0);
        let (mut tables, mut factor, mut x) = (t.clone(), held.clone(), right.to_vec());
        let dims: Vec<u32> = known.plan.order.iter().map(|&old| t.dims[old as usize]).collect();
        match what {
            0 => (),
            1 => x.resize([right.len() + 1, right.len().saturating_sub(1), 0][self.drawer.below(3)], 1.0),
            2 | 3 => {
                self.drawer.damage_tables(&mut tables);
                if tables.rows.len() > 65536 {
                    // with a factor of as many blocks that stores nothing
                    factor.l_starts = vec![0; tables.dims.len() + 1];
                    factor.l_rows.clear();
                }
            }
            // another system of the same shape
            4 if t.perm.len() > 1 => {
                let (a, b) = (self.drawer.below(t.perm.len()), self.drawer.below(t.perm.len()));
                tables.perm.swap(a, b);
            }
            _ => self.drawer.damage_factor(&mut factor, &dims),
        }
        if self.drawer.below(4) == 0 {
            self.drawer.damage_factor(&mut factor, &dims);
        }
        // the numbers that such a factor says it has
        let resized: [Vec<f64>; 3] = std::array::from_fn(|b| {
            let mut list = numbers[b].to_vec();
            list.resize(factor.numbers[b], 1.0);
            list
        });
        let plan = Some(&known.plan).filter(|_| same(&tables, t));
        if plan.is_none() && t.dims.len() > SMALL && refused(&tables, None).is_none() {
            return;
        }
        self.solve(&tables, &factor, [&resized[0], &resized[1], &resized[2]], &x, &over, plan);
    }
}

fn same(a: &Tables, b: &Tables) -> bool {
    a.dims == b.dims && a.starts == b.starts && a.rows == b.rows && a.perm == b.perm && a.late == b.late
}

fn thousands(count: usize) -> String {
    let digits = count.to_string();
    let mut text = String::new();
    for (k, digit) in digits.chars().enumerate() {
        if k > 0 && (digits.len() - k) % 3 == 0 {
            text.push(',');
        }
        text.push(digit);
    }
    text
}

/// The figures as tables.
fn print(tally: &Tally, fallbacks: &Fallbacks, counts: [usize; 2], most: [usize; 2]) {
    const CALLS: [&str; 4] = ["plan", "factorize", "with cache", "solve"];
    println!("| outcome | {} | of it large |\n|---{}|", CALLS.join(" | of it large | "), "|--:|--:".repeat(CALLS.len()));
    let row = |name: String, wanted: &dyn Fn(u32) -> bool| {
        let mut cells = vec![name];
        for call in CALLS {
            for sizes in [&[false, true][..], &[true]] {
                let of = |k: &&(&str, bool, u32)| k.0 == call && sizes.contains(&k.1) && wanted(k.2);
                let sum: usize = tally.outcomes.keys().filter(of).map(|k| tally.outcomes[k]).sum();
                cells.push(thousands(sum));
            }
        }
        println!("| {} |", cells.join(" | "));
    };
    row("accepted".into(), &|n| n == 0);
    for number in 1..=14 {
        row(format!("refused {number}"), &|n| n == number);
    }
    row("all calls".into(), &|_| true);
    println!("\n| what 12 told of | solves |\n|---|--:|");
    for (key, name) in [
        ((5, 0), "the order is another"),
        ((6, 0), "parents of another length"),
        ((8, 0), "a column lacks a row"),
        ((8, 1), "a column has a row too many"),
        ((6, 2), "another parent"),
        ((9, 0), "other offsets"),
        ((11, 0), "numbers of the unit factors"),
        ((12, 0), "numbers of d"),
        ((13, 0), "numbers of the right side"),
    ] {
        println!("| {name} | {} |", thousands(tally.mismatches.get(&key).copied().unwrap_or(0)));
    }
    println!("\n| in all | |\n|---|--:|");
    println!("| systems of up to 44 blocks | {} |", thousands(counts[0]));
    println!("| systems of 1,000 to {} blocks, with up to {} stored | {} |", thousands(most[0]), thousands(most[1]), thousands(counts[1]));
    println!("| lent buffers compared before and after | {} |", thousands(tally.buffers));
    println!("| places of 32 bits in them | {} |", thousands(tally.words));
    println!("| places of 64 bits in them | {} |", thousands(tally.floats));
    println!("| places that the source's answer fills | {} |", thousands(tally.filled));
    let fell = fallbacks.solved + fallbacks.failed + fallbacks.panicked;
    println!("| nights on which the source fell back to Bunch-Kaufman | {} |", thousands(fell));
    println!("| differences | {} |", thousands(tally.wrong));
}

fn main() {
    let counts: Vec<usize> = std::env::args().skip(1).map(|a| a.parse().expect("scale SMALL LARGE")).collect();
    let [small, large] = counts[..] else { panic!("scale SMALL LARGE") };
    // a fallback that panics is caught, and told by nobody but this program
    let hook = std::panic::take_hook();
    std::panic::set_hook(Box::new(move |told| {
        if !told.location().is_some_and(|l| ["sophus_solver", "nalgebra"].iter().any(|part| l.file().contains(part))) {
            hook(told);
        }
    }));
    places::assert_seen();
    let mut runs = Runs { drawer: Drawer::new(SEED), tally: Tally::default(), fallbacks: Fallbacks::default() };
    for _ in 0..small {
        let night = runs.drawer.small();
        runs.system(&night, 2);
    }
    runs.tally.large = true;
    let mut most = [0; 2];
    for turn in 0..large {
        let night = runs.drawer.large(turn);
        most = [most[0].max(night.tables.dims.len()), most[1].max(night.tables.rows.len())];
        runs.system(&night, 6);
    }
    print(&runs.tally, &runs.fallbacks, [small, large], most);
    std::process::exit((runs.tally.wrong != 0) as i32);
}
