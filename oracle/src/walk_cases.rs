//! The trees and walks to compare: those of plans, patterns that also list rows to be skipped, marks and stamps of every kind, any parents,
//! and the faults one by one and in pairs.
use crate::plan_cases::grown;
use crate::plans::{NONE, Refusal, upper};
use crate::values::Draw;
use crate::walks::{Call, Calls, Upper, run};

/// What the kinds of cases are called; the first has the number 1.
pub const KINDS: [&str; 13] = [
    "P1, P2",
    "trees of plans",
    "walks of plans",
    "rows skipped",
    "mark and stamps",
    "any parents",
    "at the limits",
    "tree: one fault",
    "tree: two faults",
    "tree: lent buffers",
    "walk: one fault",
    "walk: two faults",
    "walk: lent buffers",
];

const BY_HAND: usize = 1;
const TREES: usize = 2;
const WALKS: usize = 3;
const SKIPPED: usize = 4;
const STAMPS: usize = 5;
const PARENTS: usize = 6;
const LIMITS: usize = 7;

/// The first mark of a plan's walks: it returns to 0 after a few blocks.
const FIRST: u32 = u32::MAX - 5;

/// Two buffers for n blocks, longer by so much, each place with a mark of its own.
fn marked(n: usize, over: [i64; 2]) -> [Vec<u32>; 2] {
    let buffer = |first: u32, over: i64| (first..).take((n as i64 + over).max(0) as usize).collect();
    [buffer(3_000_000_000, over[0]), buffer(3_500_000_000, over[1])]
}

/// The tree of a pattern that is right.
fn tree(kind: usize, upper: &Upper, over: [i64; 2]) -> Calls {
    let n = upper.starts.len() - 1;
    Calls { kind, upper: upper.clone(), parents: vec![], mark: 0, lent: marked(n, over), calls: vec![Call::Tree(n as u32)] }
}

/// A walk for each block along the source's tree, from stamps of zeros.
fn walks(kind: usize, upper: &Upper, mark: u32, over: [i64; 2]) -> Calls {
    let n = upper.starts.len() - 1;
    let mut lent = marked(n, over);
    lent[0][..n].fill(0);
    let calls = (0..n as u32).map(Call::Walk).collect();
    Calls { kind, upper: upper.clone(), parents: upper.parents(), mark, lent, calls }
}

/// Document 01's P1.
fn p1() -> Upper {
    Upper::new(&[vec![], vec![0], vec![1], vec![0]])
}

/// Document 01's P2.
fn p2() -> Upper {
    Upper::new(&[vec![], vec![], vec![0, 1]])
}

/// Five blocks with branches, an empty column and rows to be skipped: those of 0 and 2 that are 3 and 2.
fn five() -> Upper {
    Upper::new(&[vec![3], vec![], vec![0, 2], vec![1], vec![2, 3]])
}

fn by_hand() -> Vec<Calls> {
    let known: [(Upper, &[u32], usize, &[u32]); 2] =
        [(p1(), &[1, 2, 3, NONE], 3, &[2, 1, 0]), (p2(), &[2, 2, NONE], 2, &[1, 0])];
    let mut all = vec![];
    for (upper, parents, j, list) in known {
        let (tree, walks) = (tree(BY_HAND, &upper, [1, 2]), walks(BY_HAND, &upper, 3, [2, 0]));
        assert_eq!(run(&tree)[0].after[0][..parents.len()], *parents);
        assert_eq!(run(&walks)[j].after[1][parents.len() - list.len()..], *list);
        all.extend([tree, walks]);
    }
    all
}

fn of_plans() -> Vec<Calls> {
    let uppers: Vec<Upper> = grown().iter().map(|tables| Upper::of(&upper(tables))).collect();
    let over = |at: usize| [(at % 3) as i64, (at % 2) as i64];
    let trees = uppers.iter().enumerate().map(|(at, u)| tree(TREES, u, over(at)));
    trees.chain(uppers.iter().enumerate().map(|(at, u)| walks(WALKS, u, FIRST, over(at)))).collect()
}

/// So many columns whose rows are drawn, one in so many, from all blocks.
fn drawn(draw: &mut Draw, n: usize, one_in: u64) -> Upper {
    let columns: Vec<Vec<u32>> = (0..n).map(|_| (0..n as u32).filter(|_| draw.below(one_in) == 0).collect()).collect();
    Upper::new(&columns)
}

fn skipped(draw: &mut Draw) -> Vec<Calls> {
    let all = |n: u32| (0..n).map(|_| (0..n).collect()).collect::<Vec<_>>();
    let none = |n: u32| (0..n).map(|j| (j..n).collect()).collect::<Vec<_>>();
    let mut uppers = vec![Upper::new(&[vec![0, 2], vec![0, 1], vec![1]]), five()];
    uppers.extend((1..=6).flat_map(|n| [Upper::new(&all(n)), Upper::new(&none(n))]));
    for turn in 0..24 {
        let n = 2 + draw.below(11) as usize;
        uppers.push(drawn(draw, n, 2 + turn % 4));
    }
    uppers.iter().flat_map(|u| [tree(SKIPPED, u, [0, 1]), walks(SKIPPED, u, 0, [1, 0])]).collect()
}

/// A mark and what the stamps hold before the walk of block j: n places, and two beyond them.
type Stamped = (u32, fn(&mut [u32], usize, usize));

const STAMPED: [Stamped; 14] = [
    (0, |s, _, _| s.fill(0)),
    (0, |s, _, _| s.fill(1)),
    (6, |s, _, _| s.fill(0)),
    (6, |s, _, _| s.fill(6)),
    // the next mark at the block itself, at the first, at the last, beyond the last
    (6, |s, _, j| s[j] = 7),
    (6, |s, _, _| s[0] = 7),
    (6, |s, n, _| s[n - 1] = 7),
    (6, |s, n, _| s[n] = 7),
    (2_999_999_999, |_, _, _| ()),
    // the last marks
    (NONE, |s, _, _| s.fill(0)),
    (NONE, |s, _, _| s.fill(1)),
    (NONE, |_, _, _| ()),
    (NONE - 1, |_, _, _| ()),
    (NONE - 1, |s, _, j| s[j] = NONE),
];

fn stamps() -> Vec<Calls> {
    let mut all = vec![];
    for upper in [p1(), p2(), five(), Upper::new(&[vec![]])] {
        let n = upper.starts.len() - 1;
        for j in 0..n {
            for (mark, stamp) in STAMPED {
                let mut c = Calls { calls: vec![Call::Walk(j as u32)], ..walks(STAMPS, &upper, mark, [2, 1]) };
                c.lent = marked(n, [2, 1]);
                stamp(&mut c.lent[0], n, j);
                all.push(c);
            }
        }
    }
    all
}

fn any_parents(draw: &mut Draw) -> Vec<Calls> {
    let mut all = vec![];
    for turn in 0..60 {
        let n = 1 + draw.below(12) as usize;
        let upper = drawn(draw, n, 1 + turn % 4);
        let greater = |draw: &mut Draw, k: usize| (k + 1 + draw.below((n - k - 1) as u64) as usize) as u32;
        let parent = |k: usize| match turn {
            _ if k + 1 == n => NONE,
            0..4 => NONE,
            4..8 => n as u32 - 1,
            8..12 => k as u32 + 1,
            _ if draw.below(4) == 0 => NONE,
            _ => greater(draw, k),
        };
        let parents: Vec<u32> = (0..n).map(parent).collect();
        let mark = [0, 5, NONE - 2, NONE][draw.below(4) as usize];
        let mut lent = marked(n, [draw.below(3) as i64, draw.below(3) as i64]);
        let held = [0, mark, mark.wrapping_add(1), mark.wrapping_add(3), 1, 9];
        for stamp in &mut lent[0] {
            *stamp = held[draw.below(6) as usize];
        }
        let calls = (0..4).map(|_| Call::Walk(draw.below(n as u64) as u32)).collect();
        all.push(Calls { kind: PARENTS, upper, parents, mark, lent, calls });
    }
    all
}

/// 4,096 blocks in a chain whose last is linked to the first too, so that its walk finds all others.
fn limits() -> [Calls; 2] {
    let mut columns: Vec<Vec<u32>> = (0..4096).map(|j: u32| j.checked_sub(1).into_iter().collect()).collect();
    columns[4095].insert(0, 0);
    let upper = Upper::new(&columns);
    let walk = Calls { calls: vec![Call::Walk(4095)], ..walks(LIMITS, &upper, 9, [0, 0]) };
    assert_eq!(run(&walk)[0].told, (0, 10, 1));
    [tree(LIMITS, &upper, [0, 0]), walk]
}

/// A call to be spoilt: the tree of n blocks, or the walk for block j, with buffers that are longer than the pattern's blocks by so much.
struct Asked {
    n: u32,
    upper: Upper,
    parents: Vec<u32>,
    j: u32,
    over: [i64; 2],
}

/// What is told of it, and what is done to the call.
type Fault = (Refusal, fn(&mut Asked));

/// The faults of a pattern of five blocks and six rows.
const UPPER_FAULTS: [Fault; 23] = [
    // too short, also where there is none at all; not beginning at 0; falling; not ending at the row count; too long
    ((3, 5, 0), |a| a.upper.starts.truncate(5)),
    ((3, 0, 0), |a| a.upper.starts.clear()),
    ((3, 0, 0), |a| a.upper.starts[0] = 1),
    ((3, 2, 0), |a| a.upper.starts[2] = 0),
    ((3, 3, 0), |a| a.upper.starts[2] = 4),
    ((3, 4, 0), |a| a.upper.starts[3] = NONE),
    ((3, 5, 0), |a| a.upper.starts[4] = 7),
    ((3, 5, 0), |a| a.upper.starts[5] = 5),
    ((3, 5, 0), |a| a.upper.starts[5] = 7),
    ((3, 5, 0), |a| a.upper.starts[5] = NONE),
    ((3, 5, 0), |a| a.upper.rows.truncate(5)),
    ((3, 5, 0), |a| a.upper.rows.push(4)),
    ((3, 6, 0), |a| a.upper.starts.push(6)),
    ((3, 6, 0), |a| a.upper.starts.extend([3, 6])),
    ((3, 2, 0), |a| a.upper.starts = vec![0, 2, 1, 0, 9]),
    // past the last block, also in a row that would be skipped; of two the first
    ((5, 5, 0), |a| a.upper.rows[5] = 5),
    ((5, 0, 0), |a| a.upper.rows[0] = 5),
    ((5, 2, 0), |a| a.upper.rows[2] = NONE),
    ((5, 1, 0), |a| (a.upper.rows[1], a.upper.rows[3]) = (6, 5)),
    // the same twice, falling; among rows that are skipped
    ((6, 2, 0), |a| a.upper.rows[2] = 0),
    ((6, 5, 0), |a| a.upper.rows[5] = 2),
    ((6, 5, 0), |a| a.upper.rows[5] = 0),
    ((6, 2, 0), |a| (a.upper.rows[1], a.upper.rows[2], a.upper.rows[5]) = (4, 3, 1)),
];

const TREE_FAULTS: [Fault; 7] = [
    ((1, 0, 0), |a| a.n = 4097),
    ((1, 0, 0), |a| a.n = NONE),
    ((1, 0, 0), |a| (a.n, a.upper) = (4097, Upper::new(&vec![vec![]; 4097]))),
    ((3, 0, 0), |a| a.n = 0),
    ((3, 4, 0), |a| a.n = 4),
    ((3, 6, 0), |a| a.n = 6),
    ((3, 6, 0), |a| a.n = 4096),
];

const WALK_FAULTS: [Fault; 15] = [
    ((1, 0, 0), |a| a.parents.resize(4097, NONE)),
    ((3, 0, 0), |a| a.parents.clear()),
    ((3, 4, 0), |a| a.parents.truncate(4)),
    ((3, 6, 0), |a| a.parents.push(NONE)),
    // the block itself, a lesser one, past the last; of two the first
    ((5, 0, 1), |a| a.parents[0] = 0),
    ((5, 4, 1), |a| a.parents[4] = 4),
    ((5, 2, 1), |a| a.parents[2] = 1),
    ((5, 4, 1), |a| a.parents[4] = 0),
    ((5, 1, 1), |a| a.parents[1] = 5),
    ((5, 3, 1), |a| a.parents[3] = 6),
    ((5, 0, 1), |a| a.parents[0] = NONE - 1),
    ((5, 1, 1), |a| (a.parents[1], a.parents[3]) = (5, 3)),
    ((12, 0, 0), |a| a.j = 5),
    ((12, 0, 0), |a| a.j = 6),
    ((12, 0, 0), |a| a.j = NONE),
];

/// The faults of a call on no blocks.
const NONE_FAULTS: [Fault; 4] = [
    ((3, 0, 0), |a| a.upper.starts.clear()),
    ((3, 0, 0), |a| a.upper.starts[0] = 1),
    ((3, 1, 0), |a| a.upper.starts.push(0)),
    ((3, 0, 0), |a| a.upper.rows.push(0)),
];

const TREE_NONE: [Fault; 1] = [((3, 1, 0), |a| a.n = 1)];

const WALK_NONE: [Fault; 4] = [
    ((3, 1, 0), |a| a.parents.push(NONE)),
    ((12, 0, 0), |a| a.j = 0),
    ((12, 0, 0), |a| a.j = 3),
    ((12, 0, 0), |a| a.j = NONE),
];

/// One fault for each number and each table or buffer, in the order in which they are told; any of them go together.
const TREE_PAIRS: [Fault; 6] = [
    ((1, 0, 0), |a| a.n = 4097),
    ((3, 2, 0), |a| a.upper.starts[2] = 0),
    ((5, 5, 0), |a| a.upper.rows[5] = 5),
    ((6, 2, 0), |a| a.upper.rows[2] = 0),
    ((11, 0, 5), |a| a.over[0] = -1),
    ((11, 1, 5), |a| a.over[1] = -2),
];

const WALK_PAIRS: [Fault; 8] = [
    ((1, 0, 0), |a| a.parents.resize(4097, NONE)),
    TREE_PAIRS[1],
    TREE_PAIRS[2],
    ((5, 2, 1), |a| a.parents[2] = 1),
    TREE_PAIRS[3],
    TREE_PAIRS[4],
    TREE_PAIRS[5],
    ((12, 0, 0), |a| a.j = 5),
];

/// The faults of one of the two calls.
struct Faults {
    is_tree: bool,
    /// The kind of one fault; two faults and lent buffers follow it.
    kind: usize,
    own: &'static [Fault],
    none: &'static [Fault],
    pairs: &'static [Fault],
}

const OF_TREES: Faults = Faults { is_tree: true, kind: 8, own: &TREE_FAULTS, none: &TREE_NONE, pairs: &TREE_PAIRS };
const OF_WALKS: Faults = Faults { is_tree: false, kind: 11, own: &WALK_FAULTS, none: &WALK_NONE, pairs: &WALK_PAIRS };

impl Faults {
    /// The call on a pattern that is right, for its last block, with these faults: it must be refused by the first of them, or be
    /// accepted where there is none.
    fn call(&self, kind: usize, upper: Upper, over: [i64; 2], faults: &[Fault]) -> Calls {
        let parents = upper.parents();
        let blocks = parents.len();
        let mut a = Asked { n: blocks as u32, upper, parents, j: blocks.saturating_sub(1) as u32, over };
        for (_, fault) in faults {
            fault(&mut a);
        }
        let (parents, call) = if self.is_tree { (vec![], Call::Tree(a.n)) } else { (a.parents, Call::Walk(a.j)) };
        let c = Calls { kind, upper: a.upper, parents, mark: 7, lent: marked(blocks, a.over), calls: vec![call] };
        let told = run(&c)[0].told;
        assert_eq!(Some(told).filter(|t| t.0 != 0), faults.first().map(|f| f.0));
        c
    }

    fn one(&self) -> Vec<Calls> {
        let call = |upper: Upper, faults: &[Fault]| self.call(self.kind, upper, [2, 3], faults);
        let mut all = vec![call(five(), &[])];
        all.extend(UPPER_FAULTS.iter().chain(self.own).map(|&f| call(five(), &[f])));
        all.extend(NONE_FAULTS.iter().chain(self.none).map(|&f| call(Upper::new(&[]), &[f])));
        all
    }

    /// Every two of the list, and all from each on. With a table of 4,097 parents, which is long, the next fault and the last.
    fn two(&self) -> Vec<Calls> {
        let call = |faults: &[Fault]| self.call(self.kind + 1, five(), [2, 3], faults);
        let last = self.pairs.len() - 1;
        let mut all = vec![];
        for a in 0..last {
            let others = (a + 1..=last).filter(|&b| self.is_tree || a > 0 || b == 1 || b == last);
            all.extend(others.map(|b| call(&[self.pairs[a], self.pairs[b]])));
            if a + 1 < last {
                all.push(call(&self.pairs[a..]));
            }
        }
        all
    }

    /// Buffers at their need, longer and shorter; no blocks need none.
    fn lent(&self) -> Vec<Calls> {
        let short: [Fault; 2] = [((11, 0, 5), |_| ()), ((11, 1, 5), |_| ())];
        let mut all = vec![];
        for over in [[0, 0], [7, 0], [0, 7], [-1, 0], [0, -1], [-1, -1], [-5, 2], [2, -5], [-5, -5]] {
            let right = over.iter().position(|&by| by < 0).map(|b| short[b]);
            all.push(self.call(self.kind + 2, five(), over, right.as_slice()));
            let none = if self.is_tree { &[] } else { &self.none[1..2] };
            all.push(self.call(self.kind + 2, Upper::new(&[]), over, none));
        }
        all
    }
}

/// A walk that is refused leaves all to the next as the one before it did.
fn after_a_refusal() -> Calls {
    let calls = [4, 5, 3, NONE, 4].map(Call::Walk).to_vec();
    Calls { calls, ..walks(OF_WALKS.kind, &five(), FIRST, [0, 0]) }
}

pub fn cases() -> Vec<Calls> {
    let mut draw = Draw(0x7472656573);
    let mut all = by_hand();
    all.extend(of_plans());
    all.extend(skipped(&mut draw));
    all.extend(stamps());
    all.extend(any_parents(&mut draw));
    for of in [OF_TREES, OF_WALKS] {
        all.extend(of.one());
        all.extend(of.two());
        all.extend(of.lent());
    }
    all.push(after_a_refusal());
    all.extend(limits());
    all
}
