//! The plans to compare: patterns, orders and flags drawn with fixed seeds or by rule, and the faults one by one and in pairs.
use crate::plans::{BUFFERS, Call, Case, L_ROWS, Tables, run};
use crate::values::Draw;

/// What the kinds of cases are called; the first has the number 1.
pub const KINDS: [&str; 14] = [
    "random",
    "chain",
    "hub",
    "arrow",
    "dense",
    "grid",
    "no links",
    "late flags",
    "few blocks",
    "at the limits",
    "one fault",
    "two faults",
    "lent buffers",
    "check of a system",
];

const RANDOM: usize = 1;
const CHAIN: usize = 2;
const HUB: usize = 3;
const ARROW: usize = 4;
const DENSE: usize = 5;
const GRID: usize = 6;
const NO_LINKS: usize = 7;
const LATE: usize = 8;
const FEW: usize = 9;
const LIMITS: usize = 10;
const FAULT: usize = 11;
const FAULTS: usize = 12;
const LENT: usize = 13;
const SYSTEM: usize = 14;

/// Each buffer longer than its need by these, and by nothing.
const OVER: [i64; BUFFERS] = [3, 1, 2, 4, 1, 2, 3, 1, 2, 4, 3, 1];
const EXACT: [i64; BUFFERS] = [0; BUFFERS];

/// Which blocks of the diagonal are stored.
#[derive(Clone, Copy)]
pub enum Diagonal {
    All,
    Some,
    None,
}

pub struct Maker {
    pub draw: Draw,
    all: Vec<Case>,
}

impl Maker {
    pub fn new(seed: u64) -> Self {
        Self { draw: Draw(seed), all: vec![] }
    }

    fn below(&mut self, n: usize) -> usize {
        self.draw.below(n as u64) as usize
    }

    pub fn shuffled(&mut self, n: usize) -> Vec<u32> {
        let mut list: Vec<u32> = (0..n as u32).collect();
        for k in (1..n).rev() {
            let other = self.below(k + 1);
            list.swap(k, other);
        }
        list
    }

    fn dims(&mut self, n: usize) -> Vec<u32> {
        match self.below(4) {
            0 => vec![1; n],
            1 => vec![1 + self.below(16) as u32; n],
            _ => (0..n).map(|_| 1 + self.below(16) as u32).collect(),
        }
    }

    pub fn flags(&mut self, n: usize) -> Vec<u32> {
        match self.below(5) {
            0 | 1 => vec![0; n],
            2 => (0..n).map(|k| (k % 2) as u32).collect(),
            3 => (0..n).map(|_| (self.below(8) == 0) as u32).collect(),
            _ => (0..n).map(|_| self.below(2) as u32).collect(),
        }
    }

    /// The tables of links, by old numbers in any order, with the drawn diagonal.
    pub fn tables(&mut self, n: usize, links: &[(usize, usize)], diagonal: Diagonal) -> Tables {
        let mut columns: Vec<Vec<u32>> = vec![vec![]; n];
        for &(a, b) in links {
            assert!(a != b);
            columns[a.min(b)].push(a.max(b) as u32);
        }
        for (k, column) in columns.iter_mut().enumerate() {
            let stored = match diagonal {
                Diagonal::All => true,
                Diagonal::Some => self.draw.below(2) == 0,
                Diagonal::None => false,
            };
            if stored {
                column.push(k as u32);
            }
            column.sort_unstable();
            column.dedup();
        }
        let mut starts = vec![0];
        for column in &columns {
            starts.push(starts[starts.len() - 1] + column.len() as u32);
        }
        let rows = columns.concat();
        let dims = self.dims(n);
        Tables { dims, starts, rows, perm: (0..n as u32).collect(), late: vec![0; n] }
    }

    pub fn diagonal(&mut self) -> Diagonal {
        [Diagonal::All, Diagonal::All, Diagonal::Some, Diagonal::None][self.below(4)]
    }

    fn plan(&mut self, kind: usize, tables: Tables, over: [i64; BUFFERS]) {
        self.all.push(Case { kind, tables, call: Call::Plan { over } });
    }

    /// The same links as they are, in reversed order, and in a drawn one with drawn flags.
    fn three_orders(&mut self, kind: usize, n: usize, links: &[(usize, usize)]) {
        let diagonal = self.diagonal();
        let base = self.tables(n, links, diagonal);
        let mut reversed = base.clone();
        reversed.perm.reverse();
        let drawn = Tables { perm: self.shuffled(n), late: self.flags(n), ..base.clone() };
        self.plan(kind, base, OVER);
        self.plan(kind, reversed, EXACT);
        self.plan(kind, drawn, OVER);
    }

    /// So many links, drawn.
    pub fn links(&mut self, n: usize, count: usize) -> Vec<(usize, usize)> {
        let mut links = vec![];
        while n > 1 && links.len() < count {
            let (a, b) = (self.below(n), self.below(n));
            if a != b {
                links.push((a, b));
            }
        }
        links
    }

    fn random(&mut self) {
        for turn in 0..72 {
            let n = match turn % 6 {
                0 => 1 + self.below(6),
                1 | 2 => 1 + self.below(24),
                3 | 4 => 20 + self.below(60),
                _ => 100 + self.below(101),
            };
            let half_links = [1, 2, 3, 4, 6, 9][turn / 6 % 6];
            let links = self.links(n, n * half_links / 2);
            let diagonal = self.diagonal();
            let mut tables = self.tables(n, &links, diagonal);
            tables.perm = self.shuffled(n);
            tables.late = self.flags(n);
            self.plan(RANDOM, tables, if turn % 2 == 0 { OVER } else { EXACT });
        }
        let links = self.links(200, 500);
        self.three_orders(RANDOM, 200, &links);
    }

    fn shapes(&mut self) {
        for n in [1, 2, 3, 5, 8, 17, 40, 100, 200] {
            let chain: Vec<_> = (1..n).map(|k| (k - 1, k)).collect();
            self.three_orders(CHAIN, n, &chain);
        }
        for n in [1, 2, 3, 4, 5, 9, 20, 45] {
            for hub in [0, n - 1, n / 2] {
                let links: Vec<_> = (0..n).filter(|&k| k != hub).map(|k| (hub, k)).collect();
                self.three_orders(HUB, n, &links);
            }
        }
        for n in [3, 6, 12, 40, 90] {
            for tip in [0, n - 1] {
                let chain = (1..n).map(|k| (k - 1, k));
                let links: Vec<_> = chain.chain((0..n).filter(|&k| k != tip).map(|k| (tip, k))).collect();
                self.three_orders(ARROW, n, &links);
            }
        }
        for n in [1, 2, 3, 4, 7, 13, 24] {
            let links: Vec<_> = (0..n).flat_map(|a| (0..a).map(move |b| (a, b))).collect();
            self.three_orders(DENSE, n, &links);
        }
        for (width, height) in [(2, 2), (3, 4), (5, 5), (8, 7), (14, 14)] {
            let mut links = vec![];
            for y in 0..height {
                for x in 0..width {
                    let k = x + y * width;
                    if x > 0 {
                        links.push((k, k - 1));
                    }
                    if y > 0 {
                        links.push((k, k - width));
                    }
                }
            }
            self.three_orders(GRID, width * height, &links);
        }
        for n in [0, 1, 2, 7, 60] {
            for diagonal in [Diagonal::All, Diagonal::Some, Diagonal::None] {
                let base = self.tables(n, &[], diagonal);
                self.plan(NO_LINKS, base.clone(), OVER);
                let drawn = Tables { perm: self.shuffled(n), late: self.flags(n), ..base };
                self.plan(NO_LINKS, drawn, EXACT);
            }
        }
        // blocks without a link among others
        for n in [5, 30, 120] {
            let links: Vec<_> = self.links(n, n / 3);
            self.three_orders(NO_LINKS, n, &links);
        }
    }

    fn late(&mut self) {
        for n in [1, 2, 6, 25, 80] {
            let links = self.links(n, n + n / 3);
            let diagonal = self.diagonal();
            let mut base = self.tables(n, &links, diagonal);
            for order in 0..2 {
                base.perm = if order == 0 { (0..n as u32).collect() } else { self.shuffled(n) };
                let drawn: Vec<u32> = (0..n).map(|_| self.below(2) as u32).collect();
                let kinds: [Vec<u32>; 7] = [
                    vec![0; n],
                    vec![1; n],
                    drawn,
                    (0..n).map(|k| (k % 2) as u32).collect(),
                    (0..n).map(|k| (k % 2 == 0) as u32).collect(),
                    (0..n).map(|k| (k == 0) as u32).collect(),
                    (0..n).map(|k| (k == n - 1) as u32).collect(),
                ];
                for late in kinds {
                    self.plan(LATE, Tables { late, ..base.clone() }, OVER);
                }
            }
        }
    }

    /// Every pattern of three blocks in every order with every choice of flags; every pattern of four, each in one order.
    fn few(&mut self) {
        const ORDERS: [[u32; 3]; 6] = [[0, 1, 2], [0, 2, 1], [1, 0, 2], [1, 2, 0], [2, 0, 1], [2, 1, 0]];
        let subset = |pairs: &[(usize, usize)], bits: usize| -> Vec<(usize, usize)> {
            pairs.iter().enumerate().filter(|(k, _)| bits >> k & 1 == 1).map(|(_, &p)| p).collect()
        };
        for pattern in 0..8 {
            for order in ORDERS {
                for flags in 0..8u32 {
                    let diagonal = self.diagonal();
                    let base = self.tables(3, &subset(&[(1, 0), (2, 0), (2, 1)], pattern), diagonal);
                    let late = (0..3).map(|k| flags >> k & 1).collect();
                    self.plan(FEW, Tables { perm: order.to_vec(), late, ..base }, EXACT);
                }
            }
        }
        for pattern in 0..64 {
            let pairs = [(1, 0), (2, 0), (2, 1), (3, 0), (3, 1), (3, 2)];
            let base = self.tables(4, &subset(&pairs, pattern), Diagonal::All);
            let perm = self.shuffled(4);
            self.plan(FEW, Tables { perm, ..base }, OVER);
        }
    }

    /// 4,096 blocks and 65,536 stored blocks: a band of 15 in the order after the late move, with links somewhat further; the
    /// old numbers are drawn.
    pub fn limits(&mut self) -> Tables {
        let n = 4096;
        let late: Vec<u32> = (0..n / 32).flat_map(|_| [(self.below(10) == 0) as u32; 32]).collect();
        let dims: Vec<u32> = (0..n / 32).flat_map(|k| [if k == 0 { 16 } else { 1 + self.below(16) as u32 }; 32]).collect();
        let drawn = self.shuffled(n);
        let of = |flag: u32| drawn.iter().copied().filter(|&old| late[old as usize] == flag).collect::<Vec<u32>>();
        let order = [of(0), of(1)].concat();
        let mut links = std::collections::BTreeSet::new();
        for p in 0..n {
            for q in p + 1..n.min(p + 16) {
                links.insert((p, q));
            }
        }
        let stored_diagonal = 3001;
        while links.len() + stored_diagonal < 65536 {
            let p = self.below(n);
            let q = p + 16 + self.below(25);
            if q < n {
                links.insert((p, q));
            }
        }
        let mut columns: Vec<Vec<u32>> = vec![vec![]; n];
        for (p, q) in links {
            let (a, b) = (order[p], order[q]);
            columns[a.min(b) as usize].push(a.max(b));
        }
        for k in self.shuffled(n).into_iter().take(stored_diagonal) {
            columns[k as usize].push(k);
        }
        let mut starts = vec![0];
        for column in &mut columns {
            column.sort_unstable();
            starts.push(starts[starts.len() - 1] + column.len() as u32);
        }
        let rows = columns.concat();
        assert_eq!(rows.len(), 65536);
        // `drawn` has the late blocks among the others
        Tables { dims, starts, rows, perm: drawn, late }
    }

    /// 4,097 blocks without a stored one.
    pub fn many_blocks(&mut self) -> Tables {
        let n = 4097;
        let mut tables = self.tables(n, &[], Diagonal::None);
        tables.dims = vec![1; n];
        tables
    }

    /// 65,537 stored blocks: full columns of 512 blocks, and then none.
    pub fn many_stored(&mut self) -> Tables {
        let n = 512u32;
        let (mut starts, mut rows) = (vec![0], vec![]);
        for j in 0..n {
            rows.extend((j..n).take(65537 - rows.len()));
            starts.push(rows.len() as u32);
        }
        assert_eq!(rows.len(), 65537);
        Tables { dims: vec![1; 512], starts, rows, perm: (0..n).collect(), late: vec![0; 512] }
    }

    /// Five blocks, ten stored, in the order 3 1 4 0 2.
    pub fn base(&self) -> Tables {
        Tables {
            dims: vec![2, 1, 3, 16, 1],
            starts: vec![0, 3, 5, 7, 9, 10],
            rows: vec![0, 2, 4, 1, 3, 2, 4, 3, 4, 4],
            perm: vec![3, 1, 4, 0, 2],
            late: vec![0, 1, 0, 0, 1],
        }
    }

    /// The faults of a small night: number and what is done to it.
    pub fn faults() -> Vec<(u32, fn(&mut Tables))> {
        vec![
            (2, |t| t.dims[0] = 0),
            (2, |t| t.dims[3] = 17),
            (2, |t| t.dims[4] = u32::MAX),
            (2, |t| (t.dims[2], t.dims[4]) = (0, 17)),
            // too short, also where there is none at all; not beginning at 0; falling; not ending at the row count; too long
            (3, |t| t.starts.truncate(t.starts.len() - 1)),
            (3, |t| t.starts.clear()),
            (3, |t| t.starts[0] = 1),
            (3, |t| t.starts[2] = 2),
            (3, |t| t.starts[4] = 11),
            (3, |t| t.starts[5] = 9),
            (3, |t| t.starts[5] = 11),
            (3, |t| t.starts[5] = u32::MAX),
            (3, |t| t.rows.truncate(t.rows.len() - 1)),
            (3, |t| t.rows.push(4)),
            (3, |t| t.starts.push(10)),
            (3, |t| t.starts.extend([3, 10])),
            // above the diagonal, at the last block and past it
            (5, |t| t.rows[3] = 0),
            (5, |t| t.rows[9] = 5),
            (5, |t| t.rows[9] = 3),
            (5, |t| t.rows[2] = u32::MAX),
            (5, |t| (t.rows[4], t.rows[8]) = (5, 2)),
            // the same twice, falling
            (6, |t| t.rows[1] = 0),
            (6, |t| t.rows[2] = 1),
            (6, |t| t.rows[8] = 3),
            (6, |t| (t.rows[2], t.rows[4]) = (2, 1)),
            // another length, too large, twice the same
            (8, |t| t.perm.truncate(t.perm.len() - 1)),
            (8, |t| t.perm.clear()),
            (8, |t| t.perm.push(0)),
            (8, |t| t.perm.push(5)),
            (8, |t| t.perm[2] = 5),
            (8, |t| t.perm[0] = u32::MAX),
            (8, |t| t.perm[4] = 3),
            (8, |t| t.perm[1] = 3),
            (8, |t| (t.perm[2], t.perm[4]) = (3, 7)),
            // another length, neither 0 nor 1
            (9, |t| t.late.truncate(t.late.len() - 1)),
            (9, |t| t.late.clear()),
            (9, |t| t.late.push(0)),
            (9, |t| t.late.push(2)),
            (9, |t| t.late[0] = 2),
            (9, |t| t.late[4] = u32::MAX),
            (9, |t| (t.late[1], t.late[3]) = (7, 2)),
        ]
    }

    fn one_fault(&mut self) {
        let base = self.base();
        self.plan(FAULT, base.clone(), OVER);
        for (number, fault) in Self::faults() {
            let mut tables = base.clone();
            fault(&mut tables);
            self.plan(FAULT, tables, OVER);
            let told = run(&self.all[self.all.len() - 1]).refusal;
            assert_eq!(told.map(|r| r.0), Some(number));
        }
        // the greatest that pass: dimension 16 in the base, all blocks in the last row, flags and orders at their ends
        let mut greatest = base.clone();
        greatest.dims = vec![16; 5];
        greatest.late = vec![1; 5];
        self.plan(FAULT, greatest, OVER);
        let many = self.many_blocks();
        self.plan(FAULT, many, OVER);
        let many = self.many_stored();
        self.plan(FAULT, many, OVER);
        // no block, and yet a start, a row, an entry or a flag too many
        let none = Tables { starts: vec![0], ..Tables::default() };
        let more: [fn(&mut Tables); 6] = [
            |t| t.starts.clear(),
            |t| t.starts.push(0),
            |t| t.starts[0] = 1,
            |t| t.rows.push(0),
            |t| t.perm.push(0),
            |t| t.late.push(0),
        ];
        for fault in more {
            let mut tables = none.clone();
            fault(&mut tables);
            self.plan(FAULT, tables, OVER);
        }
    }

    /// One fault of each number with one of each greater number, and with a buffer that is short.
    fn two_faults(&mut self) {
        let faults = Self::faults();
        let mut first: Vec<(u32, fn(&mut Tables))> = vec![];
        for &(number, fault) in &faults {
            // the last of a number that leaves all lengths as they are
            let mut tables = self.base();
            let lengths = |t: &Tables| [t.dims.len(), t.starts.len(), t.rows.len(), t.perm.len(), t.late.len()];
            let before = lengths(&tables);
            fault(&mut tables);
            if lengths(&tables) == before {
                first.retain(|f| f.0 != number);
                first.push((number, fault));
            }
        }
        let mut short = OVER;
        short[0] = -1;
        for (at, &(_, a)) in first.iter().enumerate() {
            for &(_, b) in &first[at + 1..] {
                for order in 0..2 {
                    let mut tables = self.base();
                    if order == 0 {
                        a(&mut tables);
                        b(&mut tables);
                    } else {
                        b(&mut tables);
                        a(&mut tables);
                    }
                    self.plan(FAULTS, tables, OVER);
                }
            }
            let mut tables = self.base();
            a(&mut tables);
            self.plan(FAULTS, tables, short);
        }
        // 1 with 2, 3, 8 and 9 at once, and a short buffer; 4 with 5, 6, 8, 9 and a short buffer
        let mut many = self.many_blocks();
        many.dims[0] = 0;
        many.starts[3] = 1;
        many.perm.pop();
        many.late[7] = 2;
        self.plan(FAULTS, many, short);
        let mut many = self.many_stored();
        many.rows[1] = 0;
        many.rows[700] = 512;
        many.perm[5] = 6;
        many.late[5] = 6;
        self.plan(FAULTS, many, short);
        // all at once
        let mut tables = self.base();
        for &(_, fault) in &first {
            fault(&mut tables);
        }
        self.plan(FAULTS, tables, short);
    }

    fn lent(&mut self) {
        let base = self.base();
        self.plan(LENT, base.clone(), EXACT);
        self.plan(LENT, base.clone(), [7; BUFFERS]);
        for b in 0..BUFFERS {
            for by in [-1, -100] {
                let mut over = OVER;
                over[b] = by;
                self.plan(LENT, base.clone(), over);
            }
            let mut over = EXACT;
            over[b] = -1;
            self.plan(LENT, base.clone(), over);
            // L's row table short as well, and the next one
            over[L_ROWS] = -1;
            self.plan(LENT, base.clone(), over);
            over[(b + 1) % BUFFERS] = -1;
            self.plan(LENT, base.clone(), over);
        }
        self.plan(LENT, base, [-1; BUFFERS]);
        // no block: the three tables of starts still need one place
        let none = Tables { starts: vec![0], ..Tables::default() };
        for b in 0..BUFFERS {
            let mut over = EXACT;
            over[b] = -1;
            self.plan(LENT, none.clone(), over);
        }
        // hubs, whose fill a table as long as A's would not hold
        for n in [4, 30] {
            let links: Vec<_> = (1..n).map(|k| (0, k)).collect();
            let hub = self.tables(n, &links, Diagonal::All);
            let fill = (n * (n - 1) / 2) as i64;
            for by in [0, -1, -(fill - links.len() as i64), -fill] {
                let mut over = OVER;
                over[L_ROWS] = by;
                self.plan(LENT, hub.clone(), over);
            }
        }
    }

    fn system(&mut self) {
        let base = self.base();
        let column = |j: usize| &base.rows[base.starts[j] as usize..base.starts[j + 1] as usize];
        let blocks = (0..5).flat_map(|j| column(j).iter().map(move |&i| (i as usize, j)));
        let area: u32 = blocks.map(|(i, j)| base.dims[i] * base.dims[j]).sum();
        let mut add = |tables: Tables, values: u32, tolerance: f64| {
            self.all.push(Case { kind: SYSTEM, tables, call: Call::System { values, tolerance } });
        };
        for tolerance in [0.0, -0.0, 1e-12, 5e-324, f64::MAX, 1.0] {
            add(base.clone(), area, tolerance);
        }
        let other_nan = f64::from_bits(0xFFF8000000000001);
        for tolerance in [-1e-300, -5e-324, -1.0, f64::NAN, other_nan, f64::INFINITY, f64::NEG_INFINITY] {
            add(base.clone(), area, tolerance);
            // 7 before 10
            add(base.clone(), area - 1, tolerance);
        }
        for values in [area - 1, area + 1, 0, 2 * area] {
            add(base.clone(), values, 1e-12);
        }
        let mut one = base.clone();
        one.dims[3] = 15;
        add(one, area, 1e-12);
        // each fault of the tables, with all else right, with a value too many and with a bad tolerance
        for (_, fault) in Self::faults() {
            let mut tables = base.clone();
            fault(&mut tables);
            add(tables.clone(), area, 1e-12);
            add(tables.clone(), area + 1, 1e-12);
            add(tables.clone(), area, f64::NAN);
        }
        let none = Tables { starts: vec![0], ..Tables::default() };
        add(none.clone(), 0, 0.0);
        add(none.clone(), 1, 0.0);
        add(none, 0, f64::NAN);
    }
}

/// Patterns of each kind, all of which are accepted.
fn patterns() -> Maker {
    let mut maker = Maker::new(0x706C616E73);
    maker.random();
    maker.shapes();
    maker.late();
    maker.few();
    maker
}

/// The tables that trees are grown of: all of few blocks without a late one, and every fourth of the others up to 90 blocks.
pub fn grown() -> Vec<Tables> {
    let small = patterns().all.into_iter().filter(|c| c.tables.dims.len() <= 90);
    let few = small.filter(|c| c.kind != FEW || c.tables.late.iter().all(|&flag| flag == 0));
    few.enumerate().filter(|(at, c)| c.kind == FEW || at % 4 == 0).map(|(_, c)| c.tables).collect()
}

pub fn cases() -> Vec<Case> {
    let mut maker = patterns();
    maker.one_fault();
    maker.two_faults();
    maker.lent();
    maker.system();
    let limits = maker.limits();
    maker.plan(LIMITS, limits, OVER);
    maker.all
}
