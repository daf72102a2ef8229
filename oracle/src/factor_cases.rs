//! The nights to factor: patterns, orders, flags and numbers drawn with fixed seeds or by rule, the blocks that end a
//! factorization, and the faults.
use crate::factors::{BUFFERS, Case, Fallbacks, Night, SHOWN, bodies, run};
use crate::plan_cases::{Diagonal, Maker as Patterns};
use crate::plans::Tables;
use crate::values::{Kind, LEAST};

/// What the kinds of cases are called; the first has the number 1.
pub const KINDS: [&str; 15] = [
    "random",
    "dense",
    "shapes",
    "few blocks",
    "late flags",
    "zero blocks and missing ones",
    "rank deficient",
    "at the threshold",
    "small and large numbers",
    "NaN and infinities",
    "refused at a block",
    "by hand",
    "large",
    "one fault or two",
    "lent buffers",
];

const RANDOM: usize = 1;
const DENSE: usize = 2;
const SHAPES: usize = 3;
const FEW: usize = 4;
const LATE: usize = 5;
const ZEROS: usize = 6;
const RANK: usize = 7;
const THRESHOLD: usize = 8;
const RANGE: usize = 9;
const ODD: usize = 10;
const BLOCK: usize = 11;
const HAND: usize = 12;
const LARGE: usize = 13;
const FAULT: usize = 14;
pub const LENT: usize = 15;

/// Each buffer longer than its need by these, and by nothing.
const OVER: [i64; BUFFERS] = [3, 1, 2, 4, 1, 2, 3, 5, 1, 2, 3, 1, 2, 4, 3, 1, 2, 3, 1, 4, 2];
const EXACT: [i64; BUFFERS] = [0; BUFFERS];

pub type Links = Vec<(usize, usize)>;

/// What is added to the entries on the diagonal of a diagonal block.
#[derive(Clone, Copy, PartialEq)]
pub enum Weight {
    // nothing
    None,
    // enough for positive pivots
    Heavy,
    // as much, with either sign
    Signed,
}

pub struct Maker {
    pub patterns: Patterns,
    all: Vec<Case>,
}

impl Maker {
    pub fn new(seed: u64) -> Self {
        Self { patterns: Patterns::new(seed), all: vec![] }
    }

    pub fn below(&mut self, n: usize) -> usize {
        self.patterns.draw.below(n as u64) as usize
    }

    fn over(&mut self) -> [i64; BUFFERS] {
        if self.below(2) == 0 { OVER } else { EXACT }
    }

    fn add(&mut self, kind: usize, night: Night, over: [i64; BUFFERS]) {
        self.all.push(Case { kind, night, over });
    }

    /// Dimensions: all 1, all the same, small and mixed, or mixed up to 16.
    fn dims(&mut self, n: usize) -> Vec<u32> {
        match self.below(5) {
            0 => vec![1; n],
            1 => vec![1 + self.below(7) as u32; n],
            2 => (0..n).map(|_| if self.below(6) == 0 { 16 } else { 1 + self.below(3) as u32 }).collect(),
            3 if n <= 8 => (0..n).map(|_| 1 + self.below(16) as u32).collect(),
            _ => (0..n).map(|_| 1 + self.below(4) as u32).collect(),
        }
    }

    /// The tables of links in a drawn order with drawn flags.
    pub fn drawn(&mut self, n: usize, links: &Links, diagonal: Diagonal) -> Tables {
        let base = self.patterns.tables(n, links, diagonal);
        Tables { dims: self.dims(n), perm: self.patterns.shuffled(n), late: self.patterns.flags(n), ..base }
    }

    /// Numbers of this kind in every stored body; the diagonal blocks with their weight.
    pub fn values(&mut self, t: &Tables, kind: Kind, weight: Weight) -> Vec<f64> {
        let bodies = bodies(t);
        let mut values = self.patterns.draw.values(kind, bodies[t.rows.len()]);
        let heavy = 4.0 * t.dims.iter().sum::<u32>() as f64;
        for j in 0..t.dims.len() {
            let p = t.starts[j] as usize;
            if weight != Weight::None && p < t.starts[j + 1] as usize && t.rows[p] as usize == j {
                for r in 0..t.dims[j] as usize {
                    let sign = if weight == Weight::Signed && self.below(2) == 0 { -1.0 } else { 1.0 };
                    values[bodies[p] + r * (t.dims[j] as usize + 1)] += sign * heavy;
                }
            }
        }
        values
    }

    pub fn tolerance(&mut self) -> f64 {
        [1e-12, 1e-12, 0.0, -0.0, 1e-9, 1e-3][self.below(6)]
    }

    pub fn night(&mut self, tables: Tables, kind: Kind, weight: Weight) -> Night {
        let values = self.values(&tables, kind, weight);
        let tolerance = self.tolerance();
        Night { tables, values, tolerance }
    }

    pub fn weight(&mut self) -> Weight {
        [Weight::None, Weight::Heavy, Weight::Signed][self.below(3)]
    }

    fn random(&mut self) {
        for turn in 0..90 {
            let n = match turn % 6 {
                0 => 1 + self.below(4),
                1 | 2 => 2 + self.below(9),
                3 | 4 => 6 + self.below(13),
                _ => 20 + self.below(25),
            };
            let links = self.patterns.links(n, n * [1, 2, 3, 4, 5][turn / 6 % 5] / 2);
            let diagonal = self.patterns.diagonal();
            let tables = self.drawn(n, &links, diagonal);
            let weight = self.weight();
            let night = self.night(tables, Kind::Plain, weight);
            let over = self.over();
            self.add(RANDOM, night, over);
        }
    }

    fn all_links(n: usize) -> Links {
        (0..n).flat_map(|a| (0..a).map(move |b| (a, b))).collect()
    }

    fn dense(&mut self) {
        for n in [1, 2, 3, 4, 5, 7, 10, 14] {
            for weight in [Weight::None, Weight::Heavy, Weight::Signed] {
                let tables = self.drawn(n, &Self::all_links(n), Diagonal::All);
                let night = self.night(tables, Kind::Plain, weight);
                let over = self.over();
                self.add(DENSE, night, over);
            }
        }
        // one block of each dimension, alone and under a row
        for dim in 1..=16 {
            let mut tables = self.drawn(2, &vec![(1, 0)], Diagonal::All);
            tables.dims = vec![dim, 1 + self.below(16) as u32];
            let weight = self.weight();
            let night = self.night(tables, Kind::Plain, weight);
            self.add(DENSE, night, EXACT);
        }
    }

    fn shapes(&mut self) {
        let mut shapes: Vec<(usize, Links)> = vec![];
        for n in [2, 5, 16, 40] {
            shapes.push((n, (1..n).map(|k| (k - 1, k)).collect()));
        }
        for n in [3, 4, 9, 16] {
            for hub in [0, n - 1] {
                shapes.push((n, (0..n).filter(|&k| k != hub).map(|k| (hub, k)).collect()));
            }
        }
        for n in [6, 20] {
            shapes.push((n, (1..n).map(|k| (k - 1, k)).chain((2..n).map(|k| (0, k))).collect()));
        }
        for (width, height) in [(2, 2), (3, 4), (5, 5)] {
            let at = |x: usize, y: usize| x + y * width;
            let across = (0..height).flat_map(|y| (1..width).map(move |x| (at(x - 1, y), at(x, y))));
            let down = (1..height).flat_map(|y| (0..width).map(move |x| (at(x, y - 1), at(x, y))));
            shapes.push((width * height, across.chain(down).collect()));
        }
        for n in [1, 6, 30] {
            shapes.push((n, vec![]));
        }
        for (n, links) in shapes {
            for order in 0..3 {
                let diagonal = self.patterns.diagonal();
                let mut tables = self.drawn(n, &links, diagonal);
                if order < 2 {
                    tables.perm = (0..n as u32).collect();
                    tables.late = vec![0; n];
                }
                if order == 1 {
                    tables.perm.reverse();
                }
                let weight = self.weight();
                let night = self.night(tables, Kind::Plain, weight);
                let over = self.over();
                self.add(SHAPES, night, over);
            }
        }
    }

    /// Every pattern of three blocks in every order, with drawn flags and dimensions.
    fn few(&mut self) {
        const ORDERS: [[u32; 3]; 6] = [[0, 1, 2], [0, 2, 1], [1, 0, 2], [1, 2, 0], [2, 0, 1], [2, 1, 0]];
        for pattern in 0..8 {
            for order in ORDERS {
                let pairs = [(1, 0), (2, 0), (2, 1)];
                let links = (0..3).filter(|k| pattern >> k & 1 == 1).map(|k| pairs[k]).collect();
                let diagonal = self.patterns.diagonal();
                let mut tables = self.drawn(3, &links, diagonal);
                tables.dims = (0..3).map(|_| 1 + self.below(3) as u32).collect();
                tables.perm = order.to_vec();
                let weight = self.weight();
                let kind = [Kind::Plain, Kind::Small][self.below(2)];
                let night = self.night(tables, kind, weight);
                self.add(FEW, night, EXACT);
            }
        }
    }

    fn late(&mut self) {
        for n in [2, 5, 12] {
            let links = self.patterns.links(n, n + n / 3);
            let base = self.drawn(n, &links, Diagonal::All);
            let flags: [Vec<u32>; 6] = [
                vec![1; n],
                (0..n).map(|k| (k % 2) as u32).collect(),
                (0..n).map(|k| (k % 2 == 0) as u32).collect(),
                (0..n).map(|k| (k == 0) as u32).collect(),
                (0..n).map(|k| (k == n - 1) as u32).collect(),
                (0..n).map(|_| self.below(2) as u32).collect(),
            ];
            for late in flags {
                // a multiplier at the end has a small negative diagonal
                let tables = Tables { perm: self.patterns.shuffled(n), late, ..base.clone() };
                let mut night = self.night(tables, Kind::Plain, Weight::Heavy);
                let t = &night.tables;
                let bodies = bodies(t);
                for j in (0..n).filter(|&j| t.late[j] == 1) {
                    let dim = t.dims[j] as usize;
                    let body = &mut night.values[bodies[t.starts[j] as usize]..][..dim * dim];
                    body.fill(0.0);
                    (0..dim).for_each(|r| body[r * (dim + 1)] = -1e-3);
                }
                self.add(LATE, night, OVER);
            }
        }
    }

    /// Stored blocks of zeros, of either sign; blocks of the diagonal that are not stored.
    fn zeros(&mut self) {
        for turn in 0..24 {
            let n = 2 + self.below(9);
            let count = n + self.below(n);
            let links = self.patterns.links(n, count);
            let diagonal = [Diagonal::All, Diagonal::Some, Diagonal::None][turn % 3];
            let tables = self.drawn(n, &links, diagonal);
            let weight = self.weight();
            let mut night = self.night(tables, Kind::Plain, weight);
            let bodies = bodies(&night.tables);
            for p in 0..night.tables.rows.len() {
                match self.below(4) {
                    0 => night.values[bodies[p]..bodies[p + 1]].fill(0.0),
                    1 => night.values[bodies[p]..bodies[p + 1]].fill(-0.0),
                    _ => (),
                }
            }
            self.add(ZEROS, night, OVER);
        }
        // nothing but zeros
        for (n, zero) in [(1, 0.0), (1, -0.0), (4, 0.0), (4, -0.0)] {
            let tables = self.drawn(n, &Self::all_links(n), Diagonal::All);
            let values = vec![zero; bodies(&tables)[tables.rows.len()]];
            self.add(ZEROS, Night { tables, values, tolerance: 0.0 }, EXACT);
        }
    }

    /// Diagonal blocks B D Bᵀ of small integers with fewer columns than rows, and halves throughout.
    fn rank(&mut self) {
        for turn in 0..24 {
            let n = 1 + self.below(7);
            let links = self.patterns.links(n, n);
            let tables = self.drawn(n, &links, Diagonal::All);
            let kind = [Kind::Small, Kind::Plain][turn % 2];
            let mut night = self.night(tables, kind, Weight::None);
            let bodies = bodies(&night.tables);
            for j in 0..n {
                let dim = night.tables.dims[j] as usize;
                let rank = self.below(dim + 1);
                let b: Vec<f64> = (0..dim * rank).map(|_| self.below(5) as f64 - 2.0).collect();
                let sign = if turn % 3 == 0 { -1.0 } else { 1.0 };
                let body = &mut night.values[bodies[night.tables.starts[j] as usize]..][..dim * dim];
                for c in 0..dim {
                    for r in 0..dim {
                        body[r + c * dim] = (0..rank).map(|k| sign * b[r + k * dim] * b[c + k * dim]).sum();
                    }
                }
            }
            self.add(RANK, night, OVER);
        }
        for _ in 0..16 {
            let n = 2 + self.below(6);
            let links = self.patterns.links(n, n + 2);
            let diagonal = self.patterns.diagonal();
            let tables = self.drawn(n, &links, diagonal);
            let night = self.night(tables, Kind::Small, Weight::None);
            self.add(RANK, night, OVER);
        }
    }

    /// So many blocks of dimension 1 with these values, dense, in their order.
    fn scalars(n: usize, values: Vec<f64>, tolerance: f64) -> Night {
        let (mut starts, mut rows) = (vec![0], vec![]);
        for j in 0..n as u32 {
            rows.extend(j..n as u32);
            starts.push(rows.len() as u32);
        }
        let tables = Tables { dims: vec![1; n], starts, rows, perm: (0..n as u32).collect(), late: vec![0; n] };
        Night { tables, values, tolerance }
    }

    /// One block with these numbers.
    fn one(dim: u32, values: Vec<f64>, tolerance: f64) -> Night {
        let tables = Tables { dims: vec![dim], starts: vec![0, 1], rows: vec![0], perm: vec![0], late: vec![0] };
        Night { tables, values, tolerance }
    }

    /// Indefinite blocks whose condition is 1e-10, a little above and a little below.
    fn threshold(&mut self) {
        let near = |x: f64, by: i64| f64::from_bits((x.to_bits() as i64 + by) as u64);
        for by in [-2, -1, 0, 1, 2] {
            // alone; after a greater pivot; before it; after a product
            self.add(THRESHOLD, Self::one(1, vec![near(-1e-10, by)], 1e-12), EXACT);
            self.add(THRESHOLD, Self::one(2, vec![2.0, 0.0, 9.0, near(-2e-10, by)], 1e-12), EXACT);
            self.add(THRESHOLD, Self::one(2, vec![near(-4e-10, by), 0.0, 9.0, 4.0], 1e-12), EXACT);
            self.add(THRESHOLD, Self::one(2, vec![1.0, 0.5, 9.0, near(0.25 - 1e-10, by)], 1e-12), EXACT);
            self.add(THRESHOLD, Self::scalars(2, vec![1.0, 0.5, near(0.25 - 1e-10, by)], 1e-12), EXACT);
            self.add(THRESHOLD, Self::scalars(3, vec![4.0, 2.0, 1.0, near(1.0 - 1e-10, by), 0.5, 7.0], 1e-12), EXACT);
            // no product reaches the middle block, and the last is not worked
            self.add(THRESHOLD, Self::scalars(3, vec![4.0, 0.0, 1.0, near(-1e-10, by), 0.0, f64::NAN], 1e-12), EXACT);
        }
        // below the threshold and positive; below the tolerance and negative
        self.add(THRESHOLD, Self::scalars(2, vec![1.0, 0.5, 0.25 + 1e-11], 1e-12), EXACT);
        self.add(THRESHOLD, Self::scalars(2, vec![1.0, 0.5, 0.25 - 1e-11], 1e-10), EXACT);
        self.add(THRESHOLD, Self::scalars(2, vec![1.0, 0.5, 0.25 - 1e-11], 1e-12), EXACT);
        // each pivot good by itself; the condition is a block's own
        self.add(THRESHOLD, Self::scalars(2, vec![1e12, 0.0, -1e-9], 1e-12), EXACT);
        self.add(THRESHOLD, Self::one(2, vec![1e12, 0.0, 0.0, -1e-9], 0.0), EXACT);
    }

    fn range(&mut self) {
        for turn in 0..40 {
            let n = 1 + self.below(7);
            let links = self.patterns.links(n, n + 1);
            let diagonal = self.patterns.diagonal();
            let tables = self.drawn(n, &links, diagonal);
            let kind = [Kind::Tiny, Kind::Huge][turn % 2];
            let weight = self.weight();
            let mut night = self.night(tables, kind, weight);
            if turn % 4 < 2 {
                // within what stays finite
                night.values.iter_mut().for_each(|x| *x = x.clamp(-1e120, 1e120));
            }
            if turn % 3 == 0 {
                night.tolerance = 0.0;
            }
            self.add(RANGE, night, OVER);
        }
        // -0.0 is loaded as 0.0, also where it is transposed and where it is the pivot
        self.add(RANGE, Self::one(1, vec![-0.0], 0.0), EXACT);
        for perm in [[0, 1], [1, 0]] {
            let mut night = Self::scalars(2, vec![2.0, -0.0, 3.0], 1e-12);
            night.tables.perm = perm.to_vec();
            self.add(RANGE, night, EXACT);
        }
        // a denormal pivot, whose inverse is infinite
        for (a, b) in [(LEAST, 0.0), (LEAST, 1.0), (1e-310, -0.0), (f64::MIN_POSITIVE, 1e-300)] {
            self.add(RANGE, Self::scalars(2, vec![a, b, 1.0], 0.0), EXACT);
        }
        // such a pivot at each place of a block: times a stored 0.0 of the unit factor, the infinite number of L is NaN
        for dim in 2..=4usize {
            for tiny in 0..dim {
                for height in [1, 2] {
                    let dims = vec![dim as u32, height];
                    let tables = Tables { dims, starts: vec![0, 2, 3], rows: vec![0, 1, 1], perm: vec![0, 1], late: vec![0; 2] };
                    let bodies = bodies(&tables);
                    let mut values = vec![1.0; bodies[3]];
                    values[..dim * dim].fill(0.0);
                    (0..dim).for_each(|r| values[r * (dim + 1)] = if r == tiny { LEAST } else { 2.0 });
                    self.add(RANGE, Night { tables, values, tolerance: 0.0 }, OVER);
                }
            }
        }
    }

    fn odd(&mut self) {
        for turn in 0..30 {
            let n = 2 + self.below(7);
            let links = self.patterns.links(n, n + 1);
            let tables = self.drawn(n, &links, Diagonal::All);
            let mut night = self.night(tables, Kind::Plain, Weight::Heavy);
            let t = &night.tables;
            let bodies = bodies(t);
            let column = |p: usize| (0..n).find(|&j| p < t.starts[j + 1] as usize).unwrap();
            let off: Vec<usize> = (0..t.rows.len()).filter(|&p| t.rows[p] as usize != column(p)).collect();
            let p = off[self.below(off.len())];
            let at = bodies[p] + self.below(bodies[p + 1] - bodies[p]);
            night.values[at] = [f64::NAN, f64::INFINITY, f64::NEG_INFINITY][turn % 3];
            self.add(ODD, night, OVER);
        }
        // above the diagonal of a diagonal block, which is not read, and below it under a pivot that counts as zero
        for odd in [f64::NAN, f64::INFINITY, f64::NEG_INFINITY] {
            self.add(ODD, Self::one(2, vec![2.0, 1.0, odd, 3.0], 1e-12), EXACT);
            self.add(ODD, Self::one(2, vec![0.0, odd, 0.0, 1.0], 1e-12), EXACT);
            self.add(ODD, Self::one(2, vec![odd, 0.0, 0.0, 1.0], 1e-12), EXACT);
            self.add(ODD, Self::one(2, vec![1.0, 0.0, 0.0, odd], 1e-12), EXACT);
        }
    }

    /// 13 and 14 at the first, a middle and the last block, alone and one after the other.
    fn block(&mut self) {
        for n in [1, 2, 3, 7, 15] {
            for at in [0, n / 2, n - 1] {
                for what in 0..6 {
                    let links = self.patterns.links(n, n + n / 2);
                    let apart = |old: usize, links: &Links| links.iter().filter(|l| l.0 != old && l.1 != old).copied().collect();
                    let (perm, late) = (self.patterns.shuffled(n), self.patterns.flags(n));
                    let of = |flag: u32| perm.iter().copied().filter(|&old| late[old as usize] == flag).collect::<Vec<u32>>();
                    let order = [of(0), of(1)].concat();
                    let old = order[at] as usize;
                    // nothing is linked to the block that 14 ends at
                    let links: Links = if what == 3 || what == 4 { apart(old, &links) } else { links };
                    let base = self.patterns.tables(n, &links, Diagonal::All);
                    let tables = Tables { dims: self.dims(n), perm: perm.clone(), late: late.clone(), ..base };
                    let mut night = self.night(tables, Kind::Plain, Weight::Heavy);
                    night.tolerance = 1e-12;
                    let ends = bodies(&night.tables);
                    let spoil = |night: &mut Night, old: usize, place: usize, x: f64| {
                        let (t, dim) = (&night.tables, night.tables.dims[old] as usize);
                        let body = ends[t.starts[old] as usize];
                        if x.is_finite() {
                            night.values[body..][..dim * dim].fill(0.0);
                            (0..dim).for_each(|r| night.values[body + r * (dim + 1)] = 2.0);
                        }
                        night.values[body + place * (dim + 1)] = x;
                    };
                    let place = self.below(night.tables.dims[old] as usize);
                    let next = order[(at + 1) % n] as usize;
                    let x = [f64::NAN, f64::INFINITY, f64::NEG_INFINITY, -1e-11, -3e-11, f64::NAN][what];
                    spoil(&mut night, old, place, x);
                    if what >= 4 && n > 1 {
                        let place = self.below(night.tables.dims[next] as usize);
                        spoil(&mut night, next, place, [f64::NAN, -1e-11][what - 4]);
                    }
                    self.add(BLOCK, night, OVER);
                }
            }
        }
    }

    fn hand(&mut self) {
        // the sheet of two blocks, and its other orders
        for (perm, late) in [([0, 1], [0, 0]), ([1, 0], [0, 0]), ([0, 1], [1, 0]), ([1, 0], [0, 1])] {
            let mut night = Self::scalars(2, vec![4.0, 2.0, 5.0], 1e-12);
            (night.tables.perm, night.tables.late) = (perm.to_vec(), late.to_vec());
            self.add(HAND, night, EXACT);
        }
        // no block
        let none = Tables { starts: vec![0], ..Tables::default() };
        for (tolerance, over) in [(1e-12, EXACT), (0.0, OVER), (-0.0, EXACT)] {
            self.add(HAND, Night { tables: none.clone(), values: vec![], tolerance }, over);
        }
        // P1 to P5
        let hub: Links = vec![(1, 0), (2, 0), (3, 0)];
        let nights: [(usize, Links, Vec<u32>); 5] = [
            (4, vec![(1, 0), (2, 1), (3, 0)], vec![0, 1, 2, 3]),
            (3, vec![(2, 0), (2, 1)], vec![0, 1, 2]),
            (4, hub.clone(), vec![0, 1, 2, 3]),
            (4, hub, vec![3, 2, 1, 0]),
            (5, vec![], vec![0, 1, 2, 3, 4]),
        ];
        for (n, links, perm) in nights {
            for dims in [vec![1; n], (1..=n as u32).collect()] {
                let base = self.patterns.tables(n, &links, Diagonal::All);
                let tables = Tables { dims, perm: perm.clone(), ..base };
                let night = self.night(tables, Kind::Plain, Weight::Heavy);
                self.add(HAND, night, EXACT);
            }
        }
        // P8 to P10, and the dense row of three
        self.add(HAND, Self::one(1, vec![0.0], 0.0), EXACT);
        self.add(HAND, Self::one(1, vec![-1e-10], 1e-12), EXACT);
        self.add(HAND, Self::one(1, vec![-1e-11], 1e-12), EXACT);
        self.add(HAND, Self::one(2, vec![0.0, f64::NAN, 0.0, 1.0], 1e-12), EXACT);
        // a pivot that the tolerance has grown past: row 2 gets 0.0 for it, row 1 does not
        self.add(HAND, Self::one(3, vec![1e-5, 1e-5, 1e-5, 0.0, 1e9, 1.0, 0.0, 0.0, 1.0], 1e-12), EXACT);
        // the order of the walk shows in the last bits
        for _ in 0..6 {
            let n = 6;
            let links: Links = (0..n - 1).map(|k| (n - 1, k)).collect();
            let base = self.patterns.tables(n, &links, Diagonal::All);
            let tables = Tables { dims: vec![3; n], ..base };
            let night = self.night(tables, Kind::Plain, Weight::Signed);
            self.add(HAND, night, EXACT);
        }
    }

    fn large(&mut self) {
        // 2,000 blocks of dimension 1 and 2 with links to the next few
        let n = 2000;
        let mut links: Links = (1..n).map(|k| (k - 1, k)).collect();
        for _ in 0..2500 {
            let k = self.below(n - 7);
            let by = 2 + self.below(5);
            links.push((k, k + by));
        }
        let drawn = self.patterns.shuffled(n);
        let moved: Links = links.iter().map(|&(a, b)| (drawn[a] as usize, drawn[b] as usize)).collect();
        let base = self.patterns.tables(n, &moved, Diagonal::All);
        let dims = (0..n).map(|_| 1 + (self.below(9) == 0) as u32).collect();
        let tables = Tables { dims, perm: drawn, ..base };
        let night = self.night(tables, Kind::Plain, Weight::Signed);
        self.add(LARGE, night, OVER);
        // 40 blocks of all dimensions
        for half_links in [3, 5] {
            let n = 40;
            let links = self.patterns.links(n, n * half_links / 2);
            let mut tables = self.drawn(n, &links, Diagonal::All);
            tables.dims = (0..n).map(|_| 1 + self.below(16) as u32).collect();
            let night = self.night(tables, Kind::Plain, Weight::Signed);
            self.add(LARGE, night, OVER);
        }
    }

    fn base(&mut self) -> Night {
        let tables = self.patterns.base();
        let mut night = self.night(tables, Kind::Plain, Weight::Heavy);
        night.tolerance = 1e-12;
        night
    }

    fn faults(&mut self) {
        let base = self.base();
        self.add(FAULT, base.clone(), OVER);
        let mut short = OVER;
        short[0] = -1;
        for (number, fault) in Patterns::faults() {
            let mut night = base.clone();
            fault(&mut night.tables);
            self.add(FAULT, night, OVER);
            let told = run(&self.all[self.all.len() - 1], &mut Fallbacks::default()).number;
            // a dimension that changes the areas is refused before the values are counted
            assert_eq!(told, number);
        }
        let mut many = |night: &dyn Fn(&mut Patterns) -> Tables, value: bool, tolerance: f64| {
            let tables = night(&mut self.patterns);
            let values = if value { vec![1.0] } else { vec![] };
            self.all.push(Case { kind: FAULT, night: Night { tables, values, tolerance }, over: OVER });
        };
        many(&|p| p.many_blocks(), false, 1e-12);
        many(&|p| p.many_blocks(), true, f64::NAN);
        many(&|p| p.many_stored(), false, 1e-12);
        many(&|p| p.many_stored(), true, f64::NAN);
        // 7: too few, too many, none; with 8, 9, 10 and a short buffer
        for change in [-1i64, 1, -1000] {
            let mut night = base.clone();
            let count = (night.values.len() as i64 + change).max(0) as usize;
            night.values.resize(count, 1.0);
            self.add(FAULT, night.clone(), OVER);
            night.tables.perm[0] = 9;
            night.tables.late[0] = 9;
            night.tolerance = -1.0;
            self.add(FAULT, night, short);
        }
        let mut night = base.clone();
        (night.tables.perm[2], night.tables.late[2]) = (9, 9);
        self.add(FAULT, night.clone(), short);
        night.tables.perm[2] = base.tables.perm[2];
        night.tolerance = f64::NAN;
        self.add(FAULT, night, short);
        let other_nan = f64::from_bits(0xFFF8000000000001);
        for tolerance in [-1e-300, -LEAST, -1.0, f64::NAN, other_nan, f64::INFINITY, f64::NEG_INFINITY] {
            let night = Night { tolerance, ..base.clone() };
            self.add(FAULT, night.clone(), OVER);
            self.add(FAULT, night, short);
        }
        for tolerance in [0.0, -0.0, LEAST, 1.0, f64::MAX] {
            self.add(FAULT, Night { tolerance, ..base.clone() }, OVER);
        }
        // no block, and a value
        let none = Tables { starts: vec![0], ..Tables::default() };
        self.add(FAULT, Night { tables: none, values: vec![1.0], tolerance: 0.0 }, OVER);
    }

    fn lent(&mut self) {
        let base = self.base();
        // a night that 13 and one that 14 would end
        let mut bad = base.clone();
        bad.values[0] = f64::NAN;
        self.add(LENT, base.clone(), EXACT);
        self.add(LENT, base.clone(), [7; BUFFERS]);
        self.add(LENT, bad.clone(), [5; BUFFERS]);
        for b in 0..BUFFERS {
            for by in [-1, -100000] {
                let mut over = OVER;
                over[b] = by;
                self.add(LENT, base.clone(), over);
            }
            let mut over = EXACT;
            over[b] = -1;
            self.add(LENT, bad.clone(), over);
            // the next one as well; and those whose need only the plan shows
            over[(b + 1) % BUFFERS] = -1;
            self.add(LENT, base.clone(), over);
            let mut over = EXACT;
            over[b] = -1;
            SHOWN.iter().for_each(|&s| over[s] = -1);
            self.add(LENT, base.clone(), over);
        }
        self.add(LENT, base.clone(), [-1; BUFFERS]);
        for pair in [[3, 4], [3, 5], [4, 5]] {
            let mut over = OVER;
            pair.iter().for_each(|&b| over[b] = -1);
            self.add(LENT, base.clone(), over);
        }
        let none = Tables { starts: vec![0], ..Tables::default() };
        for b in 0..BUFFERS {
            let mut over = EXACT;
            over[b] = -1;
            self.add(LENT, Night { tables: none.clone(), values: vec![], tolerance: 0.0 }, over);
        }
    }
}

pub fn cases() -> Vec<Case> {
    let mut maker = Maker::new(0x666163746F7273);
    maker.random();
    maker.dense();
    maker.shapes();
    maker.few();
    maker.late();
    maker.zeros();
    maker.rank();
    maker.threshold();
    maker.range();
    maker.odd();
    maker.block();
    maker.hand();
    maker.large();
    maker.faults();
    maker.lent();
    maker.all
}
