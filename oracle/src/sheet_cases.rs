//! The sheets to answer: nights of the list of factorizations with a right side, sheets by hand, the faults one by one and in pairs
//! of `fit`'s order, each room at its limit and past it, sheets cut at every byte, wrong offsets, sheets that go on, and drawn damage.
use crate::factor_cases;
use crate::factors::{Night, bodies};
use crate::plan_cases::{Diagonal, Maker as Patterns};
use crate::plans::{Tables, refused};
use crate::sheets::{BLOCKS, SCALARS, STORED, Sheet, VALUES, answer};
use crate::values::{Draw, KINDS as VALUE_KINDS, Kind};

/// What the kinds of sheets are called; the first has the number 1.
pub const KINDS: [&str; 9] = [
    "nights",
    "by hand",
    "no blocks",
    "one fault",
    "two faults",
    "rooms",
    "cut",
    "offsets and end",
    "drawn",
];

const NIGHTS: usize = 1;
const HAND: usize = 2;
const NONE: usize = 3;
const FAULT: usize = 4;
const FAULTS: usize = 5;
const ROOMS: usize = 6;
const CUT: usize = 7;
const OFFSETS: usize = 8;
const DRAWN: usize = 9;

pub struct Case {
    pub kind: usize,
    pub bytes: Vec<u8>,
}

fn scalars(t: &Tables) -> usize {
    t.dims.iter().sum::<u32>() as usize
}

/// Whether a good sheet can hold the night.
fn has_room(t: &Tables) -> bool {
    t.dims.len() <= BLOCKS && t.rows.len() <= STORED && scalars(t) <= SCALARS && bodies(t)[t.rows.len()] <= VALUES
}

/// So many blocks of this dimension in their order, with the stored blocks (row, column) given by column, and these values; the
/// right side is 1.0, 2.0, ..
fn plain(dims: Vec<u32>, stored: &[(u32, u32)], values: Vec<f64>, tolerance: f64) -> Sheet {
    let n = dims.len();
    let starts = (0..=n as u32).map(|j| stored.iter().filter(|s| s.1 < j).count() as u32).collect();
    let tables = Tables { dims, starts, rows: stored.iter().map(|s| s.0).collect(), perm: (0..n as u32).collect(), late: vec![0; n] };
    let right: Vec<f64> = (0..scalars(&tables)).map(|k| (k + 1) as f64).collect();
    Sheet::of(&Night { tables, values, tolerance }, &right)
}

/// Every block of the lower triangle, by column.
fn all_stored(n: u32) -> Vec<(u32, u32)> {
    (0..n).flat_map(|j| (j..n).map(move |i| (i, j))).collect()
}

/// The faults of `fit`'s order, each on the base sheet of five blocks, with the number that it alone is refused by. A fault changes
/// no part that a fault before it in the list reads, so of two the one that stands first is told.
fn faults() -> Vec<(u32, fn(&mut Sheet))> {
    vec![
        (15, |s| s.bodies.clear()), // see `applied`: cut to 15 bytes
        (16, |s| s.blocks = 129),
        (16, |s| s.stored = 1025),
        (15, |s| s.tail.clear()), // see `applied`: cut inside the contents
        (2, |s| s.pairs[3][0] = 17),
        (2, |s| s.pairs[1][0] = 0),
        (3, |s| s.contents[4][1] = 0),
        (3, |s| s.contents[9][1] = 5),
        (5, |s| s.contents[3][0] = 0),
        (5, |s| s.contents[9][0] = 5),
        (6, |s| s.contents[1][0] = 0),
        (6, |s| s.contents[8][0] = 3),
        (8, |s| s.perm[2] = 5),
        (8, |s| s.perm[4] = 3),
        (9, |s| s.pairs[0][1] = 2),
        (9, |s| s.pairs[4][1] = u32::MAX),
        (10, |s| s.tolerance = (-1e-300f64).to_bits()),
        (10, |s| s.tolerance = f64::NAN.to_bits()),
        (10, |s| s.tolerance = f64::INFINITY.to_bits()),
        (15, |s| s.contents[2][2] += 8),
        (15, |s| s.tail.push(0)),
        (13, |s| s.bodies[0] = f64::INFINITY.to_bits()),
    ]
}

/// The bytes of a sheet after faults by their places in the list; the two that cut are done last.
fn applied(base: &Sheet, which: &[usize]) -> Vec<u8> {
    let list = faults();
    let mut sheet = base.clone();
    for &k in which.iter().filter(|k| ![0, 3].contains(*k)) {
        list[k].1(&mut sheet);
    }
    let mut bytes = sheet.bytes();
    if which.contains(&3) {
        bytes.truncate(16 + 12 * base.pairs.len() + 12 * base.contents.len() - 1);
    }
    if which.contains(&0) {
        bytes.truncate(15);
    }
    bytes
}

struct Maker {
    patterns: Patterns,
    all: Vec<Case>,
}

impl Maker {
    fn new(seed: u64) -> Self {
        Self { patterns: Patterns::new(seed), all: vec![] }
    }

    fn draw(&mut self) -> &mut Draw {
        &mut self.patterns.draw
    }

    fn below(&mut self, n: usize) -> usize {
        self.draw().below(n as u64) as usize
    }

    fn add(&mut self, kind: usize, bytes: Vec<u8>) {
        self.all.push(Case { kind, bytes });
    }

    /// A case whose answer is known.
    fn tell(&mut self, kind: usize, bytes: Vec<u8>, number: u32) {
        let told = answer(&bytes).number();
        assert_eq!(told, number, "{}: case {}", KINDS[kind - 1], self.all.len());
        self.add(kind, bytes);
    }

    fn right(&mut self, count: usize) -> Vec<f64> {
        let kind = VALUE_KINDS[[0, 0, 0, 1, 2, 3, 4][self.below(7)]];
        self.draw().values(kind, count)
    }

    /// The nights of the list of factorizations that a sheet has room for; of those with many numbers every fourth.
    fn nights(&mut self) {
        for (at, case) in factor_cases::cases().iter().enumerate() {
            let t = &case.night.tables;
            if refused(t, Some(case.night.values.len() as u32)).is_some() || !has_room(t) {
                continue;
            }
            if !(case.night.tolerance.is_finite() && case.night.tolerance >= 0.0) || case.over.iter().any(|&o| o < 0) {
                continue;
            }
            let many = case.night.values.len() > 300;
            if many && at % 4 != 0 || case.kind == factor_cases::LENT {
                continue;
            }
            let right = self.right(scalars(t));
            self.add(NIGHTS, Sheet::of(&case.night, &right).bytes());
        }
    }

    /// Document 01's example.
    fn two_blocks() -> Sheet {
        let mut sheet = plain(vec![1, 1], &[(0, 0), (1, 0), (1, 1)], vec![4.0, 2.0, 5.0], 1e-12);
        sheet.right = vec![8f64.to_bits(); 2];
        sheet
    }

    fn hand(&mut self) {
        let two = Self::two_blocks();
        assert_eq!(two.bytes().len(), 116);
        let lines = "blocks 2 scalars 2 stored 1 products 1 silent 0\n0 3FF8000000000000 heard\n1 3FF0000000000000 heard\n";
        assert_eq!(answer(&two.bytes()).text(), lines);
        self.add(HAND, two.bytes());
        // P1 to P5 as sheets, with a heavy diagonal
        let patterns: [(u32, &[(u32, u32)], bool); 5] = [
            (4, &[(1, 0), (2, 1), (3, 0)], false),
            (3, &[(2, 0), (2, 1)], false),
            (4, &[(1, 0), (2, 0), (3, 0)], false),
            (4, &[(1, 0), (2, 0), (3, 0)], true),
            (3, &[], false),
        ];
        for (n, links, reversed) in patterns {
            let mut stored: Vec<(u32, u32)> = links.iter().copied().chain((0..n).map(|k| (k, k))).collect();
            stored.sort_by_key(|&(i, j)| (j, i));
            let values = stored.iter().map(|&(i, j)| if i == j { 8.0 } else { 1.0 + i as f64 }).collect();
            let mut sheet = plain(vec![1; n as usize], &stored, values, 1e-12);
            if reversed {
                sheet.perm.reverse();
            }
            self.tell(HAND, sheet.bytes(), 0);
        }
        // one block: dropped pivots of either sign of zero, a NaN that is not read, a NaN in the right side, the ends of the tolerance
        for (values, number) in [
            (vec![0.0, f64::NAN, 9.0, 1.0], 0),
            (vec![-0.0, 1.0, 0.0, -0.0], 0),
            (vec![4.0, 2.0, f64::NAN, 5.0], 0),
            (vec![4.0, f64::NAN, 0.0, 5.0], 13),
            (vec![1.0, 0.0, 0.0, -1e-11], 14),
            (vec![1.0, 0.0, 0.0, -1e-10], 0),
        ] {
            self.tell(HAND, plain(vec![2], &[(0, 0)], values, 1e-12).bytes(), number);
        }
        for right in [[f64::NAN, 1.0], [f64::INFINITY, 0.0], [-0.0, 0.0], [5e-324, -5e-324]] {
            let mut sheet = Self::two_blocks();
            sheet.right = right.iter().map(|x| x.to_bits()).collect();
            self.tell(HAND, sheet.bytes(), 0);
        }
        for (tolerance, number) in
            [(0.0, 0), (-0.0, 0), (5e-324, 0), (f64::MAX, 0), (-5e-324, 10), (f64::NEG_INFINITY, 10), (-f64::NAN, 10)]
        {
            let mut sheet = Self::two_blocks();
            sheet.tolerance = f64::to_bits(tolerance);
            self.tell(HAND, sheet.bytes(), number);
        }
        // a NaN's other bits, in a body, in the right side and as the tolerance
        for payload in [0x7FF0000000000001u64, 0xFFF8000000000000, 0x7FFFFFFFFFFFFFFF] {
            let mut sheet = Self::two_blocks();
            sheet.bodies[1] = payload;
            self.tell(HAND, sheet.bytes(), 13);
            let mut sheet = Self::two_blocks();
            sheet.right[1] = payload;
            self.tell(HAND, sheet.bytes(), 0);
            let mut sheet = Self::two_blocks();
            sheet.tolerance = payload;
            self.tell(HAND, sheet.bytes(), 10);
        }
        // no diagonal stored, nothing stored at all, and blocks of zeros
        self.tell(HAND, plain(vec![1, 2], &[(1, 0)], vec![1.0, 2.0], 1e-12).bytes(), 0);
        self.tell(HAND, plain(vec![3, 1, 16], &[], vec![], 0.0).bytes(), 0);
        self.tell(HAND, plain(vec![1, 1], &[(0, 0), (1, 0), (1, 1)], vec![0.0, -0.0, 0.0], 0.0).bytes(), 0);
    }

    fn none(&mut self) {
        let none = Sheet { tolerance: 1e-12f64.to_bits(), ..Sheet::default() };
        assert_eq!(answer(&none.bytes()).text(), "blocks 0 scalars 0 stored 0 products 0 silent 0\n");
        self.add(NONE, none.bytes());
        // stored blocks of no block: the contents' column is not below 0
        let entry = Sheet { stored: 1, contents: vec![[0, 0, 28]], ..none.clone() };
        self.tell(NONE, entry.bytes(), 3);
        self.tell(NONE, Sheet { tolerance: f64::NAN.to_bits(), ..entry.clone() }.bytes(), 3);
        self.tell(NONE, Sheet { contents: vec![], ..entry.clone() }.bytes(), 15);
        self.tell(NONE, Sheet { stored: 1025, ..none.clone() }.bytes(), 16);
        self.tell(NONE, Sheet { tolerance: (-1f64).to_bits(), ..none.clone() }.bytes(), 10);
        self.tell(NONE, Sheet { tail: vec![0], ..none.clone() }.bytes(), 15);
        self.tell(NONE, Sheet { right: vec![0], ..none.clone() }.bytes(), 15);
    }

    fn one_and_two_faults(&mut self) {
        let mut base = plain(
            vec![2, 1, 3, 16, 1],
            &[(0, 0), (2, 0), (4, 0), (1, 1), (3, 1), (2, 2), (4, 2), (3, 3), (4, 3), (4, 4)],
            vec![],
            1e-12,
        );
        base.perm = vec![3, 1, 4, 0, 2];
        base.pairs[1][1] = 1;
        base.pairs[4][1] = 1;
        let areas = [(2, 2), (3, 2), (1, 2), (1, 1), (16, 1), (3, 3), (1, 3), (16, 16), (1, 16), (1, 1)];
        for (h, w) in areas {
            let body = self.draw().values(Kind::Plain, h * w);
            base.bodies.extend(body.iter().map(|x| x.to_bits()));
        }
        self.tell(FAULT, base.bytes(), 0);
        let list = faults();
        for (k, &(number, _)) in list.iter().enumerate() {
            self.tell(FAULT, applied(&base, &[k]), number);
        }
        for a in 0..list.len() {
            for b in a + 1..list.len() {
                // two of one part, of which the second undoes the first
                let undone = list[a].0 == 10 && list[b].0 == 10;
                if !undone {
                    self.tell(FAULTS, applied(&base, &[a, b]), list[a].0);
                }
            }
        }
        // a room past its end beside faults before it and after it: scalars 513 with a bad tolerance, a bad offset and an end that is wrong
        let mut wide = plain(vec![16; 33], &[], vec![], 1e-12);
        self.tell(FAULTS, wide.bytes(), 16);
        wide.tail.push(1);
        self.tell(FAULTS, wide.bytes(), 16);
        wide.tolerance = f64::NAN.to_bits();
        self.tell(FAULTS, wide.bytes(), 10);
        let mut full = plain(vec![16; 17], &(0..17).map(|k| (k, k)).collect::<Vec<_>>(), vec![0.0; 4352], 1e-12);
        self.tell(FAULTS, full.bytes(), 16);
        full.contents[3][2] = 0;
        self.tell(FAULTS, full.bytes(), 16);
        full.perm[3] = 2;
        self.tell(FAULTS, full.bytes(), 8);
    }

    fn rooms(&mut self) {
        // blocks
        for (n, number) in [(BLOCKS, 0), (BLOCKS + 1, 16)] {
            self.tell(ROOMS, plain(vec![1; n], &[], vec![], 1e-12).bytes(), number);
        }
        for n in [4096, 4097, u32::MAX] {
            let mut sheet = Self::two_blocks();
            sheet.blocks = n;
            self.tell(ROOMS, sheet.bytes(), 16);
            let mut sheet = Self::two_blocks();
            sheet.stored = n;
            self.tell(ROOMS, sheet.bytes(), 16);
        }
        // stored blocks: dense columns of 1 × 1
        let dense: Vec<(u32, u32)> = all_stored(128);
        for (m, number) in [(STORED, 0), (STORED + 1, 16)] {
            let values = dense[..m].iter().map(|&(i, j)| if i == j { 300.0 } else { 1.0 }).collect();
            self.tell(ROOMS, plain(vec![1; 128], &dense[..m], values, 1e-12).bytes(), number);
        }
        // scalars
        for (dims, number) in [(vec![16; 32], 0), ([vec![16; 31], vec![8, 8]].concat(), 0), ([vec![16; 32], vec![1]].concat(), 16)] {
            self.tell(ROOMS, plain(dims, &[], vec![], 1e-12).bytes(), number);
        }
        // values of A: sixteen diagonal blocks of 256, and one number more
        let diagonal: Vec<(u32, u32)> = (0..16).map(|k| (k, k)).collect();
        let mut values = self.draw().values(Kind::Plain, VALUES);
        (0..VALUES).filter(|k| k % 256 % 17 == 0).for_each(|k| values[k] += 64.0);
        self.tell(ROOMS, plain(vec![16; 16], &diagonal, values.clone(), 1e-12).bytes(), 0);
        values.push(1.0);
        let more: Vec<(u32, u32)> = (0..17).map(|k| (k, k)).collect();
        self.tell(ROOMS, plain([vec![16; 16], vec![1]].concat(), &more, values, 1e-12).bytes(), 16);
        // values of L: a hub eliminated first links all others
        for (dims, number) in [
            // nine blocks of 16: 36 · 256 = 9,216
            (vec![16; 9], 16),
            // eight blocks of 16 under a hub of 8: 28 · 256 + 8 · 128 = 8,192; a block of 1 more is past it
            ([vec![8], vec![16; 8]].concat(), 0),
            ([vec![8], vec![16; 8], vec![1]].concat(), 16),
        ] {
            let n = dims.len() as u32;
            let stored: Vec<(u32, u32)> = (0..n).map(|i| (i, 0)).collect();
            let count = stored.iter().map(|&(i, _)| (dims[i as usize] * dims[0]) as usize).sum();
            let values = self.draw().values(Kind::Plain, count);
            let sheet = plain(dims, &stored, values, 1e-12);
            let told = answer(&sheet.bytes()).number();
            if number == 16 {
                assert_eq!(told, 16);
            } else {
                assert!(told != 16);
            }
            self.add(ROOMS, sheet.bytes());
        }
        // L beyond its room comes before a pivot that is not finite
        let stored: Vec<(u32, u32)> = (0..9).map(|i| (i, 0)).collect();
        self.tell(ROOMS, plain(vec![16; 9], &stored, vec![f64::NAN; 9 * 256], 1e-12).bytes(), 16);
        // the longest good sheet: 128 blocks, 1,024 stored, 4,096 values, 512 scalars
        let longest = self.longest();
        assert_eq!(longest.bytes().len(), 50704);
        self.add(ROOMS, longest.bytes());
        for more in [1, 2, 8, 4096, 14000] {
            let mut long = longest.clone();
            long.tail = vec![7; more];
            self.tell(ROOMS, long.bytes(), 15);
        }
    }

    /// A sheet that fills every room but L's: 1,024 stored blocks of area 4 among 45 blocks of dimension 2, and 83 larger blocks that
    /// store nothing.
    fn longest(&mut self) -> Sheet {
        let small = 45u32;
        let mut stored: Vec<(u32, u32)> = all_stored(small);
        stored.truncate(STORED);
        assert_eq!(stored.len(), STORED);
        let left = SCALARS as u32 - 2 * small;
        let others = BLOCKS as u32 - small;
        let mut dims = vec![2; small as usize];
        dims.extend((0..others).map(|k| left / others + (k < left % others) as u32));
        let values = stored.iter().flat_map(|&(i, j)| if i == j { [300.0, 1.0, 1.0, 300.0] } else { [1.0, 0.5, -0.5, 1.0] }).collect();
        plain(dims, &stored, values, 1e-12)
    }

    fn cut(&mut self) {
        let whole = Self::two_blocks().bytes();
        for length in 0..whole.len() {
            self.tell(CUT, whole[..length].to_vec(), 15);
        }
        // a cut that leaves a fault in front of it, and one that takes it away
        let mut sheet = Self::two_blocks();
        sheet.pairs[1][0] = 17;
        self.tell(CUT, sheet.bytes()[..75].to_vec(), 15);
        self.tell(CUT, sheet.bytes()[..76].to_vec(), 2);
    }

    fn offsets(&mut self) {
        let good = Self::two_blocks();
        for at in 0..3 {
            let first = good.contents[at][2];
            for offset in [0, 1, first - 8, first - 1, first + 1, first + 4, first + 8, first + 16, 116, u32::MAX, first | 1 << 31] {
                let mut sheet = good.clone();
                sheet.contents[at][2] = offset;
                let number = if offset == first { 0 } else { 15 };
                self.tell(OFFSETS, sheet.bytes(), number);
            }
        }
        let mut swapped = good.clone();
        (swapped.contents[0][2], swapped.contents[1][2]) = (84, 76);
        self.tell(OFFSETS, swapped.bytes(), 15);
        let mut same = good.clone();
        same.contents[1][2] = 76;
        self.tell(OFFSETS, same.bytes(), 15);
        for more in [1, 4, 8, 16, 1000] {
            let mut sheet = good.clone();
            sheet.tail = vec![0; more];
            self.tell(OFFSETS, sheet.bytes(), 15);
        }
        let mut short = good.clone();
        short.right.pop();
        self.tell(OFFSETS, short.bytes(), 15);
        // a body less and a number more of the right side: the offsets tell
        let mut moved = good.clone();
        moved.bodies.pop();
        moved.right.push(0);
        moved.contents[2][2] = 84;
        self.tell(OFFSETS, moved.bytes(), 15);
    }

    /// A drawn night, and of two in three some damage.
    fn drawn(&mut self, kind: usize) {
        let n = [self.below(5), self.below(9), 1 + self.below(14)][self.below(3)];
        let links = self.below(2 * n + 1);
        let links = if n < 2 { vec![] } else { self.patterns.links(n, links.min(n * (n - 1) / 2)) };
        let diagonal = [Diagonal::All, Diagonal::All, self.patterns.diagonal()][self.below(3)];
        let base = self.patterns.tables(n, &links, diagonal);
        let wide = self.below(8) == 0;
        let dims = (0..n).map(|_| 1 + self.below(if wide { 16 } else { 4 }) as u32).collect();
        let tables = Tables { dims, perm: self.patterns.shuffled(n), late: self.patterns.flags(n), ..base };
        let values = VALUE_KINDS[[0, 0, 0, 0, 1, 1, 2, 3, 4][self.below(9)]];
        let mut numbers = self.draw().values(values, bodies(&tables)[tables.rows.len()]);
        if self.below(2) == 0 {
            let at = bodies(&tables);
            for j in 0..n {
                let p = tables.starts[j] as usize;
                if p < tables.starts[j + 1] as usize && tables.rows[p] as usize == j {
                    (0..tables.dims[j] as usize).for_each(|r| numbers[at[p] + r * (tables.dims[j] as usize + 1)] += 64.0);
                }
            }
        }
        let tolerance = [1e-12, 0.0, -0.0, 1e-9, 1e-3][self.below(5)];
        let right = self.right(scalars(&tables));
        let mut sheet = Sheet::of(&Night { tables, values: numbers, tolerance }, &right);
        let damage = if self.below(3) == 0 { 0 } else { 1 + self.below(2) };
        for _ in 0..damage {
            self.damage(&mut sheet);
        }
        let mut bytes = sheet.bytes();
        match self.below(12) {
            0 => bytes.truncate(self.below(bytes.len() + 1)),
            1 if !bytes.is_empty() => {
                let at = self.below(bytes.len());
                bytes[at] ^= 1 << self.below(8);
            }
            2 => {
                let more = self.below(9);
                bytes.extend(vec![0; more]);
            }
            _ => (),
        }
        self.add(kind, bytes);
    }

    fn damage(&mut self, s: &mut Sheet) {
        let (n, m) = (s.pairs.len(), s.contents.len());
        let word = [0, 1, 2, n as u32, n as u32 + 1, 16, 17, u32::MAX][self.below(8)];
        match self.below(11) {
            0 => s.blocks = [word, s.blocks + 1, s.blocks.saturating_sub(1), 128, 129][self.below(5)],
            1 => s.stored = [word, s.stored + 1, s.stored.saturating_sub(1), 1024, 1025][self.below(5)],
            2 => s.tolerance = [f64::NAN, f64::INFINITY, -1.0, -0.0, 1e300, 5e-324][self.below(6)].to_bits(),
            3 if n > 0 => {
                let at = self.below(n);
                s.pairs[at][0] = word;
            }
            4 if n > 0 => {
                let at = self.below(n);
                s.pairs[at][1] = word;
            }
            5 if n > 0 => {
                let at = self.below(n);
                s.perm[at] = word;
            }
            6 if m > 0 => {
                let at = self.below(m);
                s.contents[at][0] = word;
            }
            7 if m > 0 => {
                let at = self.below(m);
                s.contents[at][1] = word;
            }
            8 if m > 0 => {
                let at = self.below(m);
                s.contents[at][2] = s.contents[at][2].wrapping_add([8, 1, 4, 0u32.wrapping_sub(8)][self.below(4)]);
            }
            9 if !s.bodies.is_empty() => {
                let at = self.below(s.bodies.len());
                s.bodies[at] = [f64::NAN, f64::INFINITY, f64::NEG_INFINITY, 0.0, -0.0, 1e300, -1e-11][self.below(7)].to_bits();
            }
            10 if m > 1 => {
                let (a, b) = (self.below(m), self.below(m));
                s.contents.swap(a, b);
            }
            _ => s.tail = vec![0; 8 * self.below(3)],
        }
    }
}

pub fn cases() -> Vec<Case> {
    let mut maker = Maker::new(0x736865657473);
    maker.nights();
    maker.hand();
    maker.none();
    maker.one_and_two_faults();
    maker.rooms();
    maker.cut();
    maker.offsets();
    for _ in 0..150 {
        maker.drawn(DRAWN);
    }
    maker.all
}

/// So many drawn sheets.
pub fn drawn(seed: u64, count: usize) -> Vec<Case> {
    let mut maker = Maker::new(seed);
    for _ in 0..count {
        maker.drawn(DRAWN);
    }
    maker.all
}
