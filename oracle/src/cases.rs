//! The list of cases.
use crate::{
    run::{Case, OPS, Op},
    values::{Draw, KINDS, Kind, LEAST},
};

const NAN: f64 = f64::NAN;
const INF: f64 = f64::INFINITY;
const MOST: u64 = u64::MAX;

pub struct Cases {
    pub all: Vec<Case>,
    draw: Draw,
    variant: u64,
}

pub fn cases() -> Cases {
    let mut c = Cases { all: vec![], draw: Draw(0), variant: 0 };
    for op in 1..=OPS.len() {
        c.draw = Draw(op as u64 * 1_000_003);
        if OPS[op - 1].tolerance {
            c.decompositions(op);
        } else {
            c.shapes(op);
            c.by_hand(op);
        }
        c.refused(op);
    }
    c
}

const ONE_SIZE: [&[u64]; 5] = [&[0], &[1], &[2], &[3], &[4]];
const TWO_SIZES: [&[u64]; 12] = [
    &[0, 0],
    &[0, 3],
    &[3, 0],
    &[1, 1],
    &[1, 4],
    &[4, 1],
    &[2, 2],
    &[2, 3],
    &[3, 3],
    &[3, 4],
    &[4, 3],
    &[4, 4],
];
const THREE_SIZES: [&[u64]; 13] = [
    &[0, 0, 0],
    &[0, 2, 3],
    &[2, 0, 3],
    &[2, 3, 0],
    &[1, 1, 1],
    &[2, 2, 2],
    &[3, 3, 3],
    &[1, 2, 3],
    &[3, 2, 1],
    &[2, 4, 3],
    &[4, 1, 2],
    &[3, 4, 4],
    &[4, 4, 4],
];

// the float next to x, away from zero or towards it
fn away(x: f64) -> f64 {
    f64::from_bits(x.to_bits() + 1)
}

fn towards(x: f64) -> f64 {
    f64::from_bits(x.to_bits() - 1)
}

impl Cases {
    fn push(&mut self, op: usize, sizes: &[u64], tolerance: f64, slices: Vec<Vec<f64>>) {
        self.all.push(Case { op, sizes: sizes.to_vec(), tolerance, slices });
    }

    fn next_variant(&mut self) -> u64 {
        self.variant += 1;
        self.variant
    }

    // ---- kernels and solves

    fn slices(&mut self, op: usize, sizes: &[u64], kind: Kind) -> Vec<Vec<f64>> {
        let Op { slices, factor, diagonal, .. } = OPS[op - 1];
        let lengths = OPS[op - 1].lengths(sizes);
        let mut all = vec![];
        for (s, &length) in lengths.iter().enumerate() {
            all.push(if factor == Some(s) {
                let variant = self.next_variant();
                self.draw.factor(kind, sizes[slices[s][0]] as usize, variant)
            } else if diagonal == Some(s) {
                self.draw.diagonal(kind, length)
            } else {
                self.draw.values(kind, length)
            });
        }
        all
    }

    fn drawn(&mut self, op: usize, sizes: &[u64], kind: Kind) {
        if sizes.iter().all(|&s| s >= OPS[op - 1].least) {
            let slices = self.slices(op, sizes, kind);
            self.push(op, sizes, 0.0, slices);
        }
    }

    fn shapes(&mut self, op: usize) {
        match OPS[op - 1].sizes {
            1 => {
                for sizes in ONE_SIZE {
                    let kinds: &[Kind] = match sizes[0] {
                        0 => &[Kind::Plain],
                        1 => &[Kind::Plain, Kind::Odd],
                        4 => &[Kind::Plain, Kind::Small, Kind::Odd],
                        _ => &KINDS,
                    };
                    for &kind in kinds {
                        self.drawn(op, sizes, kind);
                    }
                }
                self.drawn(op, &[16], Kind::Plain);
                self.drawn(op, &[16], Kind::Small);
            }
            2 => {
                for (at, sizes) in TWO_SIZES.into_iter().enumerate() {
                    self.drawn(op, sizes, KINDS[(at + op) % 5]);
                }
                for kind in [Kind::Tiny, Kind::Huge, Kind::Odd] {
                    self.drawn(op, &[3, 2], kind);
                }
                self.drawn(op, &[16, 16], Kind::Plain);
                self.drawn(op, &[16, 1], Kind::Plain);
                self.drawn(op, &[1, 16], Kind::Plain);
            }
            _ => {
                for (at, sizes) in THREE_SIZES.into_iter().enumerate() {
                    self.drawn(op, sizes, KINDS[(at + op) % 5]);
                }
                for kind in [Kind::Tiny, Kind::Huge, Kind::Odd] {
                    self.drawn(op, &[2, 3, 2], kind);
                }
                self.drawn(op, &[16, 16, 16], Kind::Plain);
                self.drawn(op, &[16, 1, 2], Kind::Small);
                self.drawn(op, &[2, 16, 1], Kind::Plain);
                self.drawn(op, &[1, 2, 16], Kind::Plain);
            }
        }
    }

    fn by_hand(&mut self, op: usize) {
        // every divisor that is special over every dividend that is
        let d = [0.0, -0.0, LEAST, -LEAST, 1e-310, INF, -INF, NAN, 3.0, -3.0, 1e300, 49.0, -1e-308, 0.1, f64::MAX, 1.0];
        let y = [1.0, -1.0, -0.0, INF, -INF, NAN, 5.0, 1e300, -LEAST, 2.5];
        match op {
            5 => {
                for turn in 0..4 {
                    let ys = (0..16).map(|i| y[(i + 3 * turn) % 10]).collect();
                    self.push(op, &[16], 0.0, vec![d.to_vec(), ys]);
                }
            }
            6 => {
                let ys = (0..5).flat_map(|c| (0..16).map(move |i| y[(i + 2 * c) % 10])).collect();
                self.push(op, &[16, 5], 0.0, vec![d.to_vec(), ys]);
            }
            9 => {
                let ys = (0..16).flat_map(|j| (0..5).map(move |r| y[(j + 2 * r) % 10])).collect();
                self.push(op, &[5, 16], 0.0, vec![d.to_vec(), ys]);
            }
            // b times d passes the greatest float, or falls to zero, before a brings it back
            10 | 11 => {
                self.push(op, &[1, 1, 1], 0.0, vec![vec![1.0], vec![1e-300], vec![1e300], vec![1e300]]);
                self.push(op, &[1, 1, 1], 0.0, vec![vec![1.0], vec![1e300], vec![1e-300], vec![1e-300]]);
                self.push(op, &[1, 1, 1], 0.0, vec![vec![-0.0], vec![-0.0], vec![1.0], vec![1.0]]);
                self.push(op, &[1, 1, 1], 0.0, vec![vec![1.0], vec![INF], vec![0.0], vec![1.0]]);
                self.push(op, &[1, 1, 2], 0.0, vec![vec![1e16], vec![1.0, 1.0], vec![1.0, 1.0], vec![1.0, 1.0]]);
            }
            // the sum is gathered apart from 0.0: a product -0.0, small terms beside a large number, a passing overflow
            12 | 13 => {
                let sizes = |n: u64| if op == 12 { [1, n] } else { [n, 1] };
                self.push(op, &sizes(1), 0.0, vec![vec![-0.0], vec![-0.0], vec![1.0]]);
                self.push(op, &sizes(1), 0.0, vec![vec![-0.0], vec![0.0], vec![1.0]]);
                self.push(op, &sizes(0), 0.0, vec![vec![-0.0], vec![], vec![]]);
                self.push(op, &sizes(2), 0.0, vec![vec![1e16], vec![1.0, 1.0], vec![1.0, 1.0]]);
                self.push(op, &sizes(2), 0.0, vec![vec![1e308], vec![-1e308, 1e308], vec![1.0, 1.0]]);
                self.push(op, &sizes(3), 0.0, vec![vec![0.0], vec![1e308, 1e308, -1e308], vec![1.0, 1.0, 1.0]]);
            }
            // a zero pivot under an infinite, a NaN and a negative number; the vector form divides, the others multiply
            15 | 19 => {
                let l = vec![1.0, 0.0, 0.0, 0.0, 1.0, 0.0, 0.0, 0.0, 1.0];
                self.push(op, &[3], 0.0, vec![l.clone(), vec![0.0, -0.0, 0.0], vec![INF, NAN, -1.0]]);
                self.push(op, &[3], 0.0, vec![l, vec![49.0, 3.0, LEAST], vec![1.0, 5.0, LEAST]]);
            }
            16 | 17 | 20 => {
                let l = vec![1.0, 0.0, 0.0, 0.0, 1.0, 0.0, 0.0, 0.0, 1.0];
                let sizes = if op == 16 { [3, 1] } else { [1, 3] };
                self.push(op, &sizes, 0.0, vec![l.clone(), vec![0.0, -0.0, 0.0], vec![INF, NAN, -1.0]]);
                self.push(op, &sizes, 0.0, vec![l, vec![49.0, 3.0, LEAST], vec![1.0, 5.0, LEAST]]);
            }
            // infinity times a stored zero
            1..=4 | 7 | 8 => {
                let l = vec![NAN, 0.0, NAN, NAN];
                let sizes: &[u64] = match op {
                    1 | 3 => &[2],
                    2 | 4 => &[2, 1],
                    _ => &[1, 2],
                };
                self.push(op, sizes, 0.0, vec![l.clone(), vec![INF, 1.0]]);
                self.push(op, sizes, 0.0, vec![l, vec![1.0, -INF]]);
            }
            _ => unreachable!(),
        }
    }

    // ---- the two decompositions

    // a block from its lower part by rows; above the diagonal the mirror image, NaN or plain numbers
    fn block(&mut self, rows: &[Vec<f64>]) -> Vec<f64> {
        let n = rows.len();
        let variant = self.next_variant();
        let mut a = vec![];
        for column in 0..n {
            for row in 0..n {
                let other = self.draw.plain();
                a.push(if row >= column {
                    rows[row][column]
                } else {
                    [rows[column][row], NAN, other][(variant % 3) as usize]
                });
            }
        }
        a
    }

    fn decompose(&mut self, op: usize, tolerance: f64, rows: &[Vec<f64>]) {
        let n = rows.len();
        if (n as u64) < OPS[op - 1].least {
            return;
        }
        let a = self.block(rows);
        let kind = KINDS[(self.variant % 5) as usize];
        let d = self.draw.values(kind, n);
        let slices = if op == 18 { vec![a, self.draw.values(kind, n * n), d] } else { vec![a, d] };
        self.push(op, &[n as u64], tolerance, slices);
    }

    fn diagonal_only(&mut self, op: usize, tolerance: f64, diagonal: &[f64]) {
        let rows: Vec<Vec<f64>> =
            diagonal.iter().enumerate().map(|(i, &x)| (0..=i).map(|j| if i == j { x } else { 0.0 }).collect()).collect();
        self.decompose(op, tolerance, &rows);
    }

    fn definite(&mut self, n: usize) -> Vec<Vec<f64>> {
        let b: Vec<Vec<f64>> = (0..n).map(|_| self.draw.values(Kind::Plain, n)).collect();
        let dot = |i: usize, j: usize| (0..n).map(|k| b[i][k] * b[j][k]).sum::<f64>();
        (0..n).map(|i| (0..=i).map(|j| dot(i, j) + if i == j { 1.0 } else { 0.0 }).collect()).collect()
    }

    // L d Lᵀ in small integers, so that the pivots met are exactly d
    fn exact(&mut self, d: &[f64]) -> Vec<Vec<f64>> {
        let n = d.len();
        let mut l = vec![vec![0.0; n]; n];
        for (i, row) in l.iter_mut().enumerate() {
            for x in row.iter_mut().take(i) {
                *x = self.draw.below(3) as f64 - 1.0;
            }
            row[i] = 1.0;
        }
        let entry = |i: usize, j: usize| (0..=j).map(|p| l[i][p] * d[p] * l[j][p]).sum::<f64>();
        (0..n).map(|i| (0..=i).map(|j| entry(i, j)).collect()).collect()
    }

    fn of_kind(&mut self, n: usize, kind: Kind) -> Vec<Vec<f64>> {
        (0..n).map(|i| self.draw.values(kind, i + 1)).collect()
    }

    fn decompositions(&mut self, op: usize) {
        let rows = |r: &[&[f64]]| r.iter().map(|x| x.to_vec()).collect::<Vec<_>>();

        // no rows
        for tolerance in [0.0, 1e-12, -0.0] {
            self.decompose(op, tolerance, &[]);
        }
        // one number, its tolerance: zeros; the two sides of 1e-10; at, above and below a tolerance
        let near = [
            (0.0, 0.0),
            (-0.0, 0.0),
            (0.0, -0.0),
            (-0.0, 1e-12),
            (-1e-10, 1e-12),
            (-1e-11, 1e-12),
            (-1e-10, 0.0),
            (towards(-1e-10), 1e-12),
            (away(-1e-10), 1e-12),
            (1e-11, 1e-12),
            (1e-12, 1e-12),
            (away(1e-12), 1e-12),
            (towards(1e-12), 1e-12),
            (-1e-12, 1e-12),
            (away(-1e-12), 1e-12),
            (-1e-13, 1e-12),
            (0.5, 0.5),
            (away(0.5), 0.5),
            (towards(0.5), 0.5),
            (-0.5, 0.5),
            (away(-0.5), 0.5),
            (1e300, 1e300),
            (away(1e300), 1e300),
            (-1e305, 1e300),
            (LEAST, 0.0),
            (LEAST, -0.0),
            (LEAST, LEAST),
            (2.0 * LEAST, LEAST),
            (-LEAST, 0.0),
            (f64::MAX, 0.5),
            (-f64::MAX, f64::MAX),
            (1e-3, 1e-12),
            (-4.0, 0.0),
        ];
        for (number, tolerance) in near {
            if op == 14 || number < 0.0 || tolerance == 1e-12 {
                self.diagonal_only(op, tolerance, &[number]);
            }
        }
        // the tolerance after a greater pivot, and after one that stays below 1.0
        let t = 3.0 * 0.1;
        for second in [4e-12, away(4e-12), towards(4e-12), -4e-12, away(-4e-12)] {
            self.diagonal_only(op, 1e-12, &[4.0, second]);
        }
        if op == 14 {
            for second in [t, away(t), towards(t)] {
                self.diagonal_only(op, 0.1, &[3.0, second]);
            }
            for second in [0.5, away(0.5)] {
                self.diagonal_only(op, 0.5, &[0.75, second]);
            }
        }
        // rank, definiteness and condition
        let kept: [(f64, &[f64]); 20] = [
            (1e-12, &[1.0, 1e-11]),
            (1e-12, &[1.0, -1e-10]),
            (1e-12, &[1.0, -9e-11]),
            (1e-12, &[-1e-11, 0.1]),
            (1e-12, &[3.0, -3e-10]),
            (1e-12, &[2.0, -1.0, 0.0]),
            (1e-12, &[0.0, -1.0]),
            (1e-12, &[-1.0, -2.0]),
            (1e-12, &[0.0, 0.0, 0.0]),
            (1e-12, &[0.0, 0.0, 7.0]),
            (0.0, &[LEAST, 1e300]),
            (0.0, &[1e300, -LEAST]),
            (0.0, &[1.0, -1e-31]),
            (0.0, &[-1e-31, 1.0]),
            (0.0, &[0.25, 0.125]),
            (-0.0, &[-0.25, 0.125, -0.0]),
            (1e300, &[1e305, 1e307, -1e308]),
            (f64::MAX, &[1.0, 2.0]),
            (0.5, &[1.0, 4.0, 1.0, 2.5]),
            (1e-300, &[1e10, -1e-3]),
        ];
        for (tolerance, d) in kept {
            self.diagonal_only(op, tolerance, d);
        }
        // a zero pivot drops what lies below it, whatever that is
        for below in [NAN, INF, -INF, 5.0, -0.0] {
            self.decompose(op, 0.0, &rows(&[&[0.0], &[below, 1.0]]));
        }
        self.decompose(op, 1e-12, &rows(&[&[0.0], &[NAN, 1.0]]));
        self.decompose(op, 1e-12, &rows(&[&[-1e-13], &[NAN, 1.0]]));
        self.decompose(op, 1e-12, &rows(&[&[0.0], &[1.0, 0.0]]));
        self.decompose(op, 1e-12, &rows(&[&[2.0], &[1.0, 0.0]]));
        self.decompose(op, 1e-12, &rows(&[&[1.0], &[1.0, 1.0]]));
        self.decompose(op, 1e-12, &rows(&[&[1.0], &[1.0, 1.0], &[2.0, NAN, 8.0]]));
        self.decompose(op, 1e-12, &rows(&[&[0.0], &[INF, 2.0], &[NAN, 1.0, 3.0], &[-INF, 4.0, 5.0, 60.0]]));
        // signs of zero
        self.decompose(op, 0.0, &rows(&[&[1.0], &[-0.0, 1.0]]));
        self.decompose(op, 0.0, &rows(&[&[-1.0], &[0.0, 1.0]]));
        self.decompose(op, 1e-12, &rows(&[&[4.0], &[2.0, 5.0]]));
        // a late pivot so great that the tolerance passes an earlier d that is not 0.0
        self.decompose(op, 1e-12, &rows(&[&[1.0], &[0.5, 1e13], &[2.0, 3.0, 1e14]]));
        self.decompose(op, 1e-12, &rows(&[&[1.0], &[0.5, 1e13], &[NAN, 3.0, 1e14]]));
        self.decompose(op, 1e-12, &rows(&[&[1.0], &[0.5, 1e13], &[2.0, 3.0, 5.0]]));
        self.decompose(op, 1e-12, &rows(&[&[-1.0], &[0.5, 1e13], &[2.0, 3.0, 1e14]]));
        self.decompose(op, 1e-12, &rows(&[&[3.0], &[1.0, 7.0], &[0.5, 2.0, 1e20], &[1.0, 2.0, 3.0, 1e9]]));
        let (step, great) = (f64::from_bits(983 << 52), 17592186044416.0); // 2^-40, 2^44: the tolerance becomes 16
        for first in [16.0, away(16.0), towards(16.0)] {
            self.decompose(op, step, &rows(&[&[first], &[0.0, great], &[5.0, 1.0, 64.0]]));
        }
        self.decompose(op, 0.5, &rows(&[&[1.0], &[0.25, 4.0], &[0.3, 0.7, 9.0]]));
        self.decompose(op, 1e300, &rows(&[&[1e305], &[1.0, 1e306], &[1e300, -3.0, 1e307]]));
        // pivots that are not finite, at each row and by each way
        for row in 0..4 {
            for (turn, bad) in [NAN, INF, -INF].into_iter().enumerate() {
                if op == 14 || row % 3 == turn % 3 || row == 0 {
                    let mut a = self.definite(4);
                    a[row][row] = bad;
                    self.decompose(op, 1e-12, &a);
                }
            }
        }
        for bad in [NAN, INF, -INF] {
            self.decompose(op, 0.0, &[vec![bad]]);
        }
        self.decompose(op, 1e300, &[vec![NAN]]);
        self.decompose(op, 1e300, &rows(&[&[1e305], &[1.0, INF]]));
        self.decompose(op, 1e-12, &rows(&[&[1.0], &[NAN, 1.0]]));
        self.decompose(op, 1e-12, &rows(&[&[1.0], &[INF, 1.0]]));
        self.decompose(op, 1e-12, &rows(&[&[-1.0], &[INF, 1.0]]));
        self.decompose(op, 1e-12, &rows(&[&[1.0], &[INF, INF]]));
        self.decompose(op, 1e-12, &rows(&[&[1.0], &[1e200, 1.0]]));
        self.decompose(op, 1e-12, &rows(&[&[-1.0], &[1e200, 1.0]]));
        self.decompose(op, 0.0, &rows(&[&[LEAST], &[1.0, 1.0]]));
        self.decompose(op, 0.0, &rows(&[&[1e-300], &[1e300, 1.0], &[1.0, 1.0, 1.0]]));
        self.decompose(op, 1e-12, &rows(&[&[1.0], &[0.0, 1.0], &[0.0, NAN, 1.0], &[0.0, 0.0, 0.0, INF]]));
        self.decompose(op, 1e-12, &rows(&[&[1.0], &[1.0, 2.0], &[1e160, 1.0, 1.0], &[0.0, 0.0, 0.0, NAN]]));
        // drawn: definite, with exact zero pivots, indefinite, and every kind
        for n in 1..=4 {
            let a = self.definite(n);
            self.decompose(op, 1e-12, &a);
            if op == 14 {
                let a = self.definite(n);
                self.decompose(op, 0.0, &a);
            }
        }
        for tolerance in [-0.0, 0.5, 1e300, LEAST] {
            let a = self.definite(3);
            self.decompose(op, tolerance, &a);
        }
        let exact: [&[f64]; 8] = [
            &[4.0, 0.0],
            &[0.0, 3.0],
            &[2.0, 0.0, 5.0],
            &[1.0, 0.0, 0.0, 2.0],
            &[0.0, 3.0, 0.0, 1.0],
            &[2.0, -3.0],
            &[-1.0, 2.0, -5.0],
            &[3.0, 0.0, -7.0, 2.0],
        ];
        for d in exact {
            let a = self.exact(d);
            self.decompose(op, 1e-12, &a);
        }
        for n in 2..=4 {
            for kind in KINDS {
                if op == 14 || n == 3 {
                    let a = self.of_kind(n, kind);
                    self.decompose(op, [1e-12, 0.0][n % 2], &a);
                }
            }
        }
        // sixteen rows
        let a = self.definite(16);
        self.decompose(op, 1e-12, &a);
        let d: Vec<f64> = (0..16).map(|i| [2.0, 0.0, -3.0, 5.0][i % 4]).collect();
        let a = self.exact(&d);
        self.decompose(op, 1e-12, &a);
        let mut a = self.definite(16);
        a[15][15] = -INF;
        self.decompose(op, 1e-12, &a);
        if op == 14 {
            let a = self.of_kind(16, Kind::Plain);
            self.decompose(op, 0.0, &a);
        }
    }

    // ---- refusals, each with buffers whose numbers must stay

    fn faulty(&mut self, op: usize, sizes: &[u64], tolerance: f64, lengths: &[usize]) {
        let slices = lengths.iter().map(|&l| self.draw.values(Kind::Odd, l)).collect();
        self.push(op, sizes, tolerance, slices);
    }

    fn refused(&mut self, op: usize) {
        let Op { sizes: count, tolerance: has_tolerance, least, .. } = OPS[op - 1];
        let tolerance = if has_tolerance { 1e-12 } else { 0.0 };
        let base: Vec<u64> = [2, 1, 2][..count].to_vec();
        let lengths = OPS[op - 1].lengths(&base);
        let with = |place: usize, size: u64| {
            let mut s = base.clone();
            s[place] = size;
            s
        };
        // 2 at each place: buffers as for the good sizes
        for place in 0..count {
            for size in [17, MOST] {
                self.faulty(op, &with(place, size), tolerance, &lengths);
            }
            if least > 0 {
                self.faulty(op, &with(place, 0), tolerance, &lengths);
            }
        }
        // 2 for a size whose low 32 bits would pass
        self.faulty(op, &with(op % count, base[op % count] + (1 << 32)), tolerance, &lengths);
        // 2 and nothing else
        for place in 0..count {
            let mut sizes = vec![least; count];
            sizes[place] = 17;
            let alone = OPS[op - 1].lengths(&sizes);
            if alone.iter().sum::<usize>() < 60 || [1, 14].contains(&op) {
                self.faulty(op, &sizes, tolerance, &alone);
            }
            if least > 0 {
                let sizes = with(place, 0);
                let alone = OPS[op - 1].lengths(&sizes);
                self.faulty(op, &sizes, tolerance, &alone);
            }
        }
        // 2 twice: the first place
        if count > 1 {
            let mut sizes = base.clone();
            (sizes[count - 2], sizes[count - 1]) = (MOST, 17);
            self.faulty(op, &sizes, tolerance, &lengths);
        }
        // 12 at each slice: one short, one long
        for place in 0..lengths.len() {
            for by in [-1, 1] {
                let mut wrong = lengths.clone();
                wrong[place] = (wrong[place] as isize + by) as usize;
                self.faulty(op, &base, tolerance, &wrong);
            }
        }
        // 12 twice: the first place, here of the last two; and a number where there is room for none
        let mut wrong = lengths.clone();
        for slice in wrong.iter_mut().rev().take(2) {
            *slice += 1;
        }
        self.faulty(op, &base, tolerance, &wrong);
        if least == 0 {
            let mut wrong = vec![0; lengths.len()];
            wrong[lengths.len() - 1] = 1;
            self.faulty(op, &vec![0; count], tolerance, &wrong);
        }
        if has_tolerance {
            let mut wrong = lengths.clone();
            wrong[0] += 2;
            for bad in [NAN, INF, -INF, -1e-300, -LEAST, -1.0] {
                self.faulty(op, &base, bad, &lengths);
            }
            // 10 with 12, 2 with 10, all three
            self.faulty(op, &base, NAN, &wrong);
            let mut last = lengths.clone();
            *last.last_mut().unwrap() -= 1;
            self.faulty(op, &base, -1e-300, &last);
            self.faulty(op, &with(0, 17), INF, &lengths);
            self.faulty(op, &with(0, MOST), NAN, &wrong);
            if op == 14 {
                self.faulty(op, &[0], -1.0, &[0, 0]);
            } else {
                self.faulty(op, &[0], -1.0, &[0, 0, 0]);
            }
            // what would be 13 or 14, behind 2, 10 and 12
            for a in [NAN, -1e-11] {
                let slices = |extra: usize| {
                    let d = vec![3.0; 1 + extra];
                    if op == 14 { vec![vec![a], d] } else { vec![vec![a], vec![-0.0], d] }
                };
                self.push(op, &[1], 1e-12, slices(1));
                self.push(op, &[1], -1.0, slices(0));
                self.push(op, &[17], 1e-12, slices(0));
            }
        }
    }
}
