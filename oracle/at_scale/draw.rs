//! The systems, and what is damaged of a call: drawn with fixed seeds.
use bench::factor_cases::{Links, Maker, Weight};
use bench::factors::{Night, bodies};
use bench::nights::Night as Pattern;
use bench::plan_cases::Diagonal;
use bench::plans::{NONE, Tables};
use bench::systems;
use bench::values::{KINDS, Kind};

use crate::solves::Held;

pub struct Drawer {
    pub maker: Maker,
}

impl Drawer {
    pub fn new(seed: u64) -> Self {
        Self { maker: Maker::new(seed) }
    }

    pub fn below(&mut self, n: usize) -> usize {
        self.maker.below(n)
    }

    fn kind(&mut self) -> Kind {
        KINDS[[0, 0, 0, 0, 0, 1, 1, 2, 3, 4][self.below(10)]]
    }

    /// Up to 44 blocks.
    pub fn small(&mut self) -> Night {
        let n = match self.below(12) {
            0 => self.below(3),
            1..=4 => 1 + self.below(6),
            5..=9 => 4 + self.below(16),
            _ => 15 + self.below(30),
        };
        let links: Links = match self.below(8) {
            0 if n < 10 => (0..n).flat_map(|a| (0..a).map(move |b| (a, b))).collect(),
            1 => (1..n).map(|k| (k - 1, k)).collect(),
            2 if n > 0 => {
                let hub = self.below(n);
                (0..n).filter(|&k| k != hub).map(|k| (hub, k)).collect()
            }
            3 => (4..n).map(|k| (k - 4, k)).chain((1..n).filter(|k| k % 4 != 0).map(|k| (k - 1, k))).collect(),
            _ => {
                let count = n * (1 + self.below(5)) / 2;
                self.maker.patterns.links(n, count)
            }
        };
        let diagonal = self.maker.patterns.diagonal();
        let mut tables = self.maker.drawn(n, &links, diagonal);
        if self.below(6) == 0 {
            tables.perm = (0..n as u32).collect();
        }
        let (kind, weight) = (self.kind(), self.maker.weight());
        let mut night = self.maker.night(tables, kind, weight);
        for _ in 0..[0, 0, 1, 1, 2][self.below(5)] {
            let what = self.below(5);
            self.spoil(&mut night, what);
        }
        night
    }

    /// Stored zeros, a low rank, a pivot near the threshold, a number that is not finite, a -0.0.
    fn spoil(&mut self, night: &mut Night, what: usize) {
        let t = &night.tables;
        if t.rows.is_empty() {
            return;
        }
        let at = bodies(t);
        let column = |j: usize| &t.rows[t.starts[j] as usize..t.starts[j + 1] as usize];
        let diagonal: Vec<usize> = (0..t.dims.len()).filter(|&j| column(j).first() == Some(&(j as u32))).collect();
        match what {
            0 => {
                let zero = [0.0, -0.0][self.below(2)];
                for p in 0..t.rows.len() {
                    if self.below(3) == 0 {
                        night.values[at[p]..at[p + 1]].fill(zero);
                    }
                }
            }
            1 if !diagonal.is_empty() => {
                let j = diagonal[self.below(diagonal.len())];
                let dim = t.dims[j] as usize;
                let rank = self.below(dim);
                let b: Vec<f64> = (0..dim * rank).map(|_| self.below(5) as f64 - 2.0).collect();
                let body = &mut night.values[at[t.starts[j] as usize]..][..dim * dim];
                for c in 0..dim {
                    for r in 0..dim {
                        body[r + c * dim] = (0..rank).map(|k| b[r + k * dim] * b[c + k * dim]).sum();
                    }
                }
            }
            2 if !diagonal.is_empty() => {
                // 2 on the diagonal but for one pivot, whose share of it is 1e-10 or some last bits beside it
                let j = diagonal[self.below(diagonal.len())];
                let dim = t.dims[j] as usize;
                let place = self.below(dim);
                let share = if dim == 1 { 1e-10f64 } else { 2e-10 };
                let pivot = -f64::from_bits(share.to_bits() + self.below(7) as u64 - 3);
                let body = &mut night.values[at[t.starts[j] as usize]..][..dim * dim];
                body.fill(0.0);
                (0..dim).for_each(|r| body[r * (dim + 1)] = if r == place { pivot } else { 2.0 });
                night.tolerance = [1e-12, 0.0][self.below(2)];
            }
            3 => {
                let x = [f64::NAN, f64::INFINITY, f64::NEG_INFINITY, f64::from_bits(0xFFF0000000000001)][self.below(4)];
                let place = self.below(night.values.len());
                night.values[place] = x;
            }
            _ => {
                let place = self.below(night.values.len());
                night.values[place] = -0.0;
            }
        }
    }

    /// From 1,000 to 4,096 blocks.
    pub fn large(&mut self, turn: usize) -> Night {
        let mut tables = match turn % 10 {
            0 if turn % 20 == 0 => self.maker.patterns.limits(),
            0 => self.band(4096, 4),
            1 | 2 => {
                let n = 1000 + self.below(1001);
                let width = 2 + self.below(9);
                self.band(n, width)
            }
            3 | 4 => {
                let (width, height) = [(32, 32), (40, 30), (50, 40), (64, 32)][self.below(4)];
                self.relabelled(&systems::nights(width, height)[0])
            }
            5 | 6 => {
                let (width, height) = [(32, 32), (40, 40), (64, 48)][self.below(3)];
                let mut hubs = systems::nights(width, height).swap_remove(1);
                // hubs come last, and each has links all over
                for k in 0..1 + self.below(3) {
                    let hub = hubs.perm[hubs.n - 1 - k];
                    let ends: Vec<usize> = (0..hubs.n / 8).map(|_| self.below(hubs.n)).filter(|&e| e != hub).collect();
                    hubs.links.extend(ends.into_iter().map(|e| (hub, e)));
                }
                self.relabelled(&hubs)
            }
            7 => {
                let n = 1000 + self.below(3097);
                let links: Links = (1..n).map(|k| (k - 1, k)).collect();
                let perm = self.maker.patterns.shuffled(n).iter().map(|&k| k as usize).collect();
                self.relabelled(&Pattern { name: "chain", n, links, perm })
            }
            8 => {
                let n = 1000 + self.below(2001);
                let links: Links = (1..n - 1).map(|k| (k - 1, k)).chain((0..n - 1).map(|k| (k, n - 1))).collect();
                self.relabelled(&Pattern { name: "arrow", n, links, perm: (0..n).collect() })
            }
            _ => {
                let n = 1000 + self.below(300);
                let count = n / 2 + self.below(n / 3);
                let links = self.maker.patterns.links(n, count);
                let perm = self.maker.patterns.shuffled(n).iter().map(|&k| k as usize).collect();
                self.relabelled(&Pattern { name: "random", n, links, perm })
            }
        };
        if turn % 3 == 0 && turn % 20 != 0 {
            // a few late blocks, in runs
            let n = tables.dims.len();
            let (first, count) = (self.below(n - 8), 1 + self.below(8));
            tables.late[first..first + count].fill(1);
        }
        let kind = if turn % 7 == 0 { Kind::Small } else { Kind::Plain };
        let weight = [Weight::Heavy, Weight::Signed][turn / 2 % 2];
        let mut night = self.maker.night(tables, kind, weight);
        match turn % 8 {
            1 => self.spoil(&mut night, turn / 8 % 3),
            3 => self.spoil(&mut night, 3),
            5 => self.spoil(&mut night, 2),
            _ => (),
        }
        night
    }

    /// A band under drawn old numbers.
    fn band(&mut self, n: usize, width: usize) -> Tables {
        let links: Links = (0..n).flat_map(|a| (a + 1..n.min(a + 1 + width)).map(move |b| (a, b))).collect();
        self.relabelled(&Pattern { name: "band", n, links, perm: (0..n).collect() })
    }

    /// A pattern under drawn old numbers, with drawn dimensions: in runs, small, all the same, or each block's own.
    fn relabelled(&mut self, pattern: &Pattern) -> Tables {
        let n = pattern.n;
        let drawn = self.maker.patterns.shuffled(n);
        let moved: Links = pattern.links.iter().map(|&(a, b)| (drawn[a] as usize, drawn[b] as usize)).collect();
        let diagonal = [Diagonal::All, Diagonal::All, Diagonal::All, Diagonal::Some][self.below(4)];
        let base = self.maker.patterns.tables(n, &moved, diagonal);
        let most = [1, 2, 3, 4, 6][self.below(5)];
        let dims = match self.below(3) {
            0 => vec![most as u32; n],
            1 if n < 2500 => (0..n).map(|_| if self.below(40) == 0 { 1 + self.below(16) } else { 1 + self.below(most) } as u32).collect(),
            _ => {
                let mut runs = vec![];
                while runs.len() < n {
                    let dim = if self.below(40) == 0 { 1 + self.below(16) } else { 1 + self.below(most) };
                    let run = 8 + self.below(57);
                    runs.extend(vec![dim as u32; run.min(n - runs.len())]);
                }
                runs
            }
        };
        let mut perm: Vec<u32> = pattern.perm.iter().map(|&k| drawn[k]).collect();
        for _ in 0..self.below(4) {
            let (a, b) = (self.below(n), self.below(n));
            perm.swap(a, b);
        }
        Tables { dims, perm, ..base }
    }

    // ---- right sides and damage

    pub fn right(&mut self, count: usize) -> Vec<f64> {
        let kind = self.kind();
        self.maker.patterns.draw.values(kind, count)
    }

    /// How much longer than its need each buffer is; with `short` at least one is shorter.
    pub fn over<const N: usize>(&mut self, short: bool) -> [i64; N] {
        let mut over = std::array::from_fn(|_| self.below(4) as i64);
        if short {
            for _ in 0..1 + self.below(2) {
                over[self.below(N)] = [-1, -1, -2, -1_000_000_000][self.below(4)];
            }
        }
        over
    }

    fn word(&mut self, n: usize) -> u32 {
        [0, 1, n as u32, n as u32 + 1, 17, u32::MAX, u32::MAX - 1, 1 << 31, self.below(n + 1) as u32][self.below(9)]
    }

    /// One place of a table changed, or its length.
    fn list(&mut self, list: &mut Vec<u32>, n: usize) {
        let word = self.word(n);
        match self.below(6) {
            0 => {
                list.pop();
            }
            1 => list.push(word),
            2 if list.len() > 1 => {
                let (a, b) = (self.below(list.len()), self.below(list.len()));
                list.swap(a, b);
            }
            3 if self.below(4) == 0 => list.clear(),
            _ if !list.is_empty() => {
                let at = self.below(list.len());
                list[at] = word;
            }
            _ => list.push(word),
        }
    }

    /// Of the tables one is damaged.
    pub fn damage_tables(&mut self, t: &mut Tables) {
        let n = t.dims.len();
        match self.below(16) {
            0 | 1 if n > 0 => {
                let at = self.below(n);
                t.dims[at] = [0, 17, u32::MAX, 1 << 31][self.below(4)];
            }
            2..=4 => self.list(&mut t.starts, t.rows.len()),
            5 | 6 if !t.rows.is_empty() => {
                let at = self.below(t.rows.len());
                t.rows[at] = self.word(n);
            }
            // two rows of a column the wrong way round, or the same
            7 | 8 => {
                let columns = n.min(t.starts.len().saturating_sub(1));
                let long: Vec<usize> = (0..columns).filter(|&j| t.starts[j + 1] > t.starts[j].saturating_add(1)).collect();
                if !long.is_empty() {
                    let p = t.starts[long[self.below(long.len())]] as usize + 1;
                    if p < t.rows.len() {
                        t.rows[p - 1] = t.rows[p];
                    }
                }
            }
            9 => self.list(&mut t.rows, n),
            10 | 11 => self.list(&mut t.perm, n),
            12 | 13 => self.list(&mut t.late, n),
            14 if self.below(4) == 0 => t.dims.resize(4097 + self.below(3), 1),
            15 if self.below(20) == 0 => *t = self.maker.patterns.many_stored(),
            _ => {
                let at = self.below(t.late.len().max(1));
                t.late.get_mut(at).into_iter().for_each(|flag| *flag = 2);
            }
        }
    }

    /// Of a night the tables, the count of values or the tolerance.
    pub fn damage_night(&mut self, night: &mut Night) {
        match self.below(5) {
            0 => {
                let count = [night.values.len() + 1, night.values.len().saturating_sub(1), 0][self.below(3)];
                night.values.resize(count, 1.0);
            }
            1 => night.tolerance = [f64::NAN, f64::INFINITY, f64::NEG_INFINITY, -1e-300, -1.0, -5e-324][self.below(6)],
            _ => self.damage_tables(&mut night.tables),
        }
    }

    /// Of a factor one table, one of its columns, or a count of numbers. `dims` by new number.
    pub fn damage_factor(&mut self, f: &mut Held, dims: &[u32]) {
        let n = dims.len();
        match self.below(11) {
            0 => self.list(&mut f.order, n),
            1 => self.list(&mut f.parents, n),
            2 if !f.parents.is_empty() => {
                let at = self.below(f.parents.len());
                f.parents[at] = if self.below(2) == 0 { NONE } else { (at + 1 + self.below(n + 1)) as u32 };
            }
            3 => self.list(&mut f.l_starts, f.l_rows.len()),
            4 => self.list(&mut f.l_rows, n),
            5 => self.list(&mut f.l_offsets, f.numbers[0]),
            6 => {
                let which = self.below(3);
                f.numbers[which] = [f.numbers[which] + 1, f.numbers[which].saturating_sub(1), 0][self.below(3)];
            }
            // a row less or a row more of one column, in tables that are good otherwise
            7 | 8 if !f.l_rows.is_empty() && f.l_starts.len() == n + 1 => {
                let p = self.below(f.l_rows.len());
                f.l_rows.remove(p);
                f.l_starts.iter_mut().filter(|s| **s as usize > p).for_each(|s| *s -= 1);
                refit(f, dims);
            }
            _ if n > 1 && f.l_starts.len() == n + 1 => {
                let j = self.below(n - 1);
                let row = (j + 1 + self.below(n - 1 - j)) as u32;
                let column = f.l_starts[j] as usize..f.l_starts[j + 1] as usize;
                if column.end <= f.l_rows.len() && column.start <= column.end {
                    if let Err(at) = f.l_rows[column.clone()].binary_search(&row) {
                        f.l_rows.insert(column.start + at, row);
                        f.l_starts[j + 1..].iter_mut().for_each(|s| *s += 1);
                        refit(f, dims);
                    }
                }
            }
            _ => self.list(&mut f.l_offsets, f.numbers[0]),
        }
    }
}

/// The offsets and the count of L's numbers that a factor's rows have.
fn refit(f: &mut Held, dims: &[u32]) {
    let (mut offsets, n) = (vec![0u32], dims.len());
    for j in 0..n {
        for p in f.l_starts[j] as usize..f.l_starts[j + 1] as usize {
            let Some(height) = f.l_rows.get(p).and_then(|&row| dims.get(row as usize)) else { return };
            offsets.push(offsets[offsets.len() - 1] + dims[j] * height);
        }
    }
    f.numbers[0] = offsets[offsets.len() - 1] as usize;
    f.l_offsets = offsets;
}
