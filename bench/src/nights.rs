//! The patterns that are timed: their links, orders and tables, and the clock.
use std::time::Instant;

/// A pattern by its links, with the order in which its blocks are eliminated.
pub struct Night {
    pub name: &'static str,
    pub n: usize,
    pub links: Vec<(usize, usize)>,
    pub perm: Vec<usize>,
}

/// splitmix64
pub struct Draw(pub u64);

impl Draw {
    pub fn below(&mut self, n: usize) -> usize {
        self.0 = self.0.wrapping_add(0x9E3779B97F4A7C15);
        let z = (self.0 ^ (self.0 >> 30)).wrapping_mul(0xBF58476D1CE4E5B9);
        let z = (z ^ (z >> 27)).wrapping_mul(0x94D049BB133111EB);
        ((z ^ (z >> 31)) >> 11) as usize % n
    }

    /// Between 0 and 1.
    pub fn fraction(&mut self) -> f64 {
        self.below(1 << 40) as f64 / (1u64 << 40) as f64
    }
}

/// The blocks of a part of a grid, halves first, then the line between them.
fn dissect(x: std::ops::Range<usize>, y: std::ops::Range<usize>, width: usize, order: &mut Vec<usize>) {
    let (w, h) = (x.len(), y.len());
    if w * h <= 4 {
        order.extend(y.flat_map(|j| x.clone().map(move |i| i + j * width)));
    } else if w >= h {
        let middle = x.start + w / 2;
        dissect(x.start..middle, y.clone(), width, order);
        dissect(middle + 1..x.end, y.clone(), width, order);
        dissect(middle..middle + 1, y, width, order);
    } else {
        let middle = y.start + h / 2;
        dissect(x.clone(), y.start..middle, width, order);
        dissect(x.clone(), middle + 1..y.end, width, order);
        dissect(x, middle..middle + 1, width, order);
    }
}

/// Each block is linked to the next one across and down.
pub fn grid(width: usize, height: usize) -> Night {
    let n = width * height;
    let across = (0..n).filter(|k| k % width != 0).map(|k| (k - 1, k));
    let links = across.chain((width..n).map(|k| (k - width, k))).collect();
    let mut perm = vec![];
    dissect(0..width, 0..height, width, &mut perm);
    Night { name: "grid, dissected", n, links, perm }
}

/// Each block is linked to the next one.
pub fn chain(n: usize) -> Night {
    Night { name: "chain, in order", n, links: (1..n).map(|k| (k - 1, k)).collect(), perm: (0..n).collect() }
}

/// A chain, and each block is linked to the last.
pub fn arrow(n: usize) -> Night {
    let mut arrow = Night { name: "arrow, tip last", ..chain(n) };
    arrow.links.extend((0..n - 1).map(|k| (k, n - 1)));
    arrow
}

/// So many blocks, each number once, in an order that is drawn.
pub fn drawn(n: usize, draw: &mut Draw) -> Vec<usize> {
    let mut perm: Vec<usize> = (0..n).collect();
    for k in (1..n).rev() {
        perm.swap(k, draw.below(k + 1));
    }
    perm
}

/// As many links as blocks, drawn, and the order drawn too.
pub fn random(n: usize) -> Night {
    let mut draw = Draw(n as u64);
    let perm = drawn(n, &mut draw);
    let links = (0..n).map(|_| (draw.below(n), draw.below(n))).filter(|(a, b)| a != b).collect();
    Night { name: "random, drawn order", n, links, perm }
}

/// The tables of A, every diagonal block stored.
pub fn tables(night: &Night) -> (Vec<u32>, Vec<u32>) {
    let mut columns: Vec<Vec<u32>> = (0..night.n as u32).map(|k| vec![k]).collect();
    for &(a, b) in &night.links {
        columns[a.min(b)].push(a.max(b) as u32);
    }
    let mut starts = vec![0];
    for column in &mut columns {
        column.sort_unstable();
        column.dedup();
        starts.push(starts[starts.len() - 1] + column.len() as u32);
    }
    (starts, columns.concat())
}

/// Nanoseconds of one of so many calls.
pub fn time(calls: usize, mut call: impl FnMut()) -> f64 {
    let start = Instant::now();
    for _ in 0..calls {
        call();
    }
    start.elapsed().as_nanos() as f64 / calls as f64
}
