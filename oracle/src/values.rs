//! The numbers of the cases: a fixed-seed generator (splitmix64) and five kinds of values.

pub struct Draw(pub u64);

#[derive(Clone, Copy, Debug, PartialEq)]
pub enum Kind {
    // full mantissas between 1/4 and 4, either sign
    Plain,
    // halves and small integers, with both zeros
    Small,
    // denormals, the least normal, and numbers whose products are denormal
    Tiny,
    // numbers whose products or sums pass the greatest float
    Huge,
    // infinities and NaN among the plain
    Odd,
}

pub const KINDS: [Kind; 5] = [Kind::Plain, Kind::Small, Kind::Tiny, Kind::Huge, Kind::Odd];
pub const LEAST: f64 = 5e-324;
const SMALL: [f64; 10] = [0.0, -0.0, 1.0, -1.0, 2.0, -2.0, 0.5, -0.5, 3.0, -0.0];
const TINY: [f64; 8] = [LEAST, -LEAST, 1e-310, -3e-312, f64::MIN_POSITIVE, 1e-160, -1e-155, 0.5];
const HUGE: [f64; 8] = [1e300, -1e300, f64::MAX, -f64::MAX, 1e160, -1e155, 1e10, 2.0];
const ODD: [f64; 3] = [f64::INFINITY, f64::NEG_INFINITY, f64::NAN];

impl Draw {
    pub fn word(&mut self) -> u64 {
        self.0 = self.0.wrapping_add(0x9E3779B97F4A7C15);
        let z = (self.0 ^ (self.0 >> 30)).wrapping_mul(0xBF58476D1CE4E5B9);
        let z = (z ^ (z >> 27)).wrapping_mul(0x94D049BB133111EB);
        z ^ (z >> 31)
    }

    pub fn below(&mut self, n: u64) -> u64 {
        (self.word() >> 11) % n
    }

    pub fn pick(&mut self, from: &[f64]) -> f64 {
        from[self.below(from.len() as u64) as usize]
    }

    pub fn plain(&mut self) -> f64 {
        let exponent = 1021 + self.below(4);
        let word = self.word();
        f64::from_bits(word & 0x800FFFFFFFFFFFFF | exponent << 52)
    }

    pub fn value(&mut self, kind: Kind) -> f64 {
        let special = self.below(5);
        match kind {
            Kind::Plain => self.plain(),
            Kind::Small => self.pick(&SMALL),
            Kind::Tiny if special < 4 => self.pick(&TINY),
            Kind::Huge if special < 3 => self.pick(&HUGE),
            Kind::Odd if special < 1 => self.pick(&ODD),
            _ => self.plain(),
        }
    }

    pub fn values(&mut self, kind: Kind, count: usize) -> Vec<f64> {
        (0..count).map(|_| self.value(kind)).collect()
    }

    // a diagonal: one in six is a zero of either sign
    pub fn diagonal(&mut self, kind: Kind, count: usize) -> Vec<f64> {
        (0..count)
            .map(|_| if self.below(6) == 0 { self.pick(&[0.0, -0.0]) } else { self.value(kind) })
            .collect()
    }

    // n by n, the lower part by kind; the diagonal 1.0, plain numbers or NaN; above it 0.0, plain numbers or NaN
    pub fn factor(&mut self, kind: Kind, n: usize, variant: u64) -> Vec<f64> {
        let mut l = vec![];
        for column in 0..n {
            for row in 0..n {
                let below = self.value(kind);
                let other = self.plain();
                l.push(match row.cmp(&column) {
                    std::cmp::Ordering::Greater => below,
                    std::cmp::Ordering::Equal => [1.0, other, f64::NAN][(variant % 3) as usize],
                    std::cmp::Ordering::Less => [0.0, f64::NAN, other][(variant / 3 % 3) as usize],
                });
            }
        }
        l
    }
}
