//! Random numbers from a seed, and the pools of values that inputs are drawn from.

/// Numbers at the ends of binary64.
pub const EXTREME: [f64; 12] =
    [1e300, -1e300, 5e-324, -5e-324, 2.2250738585072014e-308, 1e-310, 1.7e308, -1.7e308, 9007199254740993.0, 1e-17, f64::MAX, f64::MIN];
/// Numbers that a question refuses in most places.
pub const BAD: [f64; 4] = [f64::NAN, f64::INFINITY, f64::NEG_INFINITY, -1.0];
/// Numbers that are not finite, a NaN with its sign bit and one with a payload among them.
pub const NOT_FINITE: [f64; 5] =
    [f64::NAN, f64::INFINITY, f64::NEG_INFINITY, f64::from_bits(0xfff8_0000_0000_0000), f64::from_bits(0x7ff0_0000_0000_0001)];

pub struct Rng(u64);

impl Rng {
    /// The numbers of one scenario: those of another kind or seed have nothing in common with them.
    pub fn new(kind: usize, seed: u64) -> Rng {
        let mut r = Rng(seed.wrapping_mul(0x2545f4914f6cdd1d) ^ (kind as u64).wrapping_mul(0xd1342543de82ef95));
        r.word();
        r
    }
    pub fn word(&mut self) -> u64 {
        self.0 = self.0.wrapping_add(0x9e3779b97f4a7c15);
        let mut z = self.0;
        z = (z ^ (z >> 30)).wrapping_mul(0xbf58476d1ce4e5b9);
        z = (z ^ (z >> 27)).wrapping_mul(0x94d049bb133111eb);
        z ^ (z >> 31)
    }
    /// Below n; n is not 0.
    pub fn to(&mut self, n: usize) -> usize {
        (self.word() % n as u64) as usize
    }
    pub fn chance(&mut self, per_mille: usize) -> bool {
        self.to(1000) < per_mille
    }
    pub fn of<T: Copy>(&mut self, l: &[T]) -> T {
        l[self.to(l.len())]
    }
    /// From 0 up to 1.
    pub fn unit(&mut self) -> f64 {
        (self.word() >> 11) as f64 / (1u64 << 53) as f64
    }
    /// A zero of either sign where x is a zero, mostly +0; x otherwise.
    pub fn zero_sign(&mut self, x: f64) -> f64 {
        if x == 0.0 && self.chance(250) {
            -x
        } else {
            x
        }
    }
    /// x itself, or one of its two neighbours.
    pub fn near(&mut self, x: f64) -> f64 {
        match self.to(5) {
            0 => x.next_up(),
            1 => x.next_down(),
            _ => x,
        }
    }
}
