//! How long a move is, and how fast it may be. All numbers are whole; speeds are in µm/s, and most are squared.
use crate::settings::Settings;

#[derive(Clone, Copy)]
pub enum Rate {
    Rapid,
    /// Nanometres per minute.
    Feed(u64),
}

/// A move in the plan.
#[derive(Clone, Copy, Default)]
pub struct Block {
    pub line: u32,
    pub steps: [i32; 3],
    pub n: u32,
    pub prepared: u32,
    pub length: u64,
    pub unit: [i32; 3],
    pub accel: u64,
    pub rapid: u64,
    pub q: u64,
    pub nominal: u64,
}

/// The root, rounded down. A float's is right below 2^52.
#[inline]
pub fn root(x: u64) -> u64 {
    if x < 1 << 52 { (x as f64).sqrt() as u64 } else { x.isqrt() }
}

fn wide_root(x: u128) -> u64 {
    u64::try_from(x).map_or_else(|_| x.isqrt() as u64, root)
}

/// `a * b / c`.
fn ratio(a: u64, b: u64, c: u64) -> u64 {
    match a.checked_mul(b) {
        Some(product) => product / c,
        None => (u128::from(a) * u128::from(b) / u128::from(c)).min(u64::MAX.into()) as u64,
    }
}

fn least(caps: [u32; 3], unit: [i32; 3]) -> u64 {
    let along = |i: usize| match unit[i] {
        0 => u64::MAX,
        part => u64::from(caps[i]) * 1_000_000 / u64::from(part.unsigned_abs()),
    };
    along(0).min(along(1)).min(along(2))
}

impl Block {
    /// A move of some events.
    pub fn new(line: u32, steps: [i32; 3], rate: Rate, settings: &Settings) -> Block {
        let counts = steps.map(i32::unsigned_abs);
        let n = counts[0].max(counts[1]).max(counts[2]);
        let nm = |i: usize| u64::from(counts[i]) * 1_000_000_000 / u64::from(settings.per_mm[i]);
        let axes = [nm(0), nm(1), nm(2)];
        let length = wide_root(axes.map(|nm| u128::from(nm) * u128::from(nm)).into_iter().sum()).max(1);
        let unit = |i: usize| ratio(axes[i], 1_000_000, length) as i32 * steps[i].signum();
        let unit = [unit(0), unit(1), unit(2)];
        let accel = least(settings.accel, unit);
        let rapid = least(settings.rate, unit) / 60;
        let nominal = match rate {
            Rate::Rapid => rapid.max(16),
            Rate::Feed(feed) => (feed / 60_000).max(16).min(rapid),
        };
        let q = ratio(2 * accel, length, 1_000 * u64::from(n));
        Block { line, steps, n, prepared: 0, length, unit, accel, rapid, q, nominal }
    }

    pub fn left(&self) -> u32 {
        self.n - self.prepared
    }

    /// How much the squared speed may change over what is left: all that is needed of it, so that sums of a plan stay small.
    pub fn gap(&self) -> u64 {
        self.q.saturating_mul(u64::from(self.left())).min(1 << 58)
    }
}

/// How fast the machine may go, squared, from one move into the next.
pub fn junction(prev: &Block, next: &Block, deviation: u32) -> u64 {
    let part = |i: usize| i64::from(prev.unit[i]) * i64::from(next.unit[i]);
    let turn = (-(part(0) + part(1) + part(2))).div_euclid(1_000_000);
    if turn > 999_999 {
        return 0;
    }
    if turn < -999_999 {
        return u64::MAX;
    }
    let sine = root((1_000_000 - turn) as u64 * 1_000_000 / 2);
    ratio(prev.accel.min(next.accel), u64::from(deviation) * sine, 1_000_000 - sine)
}
