//! What a line of G-code does, by its words and the modes before it.
use crate::geometry::Rate;
use crate::line::{AXES, DISTANCE, MOTION, PLANE, SYSTEM, UNITS, UNUSED, Words};
use crate::settings::{Per3, Settings};

/// A place, in nanometres.
type Nm3 = [i64; 3];

const FARTHEST: u64 = 10_000_000_000;

#[derive(Default)]
pub struct Parser {
    motion: u16,
    plane: u16,
    inch: bool,
    relative: bool,
    system: usize,
    systems: [Nm3; 6],
    homes: [Nm3; 2],
    g92: Nm3,
    at: Nm3,
    steps: [i32; 3],
    feed: i64,
    rpm: u32,
    tool: u32,
    words: Words,
}

/// What a line makes anew: modes, and where it goes.
struct Next {
    motion: u16,
    inch: bool,
    relative: bool,
    system: usize,
    feed: i64,
    target: Option<Nm3>,
}

fn each<A: Copy, B: Copy, C>(a: [A; 3], b: [B; 3], f: impl Fn(A, B) -> C) -> [C; 3] {
    [f(a[0], b[0]), f(a[1], b[1]), f(a[2], b[2])]
}

fn is_far(at: &Nm3) -> bool {
    at.iter().any(|nm| nm.unsigned_abs() > FARTHEST)
}

fn in_nm(inch: bool, micro: i64) -> i64 {
    if inch { micro * 254 / 10 } else { micro }
}

/// The nearest step, a half away from zero.
fn to_steps(nm: i64, per_mm: u32) -> i32 {
    let product = nm * i64::from(per_mm);
    let half = if product < 0 { -500_000_000 } else { 500_000_000 };
    ((product + half) / 1_000_000_000) as i32
}

impl Parser {
    pub fn new() -> Self {
        Parser { plane: 170, ..Parser::default() }
    }

    fn named(&self, inch: bool) -> [Option<i64>; 3] {
        [b'X', b'Y', b'Z'].map(|axis| self.words.value(axis).map(|micro| in_nm(inch, micro)))
    }

    /// The modes that the line leaves, and the target of its move.
    fn next(&self) -> Next {
        let words = &self.words;
        let motion = words.code(MOTION).unwrap_or(self.motion);
        let inch = words.code(UNITS).map_or(self.inch, |key| key == 200);
        let relative = words.code(DISTANCE).map_or(self.relative, |key| key == 910);
        let system = words.code(SYSTEM).map_or(self.system, |key| usize::from(key) / 10 - 54);
        let feed = words.value(b'F').map_or(self.feed, |micro| in_nm(inch, micro));
        let places = !matches!(words.code(0), Some(100 | 920)) && words.stands(AXES);
        let datum = if words.has(530) {
            [0; 3]
        } else if relative {
            self.at
        } else {
            each(self.systems[system], self.g92, |a, b| a + b)
        };
        let target = places.then(|| {
            let by = each(self.named(inch), datum, |named, from| named.map(|nm| nm + from));
            each(by, self.at, |to, at| to.unwrap_or(at))
        });
        Next { motion, inch, relative, system, feed, target }
    }

    /// What is wrong with a code that is not modal.
    fn command_error(&self, motion: u16) -> Result<(), u8> {
        let words = &self.words;
        let is_l = |n: i64| words.value(b'L') == Some(n * 1_000_000);
        let stands = |letter| words.value(letter).is_some();
        match words.code(0) {
            Some(40 | 280 | 300) => panic!("G4, G28 and G30 are not served here"),
            Some(100 | 920) if !words.stands(AXES) => Err(26),
            Some(100) if !stands(b'P') && !stands(b'L') => Err(28),
            Some(100) if words.whole(b'P') > Some(6) => Err(29),
            Some(100) if !is_l(20) && (!is_l(2) || stands(b'R')) => Err(20),
            Some(530) if motion == 800 => Err(30),
            _ => Ok(()),
        }
    }

    fn value_error(&self, next: &Next) -> Result<(), u8> {
        let words = &self.words;
        let moves = next.target.is_some() || matches!(words.code(MOTION), Some(0 | 10));
        if next.motion == 800 && words.stands(AXES) {
            return Err(31);
        }
        if moves && next.motion == 10 && next.feed == 0 {
            return Err(22);
        }
        let for_offset = words.has(100);
        if words.stands(UNUSED) || (!for_offset && (words.value(b'P').is_some() || words.value(b'L').is_some())) {
            return Err(36);
        }
        if next.target.is_some_and(|at| is_far(&at)) {
            return Err(33);
        }
        Ok(())
    }

    /// The system and the offset that a G10 sets, or that of a G92.
    fn new_offset(&self, next: &Next) -> Option<(Option<usize>, Nm3)> {
        let words = &self.words;
        let named = self.named(next.inch);
        let from = |offset: Nm3| each(self.at, offset, |a, b| a - b);
        let replaced = |old: Nm3, by: [Option<i64>; 3]| each(by, old, |new, old| new.unwrap_or(old));
        let less = |from: Nm3| each(named, from, |named, from| named.map(|nm| from - nm));
        match words.code(0) {
            Some(100) => {
                let system = words.whole(b'P').map_or(next.system, |p| if p == 0 { next.system } else { p as usize - 1 });
                let by = if words.whole(b'L') == Some(2) { named } else { less(from(self.g92)) };
                Some((Some(system), replaced(self.systems[system], by)))
            }
            Some(920) => Some((None, replaced(self.g92, less(from(self.systems[next.system]))))),
            _ => None,
        }
    }

    fn set_offsets(&mut self, offset: Option<(Option<usize>, Nm3)>) {
        match (self.words.code(0), offset) {
            (_, Some((Some(system), at))) => self.systems[system] = at,
            (_, Some((None, at))) => self.g92 = at,
            (Some(921), _) => self.g92 = [0; 3],
            (Some(281), _) => self.homes[0] = self.at,
            (Some(301), _) => self.homes[1] = self.at,
            _ => {}
        }
    }

    /// The steps of the way to a target, which the position then is.
    fn go(&mut self, target: Nm3, per_mm: &Per3) -> [i32; 3] {
        let to = each(target, *per_mm, to_steps);
        let steps = each(to, self.steps, |to, from| to - from);
        self.at = target;
        self.steps = to;
        steps
    }

    /// Carries out a line: the steps of its move and its rate, if it makes one, or the number of its error.
    pub fn take(&mut self, line: &[u8], settings: &Settings) -> Result<Option<([i32; 3], Rate)>, u8> {
        self.words.read(line)?;
        if self.words.whole(b'N') > Some(10_000_000) {
            return Err(27);
        }
        let next = self.next();
        self.command_error(next.motion)?;
        self.value_error(&next)?;
        let offset = self.new_offset(&next);
        if offset.is_some_and(|(_, at)| is_far(&at)) {
            return Err(33);
        }
        self.set_offsets(offset);
        self.motion = next.motion;
        self.plane = self.words.code(PLANE).unwrap_or(self.plane);
        (self.inch, self.relative, self.system, self.feed) = (next.inch, next.relative, next.system, next.feed);
        self.rpm = self.words.whole(b'S').unwrap_or(self.rpm);
        self.tool = self.words.whole(b'T').unwrap_or(self.tool);
        let Some(target) = next.target else {
            return Ok(None);
        };
        let steps = self.go(target, &settings.per_mm);
        let rate = if next.motion == 10 { Rate::Feed(next.feed.unsigned_abs()) } else { Rate::Rapid };
        Ok((steps != [0; 3]).then_some((steps, rate)))
    }
}
