//! The plan of up to fifteen moves: how fast each may end, and its segments.
use crate::geometry::{Block, junction, root};
use crate::link::Segment;

/// Places for blocks, of which one is always free.
const SLOTS: usize = 16;

/// The segment at a block's nominal speed, which comes again while nothing changes.
#[derive(Clone, Copy, Default)]
struct Pace {
    n: u32,
    w: u64,
    cycles: u64,
}

/// Each row has a place for each block. `soft` bounds the speed at its end by the corner there, `exit` is the planned one.
#[derive(Default)]
pub struct Plan {
    blocks: [Block; SLOTS],
    gaps: [u64; SLOTS],
    soft: [u64; SLOTS],
    exit: [u64; SLOTS],
    tail: usize,
    count: usize,
    /// The squared speed at the present place.
    speed: u64,
    /// The last point whose speed the points before it alone bound: what comes behind it changes none up to it.
    settled: usize,
    pace: Pace,
}

impl Plan {
    pub fn is_empty(&self) -> bool {
        self.count == 0
    }

    pub fn is_full(&self) -> bool {
        self.count + 1 == SLOTS
    }

    /// The place of a block, from 0.
    #[inline]
    fn at(&self, i: usize) -> usize {
        (self.tail + i) % SLOTS
    }

    /// The speed at a point: before the first block, or behind block `point`.
    #[inline]
    fn speed_at(&self, point: usize) -> u64 {
        if point == 0 { self.speed } else { self.exit[self.at(point - 1)] }
    }

    /// Plans all behind a settled point: backward from the end, at which the machine can stand, and then forward.
    fn plan_from(&mut self, from: usize) {
        let Some(last) = self.count.checked_sub(1) else {
            self.settled = 0;
            return;
        };
        let mut way: u64 = (0..last).map(|i| self.gaps[self.at(i)]).sum();
        let mut own = from;
        let mut ahead = 0;
        self.exit[self.at(last)] = 0;
        for i in (from..last).rev() {
            let at = self.at(i);
            let cap = self.soft[at].max(self.speed.saturating_sub(way));
            ahead = cap.min(ahead + self.gaps[self.at(i + 1)]);
            self.exit[at] = ahead;
            way -= self.gaps[at];
            if ahead == cap && own == from {
                own = i + 1;
            }
        }
        let mut behind = self.speed_at(from);
        self.settled = last;
        for i in from..=last {
            let at = self.at(i);
            let reached = behind + self.gaps[at];
            behind = self.exit[at].min(reached);
            self.exit[at] = behind;
            if i >= own && behind != reached {
                self.settled = self.settled.min(i);
            }
        }
    }

    /// Adds a move, where the plan is not full.
    pub fn add(&mut self, block: Block, deviation: u32) {
        let place = self.at(self.count);
        if self.count > 0 {
            let at = self.at(self.count - 1);
            let before = &self.blocks[at];
            let bound = before.rapid.min(block.rapid).min(before.nominal).min(block.nominal);
            self.soft[at] = junction(before, &block, deviation).min(bound * bound);
        }
        self.gaps[place] = block.gap();
        self.blocks[place] = block;
        self.count += 1;
        self.plan_from(self.settled);
    }

    /// How many events the next segment has, those of about 10 ms, and the squared speed behind it.
    fn stretch(&self, tail: &Block) -> (u32, u64) {
        let w = self.speed;
        let left = tail.left();
        let way = root(w + tail.q) * 10 * u64::from(tail.n);
        let n = if left == 1 || way < 2 * tail.length { 1 } else { (way / tail.length).min(left.into()) as u32 };
        let change = tail.q * u64::from(n);
        let top = tail.nominal * tail.nominal;
        let towards = if w <= top { top.min(w + change) } else { top.max(w.saturating_sub(change)) };
        let for_exit = self.exit[self.tail].saturating_add(tail.q.saturating_mul(u64::from(left - n)));
        (n, towards.min(for_exit))
    }

    /// From one event to the next.
    fn cycles(&self, tail: &Block, n: u32, w_out: u64) -> u64 {
        let w = self.speed;
        let nominal = tail.nominal;
        let top = if w <= nominal * nominal { nominal } else { nominal.max(root(w)) };
        let mean = (w + w_out + tail.q * u64::from(n)) / 2;
        let pace = if top * top <= mean { top } else { root(mean) }.max(1);
        (16_000 * tail.length).div_ceil(u64::from(tail.n) * pace)
    }

    fn is_steady(&self, tail: &Block) -> bool {
        let Pace { n, w, .. } = self.pace;
        let left = tail.left();
        n != 0 && w == self.speed && left > n && w <= self.exit[self.tail].saturating_add(tail.q.saturating_mul(u64::from(left - n)))
    }

    /// Takes the next segment off a plan that is not empty.
    pub fn take(&mut self) -> Segment {
        let tail = &self.blocks[self.tail];
        let mut pace = self.pace;
        if !self.is_steady(tail) {
            let (n, w) = self.stretch(tail);
            pace = Pace { n, w, cycles: self.cycles(tail, n, w) };
            if w == self.speed && w == tail.nominal * tail.nominal && n < tail.left() {
                self.pace = pace;
            }
        }
        let Pace { n, w, cycles } = pace;
        let segment = Segment { line: tail.line, steps: tail.steps, first: tail.prepared, n, w: self.speed, cycles };
        self.advance(n, w);
        segment
    }

    fn advance(&mut self, n: u32, w: u64) {
        let exit = self.exit[self.tail];
        let tail = &mut self.blocks[self.tail];
        tail.prepared += n;
        let gap = tail.gap();
        self.gaps[self.tail] = gap;
        self.speed = w;
        if gap == 0 {
            self.tail = self.at(1);
            self.count -= 1;
            self.settled = self.settled.saturating_sub(1);
            self.pace.n = 0;
        }
        if w.abs_diff(exit) > gap {
            self.plan_from(0);
        }
    }
}
