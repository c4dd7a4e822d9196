//! What is on its way between the actors.

/// What a turn did.
#[derive(Clone, Copy, PartialEq, Eq)]
pub enum Turn {
    Did,
    Wait,
    Done,
}

/// A queue of up to `N` values, a power of two.
pub struct Ring<T, const N: usize> {
    slots: [T; N],
    head: usize,
    tail: usize,
}

impl<T: Copy, const N: usize> Ring<T, N> {
    pub fn new(unused: T) -> Self {
        const { assert!(N.is_power_of_two()) };
        Ring { slots: [unused; N], head: 0, tail: 0 }
    }

    #[inline]
    pub fn len(&self) -> usize {
        self.head.wrapping_sub(self.tail)
    }

    #[inline]
    pub fn is_empty(&self) -> bool {
        self.head == self.tail
    }

    #[inline]
    pub fn is_full(&self) -> bool {
        self.len() == N
    }

    /// Adds a value, where there is room.
    #[inline]
    pub fn push(&mut self, value: T) {
        self.slots[self.head % N] = value;
        self.head = self.head.wrapping_add(1);
    }

    #[inline]
    pub fn pop(&mut self) -> Option<T> {
        if self.is_empty() {
            return None;
        }
        let value = self.slots[self.tail % N];
        self.tail = self.tail.wrapping_add(1);
        Some(value)
    }
}

#[derive(Clone, Copy, PartialEq, Eq)]
pub enum Reply {
    Banner,
    Ok,
    Error(u8),
    Bye,
}

/// Some events of a move in a row, at one pace. A move is told by its steps on each axis.
#[derive(Clone, Copy)]
pub struct Segment {
    pub line: u32,
    pub steps: [i32; 3],
    pub first: u32,
    pub n: u32,
    pub w: u64,
    pub cycles: u64,
}

#[derive(Clone, Copy)]
pub enum Piece {
    Segment(Segment),
    End,
}

#[derive(Clone, Copy)]
pub enum Record {
    Head { line: u32, n: u32, w: u64, cycles: u64 },
    Event([i8; 3]),
    End,
}

/// So many pieces may be unfinished.
const MOST_UNFINISHED: usize = 5;

pub struct Link {
    /// What the host has sent, and whether it sends no more.
    pub bytes: Ring<u8, 128>,
    pub closed: bool,
    pub replies: Ring<Reply, 16>,
    /// The host has sent a `~` that the board has not seen.
    pub resume: bool,
    pub pieces: Ring<Piece, 8>,
    /// So many events of the piece in the pulse's hand are left, and so many were made since the start.
    pub left: u32,
    pub done: u64,
    pub records: Ring<Record, 1024>,
}

impl Link {
    pub fn new() -> Self {
        Link {
            bytes: Ring::new(0),
            closed: false,
            replies: Ring::new(Reply::Ok),
            resume: false,
            pieces: Ring::new(Piece::End),
            left: 0,
            done: 0,
            records: Ring::new(Record::End),
        }
    }

    /// Whether a further piece may be published.
    #[inline]
    pub fn has_room_for_piece(&self) -> bool {
        self.pieces.len() + usize::from(self.left > 0) < MOST_UNFINISHED
    }
}
