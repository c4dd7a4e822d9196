//! The pulse traces segments into events.
use crate::link::{Link, Piece, Record, Segment, Turn};

/// A counter of Grbl's: a step comes when it passes twice the number of events.
#[derive(Clone, Copy)]
struct Axis {
    rise: u32,
    at: u32,
    step: i8,
}

impl Axis {
    #[inline]
    fn next(&mut self, twice: u32) -> i8 {
        self.at += self.rise;
        if self.at <= twice {
            return 0;
        }
        self.at -= twice;
        self.step
    }
}

pub struct Pulse {
    /// A record that found no room.
    hand: Option<Record>,
    left: u32,
    twice: u32,
    axes: [Axis; 3],
    /// An event was recorded, and is not yet counted.
    owes: bool,
    over: bool,
}

impl Pulse {
    pub fn new() -> Self {
        Pulse {
            hand: None,
            left: 0,
            twice: 0,
            axes: [Axis { rise: 0, at: 0, step: 1 }; 3],
            owes: false,
            over: false,
        }
    }

    pub fn awaits_piece(&self) -> bool {
        self.hand.is_none() && self.left == 0 && !self.owes && !self.over
    }

    fn begin(&mut self, segment: &Segment) -> Record {
        let Segment { line, steps, first, n, w, cycles } = *segment;
        if first == 0 {
            let events = steps.map(i32::unsigned_abs).into_iter().max().unwrap_or(0);
            self.twice = 2 * events;
            self.axes = steps.map(|a| Axis { rise: 2 * a.unsigned_abs(), at: events, step: a.signum() as i8 });
        }
        self.left = n;
        Record::Head { line, n, w, cycles }
    }

    fn take_piece(&mut self, link: &mut Link) -> Turn {
        self.hand = match link.pieces.pop() {
            None => return Turn::Wait,
            Some(Piece::Segment(segment)) => {
                link.left = segment.n;
                Some(self.begin(&segment))
            }
            Some(Piece::End) => Some(Record::End),
        };
        Turn::Did
    }

    fn put(&mut self, link: &mut Link, record: Record) -> Turn {
        if link.records.is_full() {
            self.hand = Some(record);
            return Turn::Wait;
        }
        link.records.push(record);
        self.hand = None;
        match record {
            Record::Event(_) => self.owes = true,
            Record::Head { .. } => {}
            Record::End => self.over = true,
        }
        Turn::Did
    }

    pub fn turn(&mut self, link: &mut Link) -> Turn {
        if self.owes {
            self.owes = false;
            link.left -= 1;
            link.done += 1;
            return Turn::Did;
        }
        if let Some(record) = self.hand {
            return self.put(link, record);
        }
        if self.left > 0 {
            self.left -= 1;
            let [x, y, z] = &mut self.axes;
            let event = [x.next(self.twice), y.next(self.twice), z.next(self.twice)];
            return self.put(link, Record::Event(event));
        }
        if self.over {
            return Turn::Done;
        }
        self.take_piece(link)
    }
}
