//! The board takes the bytes of lines, judges them, plans their moves, publishes segments, and answers.
use crate::gcode::Parser;
use crate::geometry::{Block, Rate};
use crate::link::{Link, Piece, Reply, Turn};
use crate::plan::Plan;
use crate::settings::Settings;

const LONGEST_LINE: usize = 79;

/// What is next of the line that was begun.
#[derive(Clone, Copy)]
enum Todo {
    Nothing,
    Move([i32; 3], Rate),
    Tell(Reply),
    /// The motion is run to its end, and then the pulse is told that nothing follows.
    Finish,
}

/// Which of the two words of flags are taken in the next turns.
#[derive(Clone, Copy)]
enum Flags {
    Both,
    Requests,
    None,
}

pub struct Board {
    settings: Settings,
    parser: Parser,
    plan: Plan,
    /// The machine runs what is planned.
    runs: bool,
    /// The piece that is published next.
    hand: Option<Piece>,
    /// So many events were put into pieces.
    given: u64,
    line: [u8; LONGEST_LINE],
    kept: usize,
    whole: bool,
    number: u32,
    todo: Todo,
    flags: Flags,
    greeted: bool,
    closing: bool,
    /// The last turn published a piece, so that the next one goes on with the lines.
    published: bool,
}

impl Board {
    pub fn new() -> Self {
        Board {
            settings: Settings::new(),
            parser: Parser::new(),
            plan: Plan::default(),
            runs: false,
            hand: None,
            given: 0,
            line: [0; LONGEST_LINE],
            kept: 0,
            whole: false,
            number: 0,
            todo: Todo::Tell(Reply::Banner),
            flags: Flags::None,
            greeted: false,
            closing: false,
            published: false,
        }
    }

    fn has_piece(&self) -> bool {
        self.hand.is_some() || (self.runs && !self.plan.is_empty())
    }

    fn is_waiting(&self) -> bool {
        !self.runs && !self.plan.is_empty()
    }

    /// Adds the move that is next, where there is room, and starts the machine where what waits has to be run.
    fn fill(&mut self) {
        if let Todo::Move(steps, rate) = self.todo {
            if !self.plan.is_full() {
                self.plan.add(Block::new(self.number, steps, rate, &self.settings), self.settings.deviation);
                self.todo = Todo::Tell(Reply::Ok);
            }
        }
        if self.is_waiting() && (self.plan.is_full() || matches!(self.todo, Todo::Finish)) {
            self.runs = true;
        }
    }

    /// Publishes the piece in hand, which is the next segment where there was none. It stays in hand where there is no room.
    fn publish(&mut self, link: &mut Link) -> bool {
        if self.hand.is_none() {
            let segment = self.plan.take();
            self.given += u64::from(segment.n);
            self.hand = Some(Piece::Segment(segment));
        }
        if !link.has_room_for_piece() {
            return false;
        }
        if let Some(piece) = self.hand.take() {
            link.pieces.push(piece);
        }
        self.published = true;
        true
    }

    fn run(&mut self, link: &mut Link) -> Turn {
        let published = self.publish(link);
        self.fill();
        if published { Turn::Did } else { Turn::Wait }
    }

    fn start(&mut self, link: &mut Link) -> Turn {
        self.runs = true;
        self.run(link)
    }

    fn judge(&mut self) -> Result<Option<([i32; 3], Rate)>, u8> {
        match &self.line[..self.kept.min(LONGEST_LINE)] {
            _ if self.kept > LONGEST_LINE => Err(11),
            [] => Ok(None),
            line @ [b'$', ..] => self.settings.obey(line, self.runs).map(|()| None),
            line => self.parser.take(line, &self.settings),
        }
    }

    fn begin_line(&mut self, link: &mut Link) -> Turn {
        if self.runs && self.hand.is_none() && self.plan.is_empty() && link.done == self.given {
            self.runs = false;
        }
        if self.kept > 0 && self.line[0] == b'$' && self.is_waiting() {
            self.runs = true;
        }
        self.number += 1;
        self.todo = match self.judge() {
            Ok(Some((steps, rate))) => Todo::Move(steps, rate),
            Ok(None) => Todo::Tell(Reply::Ok),
            Err(number) => Todo::Tell(Reply::Error(number)),
        };
        self.kept = 0;
        self.whole = false;
        if let Todo::Tell(reply) = self.todo {
            self.answer(link, reply);
        }
        self.fill();
        Turn::Did
    }

    fn keep(&mut self, byte: u8) {
        if byte == b'\n' {
            self.whole = true;
            self.flags = Flags::Both;
            return;
        }
        if let Some(place) = self.line.get_mut(self.kept) {
            *place = byte;
        }
        self.kept += 1;
    }

    fn next_line(&mut self, link: &mut Link) -> Turn {
        if self.whole {
            return self.begin_line(link);
        }
        if let Some(byte) = link.bytes.pop() {
            self.keep(byte);
            return Turn::Did;
        }
        if self.is_waiting() {
            return self.start(link);
        }
        if !link.closed {
            return Turn::Wait;
        }
        self.todo = Todo::Finish;
        self.closing = true;
        Turn::Did
    }

    fn answer(&mut self, link: &mut Link, reply: Reply) -> bool {
        if link.replies.is_full() {
            return false;
        }
        link.replies.push(reply);
        self.todo = Todo::Nothing;
        self.greeted = true;
        true
    }

    fn tell(&mut self, link: &mut Link, reply: Reply) -> Turn {
        if reply == Reply::Bye && self.hand.is_some() {
            return self.run(link);
        }
        if !self.answer(link, reply) {
            return Turn::Wait;
        }
        self.fill();
        Turn::Did
    }

    fn finish(&mut self, link: &mut Link) -> Turn {
        if self.hand.is_some() || !self.plan.is_empty() {
            return self.run(link);
        }
        if link.done < self.given {
            return Turn::Wait;
        }
        self.runs = false;
        self.hand = Some(Piece::End);
        self.todo = Todo::Tell(Reply::Bye);
        self.run(link)
    }

    fn go(&mut self, link: &mut Link) -> Turn {
        if self.plan.is_full() {
            return self.run(link);
        }
        self.fill();
        Turn::Did
    }

    /// Goes on with the lines. Every other time a piece comes first, where there is one.
    fn serve_lines(&mut self, link: &mut Link) -> Turn {
        if !self.published && self.has_piece() {
            if self.publish(link) {
                self.fill();
                return Turn::Did;
            }
        } else {
            self.published = false;
        }
        match self.todo {
            Todo::Nothing if self.closing => Turn::Done,
            Todo::Nothing => self.next_line(link),
            Todo::Tell(reply) => self.tell(link, reply),
            Todo::Move(..) => self.go(link),
            Todo::Finish => self.finish(link),
        }
    }

    pub fn turn(&mut self, link: &mut Link) -> Turn {
        match self.flags {
            // There are no overrides here, but the turn in which their word is taken.
            Flags::Both => {
                self.flags = Flags::Requests;
                Turn::Did
            }
            Flags::Requests => {
                self.flags = Flags::None;
                if link.resume {
                    link.resume = false;
                    self.runs |= !self.plan.is_empty();
                }
                Turn::Did
            }
            Flags::None => {
                let turn = self.serve_lines(link);
                if turn == Turn::Wait && self.greeted {
                    self.flags = Flags::Both;
                }
                turn
            }
        }
    }
}
