//! The sender's end of the line: it reads the job, sends its lines by character counting, and writes the answers.
use crate::link::{Link, Reply, Ring, Turn};
use crate::text::TextWriter;
use std::io::{Read, Write};

const ROOM: usize = 128;
/// After so many looks for a reply in a row that find none, the host sends a `~`.
const EMPTY_POLLS: u32 = 4096;
/// So many looks it waits for the greeting.
const GREETING_POLLS: u32 = 2048;
const LONGEST_LINE: usize = 127;

#[derive(PartialEq, Eq)]
enum Comment {
    Outside,
    Paren,
    Semicolon,
}

pub struct Host<R, W> {
    job: R,
    chunk: [u8; 4096],
    place: usize,
    end: usize,
    job_over: bool,
    /// What is kept of the line in hand, whether any byte of it was read, and how much of it is sent, once it is whole.
    line: [u8; LONGEST_LINE + 1],
    kept: usize,
    begun: bool,
    comment: Comment,
    sent: Option<usize>,
    /// The lengths of the lines without an answer, and their sum.
    lengths: Ring<u8, 256>,
    unanswered: usize,
    text: TextWriter<W>,
    polls: u32,
    greeted: bool,
    shut: bool,
    bye: bool,
}

impl<R: Read, W: Write> Host<R, W> {
    pub fn new(job: R, console: W) -> Self {
        Host {
            job,
            chunk: [0; 4096],
            place: 0,
            end: 0,
            job_over: false,
            line: [0; LONGEST_LINE + 1],
            kept: 0,
            begun: false,
            comment: Comment::Outside,
            sent: None,
            lengths: Ring::new(0),
            unanswered: 0,
            text: TextWriter::new(console),
            polls: 0,
            greeted: false,
            shut: false,
            bye: false,
        }
    }

    fn answer_counted(&mut self) {
        if let Some(length) = self.lengths.pop() {
            self.unanswered -= usize::from(length);
        }
    }

    fn take_reply(&mut self, reply: Reply) {
        match reply {
            Reply::Banner => self.text.put(b"\r\nGrbl 1.1h ['$' for help]\r\n"),
            Reply::Ok => {
                self.answer_counted();
                self.text.put(b"ok\r\n");
            }
            Reply::Error(number) => {
                self.answer_counted();
                self.text.put(b"error:");
                self.text.put_number(number.into());
                self.text.put(b"\r\n");
            }
            Reply::Bye => self.bye = true,
        }
        self.polls = 0;
        self.greeted = true;
    }

    /// Takes a byte of the job into the line in hand.
    fn feed(&mut self, byte: u8) {
        self.begun = true;
        match self.comment {
            Comment::Outside => match byte {
                b'0'..=b'9' | b'A'..=b'Z' | b'.' => self.keep(byte),
                b'(' => self.comment = Comment::Paren,
                b';' => self.comment = Comment::Semicolon,
                0x18 | b'?' | b'!' | b'~' | 0x80.. => panic!("realtime bytes are not served here"),
                0..=b' ' | b'/' => {}
                _ => self.keep(byte.to_ascii_uppercase()),
            },
            Comment::Paren if byte == b')' => self.comment = Comment::Outside,
            _ => {}
        }
    }

    fn keep(&mut self, byte: u8) {
        assert!(self.kept < LONGEST_LINE, "lines of more than 127 bytes are not served here");
        self.line[self.kept] = byte;
        self.kept += 1;
    }

    fn finish_line(&mut self) {
        self.line[self.kept] = b'\n';
        self.kept += 1;
        self.comment = Comment::Outside;
        self.sent = Some(0);
        self.lengths.push(self.kept as u8);
        self.unanswered += self.kept;
    }

    /// Reads bytes of the chunk up to the end of a line.
    fn scan(&mut self) {
        while self.place < self.end {
            let byte = self.chunk[self.place];
            self.place += 1;
            if byte == b'\n' {
                return self.finish_line();
            }
            self.feed(byte);
        }
    }

    fn read(&mut self) {
        self.place = 0;
        self.end = self.job.read(&mut self.chunk).expect("the job could not be read");
        if self.end == 0 {
            self.job_over = true;
            if self.begun {
                self.finish_line();
            }
        }
    }

    /// Sends the next byte of the line, which is whole.
    fn send_byte(&mut self, link: &mut Link, place: usize) -> Turn {
        if self.unanswered > ROOM {
            return Turn::Wait;
        }
        link.bytes.push(self.line[place]);
        self.sent = Some(place + 1);
        if place + 1 == self.kept {
            self.kept = 0;
            self.begun = false;
            self.sent = None;
        }
        Turn::Did
    }

    fn send(&mut self, link: &mut Link) -> Turn {
        if let Some(place) = self.sent {
            return self.send_byte(link, place);
        }
        if self.shut {
            return Turn::Wait;
        }
        if self.place < self.end {
            self.scan();
        } else if !self.job_over {
            let greeted = self.greeted || self.polls >= GREETING_POLLS;
            if !greeted || !self.lengths.is_empty() {
                return Turn::Wait;
            }
            self.read();
        } else {
            link.closed = true;
            self.shut = true;
        }
        Turn::Did
    }

    pub fn turn(&mut self, link: &mut Link) -> Turn {
        if self.text.is_due() {
            self.text.write();
            return Turn::Did;
        }
        if self.bye && self.text.is_empty() {
            return Turn::Done;
        }
        if let Some(reply) = link.replies.pop() {
            self.take_reply(reply);
            return Turn::Did;
        }
        self.polls += 1;
        if self.polls == EMPTY_POLLS {
            self.polls = 0;
            link.resume = true;
            return Turn::Did;
        }
        if !self.text.is_empty() {
            self.text.write();
            return Turn::Did;
        }
        self.send(link)
    }
}
