//! The recorder writes records as lines.
use crate::link::{Record, Ring, Turn};
use crate::text::TextWriter;
use std::fs::File;

pub struct Recorder {
    text: TextWriter<File>,
    over: bool,
}

impl Recorder {
    pub fn new(steps: File) -> Self {
        Recorder { text: TextWriter::new(steps), over: false }
    }

    /// Whether it takes a record in its next turn.
    pub fn takes(&self) -> bool {
        !self.over && !self.text.is_due()
    }

    #[inline]
    fn put_event(&mut self, steps: [i8; 3]) {
        for (letter, step) in (b'X'..).zip(steps) {
            if step != 0 {
                self.text.push(letter);
                self.text.push(if step < 0 { b'-' } else { b'+' });
            }
        }
        self.text.push(b'\n');
    }

    fn put_head(&mut self, line: u32, n: u32, w: u64, cycles: u64) {
        self.text.push(b's');
        for number in [line.into(), n.into(), w, cycles] {
            self.text.push(b' ');
            self.text.put_number(number);
        }
        self.text.push(b'\n');
    }

    pub fn turn(&mut self, records: &mut Ring<Record, 1024>) -> Turn {
        if self.text.is_due() || (self.over && !self.text.is_empty()) {
            self.text.write();
            return Turn::Did;
        }
        if self.over {
            return Turn::Done;
        }
        match records.pop() {
            None => return Turn::Wait,
            Some(Record::Event(steps)) => self.put_event(steps),
            Some(Record::Head { line, n, w, cycles }) => self.put_head(line, n, w, cycles),
            Some(Record::End) => {
                self.text.put(b"E\n");
                self.over = true;
            }
        }
        Turn::Did
    }
}
