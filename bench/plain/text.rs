//! Text that is collected before it is written.
use std::io::Write;

const ROOM: usize = 4096;
/// Text is written once less room than this is left.
const RESERVE: usize = 192;

/// The two digits of each number below 100.
const PAIRS: [[u8; 2]; 100] = {
    let mut pairs = [[0; 2]; 100];
    let mut number = 0;
    while number < 100 {
        pairs[number] = [b'0' + (number / 10) as u8, b'0' + (number % 10) as u8];
        number += 1;
    }
    pairs
};

pub struct TextWriter<W> {
    out: W,
    held: [u8; ROOM],
    len: usize,
}

impl<W: Write> TextWriter<W> {
    pub fn new(out: W) -> Self {
        TextWriter { out, held: [0; ROOM], len: 0 }
    }

    #[inline]
    pub fn is_empty(&self) -> bool {
        self.len == 0
    }

    /// Whether little room is left.
    #[inline]
    pub fn is_due(&self) -> bool {
        self.len > ROOM - RESERVE
    }

    #[inline]
    pub fn push(&mut self, byte: u8) {
        self.held[self.len] = byte;
        self.len += 1;
    }

    #[inline]
    pub fn put(&mut self, text: &[u8]) {
        self.held[self.len..self.len + text.len()].copy_from_slice(text);
        self.len += text.len();
    }

    /// Puts a number, two digits at a time.
    pub fn put_number(&mut self, mut number: u64) {
        let mut digits = [0; 20];
        let mut place = digits.len();
        while number >= 10 {
            place -= 2;
            digits[place..place + 2].copy_from_slice(&PAIRS[(number % 100) as usize]);
            number /= 100;
        }
        if number > 0 || place == digits.len() {
            place -= 1;
            digits[place] = b'0' + number as u8;
        }
        self.put(&digits[place..]);
    }

    /// Gives what is held to the device.
    pub fn write(&mut self) {
        self.out.write_all(&self.held[..self.len]).expect("a device failed");
        self.len = 0;
    }
}
