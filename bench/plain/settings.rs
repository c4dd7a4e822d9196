//! The numbered settings, and the lines that set them.
use crate::line::read_number;

/// Numbers for each axis, in thousandths.
pub type Per3 = [u32; 3];

pub struct Settings {
    pub deviation: u32,
    pub per_mm: Per3,
    pub rate: Per3,
    pub accel: Per3,
    pub travel: Per3,
    pub report: u8,
}

impl Settings {
    pub fn new() -> Self {
        Settings {
            deviation: 10,
            per_mm: [250_000; 3],
            rate: [500_000; 3],
            accel: [10_000; 3],
            travel: [200_000; 3],
            report: 1,
        }
    }

    fn set(&mut self, number: u64, micro: u64) -> Result<(), u8> {
        let (place, least, most) = match number {
            10 if micro < 256_000_000 => {
                self.report = (micro / 1_000_000) as u8;
                return Ok(());
            }
            20 if micro < 1_000_000 => return Ok(()),
            20 if micro < 256_000_000 => panic!("soft limits are not served here"),
            11 => (&mut self.deviation, 0, 10_000),
            100..=102 => (&mut self.per_mm[number as usize - 100], 1_000, 10_000_000),
            110..=112 => (&mut self.rate[number as usize - 110], 1_000, 1_000_000_000),
            120..=122 => (&mut self.accel[number as usize - 120], 1_000, 1_000_000_000),
            130..=132 => (&mut self.travel[number as usize - 130], 1_000, 10_000_000),
            _ => return Err(3),
        };
        let value = micro / 1_000;
        if value < least || most < value {
            return Err(3);
        }
        *place = value as u32;
        Ok(())
    }

    /// Does what a line that begins with `$` asks for.
    pub fn obey(&mut self, line: &[u8], runs: bool) -> Result<(), u8> {
        match line {
            b"$X" => return Ok(()),
            b"$" | b"$H" | b"$I" | b"$N" | b"$C" => return Err(3),
            [_, b'$' | b'#' | b'C' | b'G' | b'H' | b'I' | b'J' | b'N' | b'R' | b'S' | b'X', ..] => {
                panic!("commands but settings are not served here")
            }
            _ if runs => return Err(8),
            _ => {}
        }
        let (number, rest) = read_number(&line[1..])?;
        let [b'=', rest @ ..] = rest else {
            return Err(3);
        };
        let (value, rest) = read_number(rest)?;
        if !rest.is_empty() || number < 0 || number % 1_000_000 != 0 || number > 255_000_000 {
            return Err(3);
        }
        if value < 0 {
            return Err(4);
        }
        self.set(number.unsigned_abs() / 1_000_000, value.unsigned_abs())
    }
}
