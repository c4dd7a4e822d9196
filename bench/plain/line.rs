//! The words of a line, judged as they are read: each letter's value, and the code of each group.

/// The modal groups that a run keeps or looks at.
pub const NOT_MODAL: usize = 0;
pub const MOTION: usize = 1;
pub const PLANE: usize = 2;
pub const DISTANCE: usize = 3;
const ARC_DISTANCE: usize = 4;
const FEED_MODE: usize = 5;
pub const UNITS: usize = 6;
const CUTTER: usize = 7;
const TOOL_LENGTH: usize = 8;
pub const SYSTEM: usize = 9;
const PATH: usize = 10;
const GROUPS: usize = 11;

/// The group of a G code, by ten times its number.
fn group_of(key: u64) -> Option<usize> {
    Some(match key {
        0 | 10 | 800 => MOTION,
        40 | 100 | 280 | 281 | 300 | 301 | 530 | 920 | 921 => NOT_MODAL,
        170 | 180 | 190 => PLANE,
        200 | 210 => UNITS,
        400 => CUTTER,
        490 => TOOL_LENGTH,
        540 | 550 | 560 | 570 | 580 | 590 => SYSTEM,
        610 => PATH,
        900 | 910 => DISTANCE,
        911 => ARC_DISTANCE,
        940 => FEED_MODE,
        _ => return None,
    })
}

/// A number at the front of a text, in millionths, and what is behind it. Refused with the number of an error.
pub fn read_number(text: &[u8]) -> Result<(i64, &[u8]), u8> {
    const TOO_LARGE: u64 = 1_000_000_000;
    let (negative, mut rest) = match text {
        [b'-', rest @ ..] => (true, rest),
        [b'+', rest @ ..] => (false, rest),
        _ => (false, text),
    };
    let mut whole = 0;
    let mut digits = false;
    while let [digit @ b'0'..=b'9', behind @ ..] = rest {
        whole = TOO_LARGE.min(whole * 10 + u64::from(digit - b'0'));
        digits = true;
        rest = behind;
    }
    let mut part = 0;
    if let [b'.', behind @ ..] = rest {
        rest = behind;
        let mut weight = 100_000;
        while let [digit @ b'0'..=b'9', behind @ ..] = rest {
            part += u64::from(digit - b'0') * weight;
            weight /= 10;
            digits = true;
            rest = behind;
        }
    }
    if !digits || whole == TOO_LARGE {
        return Err(2);
    }
    let micro = (whole * 1_000_000 + part) as i64;
    Ok((if negative { -micro } else { micro }, rest))
}

fn bit(letter: u8) -> u32 {
    1 << (letter - b'A')
}

const fn letters(text: &[u8]) -> u32 {
    let mut set = 0;
    let mut place = 0;
    while place < text.len() {
        set |= 1 << (text[place] - b'A');
        place += 1;
    }
    set
}

const VALUES: u32 = letters(b"FIJKLNPRSTXYZ");
const NEVER_NEGATIVE: u32 = letters(b"FNPST");
pub const AXES: u32 = letters(b"XYZ");
pub const UNUSED: u32 = letters(b"IJKR");

/// A line whose words are being read, or were.
#[derive(Default)]
pub struct Words {
    stand: u32,
    values: [i64; 26],
    groups: u32,
    codes: [u16; GROUPS],
    axis_command: bool,
}

impl Words {
    /// Reads all words of a line. A word that is none goes before each other error.
    pub fn read(&mut self, line: &[u8]) -> Result<(), u8> {
        self.stand = 0;
        self.groups = 0;
        self.axis_command = false;
        let mut verdict = Ok(());
        let mut rest = line;
        while let [letter, behind @ ..] = rest {
            if !letter.is_ascii_uppercase() {
                return Err(1);
            }
            let (micro, behind) = read_number(behind)?;
            if verdict.is_ok() {
                verdict = self.take(*letter, micro);
            }
            rest = behind;
        }
        verdict
    }

    fn take(&mut self, letter: u8, micro: i64) -> Result<(), u8> {
        match letter {
            b'G' => self.take_code(micro),
            b'M' => panic!("M codes are not served here"),
            _ => self.take_value(letter, micro),
        }
    }

    fn take_code(&mut self, micro: i64) -> Result<(), u8> {
        let whole = micro / 1_000_000;
        let alone = group_of(whole.unsigned_abs() * 10).is_some() && !matches!(whole, 28 | 30 | 49 | 61 | 90 | 91 | 92);
        if micro >= 0 && micro % 1_000_000 != 0 && alone {
            return Err(23);
        }
        if micro < 0 || micro % 100_000 != 0 {
            return Err(20);
        }
        let key = micro.unsigned_abs() / 100_000;
        let group = group_of(key).ok_or(20)?;
        let for_axes = matches!(key, 0 | 10 | 100 | 280 | 300 | 920);
        if for_axes && self.axis_command {
            return Err(24);
        }
        if self.groups >> group & 1 == 1 {
            return Err(21);
        }
        self.groups |= 1 << group;
        self.codes[group] = key as u16;
        self.axis_command |= for_axes;
        Ok(())
    }

    fn take_value(&mut self, letter: u8, micro: i64) -> Result<(), u8> {
        let bit = bit(letter);
        if VALUES & bit == 0 {
            return Err(20);
        }
        if letter == b'T' && micro > 255_000_000 {
            return Err(38);
        }
        if self.stand & bit != 0 {
            return Err(25);
        }
        if micro < 0 && NEVER_NEGATIVE & bit != 0 {
            return Err(4);
        }
        self.stand |= bit;
        self.values[usize::from(letter - b'A')] = micro;
        Ok(())
    }

    /// The code of a group.
    #[inline]
    pub fn code(&self, group: usize) -> Option<u16> {
        (self.groups >> group & 1 == 1).then(|| self.codes[group])
    }

    #[inline]
    pub fn has(&self, not_modal: u16) -> bool {
        self.code(NOT_MODAL) == Some(not_modal)
    }

    /// Whether one of these letters stands.
    #[inline]
    pub fn stands(&self, set: u32) -> bool {
        self.stand & set != 0
    }

    #[inline]
    pub fn value(&self, letter: u8) -> Option<i64> {
        (self.stand & bit(letter) != 0).then(|| self.values[usize::from(letter - b'A')])
    }

    pub fn whole(&self, letter: u8) -> Option<u32> {
        self.value(letter).map(|micro| (micro / 1_000_000) as u32)
    }
}
