//! Schedules as text: entries `t` or `t*n`, with blanks or comments between them.

use std::fmt::Write;

const MOST_ENTRIES: u64 = 200_000;

/// The first fault of a schedule, at a byte.
pub enum Fault {
    Form(usize),
    TooLong(usize),
}

impl Fault {
    pub fn line(&self) -> String {
        match self {
            Fault::Form(at) => format!("schedule refused at byte {at}: form\n"),
            Fault::TooLong(at) => format!("schedule refused at byte {at}: too long\n"),
        }
    }
}

struct Reader<'a> {
    bytes: &'a [u8],
    at: usize,
}

impl Reader<'_> {
    fn next(&self) -> Option<u8> {
        self.bytes.get(self.at).copied()
    }

    /// Skips blanks and comments.
    fn skip(&mut self) {
        while let Some(byte) = self.next() {
            match byte {
                b' ' | b'\t' | b'\r' | b'\n' => self.at += 1,
                b'#' => {
                    let rest = &self.bytes[self.at..];
                    self.at += rest.iter().position(|&b| b == b'\n').unwrap_or(rest.len());
                }
                _ => return,
            }
        }
    }

    /// A number in this range, without leading zeros.
    fn number(&mut self, least: u64, most: u64) -> Result<u64, Fault> {
        let start = self.at;
        let mut value: Option<u64> = Some(0);
        while let Some(digit @ b'0'..=b'9') = self.next() {
            let digit = u64::from(digit - b'0');
            value = value.and_then(|v| v.checked_mul(10)?.checked_add(digit));
            self.at += 1;
        }
        let has_leading_zero = self.bytes[start..self.at].starts_with(b"0") && self.at - start > 1;
        let value = value.filter(|v| (least..=most).contains(v) && !has_leading_zero);
        value.filter(|_| self.at > start).ok_or(Fault::Form(start))
    }
}

pub fn read(bytes: &[u8]) -> Result<Vec<u32>, Fault> {
    let mut reader = Reader { bytes, at: 0 };
    let mut schedule = Vec::new();
    reader.skip();
    while reader.next().is_some() {
        let start = reader.at;
        let thread = reader.number(0, u32::MAX.into())?;
        let mut times = 1;
        if reader.next() == Some(b'*') {
            reader.at += 1;
            times = reader.number(1, u64::MAX)?;
        }
        if !matches!(
            reader.next(),
            None | Some(b' ' | b'\t' | b'\r' | b'\n' | b'#')
        ) {
            return Err(Fault::Form(reader.at));
        }
        if times > MOST_ENTRIES - schedule.len() as u64 {
            return Err(Fault::TooLong(start));
        }
        schedule.resize(schedule.len() + times as usize, thread as u32);
        reader.skip();
    }
    Ok(schedule)
}

/// One line of maximal groups of equal neighbours.
pub fn write(schedule: &[u32]) -> String {
    let mut out = String::new();
    for group in schedule.chunk_by(|a, b| a == b) {
        if !out.is_empty() {
            out.push(' ');
        }
        let _ = match group.len() {
            1 => write!(out, "{}", group[0]),
            times => write!(out, "{}*{times}", group[0]),
        };
    }
    out.push('\n');
    out
}
