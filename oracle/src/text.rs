//! Reading and writing the case text: words, doubles as 16 hex digits or decimals, counted lists, bytes as hex pairs.

use std::cmp::Ordering;

/// The words of one line.
pub struct Words<'a>(&'a [u8]);

fn blank(byte: u8) -> bool {
    matches!(byte, b' ' | b'\t' | b'\r' | b'\n')
}

fn digit(byte: u8) -> Option<u64> {
    (byte as char).to_digit(16).map(u64::from)
}

impl<'a> Words<'a> {
    pub fn new(line: &'a [u8]) -> Self {
        let end = line.iter().position(|&b| b == b';').unwrap_or(line.len());
        Words(&line[..end])
    }

    pub fn word(&mut self) -> Option<&'a [u8]> {
        let from = self.0.iter().position(|&b| !blank(b))?;
        let rest = &self.0[from..];
        let to = rest.iter().position(|&b| blank(b)).unwrap_or(rest.len());
        self.0 = &rest[to..];
        Some(&rest[..to])
    }

    /// None where a word is left.
    pub fn end(mut self) -> Option<()> {
        self.word().is_none().then_some(())
    }

    pub fn keyword(&mut self, expected: &str) -> Option<()> {
        (self.word()? == expected.as_bytes()).then_some(())
    }

    pub fn number(&mut self) -> Option<u64> {
        let word = self.word()?;
        all_digits(word).then(|| std::str::from_utf8(word).ok()?.parse().ok()).flatten()
    }

    pub fn byte(&mut self) -> Option<u8> {
        u8::try_from(self.number()?).ok()
    }

    pub fn yes_or_no(&mut self) -> Option<bool> {
        match self.word()? {
            b"0" => Some(false),
            b"1" => Some(true),
            _ => None,
        }
    }

    pub fn double(&mut self) -> Option<f64> {
        read_double(self.word()?)
    }

    /// A double's bits as they are written, a NaN's too.
    pub fn pattern(&mut self) -> Option<u64> {
        read_pattern(self.word()?)
    }

    pub fn doubles(&mut self) -> Option<Vec<f64>> {
        let count = self.number()?;
        (0..count).map(|_| self.double()).collect()
    }

    pub fn numbers(&mut self) -> Option<Vec<u64>> {
        let count = self.number()?;
        (0..count).map(|_| self.number()).collect()
    }

    pub fn marks(&mut self) -> Option<Vec<u8>> {
        let count = self.number()?;
        (0..count).map(|_| self.byte()).collect()
    }

    pub fn bytes(&mut self) -> Option<Vec<u8>> {
        let word = self.word()?;
        if word == b"-" {
            return Some(Vec::new());
        }
        if word.len() % 2 != 0 {
            return None;
        }
        word.chunks(2).map(|pair| Some((digit(pair[0])? * 16 + digit(pair[1])?) as u8)).collect()
    }

    /// The slots of each lent output list, at the line's end.
    pub fn slots(mut self, room: u64) -> Option<u64> {
        let mut again = Words(self.0);
        if again.word().is_none() {
            return Some(room);
        }
        let slots = self.number()?;
        self.end()?;
        Some(slots)
    }
}

pub fn read_double(word: &[u8]) -> Option<f64> {
    read_pattern(word).map(f64::from_bits)
}

/// A double's bits: themselves, or a decimal's. No word is both, since a decimal has fewer digits.
fn read_pattern(word: &[u8]) -> Option<u64> {
    read_bits(word).or_else(|| read_decimal(word).map(f64::to_bits))
}

fn read_bits(word: &[u8]) -> Option<u64> {
    if word.len() != 16 {
        return None;
    }
    word.iter().try_fold(0, |bits, &byte| Some(bits << 4 | digit(byte)?))
}

/// `[-]DIGITS[.DIGITS]` with at most 15 digits in all: the nearest double.
fn read_decimal(word: &[u8]) -> Option<f64> {
    let digits = word.strip_prefix(b"-").unwrap_or(word);
    let spelled = digits.splitn(2, |&byte| byte == b'.').all(all_digits);
    let few = digits.iter().filter(|byte| byte.is_ascii_digit()).count() <= 15;
    (spelled && few).then(|| std::str::from_utf8(word).ok()?.parse().ok()).flatten()
}

/// One or more decimal digits and nothing else.
fn all_digits(word: &[u8]) -> bool {
    !word.is_empty() && word.iter().all(u8::is_ascii_digit)
}

const HEX: &[u8; 16] = b"0123456789abcdef";

/// A line in the making.
#[derive(Default)]
pub struct Line(pub Vec<u8>);

impl Line {
    pub fn word(&mut self, word: &str) -> &mut Self {
        if self.0.last().is_some_and(|&b| b != b'\n') {
            self.0.push(b' ');
        }
        self.0.extend_from_slice(word.as_bytes());
        self
    }

    pub fn number(&mut self, number: u64) -> &mut Self {
        self.word(&number.to_string())
    }

    pub fn bits(&mut self, bits: u64) -> &mut Self {
        self.word("");
        for shift in (0..16).rev() {
            self.0.push(HEX[(bits >> (4 * shift) & 15) as usize]);
        }
        self
    }

    pub fn double(&mut self, d: f64) -> &mut Self {
        self.bits(d.to_bits())
    }

    /// Where the first of two comes.
    pub fn order(&mut self, order: Ordering) -> &mut Self {
        self.word(match order {
            Ordering::Less => "before",
            Ordering::Equal => "same",
            Ordering::Greater => "after",
        })
    }

    /// A mark, and the bits beside it.
    pub fn answer(&mut self, mark: u8, bits: u64) -> &mut Self {
        self.number(mark.into()).bits(bits)
    }

    /// The place of a set in its order, or that there is none.
    pub fn set_place(&mut self, place: Option<u64>) -> &mut Self {
        match place {
            Some(place) => self.number(place),
            None => self.word("none"),
        }
    }

    /// Clip and place of a sample, or that there is none.
    pub fn sample(&mut self, sample: Option<(u64, u64)>) -> &mut Self {
        match sample {
            Some((clip, place)) => self.number(clip).number(place),
            None => self.word("none").word("none"),
        }
    }

    pub fn doubles(&mut self, list: &[f64]) -> &mut Self {
        self.number(list.len() as u64);
        for &d in list {
            self.double(d);
        }
        self
    }

    pub fn numbers(&mut self, list: &[u64]) -> &mut Self {
        self.number(list.len() as u64);
        for &n in list {
            self.number(n);
        }
        self
    }

    pub fn bytes(&mut self, bytes: &[u8]) -> &mut Self {
        if bytes.is_empty() {
            return self.word("-");
        }
        self.word("");
        for &byte in bytes {
            self.0.push(HEX[(byte >> 4) as usize]);
            self.0.push(HEX[(byte & 15) as usize]);
        }
        self
    }

    pub fn end(&mut self) {
        self.0.push(b'\n');
    }
}
