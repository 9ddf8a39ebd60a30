//! A file's words and lines, read in pieces; whole numbers and decimals in one pass, eight digits at once.

use crate::fail;
use std::fs::File;
use std::io::Read;

const PIECE: usize = 1 << 17;
/// As many bytes as a line may have are at hand before a line or a number is read.
const AT_HAND: usize = 4_200;
/// Line ends behind the end of the file, and then a byte that no number has.
const PAD: usize = 64;
const UNIT: i64 = 1_000_000_000;
const POWERS: [i64; 10] = [1, 10, 100, 1000, 10_000, 100_000, 1_000_000, 10_000_000, 100_000_000, 1_000_000_000];

/// How many digits the eight bytes from `at` on begin with, and their number, which is anything if there are none.
#[inline(always)]
fn digits_of_eight(text: &[u8], at: usize) -> (usize, i64) {
    let chunk = u64::from_le_bytes(text[at..at + 8].try_into().unwrap());
    let digits = chunk ^ 0x3030_3030_3030_3030;
    let others = (digits.wrapping_add(0x7676_7676_7676_7676) | digits) & 0x8080_8080_8080_8080;
    let bits = others.trailing_zeros() & !7;
    let front = digits.wrapping_shl(64 - bits);
    let pairs = front.wrapping_mul(10).wrapping_add(front >> 8);
    let low = (pairs & 0x0000_00ff_0000_00ff).wrapping_mul(0x000f_4240_0000_0064);
    let high = ((pairs >> 16) & 0x0000_00ff_0000_00ff).wrapping_mul(0x0000_2710_0000_0001);
    (bits as usize / 8, (low.wrapping_add(high) >> 32) as i64)
}

/// The number of one to seven digits from `at` on, and the place behind the blank that ends it.
#[inline(always)]
fn short_at(text: &[u8], at: usize) -> Option<(i64, usize)> {
    let (count, number) = digits_of_eight(text, at);
    let is_short = (1..8).contains(&count) && matches!(text[at + count], b' ' | b'\n');
    is_short.then_some((number, at + count + 1))
}

/// The same for a decimal of at most seven digits before the point and behind it, in billionths.
#[inline(always)]
fn short_decimal_at(text: &[u8], at: usize) -> Option<(i64, usize)> {
    let (count, whole) = digits_of_eight(text, at);
    if !(1..8).contains(&count) || text[at + count] != b'.' {
        return short_at(text, at).map(|(whole, end)| (whole * UNIT, end));
    }
    let (places, part) = digits_of_eight(text, at + count + 1);
    let end = at + count + 1 + places;
    let is_short = (1..8).contains(&places) && matches!(text[end], b' ' | b'\n');
    is_short.then(|| (whole * UNIT + part * POWERS[9 - places], end + 1))
}

/// The digits from `start` on, at most 18, as a number, and where they end.
#[inline(always)]
fn digits(text: &[u8], start: usize) -> (i64, usize) {
    let (count, mut value) = digits_of_eight(text, start);
    let mut at = start + count;
    if count == 0 {
        return (0, at);
    }
    if count == 8 {
        while text[at].is_ascii_digit() && at < start + 18 {
            value = value * 10 + i64::from(text[at] - b'0');
            at += 1;
        }
    }
    (value, at)
}

/// Where the word from `at` on begins, and whether it has a minus.
#[inline(always)]
fn word_start(text: &[u8], mut at: usize) -> (usize, bool) {
    while text[at] <= b' ' {
        at += 1;
    }
    let negative = text[at] == b'-';
    (at + usize::from(negative), negative)
}

#[inline(always)]
fn signed(negative: bool, size: i64) -> i64 {
    if negative {
        -size
    } else {
        size
    }
}

/// The whole number from `at` on, and the place behind the blank that ends it.
#[inline(always)]
fn whole_at(text: &[u8], at: usize) -> (i64, usize) {
    short_at(text, at).unwrap_or_else(|| long_at(text, at))
}

/// The same for any number, after any blanks.
fn long_at(text: &[u8], at: usize) -> (i64, usize) {
    let (start, negative) = word_start(text, at);
    let (size, end) = digits(text, start);
    if end == start || text[end] > b' ' {
        fail("no plain whole number");
    }
    (signed(negative, size), end + 1)
}

/// The decimal from `at` on in billionths, and the place behind the blank that ends it.
#[inline(always)]
fn decimal_at(text: &[u8], at: usize) -> (i64, usize) {
    short_decimal_at(text, at).unwrap_or_else(|| long_decimal_at(text, at))
}

/// The same for any decimal, after any blanks.
fn long_decimal_at(text: &[u8], at: usize) -> (i64, usize) {
    let (start, negative) = word_start(text, at);
    let (whole, mut end) = digits(text, start);
    let (mut part, mut places) = (0, 0);
    if text[end] == b'.' {
        let (size, after) = digits(text, end + 1);
        (part, places, end) = (size, after - end - 1, after);
    }
    if end == start || text[end] > b' ' || places > 9 || whole > UNIT {
        fail("no plain decimal");
    }
    let size = whole * UNIT + part * POWERS[9 - places];
    if size > UNIT * UNIT {
        fail("a coordinate is out of range");
    }
    (signed(negative, size), end + 1)
}

pub struct Source {
    file: File,
    buffer: Vec<u8>,
    at: usize,
    end: usize,
    ended: bool,
}

impl Source {
    pub fn open(path: &str) -> Source {
        let file = File::open(path).unwrap_or_else(|_| fail(path));
        Source { file, buffer: vec![0; PIECE + PAD + 1], at: 0, end: 0, ended: false }
    }

    #[cold]
    fn fill(&mut self) {
        self.buffer.copy_within(self.at..self.end, 0);
        (self.at, self.end) = (0, self.end - self.at);
        while self.end < AT_HAND && !self.ended {
            let Ok(count) = self.file.read(&mut self.buffer[self.end..PIECE]) else { fail("device") };
            self.end += count;
            self.ended = count == 0;
        }
        if self.ended {
            self.buffer[self.end..self.end + PAD].fill(b'\n');
            self.buffer[self.end + PAD] = b'!';
        }
    }

    #[inline(always)]
    fn ready(&mut self) {
        if self.end - self.at < AT_HAND && !self.ended {
            self.fill();
        }
    }

    #[inline(always)]
    fn moved(&mut self, at: usize) {
        // (the blank that ends the last number may be behind the end)
        if at > self.end + 1 {
            fail("the file ends in a number, or has a gap");
        }
        self.at = at.min(self.end);
    }

    /// The first byte that isn't blank from here on; 0 at the end of the file.
    #[inline(always)]
    pub fn peek(&mut self) -> u8 {
        loop {
            self.ready();
            while self.at < self.end && self.buffer[self.at] <= b' ' {
                self.at += 1;
            }
            if self.at < self.end {
                return self.buffer[self.at];
            }
            if self.ended {
                return 0;
            }
        }
    }

    #[inline(always)]
    pub fn whole(&mut self) -> i64 {
        self.ready();
        let (number, at) = whole_at(&self.buffer, self.at);
        self.moved(at);
        number
    }

    #[inline(always)]
    pub fn decimal(&mut self) -> i64 {
        self.ready();
        let (number, at) = decimal_at(&self.buffer, self.at);
        self.moved(at);
        number
    }

    /// Takes the whole numbers up to the next keyword.
    #[inline(always)]
    pub fn numbers(&mut self, mut take: impl FnMut(i64)) {
        while !matches!(self.peek(), 0 | b'A'..=b'Z' | b'a'..=b'z') {
            let (text, mut at) = (self.buffer.as_slice(), self.at);
            let stop = if self.ended { self.end } else { self.end - PAD };
            let (number, next) = whole_at(text, at);
            take(number);
            at = next;
            while at < stop {
                let Some((number, next)) = short_at(text, at) else { break };
                take(number);
                at = next;
            }
            self.moved(at);
        }
    }

    /// Whole numbers of at most this size, as many as there are slots.
    pub fn wholes(&mut self, slots: &mut [i64], most: u64) {
        let (mut next, mut too_large) = (0, false);
        while next < slots.len() {
            self.ready();
            let (text, mut at) = (self.buffer.as_slice(), self.at);
            let stop = if self.ended { self.end } else { self.end - PAD };
            for slot in &mut slots[next..] {
                if at >= stop {
                    break;
                }
                (*slot, at) = short_at(text, at).unwrap_or_else(|| {
                    let (number, end) = long_at(text, at);
                    too_large |= number.unsigned_abs() > most;
                    (number, end)
                });
                next += 1;
            }
            if next < slots.len() && self.ended {
                fail("too few numbers");
            }
            self.moved(at);
        }
        if too_large {
            fail("a number is out of range");
        }
    }

    /// The keyword of a line of words, and its value.
    pub fn line(&mut self) -> (String, String) {
        self.ready();
        let text = &self.buffer[self.at..self.end];
        let end = text.iter().position(|byte| *byte == b'\n').unwrap_or(text.len());
        let line = String::from_utf8_lossy(&text[..end]).into_owned();
        self.at += end;
        let (keyword, value) = line.split_once(':').unwrap_or((&line, ""));
        (keyword.trim().to_string(), value.trim().to_string())
    }
}
