//! A case: an entry, its arguments, and the buffer that is lent for the result.

use std::fmt::Write;

use crate::expect::{Entry, Outcome};

#[derive(Clone, Debug)]
pub struct Case {
    pub entry: Entry,
    pub args: Vec<Vec<u8>>,
    /// The buffer's length. An edit has no buffer but its frame, an entry that only tells numbers has none: 0.
    pub room: usize,
    /// The buffer is filled with this byte, or with a pattern that begins with it.
    pub fill: u8,
    pub plain_fill: bool,
}

/// A reply and the lent bytes afterwards.
#[derive(Clone, Debug, PartialEq)]
pub struct Answer {
    pub number: u32,
    /// The other numbers of the reply: the result's length, or what an entry tells that writes nothing. All are 0 where
    /// it is refused.
    pub numbers: Vec<usize>,
    /// Of an expected answer to a search: the other indexes that are as right as the one among the numbers.
    pub others: Vec<usize>,
    pub lent: Vec<u8>,
}

impl Case {
    /// The lent bytes before the call.
    pub fn lent(&self) -> Vec<u8> {
        match self.entry {
            Entry::PartEdit => self.args[1].clone(),
            _ => (0..self.room).map(|i| self.filling(i)).collect(),
        }
    }

    fn filling(&self, i: usize) -> u8 {
        match self.plain_fill {
            true => self.fill,
            false => self.fill.wrapping_add((i as u8).wrapping_mul(37)),
        }
    }

    /// The answer to an outcome: row 17 comes last, a refusal changes nothing, bytes past the end stay. What only tells
    /// numbers needs no buffer.
    pub fn delivered(&self, outcome: Outcome) -> Answer {
        let mut lent = self.lent();
        let answer = |number, numbers, lent| Answer { number, numbers, others: vec![], lent };
        let refused = |number, lent| answer(number, vec![0; self.entry.numbers().len()], lent);
        match outcome {
            Err(number) => refused(number, lent),
            Ok(result) if self.entry == Entry::Search => match numbers_of(&result).split_first() {
                None => answer(0, vec![0, 0], lent),
                Some((&one, others)) => Answer { others: others.to_vec(), ..answer(0, vec![1, one], lent) },
            },
            Ok(result) if self.entry.only_tells() => answer(0, numbers_of(&result), lent),
            Ok(result) if result.len() > lent.len() => refused(17, lent),
            Ok(result) => {
                lent[..result.len()].copy_from_slice(&result);
                answer(0, vec![result.len()], lent)
            }
        }
    }

    /// All arguments in hexadecimal.
    pub fn show(&self) -> String {
        let mut text = String::new();
        writeln!(text, "entry {}", self.entry.name()).unwrap();
        for (name, arg) in self.entry.arguments().iter().zip(&self.args) {
            writeln!(text, "  {name} ({} bytes) {}", arg.len(), hex(arg)).unwrap();
        }
        if self.entry != Entry::PartEdit && !self.entry.only_tells() {
            let kind = if self.plain_fill { "filled with" } else { "filled in steps of 37 from" };
            writeln!(text, "  buffer of {} bytes, {kind} {:02x}", self.room, self.fill).unwrap();
        }
        text
    }
}

impl Answer {
    /// The result's length, of an entry that writes one.
    pub fn length(&self) -> usize {
        self.numbers[0]
    }

    /// Is the library's answer this one? Of a search any of the indexes is right.
    pub fn allows(&self, told: &Answer) -> bool {
        let other = self.others.iter().any(|&index| told.numbers == [1, index]);
        self.number == told.number && self.lent == told.lent && (self.numbers == told.numbers || other)
    }

    /// The indexes of an expected answer to a search: those of all frames that match.
    pub fn indexes(&self) -> Vec<usize> {
        match self.numbers[..] {
            [1, one] => [&[one], &self.others[..]].concat(),
            _ => vec![],
        }
    }

    pub fn show(&self, entry: Entry) -> String {
        let mut text = format!("number {}", self.number);
        for (name, n) in entry.numbers().iter().zip(&self.numbers) {
            write!(text, ", {name} {n}").unwrap();
        }
        self.others.iter().for_each(|n| write!(text, " or {n}").unwrap());
        if !entry.only_tells() {
            write!(text, ", lent bytes {}", hex(&self.lent)).unwrap();
        }
        text
    }
}

/// Puts a number in three bytes, the highest first.
pub fn put_number(out: &mut Vec<u8>, n: usize) {
    assert!(n < 1 << 24, "a number has three bytes");
    out.extend(&(n as u32).to_be_bytes()[1..]);
}

/// The numbers of three bytes each.
pub fn numbers_of(bytes: &[u8]) -> Vec<usize> {
    assert!(bytes.len() % 3 == 0, "a number has three bytes");
    bytes.chunks(3).map(|three| three.iter().fold(0, |n, &b| n << 8 | b as usize)).collect()
}

pub fn hex(bytes: &[u8]) -> String {
    bytes.iter().map(|b| format!("{b:02x}")).collect()
}
