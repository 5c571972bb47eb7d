//! The number of a value file a second time: every fault that can be told is listed, then the first in the file is taken.

use crate::rust;
use crate::types::Ty;

/// A fault: the place of its record, from 0, and its number. What is missing or left over has the place behind the last
/// record. In this order 16 comes before 21 and 22 at one place.
#[derive(Clone, Copy, Debug, PartialEq, Eq, PartialOrd, Ord)]
pub struct Fault {
    pub place: usize,
    pub number: u32,
}

/// The number that refuses a value file, if one does.
pub fn number(ty: &Ty, file: &[u8]) -> Option<u32> {
    if file.is_empty() || file.len() % 36 != 0 {
        return Some(15);
    }
    faults(ty, file).iter().min().map(|fault| fault.number)
}

/// Types that records are still due for: the last one next, as often as its number says.
type Due<'a> = Vec<(&'a Ty, usize)>;

/// All faults of whole records, as far as it can be told which type a record is due for.
pub fn faults(ty: &Ty, file: &[u8]) -> Vec<Fault> {
    let behind = Fault { place: file.len() / 36, number: 16 };
    let mut all = vec![];
    let mut due: Due = vec![(ty, 1)];
    for (place, bytes) in file.chunks_exact(36).enumerate() {
        let Some(ty) = next(&mut due) else {
            all.push(behind);
            return all;
        };
        let record = Record::new(bytes);
        all.extend(record.numbers(ty).into_iter().map(|number| Fault { place, number }));
        let Some(under) = record.under(ty) else { return all };
        due.extend(under.into_iter().rev());
    }
    if next(&mut due).is_some() {
        all.push(behind);
    }
    all
}

/// The type that the next record is due for.
fn next<'a>(due: &mut Due<'a>) -> Option<&'a Ty> {
    while let Some((ty, left)) = due.pop() {
        if left > 0 {
            due.push((ty, left - 1));
            return Some(ty);
        }
    }
    None
}

/// The fields of a record.
struct Record {
    kind: u8,
    choice: u8,
    n: usize,
    integer: [u8; 32],
}

impl Record {
    fn new(bytes: &[u8]) -> Self {
        let n = u16::from_be_bytes([bytes[2], bytes[3]]);
        let integer = bytes[4..].try_into().expect("a record has 36 bytes");
        Record { kind: bytes[0], choice: bytes[1], n: n.into(), integer }
    }

    /// All numbers that the record's own bytes earn where a type is due. Of one of another kind no more can be told.
    fn numbers(&self, ty: &Ty) -> Vec<u32> {
        if Some(self.kind) != kind(ty) {
            return vec![16];
        }
        let unlike = [
            self.choice >= choices(ty),
            !self.counts(ty),
            !matches!(ty, Ty::UInt(_)) && self.integer.iter().any(|&byte| byte != 0),
        ];
        let mut all = vec![16; unlike.iter().filter(|&&holds| holds).count()];
        match ty {
            Ty::UInt(bits) if too_large(*bits, &self.integer) => all.push(21),
            Ty::List(bound, _) if self.n >= *bound => all.push(22),
            _ => {}
        }
        all
    }

    /// Is n a number that the type allows? Any length may stand in a List's record here.
    fn counts(&self, ty: &Ty) -> bool {
        match ty {
            Ty::UInt(bits) => self.n == *bits,
            Ty::Tuple(parts) => self.n == parts.len(),
            Ty::Array(size, _) => self.n == *size,
            Ty::List(..) => true,
            Ty::Enum(variants) => self.n < variants.len(),
            Ty::Never | Ty::Bool | Ty::Either(..) | Ty::Option(_) => self.n == 0,
        }
    }

    /// What is due under the record, if it can be told.
    fn under<'a>(&self, ty: &'a Ty) -> Option<Due<'a>> {
        if Some(self.kind) != kind(ty) {
            return None;
        }
        let once = |types: &'a [Ty]| types.iter().map(|ty| (ty, 1)).collect();
        match ty {
            Ty::Never => None,
            Ty::Bool | Ty::UInt(_) => Some(vec![]),
            Ty::Either(left, right) => [left, right].get(self.choice as usize).map(|side| vec![(&***side, 1)]),
            Ty::Option(some) => (self.choice < 2).then(|| vec![(&**some, self.choice.into())]),
            Ty::Tuple(parts) => self.counts(ty).then(|| once(parts)),
            Ty::Array(_, element) => self.counts(ty).then(|| vec![(&**element, self.n)]),
            Ty::List(_, element) => Some(vec![(&**element, self.n)]),
            Ty::Enum(variants) => variants.get(self.n).map(|parts| once(parts)),
        }
    }
}

/// The kind of a type's values; Never has none.
fn kind(ty: &Ty) -> Option<u8> {
    match ty {
        Ty::Never => None,
        Ty::Bool => Some(1),
        Ty::UInt(_) => Some(2),
        Ty::Either(..) => Some(3),
        Ty::Option(_) => Some(4),
        Ty::Tuple(_) => Some(5),
        Ty::Array(..) => Some(6),
        Ty::List(..) => Some(7),
        Ty::Enum(_) => Some(8),
    }
}

/// The choices of a kind, from 0; where there is none the byte is zero.
fn choices(ty: &Ty) -> u8 {
    match ty {
        Ty::Bool | Ty::Either(..) | Ty::Option(_) => 2,
        _ => 1,
    }
}

/// Is the integer at least 2 to the width? The published code must have no such integer then, and else one.
fn too_large(bits: usize, integer: &[u8; 32]) -> bool {
    let large = bits < 256 && *integer >= power_of_two(bits);
    assert!(large != rust::has_integer(bits, integer), "integers of {bits} bits differ");
    large
}

/// 2 to the power of `bits`, below 256, high byte first.
pub fn power_of_two(bits: usize) -> [u8; 32] {
    let mut bytes = [0; 32];
    bytes[31 - bits / 8] = 1 << (bits % 8);
    bytes
}
