//! The room of a type (request R-1), found from what is built: the lowered type, and values with their shapes.

use crate::case::put_number;
use crate::expect::{lowered, shaped};
use crate::frames::{self, Lowered};
use crate::types::{size, Ty};
use crate::values::{shape, Val};

/// What a type takes: the records of its lowered type, the bits of a frame, the most records of a shape.
#[derive(Clone, Debug, PartialEq)]
pub struct Room {
    pub lowered: usize,
    pub bits: usize,
    pub shape: usize,
}

impl Room {
    /// The room over a lowered type. It knows nothing of the type's kinds, and the bits are those of the frame writer.
    pub fn of(lowered: &[u8]) -> Room {
        Room { lowered: lowered.len(), bits: Lowered::new(lowered).width(), shape: frames::longest(lowered) }
    }

    /// The three numbers as a result.
    pub fn file(&self) -> Vec<u8> {
        let mut out = vec![];
        [self.lowered, self.bits, self.shape].iter().for_each(|&n| put_number(&mut out, n));
        out
    }
}

/// Of a type with at most so many values all are tried in each case, if their shapes have no more records together than
/// this.
const FEW_VALUES: u64 = 256;
const FEW_RECORDS: u64 = 100_000;

/// The room of a type that lowers. The most records of a shape are reached: the published shape of a value that is made
/// for it has as many. If the type has few values, the published shape of none has more.
pub fn told(ty: &Ty) -> Room {
    let room = Room::of(&lowered(ty));
    let reached = shaped(ty, &longest_value(ty)).len();
    assert!(reached == room.shape, "the most records of a shape are not reached: {reached} of {}", room.shape);
    if has_few_values(ty) {
        try_all_values(ty, FEW_VALUES);
    }
    room
}

pub fn has_few_values(ty: &Ty) -> bool {
    values(ty) <= FEW_VALUES && values(ty) * size(ty) <= FEW_RECORDS
}

/// A value whose shape is as long as can be. What can be chosen is tried, and the one with the longest shape is taken.
pub fn longest_value(ty: &Ty) -> Val {
    let longest = |tried: Vec<Val>| tried.into_iter().max_by_key(|val| shape(ty, val).len()).expect("some are tried");
    let all = |types: &[Ty]| types.iter().map(longest_value).collect();
    match ty {
        Ty::Never => unreachable!("row 6"),
        Ty::Bool => Val::Bool(false),
        Ty::UInt(bits) => Val::UInt(*bits, [0; 32]),
        Ty::Either(l, r) => longest(
            [l, r].iter().zip([false, true]).map(|(t, right)| Val::Either(right, Box::new(longest_value(t)))).collect(),
        ),
        Ty::Option(t) => longest(vec![Val::Option(None), Val::Option(Some(Box::new(longest_value(t))))]),
        Ty::Tuple(types) => Val::Tuple(all(types)),
        Ty::Array(0, _) => Val::Array(vec![]),
        Ty::Array(n, t) => Val::Array(vec![longest_value(t); *n]),
        Ty::List(bound, t) => {
            let element = longest_value(t);
            longest(some_lengths(*bound).into_iter().map(|n| Val::List(vec![element.clone(); n])).collect())
        }
        Ty::Enum(variants) => longest(variants.iter().enumerate().map(|(i, types)| Val::Enum(i, all(types))).collect()),
    }
}

/// All lengths of a list with a small bound, some of another.
fn some_lengths(bound: usize) -> Vec<usize> {
    match bound {
        ..=8 => (0..bound).collect(),
        _ => vec![0, 1, bound / 2 - 1, bound / 2, bound - 2, bound - 1],
    }
}

/// A number of values that is far too large already stays so.
const FAR: u64 = 1 << 20;

/// How many values a type has that lowers; not exact above FAR.
fn values(ty: &Ty) -> u64 {
    let product = |types: &[Ty]| types.iter().fold(1, |n, t| (n * values(t)).min(FAR));
    let power = |n: usize, of: u64| if of == 1 { 1 } else { (0..n.min(21)).fold(1, |m, _| (m * of).min(FAR)) };
    let all = match ty {
        Ty::Never => 0,
        Ty::Bool => 2,
        Ty::UInt(bits) => power(*bits, 2),
        Ty::Either(l, r) => values(l) + values(r),
        Ty::Option(t) => 1 + values(t),
        Ty::Tuple(types) => product(types),
        Ty::Array(n, t) => power(*n, values(t)),
        Ty::List(bound, t) => {
            let of = values(t);
            (0..*bound).fold(0, |n: u64, length| (n + power(length, of)).min(FAR))
        }
        Ty::Enum(variants) => variants.iter().map(|types| product(types)).sum(),
    };
    all.min(FAR)
}

/// Every value of a type.
fn all_values(ty: &Ty) -> Vec<Val> {
    let boxed = |t: &Ty| all_values(t).into_iter().map(Box::new);
    match ty {
        Ty::Never => vec![],
        Ty::Bool => vec![Val::Bool(false), Val::Bool(true)],
        Ty::UInt(bits) => (0..1u32 << bits).map(|n| Val::UInt(*bits, integer(n))).collect(),
        Ty::Either(l, r) => {
            let sides = boxed(l).map(|v| Val::Either(false, v));
            sides.chain(boxed(r).map(|v| Val::Either(true, v))).collect()
        }
        Ty::Option(t) => std::iter::once(None).chain(boxed(t).map(Some)).map(Val::Option).collect(),
        Ty::Tuple(types) => all_rows_of(types).into_iter().map(Val::Tuple).collect(),
        Ty::Array(0, _) => vec![Val::Array(vec![])],
        Ty::Array(n, t) => all_rows(&vec![&all_values(t)[..]; *n]).into_iter().map(Val::Array).collect(),
        Ty::List(bound, t) => {
            let elements = all_values(t);
            let rows = (0..*bound).flat_map(|n| all_rows(&vec![&elements[..]; n]));
            rows.map(Val::List).collect()
        }
        Ty::Enum(variants) => {
            let rows = |types: &[Ty]| all_rows_of(types).into_iter();
            variants.iter().enumerate().flat_map(|(i, types)| rows(types).map(move |row| Val::Enum(i, row))).collect()
        }
    }
}

/// Every row with a value of each of some types.
fn all_rows_of(types: &[Ty]) -> Vec<Vec<Val>> {
    let places: Vec<Vec<Val>> = types.iter().map(all_values).collect();
    all_rows(&places.iter().map(|all| &all[..]).collect::<Vec<_>>())
}

/// Every row with one of the values of each place. A row's number is its values' numbers as digits.
fn all_rows(places: &[&[Val]]) -> Vec<Vec<Val>> {
    let row = |number: usize| {
        let mut rest = number;
        let digit = |all: &&[Val]| {
            let val = all[rest % all.len()].clone();
            rest /= all.len();
            val
        };
        places.iter().map(digit).collect()
    };
    (0..places.iter().map(|all| all.len()).product()).map(row).collect()
}

fn integer(n: u32) -> [u8; 32] {
    let mut bytes = [0; 32];
    bytes[28..].copy_from_slice(&n.to_be_bytes());
    bytes
}

/// Tries every value of a type that lowers, if it has at most so many: no published shape has more records than the
/// room says, one has as many, and every frame has the room's bits. Gives how many values there are, 0 where they are
/// too many.
pub fn try_all_values(ty: &Ty, most: u64) -> u64 {
    if values(ty) > most {
        return 0;
    }
    let records = lowered(ty);
    let (room, over) = (Room::of(&records), Lowered::new(&records));
    let all = all_values(ty);
    assert!(all.len() as u64 == values(ty), "not all values are tried");
    let bits = |shape: &[u8]| frames::bits(&over, shape).len();
    let shapes: Vec<Vec<u8>> = all.iter().map(|val| shaped(ty, val)).collect();
    assert!(shapes.iter().all(|shape| bits(shape) == room.bits), "a frame has not the bits that are told");
    let most = shapes.iter().map(Vec::len).max().expect("a type that lowers has a value");
    assert!(most == room.shape, "the longest of all shapes has {most} records, not {}", room.shape);
    all.len() as u64
}
