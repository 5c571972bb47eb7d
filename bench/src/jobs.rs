//! The named job types: a type, a value, a path into it and a new value for the part there.

use crate::types::Ty;
use crate::values::Val;

pub struct Job {
    pub name: &'static str,
    pub ty: Ty,
    pub val: Val,
    pub path: Vec<u16>,
    pub new: Val,
}

fn uint(bits: usize, seed: usize) -> Val {
    let mut integer = [0; 32];
    for (i, byte) in integer[32 - bits.div_ceil(8)..].iter_mut().enumerate() {
        *byte = (seed * 37 + i * 101 + 11) as u8;
    }
    if bits < 8 {
        integer[31] &= (1 << bits) - 1;
    }
    Val::UInt(bits, integer)
}

fn uints(bits: usize, n: usize) -> Vec<Val> {
    (0..n).map(|i| uint(bits, i)).collect()
}

pub fn small(bits: usize, integer: u8) -> Val {
    let mut bytes = [0; 32];
    bytes[31] = integer;
    Val::UInt(bits, bytes)
}

fn list(bound: usize, ty: Ty) -> Ty {
    Ty::List(bound, Box::new(ty))
}

fn array(n: usize, ty: Ty) -> Ty {
    Ty::Array(n, Box::new(ty))
}

fn options(levels: usize, inner: Ty) -> Ty {
    (0..levels).fold(inner, |ty, _| Ty::Option(Box::new(ty)))
}

pub fn somes(levels: usize, inner: Val) -> Val {
    (0..levels).fold(inner, |val, _| Val::Option(Some(Box::new(val))))
}

/// Variant i has i modulo 3 parts.
fn variant(i: usize) -> Vec<Ty> {
    [vec![], vec![Ty::UInt(8)], vec![Ty::Bool, Ty::UInt(32)]][i % 3].clone()
}

/// A u4 and an Option of a Boolean, none for every third.
fn pair(i: usize) -> Val {
    let hit = if i % 3 == 1 { Val::Option(None) } else { somes(1, Val::Bool(i % 2 == 0)) };
    Val::Tuple(vec![uint(4, i), hit])
}

pub fn jobs() -> Vec<Job> {
    let deep = |bit| somes(30, Val::Bool(bit));
    vec![
        Job { name: "one bit", ty: Ty::UInt(1), val: small(1, 1), path: vec![], new: small(1, 0) },
        Job {
            name: "the sample",
            ty: Ty::Tuple(vec![Ty::UInt(4), list(4, Ty::UInt(1))]),
            val: Val::Tuple(vec![small(4, 9), Val::List(vec![small(1, 1)])]),
            path: vec![1, 0],
            new: small(1, 0),
        },
        Job {
            name: "eight hits",
            ty: list(16, Ty::UInt(1)),
            val: Val::List(vec![small(1, 1); 8]),
            path: vec![7],
            new: small(1, 0),
        },
        Job {
            name: "eight of u256",
            ty: array(8, Ty::UInt(256)),
            val: Val::Array(uints(256, 8)),
            path: vec![7],
            new: uint(256, 100),
        },
        Job {
            name: "1,023 of u8 in a list",
            ty: list(1024, Ty::UInt(8)),
            val: Val::List(uints(8, 1023)),
            path: vec![1022],
            new: uint(8, 2000),
        },
        Job {
            name: "an enum of 100",
            ty: Ty::Enum((0..100).map(variant).collect()),
            val: Val::Enum(98, vec![Val::Bool(true), uint(32, 5)]),
            path: vec![1],
            new: uint(32, 6),
        },
        Job {
            name: "the largest frame",
            ty: array(1024, options(30, Ty::Bool)),
            val: Val::Array((0..1024).map(|i| deep(i % 2 == 0)).collect()),
            path: [vec![1023], vec![0; 30]].concat(),
            new: Val::Bool(false),
        },
        Job {
            name: "64 of u256",
            ty: array(64, Ty::UInt(256)),
            val: Val::Array(uints(256, 64)),
            path: vec![63],
            new: uint(256, 100),
        },
        Job {
            name: "1,024 type records",
            ty: Ty::Tuple(vec![Ty::UInt(4); 1023]),
            val: Val::Tuple(uints(4, 1023)),
            path: vec![1022],
            new: small(4, 3),
        },
        Job {
            name: "an enum of 1,023",
            ty: Ty::Enum(vec![vec![]; 1023]),
            val: Val::Enum(1022, vec![]),
            path: vec![],
            new: Val::Enum(0, vec![]),
        },
        Job {
            name: "341 enums of two",
            ty: Ty::Tuple(vec![Ty::Enum(vec![vec![]; 2]); 341]),
            val: Val::Tuple((0..341).map(|i| Val::Enum(i % 2, vec![])).collect()),
            path: vec![340],
            new: Val::Enum(1, vec![]),
        },
        Job {
            name: "a thousand pairs",
            ty: array(1000, Ty::Tuple(vec![Ty::UInt(4), options(1, Ty::Bool)])),
            val: Val::Array((0..1000).map(pair).collect()),
            path: vec![999, 1, 0],
            new: Val::Bool(false),
        },
    ]
}
