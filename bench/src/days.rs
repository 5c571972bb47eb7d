//! The day files that are searched: frames of a small job, of which the last one has the part that is sought.

use crate::jobs::{small, somes};
use crate::types::Ty;
use crate::values::Val;

/// A day file as values, a path, and the part that is sought.
pub struct Day {
    pub name: &'static str,
    pub ty: Ty,
    pub vals: Vec<Val>,
    pub path: Vec<u16>,
    pub sought: Val,
}

const FRAMES: usize = 10_000;

/// The station, the recipe number or, in its place, a mark of 256 bits, up to seven hits, and the density, if it was
/// measured. A frame has 52 or 300 bits.
fn job(second: Ty) -> Ty {
    let density = Ty::Option(Box::new(Ty::UInt(8)));
    Ty::Tuple(vec![Ty::UInt(4), second, Ty::List(8, Box::new(Ty::UInt(4))), density])
}

/// Of n jobs, job i; what is sought in the last one, all bits set, no other has.
fn made(i: usize, n: usize, second: Val) -> Val {
    let last = i + 1 == n;
    let hit = |k| small(4, if last { 15 } else { ((i + k) % 15) as u8 });
    let density = match i % 3 {
        _ if last => somes(1, small(8, 255)),
        1 => Val::Option(None),
        _ => somes(1, small(8, (i * 29 % 255) as u8)),
    };
    let hits = Val::List((0..if last { 5 } else { i % 8 }).map(hit).collect());
    Val::Tuple(vec![small(4, (i % 16) as u8), second, hits, density])
}

fn recipe(i: usize, n: usize) -> Val {
    small(8, if i + 1 == n { 255 } else { (i * 37 % 255) as u8 })
}

/// Marks that differ in the last byte alone.
fn mark(i: usize, n: usize) -> Val {
    let mut integer = [0x5a; 32];
    integer[31] = if i + 1 == n { 255 } else { (i * 37 % 255) as u8 };
    Val::UInt(256, integer)
}

fn recipes(n: usize) -> Vec<Val> {
    (0..n).map(|i| made(i, n, recipe(i, n))).collect()
}

fn marks(n: usize) -> Vec<Val> {
    (0..n).map(|i| made(i, n, mark(i, n))).collect()
}

pub fn days() -> Vec<Day> {
    let small_job = || job(Ty::UInt(8));
    let hits = Val::List(vec![small(4, 15); 5]);
    vec![
        Day { name: "a recipe number", ty: small_job(), vals: recipes(FRAMES), path: vec![1], sought: small(8, 255) },
        Day { name: "a list of hits", ty: small_job(), vals: recipes(FRAMES), path: vec![2], sought: hits },
        Day {
            name: "a mark of 256 bits",
            ty: job(Ty::UInt(256)),
            vals: marks(FRAMES),
            path: vec![1],
            sought: mark(0, 1),
        },
        Day {
            name: "a density, in an Option",
            ty: small_job(),
            vals: recipes(FRAMES),
            path: vec![3, 0],
            sought: small(8, 255),
        },
        Day {
            name: "the first hit, in a List",
            ty: small_job(),
            vals: recipes(FRAMES),
            path: vec![2, 0],
            sought: small(4, 15),
        },
        Day {
            name: "a recipe number, one frame",
            ty: small_job(),
            vals: recipes(1),
            path: vec![1],
            sought: small(8, 255),
        },
        Day {
            name: "a density, one frame",
            ty: small_job(),
            vals: recipes(1),
            path: vec![3, 0],
            sought: small(8, 255),
        },
    ]
}
