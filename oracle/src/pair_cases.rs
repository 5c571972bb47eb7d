//! Random pairs of edits on one frame.

use crate::expect::Entry;
use crate::frames::{self, Lowered};
use crate::generate::{damage_path, damage_value, random_path, random_type, value_of, Scale};
use crate::pairs::{Edit, Pair};
use crate::paths::{follow, Part};
use crate::random::Random;
use crate::types::{check_lowering, lower, read_type, size, write_type, Ty};
use crate::values::{shape, write_value, Val};

/// A type around one or two others, so that parts lie side by side.
fn joined(r: &mut Random, one: Ty, other: Ty) -> Ty {
    let none = Ty::Tuple(vec![]);
    match r.below(9) {
        0 => Ty::Tuple(vec![one, other]),
        1 => Ty::Tuple(vec![one, Ty::Array(0, Box::new(Ty::Bool)), other]),
        2 => Ty::Array(r.between(2, 5), Box::new(one)),
        3 => Ty::List(1 << r.between(2, 4), Box::new(one)),
        4 => Ty::Enum(vec![vec![], vec![one, other], vec![none]]),
        5 => Ty::Enum(vec![vec![one, other]]),
        6 => Ty::Option(Box::new(Ty::Tuple(vec![one, other]))),
        7 => Ty::Either(Box::new(Ty::Bool), Box::new(Ty::Tuple(vec![one, other]))),
        _ => Ty::Either(Box::new(Ty::Array(2, Box::new(one))), Box::new(other)),
    }
}

/// A type that lowers, and a value of it that has parts, in most cases.
fn type_and_value(r: &mut Random, scale: Scale) -> (Ty, Val) {
    loop {
        let entry = Entry::PartEdit;
        let mut ty = random_type(r, entry, scale);
        if r.percent(40) {
            let other = random_type(r, entry, Scale::Small);
            ty = joined(r, ty, other);
        }
        if read_type(&write_type(&ty)).as_ref() != Ok(&ty) || check_lowering(&ty).is_err() {
            continue;
        }
        // A large one takes as long as hundreds of others.
        if size(&ty) > 4_000 && r.percent(80) {
            continue;
        }
        match value_of(r, &ty, scale) {
            Some(val) if val.records() > 2 || r.percent(5) => return (ty, val),
            _ => {}
        }
    }
}

/// The step to a child.
fn step(val: &Val, number: usize) -> [u8; 2] {
    let step = match val {
        Val::Either(right, _) => *right as usize,
        _ => number,
    };
    [(step >> 8) as u8, step as u8]
}

/// The way down to a record that has two children or more, if one is met.
fn random_fork<'a>(r: &mut Random, val: &'a Val) -> Option<(Vec<u8>, &'a Val)> {
    let (mut path, mut at) = (vec![], val);
    let mut fork = None;
    loop {
        let children = at.children();
        if children.len() > 1 {
            fork = Some((path.clone(), at));
        }
        if children.is_empty() || fork.is_some() && r.percent(50) {
            return fork;
        }
        let number = r.below(children.len());
        path.extend(step(at, number));
        at = children[number];
    }
}

/// Two of n children, n at least 2: the first and the last, neighbours, neighbours in two blocks of a list, any two.
fn two_children(r: &mut Random, val: &Val, n: usize) -> [usize; 2] {
    let power = 1 << n.ilog2();
    let [a, b] = match r.below(5) {
        0 => [0, n - 1],
        1 => {
            let first = r.below(n - 1);
            [first, first + 1]
        }
        2 if matches!(val, Val::List(_)) && power < n => [power - 1, power],
        _ => {
            let first = r.below(n);
            [first, (first + r.between(1, n - 1)) % n]
        }
    };
    if r.percent(50) {
        [a, b]
    } else {
        [b, a]
    }
}

/// Paths to two parts of which neither lies within the other, if the value has such.
fn paths_apart(r: &mut Random, val: &Val) -> Option<[Vec<u8>; 2]> {
    let (path, fork) = random_fork(r, val)?;
    let children = fork.children();
    let numbers = two_children(r, fork, children.len());
    Some(numbers.map(|number| {
        let mut path = path.clone();
        path.extend(step(fork, number));
        if r.percent(60) {
            path.extend(random_path(r, children[number]));
        }
        path
    }))
}

/// Paths to two parts of which one lies within the other, if the path drawn has steps.
fn paths_within(r: &mut Random, val: &Val) -> [Vec<u8>; 2] {
    let long = random_path(r, val);
    let short = match long.len() / 2 {
        0 => vec![],
        steps => long[..2 * r.below(steps)].to_vec(),
    };
    if r.percent(50) {
        [long, short]
    } else {
        [short, long]
    }
}

fn two_paths(r: &mut Random, val: &Val) -> [Vec<u8>; 2] {
    let any = |r: &mut Random| [random_path(r, val), random_path(r, val)];
    match r.below(10) {
        0..=4 => paths_apart(r, val).unwrap_or_else(|| any(r)),
        5 | 6 => paths_within(r, val),
        7 => {
            let path = random_path(r, val);
            [path.clone(), path]
        }
        _ => any(r),
    }
}

/// A value for a part: another one than is there if a few tries find one, and sometimes the one that is there.
fn random_new(r: &mut Random, part: &Part, scale: Scale) -> Val {
    let tries = if r.percent(4) { 0 } else { 3 };
    let other = (0..tries).find_map(|_| value_of(r, part.ty, scale).filter(|val| val != part.val));
    other.unwrap_or_else(|| part.val.clone())
}

/// A frame and two edits of it. In one case of ten one of them is damaged, in one of a hundred both are.
pub fn random_pair(r: &mut Random, scale: Scale) -> Pair {
    let (ty, val) = type_and_value(r, scale);
    let frame = frames::write(&Lowered::new(&lower(&ty)), &shape(&ty, &val));
    let [one, other] = two_paths(r, &val);
    let damaged = match r.below(100) {
        0..=4 => [true, false],
        5..=9 => [false, true],
        10 => [true, true],
        _ => [false, false],
    };
    let edits = [(one, damaged[0]), (other, damaged[1])].map(|(mut path, damaged)| {
        let part = follow(&ty, &val, &path).unwrap_or_else(|_| panic!("the path is sound"));
        let value = (part.ty.clone(), random_new(r, &part, scale));
        let mut new = write_value(&value.1);
        match damaged {
            true if r.percent(40) => damage_path(r, &mut path),
            true => damage_value(r, &mut new, Some(&value)),
            false => {}
        }
        Edit { path, new }
    });
    Pair { ty: write_type(&ty), frame, edits, fill: r.byte() }
}
