//! Random cases: sound ones first, then one argument damaged.

use crate::case::Case;
use crate::days::random_search;
use crate::expect::{Entry, Outcome};
use crate::frames::{self, Lowered};
use crate::paths::follow;
use crate::random::Random;
use crate::room::Room;
use crate::spoil::spoiled;
use crate::types::{check_lowering, lower, size, write_type, Ty};
use crate::values::{shape, shape_over, write_value, Val};

pub const BITS: [usize; 9] = [1, 2, 4, 8, 16, 32, 64, 128, 256];

/// How large a case may grow.
#[derive(Clone, Copy, PartialEq)]
pub enum Scale {
    /// Arguments of at most some hundred bytes, for recording.
    Small,
    Any,
}

fn boxed(ty: Ty) -> Box<Ty> {
    Box::new(ty)
}

fn unit() -> Ty {
    Ty::Tuple(vec![])
}

// Types

/// What a random type is made of.
struct Kinds {
    /// Never among a hundred leaves.
    never: usize,
    /// Empty tuples and arrays of 0 among a hundred other leaves.
    units: usize,
    /// The largest list bound is 2 to this.
    bounds: usize,
    /// The largest integer is BITS below this.
    bits: usize,
}

fn leaf(r: &mut Random, k: &Kinds) -> Ty {
    if r.percent(k.never) {
        return Ty::Never;
    }
    let unit_like = r.percent(k.units);
    match r.below(8) {
        0..=3 if unit_like => unit(),
        _ if unit_like => Ty::Array(0, boxed(Ty::UInt(BITS[r.below(k.bits)]))),
        0..=2 => Ty::Bool,
        _ => Ty::UInt(BITS[r.below(k.bits)]),
    }
}

/// A type of at most `depth` levels and about `budget` records.
fn branchy(r: &mut Random, k: &Kinds, depth: usize, budget: &mut usize) -> Ty {
    *budget = budget.saturating_sub(1);
    if depth <= 1 || *budget == 0 || r.percent(15) {
        return leaf(r, k);
    }
    match r.below(12) {
        0 | 1 => Ty::Either(boxed(branchy(r, k, depth - 1, budget)), boxed(branchy(r, k, depth - 1, budget))),
        2 | 3 => Ty::Option(boxed(branchy(r, k, depth - 1, budget))),
        4 | 5 => {
            let n = part_count(r);
            Ty::Tuple((0..n).map(|_| branchy(r, k, depth - 1, budget)).collect())
        }
        6 | 7 => Ty::Array(array_count(r), boxed(branchy(r, k, depth - 1, budget))),
        8 | 9 => Ty::List(1 << r.between(1, k.bounds), boxed(branchy(r, k, depth - 1, budget))),
        _ => {
            let n = if r.percent(3) { r.between(9, 130) } else { r.between(1, 6) };
            Ty::Enum((0..n).map(|_| variant(r, k, depth, budget)).collect())
        }
    }
}

fn variant(r: &mut Random, k: &Kinds, depth: usize, budget: &mut usize) -> Vec<Ty> {
    *budget = budget.saturating_sub(1);
    if *budget == 0 {
        return vec![];
    }
    let n = r.pick(&[0, 0, 1, 1, 2, 3]);
    (0..n).map(|_| branchy(r, k, depth.saturating_sub(2), budget)).collect()
}

fn part_count(r: &mut Random) -> usize {
    if r.percent(5) {
        r.between(6, 17)
    } else {
        r.between(0, 5)
    }
}

fn array_count(r: &mut Random) -> usize {
    match r.below(20) {
        0 => 0,
        1 => r.between(10, 40),
        _ => r.between(1, 9),
    }
}

/// Wrappers inside each other, near the depth of 32.
fn deep(r: &mut Random, k: &Kinds) -> Ty {
    let levels = r.between(20, 34);
    let kind = r.below(12);
    let mut depth = 1;
    let mut ty = leaf(r, k);
    while depth < levels {
        let inner = boxed(ty);
        // Half of the chains are of one kind.
        let which = if kind < 6 { kind } else { r.below(8) };
        ty = match which {
            0 => Ty::Option(inner),
            1 => Ty::Tuple(vec![*inner]),
            2 => Ty::Array(1, inner),
            3 => Ty::List(2, inner),
            4 => Ty::Enum(vec![vec![*inner]]),
            5 => Ty::Either(inner, boxed(leaf(r, k))),
            6 => Ty::Either(boxed(unit()), inner),
            _ => Ty::Enum(vec![vec![], vec![*inner, Ty::Bool]]),
        };
        depth += if matches!(ty, Ty::Enum(_)) { 2 } else { 1 };
    }
    ty
}

/// Few records that lower to many, around row 7.
fn wide(r: &mut Random) -> Ty {
    let elements = [
        unit(),
        Ty::Bool,
        Ty::UInt(1),
        Ty::UInt(2),
        Ty::UInt(8),
        Ty::UInt(256),
        Ty::Option(boxed(unit())),
        Ty::Tuple(vec![Ty::Bool, Ty::UInt(4)]),
    ];
    let element = r.pick(&elements);
    let fit = 65_536 / (size(&element) as usize + 1);
    let ty = match r.below(3) {
        0 => Ty::Array((fit + r.below(5)).saturating_sub(2).min(65_535), boxed(element)),
        1 => Ty::List(1 << r.between(7, 15), boxed(element)),
        _ => Ty::Array(r.below(65_536), boxed(element)),
    };
    match r.below(6) {
        0 => Ty::Option(boxed(ty)),
        1 => Ty::Array(0, boxed(ty)),
        2 => Ty::Either(boxed(Ty::Bool), boxed(ty)),
        3 => Ty::Enum(vec![vec![], vec![Ty::Bool, ty]]),
        _ => ty,
    }
}

/// Types far beyond row 7, with ways around what is too large.
fn beyond(r: &mut Random, k: &Kinds) -> Ty {
    let mut ty = leaf(r, k);
    for _ in 0..r.between(2, 8) {
        let inner = boxed(ty);
        ty = match r.below(8) {
            0 => Ty::Option(inner),
            1 => Ty::List(1 << r.between(1, 15), inner),
            2 => Ty::Array(r.pick(&[0, 1, 2, 300, 65_535]), inner),
            3 => Ty::Either(boxed(leaf(r, k)), inner),
            4 => Ty::Enum(vec![vec![], vec![*inner]]),
            5 => Ty::Tuple(vec![Ty::List(32_768, inner), leaf(r, k)]),
            6 => Ty::Tuple(vec![Ty::Bool, Ty::Option(inner)]),
            _ => Ty::Tuple(vec![Ty::Array(0, inner)]),
        };
    }
    ty
}

/// A choice between a type and units, which have about as many records as a longest shape of it, and no bits.
fn beside_units(r: &mut Random, ty: Ty) -> Ty {
    if check_lowering(&ty).is_err() || size(&ty) > 4_000 {
        return ty;
    }
    let n = Room::of(&lower(&ty)).shape / 2 + r.below(4);
    let units = Ty::Array(n, boxed(unit()));
    match r.below(4) {
        0 => Ty::Either(boxed(ty), boxed(units)),
        1 => Ty::Either(boxed(units), boxed(ty)),
        2 => Ty::Enum(vec![vec![ty], vec![units]]),
        _ => Ty::Enum(vec![vec![units], vec![], vec![ty, Ty::Bool]]),
    }
}

/// Around 1,024 records.
fn long(r: &mut Random) -> Ty {
    let n = r.between(1_020, 1_025) - 1;
    let leaves = [Ty::Bool, Ty::UInt(1), Ty::UInt(4), unit()];
    let part = |r: &mut Random| r.pick(&leaves);
    match r.below(3) {
        0 => Ty::Tuple((0..n).map(|_| part(r)).collect()),
        1 => Ty::Enum((0..n / 2).map(|_| vec![part(r)]).collect()),
        _ => Ty::Tuple((0..n / 3).map(|_| Ty::Either(boxed(part(r)), boxed(part(r)))).collect()),
    }
}

pub fn random_type(r: &mut Random, entry: Entry, scale: Scale) -> Ty {
    let never = r.pick(&[0, 0, 0, 0, 0, 0, 0, 0, 5, 20]);
    let units = if entry.reads_shape() || entry.only_tells() { r.pick(&[20, 60]) } else { 20 };
    let small = scale == Scale::Small;
    let k = Kinds { never, units, bounds: r.pick(&[3, 3, 3, 6, 9]), bits: r.pick(&[5, 5, 9]) };
    if !small {
        match r.below(1_000) {
            0..=4 => return wide(r),
            5..=9 => return long(r),
            _ => {}
        }
    }
    match r.below(100) {
        0..=7 => return deep(r, &k),
        8..=11 if entry.reads_shape() => return beyond(r, &k),
        12 => return beyond(r, &k),
        13 if !small => return Ty::Enum((0..r.between(90, 110)).map(|_| variant(r, &k, 3, &mut 40)).collect()),
        _ => {}
    }
    let limit = if small { 120 } else { 4_000 };
    let part = matches!(entry, Entry::PartRead | Entry::PartEdit);
    let least = if part { 3 } else { 1 };
    for _ in 0..8 {
        let depth = r.between(least, 7);
        let mut budget = if r.percent(85) { r.between(3 * least, 20) } else { r.between(20, 90) };
        let ty = branchy(r, &k, depth, &mut budget);
        let leaf = matches!(ty, Ty::Never | Ty::Bool | Ty::UInt(_));
        if size(&ty) <= limit && !(leaf && part && r.percent(90)) {
            return ty;
        }
    }
    leaf(r, &k)
}

/// A type that is nearly this one: its values, shapes and frames nearly fit.
pub fn near(r: &mut Random, ty: &Ty) -> Ty {
    let down = r.percent(60);
    let up = r.percent(50);
    match ty {
        Ty::Never => Ty::Bool,
        Ty::Bool => Ty::UInt(1),
        Ty::UInt(1) if up => Ty::Bool,
        Ty::UInt(bits) if up && *bits > 1 || *bits == 256 => Ty::UInt(bits / 2),
        Ty::UInt(bits) => Ty::UInt(bits * 2),
        Ty::Either(a, b) if down && up => Ty::Either(boxed(near(r, a)), b.clone()),
        Ty::Either(a, b) if down => Ty::Either(a.clone(), boxed(near(r, b))),
        Ty::Either(a, b) => Ty::Either(b.clone(), a.clone()),
        Ty::Option(t) if down => Ty::Option(boxed(near(r, t))),
        Ty::Option(t) if up => Ty::Either(boxed(unit()), t.clone()),
        Ty::Option(t) => Ty::List(2, t.clone()),
        Ty::Tuple(parts) => near_parts(r, parts, down, up).map_or_else(|| parts[0].clone(), Ty::Tuple),
        Ty::Array(n, t) if down => Ty::Array(*n, boxed(near(r, t))),
        Ty::Array(n, t) if up || *n == 0 => Ty::Array(n + 1, t.clone()),
        Ty::Array(n, t) => Ty::Array(n - 1, t.clone()),
        Ty::List(bound, t) if down => Ty::List(*bound, boxed(near(r, t))),
        Ty::List(bound, t) if up && *bound > 2 || *bound == 32_768 => Ty::List(bound / 2, t.clone()),
        Ty::List(bound, t) => Ty::List(bound * 2, t.clone()),
        Ty::Enum(variants) => {
            let mut variants = variants.clone();
            let which = r.below(variants.len());
            match near_parts(r, &variants[which], down, up) {
                Some(parts) if down => variants[which] = parts,
                _ if up => variants.push(vec![]),
                _ => variants.reverse(),
            }
            Ty::Enum(variants)
        }
    }
}

/// Parts with one changed, added or dropped; none stands for the one part itself.
fn near_parts(r: &mut Random, parts: &[Ty], down: bool, up: bool) -> Option<Vec<Ty>> {
    let mut parts = parts.to_vec();
    if parts.is_empty() || !down && up {
        parts.push(Ty::Bool);
    } else if down {
        let which = r.below(parts.len());
        parts[which] = near(r, &parts[which]);
    } else if parts.len() == 1 {
        return None;
    } else {
        parts.pop();
    }
    Some(parts)
}

// Values

fn random_integer(r: &mut Random, bits: usize) -> [u8; 32] {
    let mut bytes = [0; 32];
    let low = bits.div_ceil(8);
    let top = if bits < 8 { (1 << bits) - 1 } else { 255 };
    match r.below(6) {
        0 => {}
        1 => bytes[32 - low..].fill(255),
        2 => bytes[31] = 1,
        3 => bytes[32 - low] = (top >> 1) + 1,
        _ => bytes[32 - low..].iter_mut().for_each(|b| *b = r.byte()),
    }
    bytes[32 - low] &= top;
    bytes
}

fn list_length(r: &mut Random, bound: usize, budget: i64) -> usize {
    let length = match r.below(8) {
        0 => 0,
        1 => 1,
        2 => bound / 2,
        3 => bound / 2 - 1,
        4 | 5 => bound - 1,
        _ => r.below(bound),
    };
    if length as i64 > budget {
        r.below(bound.min(4))
    } else {
        length
    }
}

/// A value of a type within so many records, if one is found.
pub fn random_value(r: &mut Random, ty: &Ty, budget: &mut i64) -> Option<Val> {
    *budget -= 1;
    if *budget < 0 {
        return None;
    }
    match ty {
        Ty::Never => None,
        Ty::Bool => Some(Val::Bool(r.percent(50))),
        Ty::UInt(bits) => Some(Val::UInt(*bits, random_integer(r, *bits))),
        Ty::Either(left, right) => {
            let first = r.percent(50);
            for side in [first, !first] {
                if let Some(v) = random_value(r, if side { right } else { left }, budget) {
                    return Some(Val::Either(side, Box::new(v)));
                }
            }
            None
        }
        Ty::Option(t) => {
            let some = r.percent(75);
            Some(Val::Option(if some { random_value(r, t, budget).map(Box::new) } else { None }))
        }
        Ty::Tuple(types) => random_values(r, types.iter(), budget).map(Val::Tuple),
        Ty::Array(n, _) if *n as i64 > *budget => None,
        Ty::Array(n, t) => random_values(r, std::iter::repeat(&**t).take(*n), budget).map(Val::Array),
        Ty::List(bound, t) => {
            let n = list_length(r, *bound, *budget);
            let all = random_values(r, std::iter::repeat(&**t).take(n), budget);
            Some(Val::List(all.unwrap_or_default()))
        }
        Ty::Enum(variants) => {
            let first = r.below(variants.len());
            for i in 0..variants.len().min(4) {
                let index = (first + i) % variants.len();
                if let Some(all) = random_values(r, variants[index].iter(), budget) {
                    return Some(Val::Enum(index, all));
                }
            }
            None
        }
    }
}

fn random_values<'a>(r: &mut Random, types: impl Iterator<Item = &'a Ty>, budget: &mut i64) -> Option<Vec<Val>> {
    types.map(|t| random_value(r, t, budget)).collect()
}

pub fn value_of(r: &mut Random, ty: &Ty, scale: Scale) -> Option<Val> {
    let mut budget = match scale {
        Scale::Small => 55,
        Scale::Any if size(ty) > 10_000 => 70_000,
        Scale::Any => 6_000,
    };
    random_value(r, ty, &mut budget)
}

// Shapes, frames, paths

/// A random tree of exactly n records.
fn put_tree(r: &mut Random, n: usize, out: &mut Vec<u8>) {
    let mut stack = vec![n];
    while let Some(n) = stack.pop() {
        match n {
            1 => out.push(0),
            2 => {
                out.push(1 + r.below(2) as u8);
                stack.push(1);
            }
            _ if r.percent(30) => {
                out.push(1 + r.below(2) as u8);
                stack.push(n - 1);
            }
            _ => {
                let left = if r.percent(50) { r.between(1, n - 2) } else { 1 };
                out.push(3);
                stack.push(n - 1 - left);
                stack.push(left);
            }
        }
    }
}

/// A shape of a value with trees in place of units at its spots: at one, at two, at about half or at all. No tree has
/// more than `most` records.
fn shape_with_trees(r: &mut Random, ty: &Ty, val: &Val, most: usize) -> Vec<u8> {
    let spots = val.spots().max(1);
    let (how, one, other, seed) = (r.below(4), r.below(spots), r.below(spots), r.next());
    let put = |number: usize, out: &mut Vec<u8>| {
        let mut r = Random::new(seed ^ out.len() as u64);
        let picked = match how {
            0 => number == one,
            1 => number == one || number == other,
            2 => r.percent(50),
            _ => true,
        };
        let n = if picked { r.between(2, most) } else { 1 };
        put_tree(&mut r, n, out)
    };
    shape_over(ty, val, &put)
}

/// A shape of a value with a tree of n records in place of the unit at one of its spots, if it has any. It is a chain or
/// any tree.
pub fn shape_with_tree(r: &mut Random, ty: &Ty, val: &Val, n: usize) -> Option<Vec<u8>> {
    let spots = val.spots();
    if spots == 0 {
        return None;
    }
    let one = r.below(spots);
    let mut tree = vec![];
    match r.percent(40) {
        true => tree = [vec![1 + r.below(2) as u8; n - 1], vec![0]].concat(),
        false => put_tree(r, n, &mut tree),
    }
    Some(shape_over(ty, val, &|number, out| out.extend(if number == one { &tree[..] } else { &[0] })))
}

/// The same with a tree of thousands of records, so that the shape often has the most that a shape may have, or one more.
fn shape_with_large_tree(r: &mut Random, ty: &Ty, val: &Val) -> Option<Vec<u8>> {
    let most = 65_537usize.checked_sub(shape(ty, val).len())?;
    let n = if r.percent(30) { most + r.below(2) } else { r.between(most / 8, most) };
    shape_with_tree(r, ty, val, n.max(2))
}

/// Puts a tree in place of a unit, any one.
fn put_tree_for_unit(r: &mut Random, bytes: &mut Vec<u8>) {
    let units: Vec<usize> = (0..bytes.len()).filter(|&i| bytes[i] == 0).collect();
    let at = r.pick(&units);
    let mut tree = vec![];
    let n = r.between(2, 5);
    put_tree(r, n, &mut tree);
    bytes.splice(at..at + 1, tree);
}

fn random_shape(r: &mut Random, entry: Entry, ty: &Ty, val: Option<&Val>, scale: Scale) -> Vec<u8> {
    let mut out = vec![];
    let cleans = entry == Entry::CleanShape;
    let with_trees = if cleans { 60 } else { 30 };
    match val {
        Some(val) if r.percent(with_trees) => {
            let most = if cleans { r.pick(&[7, 7, 40]) } else { 7 };
            out = shape_with_trees(r, ty, val, most);
            // Sometimes it is not of the type as well.
            if r.percent(20) {
                put_tree_for_unit(r, &mut out);
            }
        }
        Some(val) => out = shape(ty, val),
        None => {
            let n = r.between(1, 12);
            put_tree(r, n, &mut out)
        }
    }
    if scale == Scale::Any && r.below(1_000) < 3 {
        out.clear();
        let n = r.between(65_533, 65_538);
        match r.below(3) {
            0 => out = [vec![1 + r.below(2) as u8; n - 1], vec![0]].concat(),
            _ => put_tree(r, n, &mut out),
        }
    }
    let large = cleans && scale == Scale::Any && r.below(1_000) < 8;
    let val = val.filter(|_| large);
    val.and_then(|val| shape_with_large_tree(r, ty, val)).unwrap_or(out)
}

pub fn random_bytes(r: &mut Random, most: usize) -> Vec<u8> {
    let n = r.between(0, most);
    (0..n).map(|_| r.byte()).collect()
}

fn random_frame(r: &mut Random, ty: &Ty, val: Option<&Val>) -> Vec<u8> {
    match val {
        Some(val) if check_lowering(ty).is_ok() => frames::write(&Lowered::new(&lower(ty)), &shape(ty, val)),
        _ => random_bytes(r, 4),
    }
}

/// Steps that lead to a part.
pub fn random_path(r: &mut Random, val: &Val) -> Vec<u8> {
    let mut path = vec![];
    let mut at = val;
    loop {
        let children = at.children();
        let stop = if matches!(at, Val::List(_)) { 40 } else { 10 };
        if children.is_empty() || r.percent(stop) {
            return path;
        }
        let number = match r.below(3) {
            0 => 0,
            1 => children.len() - 1,
            _ => r.below(children.len()),
        };
        let step = match at {
            Val::Either(right, _) => *right as usize,
            _ => number,
        };
        path.extend([(step >> 8) as u8, step as u8]);
        at = children[number];
    }
}

/// A value for an edit, with its type: the part's, or else another.
fn random_new(r: &mut Random, ty: &Ty, val: Option<&Val>, path: &[u8], scale: Scale) -> Option<(Ty, Val)> {
    let part = val.and_then(|val| follow(ty, val, path).ok());
    let ty = match part {
        Some(part) if r.percent(92) => part.ty,
        _ => ty,
    };
    value_of(r, ty, scale).map(|val| (ty.clone(), val))
}

// Damage

/// Changes a file of records of the given length.
pub fn damage(r: &mut Random, bytes: &mut Vec<u8>, record: usize) {
    let records = bytes.len() / record;
    if bytes.is_empty() || r.percent(4) {
        let n = r.pick(&[1, record, record, 2 * record]);
        bytes.extend((0..n).map(|_| r.byte() & 3));
        return;
    }
    let at = r.below(bytes.len());
    let from = r.below(records.max(1)) * record;
    let whole = bytes.len() >= from + record;
    match r.below(14) {
        0..=2 => bytes[at] ^= 1 << r.below(8),
        3..=5 => bytes[at] = r.pick(&[0, 1, 2, 3, 4, 5, 6, 7, 8, 9, 10, 255]),
        6 => bytes[at] = bytes[at].wrapping_add(if r.percent(50) { 1 } else { 255 }),
        7 => bytes.truncate(at),
        8 => bytes.truncate(from),
        9 => bytes.push(0),
        10 if whole => drop(bytes.drain(from..from + record)),
        11 if whole => {
            let copy = bytes[from..from + record].to_vec();
            let to = r.below(records + 1) * record;
            bytes.splice(to..to, copy);
        }
        12 if whole => {
            let to = r.below(records) * record;
            for i in 0..record {
                bytes.swap(from + i, to + i);
            }
        }
        _ => {
            let fields = [0, 1, 2, 3, record - 1];
            let i = from + r.pick(&fields).min(record - 1);
            if i < bytes.len() {
                bytes[i] = bytes[i].wrapping_add(r.pick(&[1, 255, 2, 4]));
            }
        }
    }
}

/// Changes a shape: as any file, or by a tree in place of a unit.
fn damage_shape(r: &mut Random, bytes: &mut Vec<u8>) {
    if !bytes.contains(&0) || r.percent(40) {
        return damage(r, bytes, 1);
    }
    put_tree_for_unit(r, bytes)
}

/// Changes a frame: bits anywhere, bits at the end, its length.
fn damage_frame(r: &mut Random, bytes: &mut Vec<u8>) {
    if bytes.is_empty() || r.percent(10) {
        return damage(r, bytes, 1);
    }
    let last = bytes.len() - 1;
    match r.below(6) {
        0 => bytes[last] |= 1 << r.below(8),
        1 => bytes.iter_mut().for_each(|b| *b = r.byte()),
        2 => bytes.fill(255),
        3 => bytes.push(0),
        _ => {
            for _ in 0..r.between(1, 3) {
                let at = r.below(bytes.len());
                bytes[at] ^= 1 << r.below(8);
            }
        }
    }
}

/// Changes a path: odd, longer, another index or side.
pub fn damage_path(r: &mut Random, bytes: &mut Vec<u8>) {
    if bytes.is_empty() || r.percent(30) {
        let step = r.pick(&[0u8, 0, 1, 1, 2, 255]);
        let n = r.pick(&[1, 2, 2, 2, 4, 70]);
        bytes.extend([0, step].iter().cycle().take(n));
        return;
    }
    let at = r.below(bytes.len());
    let low = (at | 1).min(bytes.len() - 1);
    match r.below(6) {
        0 => drop(bytes.pop()),
        1 => bytes[low] ^= 1,
        2 => bytes[low] = bytes[low].wrapping_add(1),
        3 => bytes[at & !1] ^= 1,
        4 => drop(bytes.remove(at)),
        _ => bytes[at] = r.byte(),
    }
}

/// Changes a value's file: as any file, or anew with faults on purpose.
pub fn damage_value(r: &mut Random, bytes: &mut Vec<u8>, value: Option<&(Ty, Val)>) {
    let on_purpose = r.percent(75);
    let value = value.filter(|_| on_purpose);
    match value.and_then(|(ty, val)| spoiled(r, ty, val)) {
        Some(file) => *bytes = file,
        None => damage(r, bytes, 36),
    }
}

fn damage_argument(r: &mut Random, name: &str, bytes: &mut Vec<u8>, value: Option<&(Ty, Val)>) {
    match name {
        "type" => damage(r, bytes, 4),
        "value" => damage_value(r, bytes, value),
        "shape" => damage_shape(r, bytes),
        "frame" | "day" => damage_frame(r, bytes),
        _ => damage_path(r, bytes),
    }
}

// Cases

/// The arguments, and the value of the value file with its type, if there is one.
fn sound_arguments(r: &mut Random, entry: Entry, scale: Scale) -> (Vec<Vec<u8>>, Option<(Ty, Val)>) {
    if entry == Entry::Search {
        return random_search(r, scale);
    }
    let ty = random_type(r, entry, scale);
    let ty = if entry.only_tells() && r.percent(12) { beside_units(r, ty) } else { ty };
    let file = write_type(&ty);
    if entry.arguments().len() == 1 {
        return (vec![file], None);
    }
    // Sometimes the rest is made for another type.
    let ty = if r.percent(10) { near(r, &ty) } else { ty };
    let val = value_of(r, &ty, scale);
    let mut args = vec![file];
    match entry {
        Entry::Reconstruct | Entry::CleanShape => args.push(random_shape(r, entry, &ty, val.as_ref(), scale)),
        Entry::WriteShape | Entry::WriteFrame | Entry::ShapeRecords => {
            args.push(val.as_ref().map(write_value).unwrap_or_else(|| random_bytes(r, 80)));
            return (args, val.map(|val| (ty, val)));
        }
        Entry::ReadFrame => args.push(random_frame(r, &ty, val.as_ref())),
        _ => {
            args.push(random_frame(r, &ty, val.as_ref()));
            args.push(val.as_ref().map(|v| random_path(r, v)).unwrap_or_default());
        }
    }
    if entry != Entry::PartEdit {
        return (args, None);
    }
    let val = val.filter(|_| check_lowering(&ty).is_ok());
    let new = random_new(r, &ty, val.as_ref(), &args[2], scale);
    args.push(new.as_ref().map(|(_, v)| write_value(v)).unwrap_or_else(|| random_bytes(r, 72)));
    (args, new)
}

/// A case of one of these entries, without its buffer's length.
pub fn random_case(r: &mut Random, entries: &[Entry], scale: Scale) -> Case {
    let entry = r.pick(entries);
    random_case_of(r, entry, scale)
}

pub fn random_case_of(r: &mut Random, entry: Entry, scale: Scale) -> Case {
    let (mut args, value) = sound_arguments(r, entry, scale);
    let value = value.as_ref();
    // Of a day file some frames are bad anyway.
    if r.percent(if entry == Entry::Search { 25 } else { 45 }) {
        let last = entry == Entry::PartEdit && r.percent(35);
        let which = if last { args.len() - 1 } else { r.below(args.len()) };
        for _ in 0..r.pick(&[1, 1, 1, 2]) {
            damage_argument(r, entry.arguments()[which], &mut args[which], value);
        }
        // Sometimes others are bad as well: the earlier row refuses.
        if r.percent(30) {
            for (name, arg) in entry.arguments().iter().zip(&mut args).skip(1) {
                if r.percent(60) {
                    damage_argument(r, name, arg, value);
                }
            }
        }
    }
    Case { entry, args, room: 0, fill: r.byte(), plain_fill: false }
}

/// The buffer's length: exact, one short, empty or roomy; for a cleaned shape often no longer than the shape was. None
/// is lent to what only tells numbers.
pub fn random_room(r: &mut Random, case: &Case, outcome: &Outcome) -> usize {
    match outcome {
        _ if case.entry.only_tells() => 0,
        Ok(result) if case.entry == Entry::CleanShape && r.percent(30) => r.between(result.len(), case.args[1].len()),
        Ok(result) => match r.below(10) {
            0..=4 => result.len(),
            5 | 6 => result.len().saturating_sub(1),
            7 if r.percent(40) => 0,
            _ => result.len() + r.between(1, 50),
        },
        Err(_) => r.pick(&[0, 1, 4, 36, 100, 1_000]),
    }
}
