//! The second path follower: 01's words over the records of a value's file.

use crate::frames::Lowered;
use crate::types::{lower, split, Ty};
use crate::values::Val;

/// A part: its first record, its first bit, its type and its value.
pub struct Part<'a> {
    pub record: usize,
    pub bit: usize,
    pub ty: &'a Ty,
    pub val: &'a Val,
}

/// Follows a path: rows 13 and 14.
pub fn follow<'a>(ty: &'a Ty, val: &'a Val, path: &[u8]) -> Result<Part<'a>, u32> {
    if path.len() % 2 != 0 {
        return Err(13);
    }
    let mut part = Part { record: 0, bit: 0, ty, val };
    for pair in path.chunks(2) {
        part = one_step(&part, pair[0] as usize * 256 + pair[1] as usize).ok_or(14u32)?;
    }
    Ok(part)
}

/// The child that a step picks.
fn one_step<'a>(part: &Part<'a>, index: usize) -> Option<Part<'a>> {
    let children = part.val.children();
    // For Either the step names the side; its one child is then the first.
    let number = match part.val {
        Val::Either(right, _) if index == *right as usize => 0,
        Val::Either(..) => return None,
        _ => index,
    };
    let val = *children.get(number)?;
    let record = part.record + 1 + children[..number].iter().map(|v| v.records()).sum::<usize>();
    let (ty, bits) = child_place(part.ty, part.val, number);
    Some(Part { record, bit: part.bit + bits, ty, val })
}

pub fn width(ty: &Ty) -> usize {
    Lowered::new(&lower(ty)).width()
}

/// The child's type, and the bits that come before it in its parent's frame.
fn child_place<'a>(ty: &'a Ty, val: &Val, number: usize) -> (&'a Ty, usize) {
    let before = |types: &[Ty]| types[..number].iter().map(width).sum::<usize>();
    match (ty, val) {
        (Ty::Either(l, r), Val::Either(right, _)) => (if *right { r } else { l }, 1),
        (Ty::Option(t), _) => (t, 1),
        (Ty::Tuple(types), _) => (&types[number], before(types)),
        (Ty::Array(_, t), _) => (t, number * width(t)),
        (Ty::List(bound, t), Val::List(all)) => (t, list_bits(*bound, width(t), all.len(), number)),
        (Ty::Enum(variants), Val::Enum(index, _)) => {
            let types = &variants[*index];
            (&types[number], tags(*index, variants.len()) + before(types))
        }
        _ => unreachable!("the value is of the type"),
    }
}

/// The bits before an element: the whole blocks before its own, its block's tag, the elements before it.
fn list_bits(bound: usize, width: usize, length: usize, number: usize) -> usize {
    let block = bound / 2;
    let full = length >= block;
    if full && number < block {
        return 1 + number * width;
    }
    let taken = if full { block } else { 0 };
    1 + block * width + list_bits(block, width, length - taken, number - taken)
}

/// The sums on the way to a variant.
fn tags(index: usize, n: usize) -> usize {
    if n == 1 {
        return 0;
    }
    let left = split(n);
    1 + if index < left { tags(index, left) } else { tags(index - left, n - left) }
}
