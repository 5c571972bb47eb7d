//! Value files and shapes, written plainly from 01.

use std::cell::Cell;

use crate::types::{balanced, split, Ty};

/// A value. An integer is its 32 bytes.
#[derive(Clone, Debug, PartialEq)]
pub enum Val {
    Bool(bool),
    UInt(usize, [u8; 32]),
    Either(bool, Box<Val>),
    Option(Option<Box<Val>>),
    Tuple(Vec<Val>),
    Array(Vec<Val>),
    List(Vec<Val>),
    Enum(usize, Vec<Val>),
}

impl Val {
    /// The values right under this one, in the file's order.
    pub fn children(&self) -> Vec<&Val> {
        match self {
            Val::Bool(_) | Val::UInt(..) | Val::Option(None) => vec![],
            Val::Either(_, v) | Val::Option(Some(v)) => vec![v],
            Val::Tuple(all) | Val::Array(all) | Val::List(all) | Val::Enum(_, all) => all.iter().collect(),
        }
    }

    /// The records of the value's file.
    pub fn records(&self) -> usize {
        1 + self.children().iter().map(|v| v.records()).sum::<usize>()
    }

    /// The spots of the value's shapes.
    pub fn spots(&self) -> usize {
        match self {
            Val::Tuple(all) | Val::Array(all) | Val::Enum(_, all) if all.is_empty() => 1,
            _ => self.children().iter().map(|v| v.spots()).sum(),
        }
    }
}

/// Reads a value file of a type: rows 15, 16, 21 and 22. The first fault decides, in the order of the records.
pub fn read_value(ty: &Ty, file: &[u8]) -> Result<Val, u32> {
    if file.is_empty() || file.len() % 36 != 0 {
        return Err(15);
    }
    let mut rest = file;
    let val = take_value(ty, &mut rest)?;
    if rest.is_empty() {
        Ok(val)
    } else {
        Err(16)
    }
}

fn take_value(ty: &Ty, rest: &mut &[u8]) -> Result<Val, u32> {
    if rest.is_empty() {
        return Err(16);
    }
    let (record, after) = rest.split_at(36);
    *rest = after;
    let choice = record[1];
    let n = record[2] as usize * 256 + record[3] as usize;
    let integer: [u8; 32] = record[4..].try_into().unwrap();
    let no_n = n == 0;
    let no_integer = integer == [0; 32];
    match (ty, record[0]) {
        (Ty::Bool, 1) if choice < 2 && no_n && no_integer => Ok(Val::Bool(choice == 1)),
        (Ty::UInt(bits), 2) if choice == 0 && n == *bits => {
            if below(&integer, *bits) {
                Ok(Val::UInt(n, integer))
            } else {
                Err(21)
            }
        }
        (Ty::Either(l, r), 3) if choice < 2 && no_n && no_integer => {
            let side = if choice == 0 { l } else { r };
            Ok(Val::Either(choice == 1, Box::new(take_value(side, rest)?)))
        }
        (Ty::Option(_), 4) if choice == 0 && no_n && no_integer => Ok(Val::Option(None)),
        (Ty::Option(t), 4) if choice == 1 && no_n && no_integer => {
            Ok(Val::Option(Some(Box::new(take_value(t, rest)?))))
        }
        (Ty::Tuple(parts), 5) if choice == 0 && n == parts.len() && no_integer => {
            Ok(Val::Tuple(take_values(parts.iter(), rest)?))
        }
        (Ty::Array(size, t), 6) if choice == 0 && n == *size && no_integer => {
            Ok(Val::Array(take_values(std::iter::repeat(&**t).take(n), rest)?))
        }
        (Ty::List(bound, t), 7) if choice == 0 && no_integer => {
            if n < *bound {
                Ok(Val::List(take_values(std::iter::repeat(&**t).take(n), rest)?))
            } else {
                Err(22)
            }
        }
        (Ty::Enum(variants), 8) if choice == 0 && n < variants.len() && no_integer => {
            Ok(Val::Enum(n, take_values(variants[n].iter(), rest)?))
        }
        _ => Err(16),
    }
}

fn take_values<'a>(types: impl Iterator<Item = &'a Ty>, rest: &mut &[u8]) -> Result<Vec<Val>, u32> {
    types.map(|t| take_value(t, rest)).collect()
}

/// Is the integer below 2^bits?
fn below(integer: &[u8; 32], bits: usize) -> bool {
    (bits..256).all(|bit| integer[31 - bit / 8] >> (bit % 8) & 1 == 0)
}

/// Writes a value's file.
pub fn write_value(val: &Val) -> Vec<u8> {
    let mut out = vec![];
    put_value(val, &mut out);
    out
}

/// One record of a value file.
pub fn put_value_record(kind: u8, choice: u8, n: usize, integer: &[u8; 32], out: &mut Vec<u8>) {
    out.extend([kind, choice, (n >> 8) as u8, n as u8]);
    out.extend(integer);
}

fn put_value(val: &Val, out: &mut Vec<u8>) {
    put_first_record(val, out);
    val.children().into_iter().for_each(|v| put_value(v, out));
}

/// The first record of a value's file.
pub fn put_first_record(val: &Val, out: &mut Vec<u8>) {
    let none = &[0; 32];
    match val {
        Val::Bool(bit) => put_value_record(1, *bit as u8, 0, none, out),
        Val::UInt(bits, integer) => put_value_record(2, 0, *bits, integer, out),
        Val::Either(right, _) => put_value_record(3, *right as u8, 0, none, out),
        Val::Option(some) => put_value_record(4, some.is_some() as u8, 0, none, out),
        Val::Tuple(all) => put_value_record(5, 0, all.len(), none, out),
        Val::Array(all) => put_value_record(6, 0, all.len(), none, out),
        Val::List(all) => put_value_record(7, 0, all.len(), none, out),
        Val::Enum(index, _) => put_value_record(8, 0, *index, none, out),
    }
}

/// Puts what stands at a spot of a shape: where an empty tuple, an array of 0 or a variant without parts is read.
type AtSpot<'a> = &'a dyn Fn(&mut Vec<u8>);

/// The shape of a value of a type, with units at its spots.
pub fn shape(ty: &Ty, val: &Val) -> Vec<u8> {
    shape_over(ty, val, &|_, out| out.push(0))
}

/// A shape of a value of a type, with what is put at its spots, which are numbered from 0.
pub fn shape_over(ty: &Ty, val: &Val, put: &dyn Fn(usize, &mut Vec<u8>)) -> Vec<u8> {
    let next = Cell::new(0);
    let at_spot = |out: &mut Vec<u8>| put(next.replace(next.get() + 1), out);
    let mut out = vec![];
    put_shape(ty, val, &at_spot, &mut out);
    out
}

fn put_bit(bit: bool, out: &mut Vec<u8>) {
    out.extend([1 + bit as u8, 0]);
}

fn put_shape(ty: &Ty, val: &Val, at_spot: AtSpot, out: &mut Vec<u8>) {
    match (ty, val) {
        (_, Val::Bool(bit)) => put_bit(*bit, out),
        (_, Val::UInt(bits, integer)) => balanced(3, 0, *bits, out, &|i, out| {
            let bit = bits - 1 - i;
            put_bit(integer[31 - bit / 8] >> (bit % 8) & 1 == 1, out)
        }),
        (Ty::Either(l, r), Val::Either(right, v)) => {
            out.push(1 + *right as u8);
            put_shape(if *right { r } else { l }, v, at_spot, out);
        }
        (_, Val::Option(None)) => out.extend([1, 0]),
        (Ty::Option(t), Val::Option(Some(v))) => {
            out.push(2);
            put_shape(t, v, at_spot, out);
        }
        (Ty::Tuple(types), Val::Tuple(all)) => put_product(&|i| &types[i], all, at_spot, out),
        (Ty::Array(_, t), Val::Array(all)) => put_product(&|_| t, all, at_spot, out),
        (Ty::List(bound, t), Val::List(all)) => put_blocks(*bound, t, all, at_spot, out),
        (Ty::Enum(variants), Val::Enum(index, all)) => {
            put_injection(*index, variants.len(), out);
            put_product(&|i| &variants[*index][i], all, at_spot, out)
        }
        _ => unreachable!("the value is of the type"),
    }
}

fn put_product<'a>(ty: &dyn Fn(usize) -> &'a Ty, all: &[Val], at_spot: AtSpot, out: &mut Vec<u8>) {
    match all.len() {
        0 => at_spot(out),
        n => balanced(3, 0, n, out, &|i, out| put_shape(ty(i), &all[i], at_spot, out)),
    }
}

/// The largest block first, if enough elements remain for it.
fn put_blocks(bound: usize, t: &Ty, all: &[Val], at_spot: AtSpot, out: &mut Vec<u8>) {
    let block = bound / 2;
    if bound > 2 {
        out.push(3);
    }
    let (first, rest) = all.split_at(if all.len() >= block { block } else { 0 });
    if first.is_empty() {
        out.extend([1, 0]);
    } else {
        out.push(2);
        put_product(&|_| t, first, at_spot, out);
    }
    if bound > 2 {
        put_blocks(block, t, rest, at_spot, out);
    }
}

/// The way to a variant in the balanced sum of n.
fn put_injection(index: usize, n: usize, out: &mut Vec<u8>) {
    if n == 1 {
        return;
    }
    let left = split(n);
    if index < left {
        out.push(1);
        put_injection(index, left, out);
    } else {
        out.push(2);
        put_injection(index - left, n - left, out);
    }
}

/// Rows 8 and 9.
pub fn check_shape(shape: &[u8]) -> Result<(), u32> {
    if shape.len() > 65_536 {
        return Err(8);
    }
    if shape.iter().any(|&b| b > 3) || tree_end(shape, 0) != Some(shape.len()) {
        return Err(9);
    }
    Ok(())
}

/// Where the tree that begins at `from` ends, if it does.
pub fn tree_end(shape: &[u8], from: usize) -> Option<usize> {
    let mut open = 1;
    for at in from..shape.len() {
        match shape[at] {
            0 => open -= 1,
            3 => open += 1,
            _ => {}
        }
        if open == 0 {
            return Some(at + 1);
        }
    }
    None
}

/// The value that a shape reads as, whatever stands at its spots. The shape is one tree.
pub fn reconstruct(ty: &Ty, shape: &[u8]) -> Option<Val> {
    let mut at = 0;
    let val = take_shape(ty, shape, &mut at)?;
    assert_eq!(at, shape.len());
    Some(val)
}

/// Goes past one byte, if it is the one expected.
fn step(shape: &[u8], at: &mut usize, byte: u8) -> Option<()> {
    if shape[*at] != byte {
        return None;
    }
    *at += 1;
    Some(())
}

fn take_bit(shape: &[u8], at: &mut usize) -> Option<bool> {
    let bit = match shape[*at] {
        1 => false,
        2 => true,
        _ => return None,
    };
    *at += 1;
    step(shape, at, 0)?;
    Some(bit)
}

fn take_shape(ty: &Ty, shape: &[u8], at: &mut usize) -> Option<Val> {
    match ty {
        Ty::Never => None,
        Ty::Bool => take_bit(shape, at).map(Val::Bool),
        Ty::UInt(bits) => {
            let mut integer = [0; 32];
            take_bits(*bits, *bits, shape, at, &mut integer)?;
            Some(Val::UInt(*bits, integer))
        }
        Ty::Either(l, r) => {
            let right = shape[*at] == 2;
            step(shape, at, 1 + right as u8)?;
            Some(Val::Either(right, Box::new(take_shape(if right { r } else { l }, shape, at)?)))
        }
        Ty::Option(t) => {
            if shape[*at] == 1 {
                *at += 1;
                step(shape, at, 0)?;
                return Some(Val::Option(None));
            }
            step(shape, at, 2)?;
            Some(Val::Option(Some(Box::new(take_shape(t, shape, at)?))))
        }
        Ty::Tuple(types) => take_product(types.len(), &|i| &types[i], shape, at).map(Val::Tuple),
        Ty::Array(n, t) => take_product(*n, &|_| t, shape, at).map(Val::Array),
        Ty::List(bound, t) => {
            let mut all = vec![];
            take_blocks(*bound, t, shape, at, &mut all)?;
            Some(Val::List(all))
        }
        Ty::Enum(variants) => {
            let index = take_injection(variants.len(), shape, at)?;
            let types = &variants[index];
            let all = take_product(types.len(), &|i| &types[i], shape, at)?;
            Some(Val::Enum(index, all))
        }
    }
}

/// The bits below number `top`, n of them.
fn take_bits(top: usize, n: usize, shape: &[u8], at: &mut usize, integer: &mut [u8; 32]) -> Option<()> {
    if n == 1 {
        if take_bit(shape, at)? {
            integer[31 - (top - 1) / 8] |= 1 << ((top - 1) % 8);
        }
        return Some(());
    }
    step(shape, at, 3)?;
    take_bits(top, n / 2, shape, at, integer)?;
    take_bits(top - n / 2, n / 2, shape, at, integer)
}

fn take_product<'a>(n: usize, ty: &dyn Fn(usize) -> &'a Ty, shape: &[u8], at: &mut usize) -> Option<Vec<Val>> {
    let mut all = vec![];
    if n == 0 {
        *at = tree_end(shape, *at)?;
    } else {
        take_parts(0, n, ty, shape, at, &mut all)?;
    }
    Some(all)
}

fn take_parts<'a>(
    from: usize,
    n: usize,
    ty: &dyn Fn(usize) -> &'a Ty,
    shape: &[u8],
    at: &mut usize,
    all: &mut Vec<Val>,
) -> Option<()> {
    if n == 1 {
        all.push(take_shape(ty(from), shape, at)?);
        return Some(());
    }
    let left = split(n);
    step(shape, at, 3)?;
    take_parts(from, left, ty, shape, at, all)?;
    take_parts(from + left, n - left, ty, shape, at, all)
}

fn take_blocks(bound: usize, t: &Ty, shape: &[u8], at: &mut usize, all: &mut Vec<Val>) -> Option<()> {
    if bound > 2 {
        step(shape, at, 3)?;
    }
    if shape[*at] == 1 {
        *at += 1;
        step(shape, at, 0)?;
    } else {
        step(shape, at, 2)?;
        take_parts(0, bound / 2, &|_| t, shape, at, all)?;
    }
    if bound > 2 {
        take_blocks(bound / 2, t, shape, at, all)?;
    }
    Some(())
}

fn take_injection(n: usize, shape: &[u8], at: &mut usize) -> Option<usize> {
    if n == 1 {
        return Some(0);
    }
    let left = split(n);
    let right = shape[*at] == 2;
    step(shape, at, 1 + right as u8)?;
    if right {
        Some(left + take_injection(n - left, shape, at)?)
    } else {
        take_injection(left, shape, at)
    }
}
