//! Type files and lowered types, written plainly from 01.

/// A type, as a type file tells it.
#[derive(Clone, Debug, PartialEq)]
pub enum Ty {
    Never,
    Bool,
    UInt(usize),
    Either(Box<Ty>, Box<Ty>),
    Option(Box<Ty>),
    Tuple(Vec<Ty>),
    Array(usize, Box<Ty>),
    List(usize, Box<Ty>),
    Enum(Vec<Vec<Ty>>),
}

/// Reads a type file: rows 1 to 5.
pub fn read_type(file: &[u8]) -> Result<Ty, u32> {
    if file.is_empty() || file.len() % 4 != 0 {
        return Err(1);
    }
    if file.len() / 4 > 1024 {
        return Err(2);
    }
    let mut at = 0;
    let ty = take_type(file, &mut at, 1)?;
    if at != file.len() {
        return Err(5);
    }
    Ok(ty)
}

fn take_type(file: &[u8], at: &mut usize, depth: usize) -> Result<Ty, u32> {
    let (kind, n) = take_record(file, at, depth, false)?;
    let child = |at: &mut usize| take_type(file, at, depth + 1);
    Ok(match kind {
        0 => Ty::Never,
        1 => Ty::Bool,
        2 => Ty::UInt(n),
        3 => Ty::Either(Box::new(child(at)?), Box::new(child(at)?)),
        4 => Ty::Option(Box::new(child(at)?)),
        5 => Ty::Tuple(take_types(file, at, depth + 1, n)?),
        6 => Ty::Array(n, Box::new(child(at)?)),
        7 => Ty::List(n, Box::new(child(at)?)),
        _ => {
            let mut variants = vec![];
            for _ in 0..n {
                let (_, parts) = take_record(file, at, depth + 1, true)?;
                variants.push(take_types(file, at, depth + 2, parts)?);
            }
            Ty::Enum(variants)
        }
    })
}

fn take_types(file: &[u8], at: &mut usize, depth: usize, n: usize) -> Result<Vec<Ty>, u32> {
    let mut all = vec![];
    for _ in 0..n {
        all.push(take_type(file, at, depth)?);
    }
    Ok(all)
}

/// One record: is it there, is it sound, is it too deep?
fn take_record(file: &[u8], at: &mut usize, depth: usize, variant: bool) -> Result<(u8, usize), u32> {
    if *at == file.len() {
        return Err(5);
    }
    let record = &file[*at..*at + 4];
    let kind = record[0];
    let n = record[2] as usize * 256 + record[3] as usize;
    if !sound(kind, record[1], n) || variant != (kind == 9) {
        return Err(3);
    }
    if depth > 32 {
        return Err(4);
    }
    *at += 4;
    Ok((kind, n))
}

fn sound(kind: u8, byte1: u8, n: usize) -> bool {
    let good = match kind {
        0 | 1 | 3 | 4 => n == 0,
        2 => [1, 2, 4, 8, 16, 32, 64, 128, 256].contains(&n),
        5 | 6 | 9 => true,
        7 => (1..=15).any(|e| n == 1 << e),
        8 => n >= 1,
        _ => false,
    };
    good && byte1 == 0
}

/// Writes a type file. For types made by the generator; n is cut to two bytes.
pub fn write_type(ty: &Ty) -> Vec<u8> {
    let mut out = vec![];
    put_type(ty, &mut out);
    out
}

fn put_record(kind: u8, n: usize, out: &mut Vec<u8>) {
    out.extend([kind, 0, (n >> 8) as u8, n as u8]);
}

fn put_type(ty: &Ty, out: &mut Vec<u8>) {
    match ty {
        Ty::Never => put_record(0, 0, out),
        Ty::Bool => put_record(1, 0, out),
        Ty::UInt(bits) => put_record(2, *bits, out),
        Ty::Either(l, r) => {
            put_record(3, 0, out);
            put_type(l, out);
            put_type(r, out);
        }
        Ty::Option(t) => {
            put_record(4, 0, out);
            put_type(t, out);
        }
        Ty::Tuple(parts) => {
            put_record(5, parts.len(), out);
            parts.iter().for_each(|t| put_type(t, out));
        }
        Ty::Array(n, t) => {
            put_record(6, *n, out);
            put_type(t, out);
        }
        Ty::List(bound, t) => {
            put_record(7, *bound, out);
            put_type(t, out);
        }
        Ty::Enum(variants) => {
            put_record(8, variants.len(), out);
            for parts in variants {
                put_record(9, parts.len(), out);
                parts.iter().for_each(|t| put_type(t, out));
            }
        }
    }
}

/// Rows 6 and 7.
pub fn check_lowering(ty: &Ty) -> Result<(), u32> {
    if mentions_never(ty) {
        return Err(6);
    }
    if !all_small(ty) {
        return Err(7);
    }
    Ok(())
}

pub fn children(ty: &Ty) -> Vec<&Ty> {
    match ty {
        Ty::Never | Ty::Bool | Ty::UInt(_) => vec![],
        Ty::Either(l, r) => vec![l, r],
        Ty::Option(t) | Ty::Array(_, t) | Ty::List(_, t) => vec![t],
        Ty::Tuple(parts) => parts.iter().collect(),
        Ty::Enum(variants) => variants.iter().flatten().collect(),
    }
}

fn mentions_never(ty: &Ty) -> bool {
    *ty == Ty::Never || children(ty).into_iter().any(mentions_never)
}

pub fn all_small(ty: &Ty) -> bool {
    size(ty) <= 65_536 && children(ty).into_iter().all(all_small)
}

/// The type with an empty tuple in place of each Never.
pub fn without_never(ty: &Ty) -> Ty {
    let inner = |t: &Ty| Box::new(without_never(t));
    let all = |parts: &[Ty]| parts.iter().map(without_never).collect();
    match ty {
        Ty::Never => Ty::Tuple(vec![]),
        Ty::Bool | Ty::UInt(_) => ty.clone(),
        Ty::Either(l, r) => Ty::Either(inner(l), inner(r)),
        Ty::Option(t) => Ty::Option(inner(t)),
        Ty::Tuple(parts) => Ty::Tuple(all(parts)),
        Ty::Array(n, t) => Ty::Array(*n, inner(t)),
        Ty::List(bound, t) => Ty::List(*bound, inner(t)),
        Ty::Enum(variants) => Ty::Enum(variants.iter().map(|parts| all(parts)).collect()),
    }
}

/// The trees that lowering makes, where an element's tree is made once and shared.
pub fn lowering_work(ty: &Ty) -> usize {
    let own = match ty {
        Ty::Array(n, _) | Ty::List(n, _) => *n,
        Ty::Enum(variants) => variants.len(),
        _ => 1,
    };
    own + children(ty).into_iter().map(lowering_work).sum::<usize>()
}

/// A number that is far too large already stays so.
const FAR: u64 = 1 << 40;

/// The records of a balanced tree over leaves of the given sizes.
fn tree_size(leaves: impl Iterator<Item = u64>) -> u64 {
    let (n, sum) = leaves.fold((0, 0), |(n, sum), s| (n + 1, (sum + s).min(FAR)));
    match n {
        0 => 1,
        _ => sum + n - 1,
    }
}

fn array_size(n: usize, element: u64) -> u64 {
    match n {
        0 => 1,
        _ => (n as u64 * element + n as u64 - 1).min(FAR),
    }
}

/// The records that a type lowers to; it need not be exact above FAR.
pub fn size(ty: &Ty) -> u64 {
    let size = match ty {
        Ty::Never => 1,
        Ty::Bool => 3,
        Ty::UInt(bits) => array_size(*bits, 3),
        Ty::Either(l, r) => 1 + size(l) + size(r),
        Ty::Option(t) => 2 + size(t),
        Ty::Tuple(parts) => tree_size(parts.iter().map(size)),
        Ty::Array(n, t) => array_size(*n, size(t)),
        Ty::List(bound, t) => list_size(*bound, size(t)),
        // A payload type is never larger than its enum, so row 7 needs no look at it.
        Ty::Enum(variants) => tree_size(variants.iter().map(|parts| tree_size(parts.iter().map(size)))),
    };
    size.min(FAR)
}

fn list_size(bound: usize, element: u64) -> u64 {
    match bound {
        2 => 2 + element,
        _ => 1 + 2 + array_size(bound / 2, element) + list_size(bound / 2, element),
    }
}

/// The left side's share of n parts, n at least 2.
pub fn split(n: usize) -> usize {
    let mut power = 1;
    while power < n {
        power *= 2;
    }
    n - power / 2
}

/// The lowered type. The rows 6 and 7 do not hold.
pub fn lower(ty: &Ty) -> Vec<u8> {
    let mut out = vec![];
    put_lowered(ty, &mut out);
    out
}

fn put_lowered(ty: &Ty, out: &mut Vec<u8>) {
    match ty {
        Ty::Never => unreachable!("row 6"),
        Ty::Bool => out.extend([1, 0, 0]),
        Ty::UInt(bits) => balanced(2, 0, *bits, out, &|_, out| out.extend([1, 0, 0])),
        Ty::Either(l, r) => {
            out.push(1);
            put_lowered(l, out);
            put_lowered(r, out);
        }
        Ty::Option(t) => {
            out.extend([1, 0]);
            put_lowered(t, out);
        }
        Ty::Tuple(parts) => put_tuple(parts, out),
        Ty::Array(n, t) => balanced(2, 0, *n, out, &|_, out| put_lowered(t, out)),
        Ty::List(bound, t) => put_list(*bound, t, out),
        Ty::Enum(variants) => balanced(1, 0, variants.len(), out, &|i, out| put_tuple(&variants[i], out)),
    }
}

/// A tuple of one part is that part, like the payload type of one part.
fn put_tuple(parts: &[Ty], out: &mut Vec<u8>) {
    balanced(2, 0, parts.len(), out, &|i, out| put_lowered(&parts[i], out))
}

fn put_list(bound: usize, t: &Ty, out: &mut Vec<u8>) {
    if bound == 2 {
        out.extend([1, 0]);
        return put_lowered(t, out);
    }
    out.extend([2, 1, 0]);
    balanced(2, 0, bound / 2, out, &|_, out| put_lowered(t, out));
    put_list(bound / 2, t, out);
}

/// A balanced tree of n leaves from number `from` on, with `kind` at its forks.
pub fn balanced(kind: u8, from: usize, n: usize, out: &mut Vec<u8>, leaf: &dyn Fn(usize, &mut Vec<u8>)) {
    match n {
        0 => out.push(0),
        1 => leaf(from, out),
        _ => {
            let left = split(n);
            out.push(kind);
            balanced(kind, from, left, out, leaf);
            balanced(kind, from + left, n - left, out, leaf);
        }
    }
}
