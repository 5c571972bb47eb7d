//! Every entry written plainly in Rust for speed's sake: a tree of the type with sizes and widths in it, and one
//! recursive walk over it beside the value, the shape or the frame. It does the whole job: all rows in their order, and
//! a refusal changes no lent byte.

/// A type with what the rows and the frames ask of it.
pub struct Ty {
    kind: Kind,
    /// The records of the lowered type; not exact above FAR.
    size: u64,
    /// The bits of a frame.
    width: usize,
    never: bool,
    /// Is it or a type in it over the limit of row 7?
    large: bool,
}

enum Kind {
    Never,
    Bool,
    UInt(usize),
    Either(Box<[Ty; 2]>),
    Option(Box<Ty>),
    Tuple(Vec<Ty>),
    Array(usize, Box<Ty>),
    List(usize, Box<Ty>),
    Enum(Vec<Variant>),
}

struct Variant {
    parts: Vec<Ty>,
    width: usize,
}

type Outcome<T> = Result<T, u32>;

const FAR: u64 = 1 << 40;

// Types: rows 1 to 7

/// Rows 1 to 5.
fn read_type(file: &[u8]) -> Outcome<Ty> {
    if file.is_empty() || file.len() % 4 != 0 {
        return Err(1);
    }
    if file.len() > 4 * 1024 {
        return Err(2);
    }
    let mut rest = file;
    let ty = take_type(&mut rest, 1)?;
    if rest.is_empty() {
        Ok(ty)
    } else {
        Err(5)
    }
}

/// Rows 1 to 7.
fn read_lowering(file: &[u8]) -> Outcome<Ty> {
    let ty = read_type(file)?;
    if ty.never {
        return Err(6);
    }
    if ty.large {
        return Err(7);
    }
    Ok(ty)
}

fn take_record(rest: &mut &[u8], depth: usize, variant: bool) -> Outcome<(u8, usize)> {
    let [kind, byte1, high, low, ..] = **rest else { return Err(5) };
    let n = high as usize * 256 + low as usize;
    let sound = match kind {
        0 | 1 | 3 | 4 => n == 0,
        2 => n.is_power_of_two() && n <= 256,
        5 | 6 | 9 => true,
        7 => n.is_power_of_two() && n >= 2,
        8 => n >= 1,
        _ => false,
    };
    if !sound || byte1 != 0 || variant != (kind == 9) {
        return Err(3);
    }
    if depth > 32 {
        return Err(4);
    }
    *rest = &rest[4..];
    Ok((kind, n))
}

fn take_type(rest: &mut &[u8], depth: usize) -> Outcome<Ty> {
    let (kind, n) = take_record(rest, depth, false)?;
    Ok(match kind {
        0 => Ty { never: true, ..leaf(Kind::Never, 1, 0) },
        1 => leaf(Kind::Bool, 3, 1),
        2 => leaf(Kind::UInt(n), 4 * n as u64 - 1, n),
        3 => {
            let sides = Box::new([take_type(rest, depth + 1)?, take_type(rest, depth + 1)?]);
            let [l, r] = &*sides;
            let (size, width) = (1 + l.size + r.size, 1 + l.width.max(r.width));
            let (never, large) = (l.never | r.never, l.large | r.large);
            above(Kind::Either(sides), size, width, never, large)
        }
        4 => over(take_type(rest, depth + 1)?, |t| (2 + t.size, 1 + t.width), Kind::Option),
        5 => {
            let parts = take_types(rest, depth + 1, n)?;
            let (size, width) = tuple(&parts);
            let (never, large) = flags(&parts);
            above(Kind::Tuple(parts), size, width, never, large)
        }
        6 => over(take_type(rest, depth + 1)?, |t| array(n, t), |t| Kind::Array(n, t)),
        7 => over(take_type(rest, depth + 1)?, |t| list(n, t), |t| Kind::List(n, t)),
        _ => {
            let mut variants = vec![];
            let (mut sizes, mut widths) = (n as u64 - 1, vec![]);
            let (mut never, mut large) = (false, false);
            for _ in 0..n {
                let (_, count) = take_record(rest, depth + 1, true)?;
                let parts = take_types(rest, depth + 2, count)?;
                let (size, width) = tuple(&parts);
                let own = flags(&parts);
                (never, large) = (never | own.0, large | own.1);
                sizes = (sizes + size).min(FAR);
                widths.push(width);
                variants.push(Variant { parts, width });
            }
            let width = sum_width(&widths);
            above(Kind::Enum(variants), sizes, width, never, large)
        }
    })
}

fn take_types(rest: &mut &[u8], depth: usize, n: usize) -> Outcome<Vec<Ty>> {
    let mut all = Vec::with_capacity(n.min(rest.len() / 4));
    for _ in 0..n {
        all.push(take_type(rest, depth)?);
    }
    Ok(all)
}

fn leaf(kind: Kind, size: u64, width: usize) -> Ty {
    Ty { kind, size, width, never: false, large: false }
}

fn above(kind: Kind, size: u64, width: usize, never: bool, large: bool) -> Ty {
    let size = size.min(FAR);
    Ty { kind, size, width: width.min(FAR as usize), never, large: large || size > 65_536 }
}

/// A type over one other.
fn over(inner: Ty, measure: impl Fn(&Ty) -> (u64, usize), kind: impl Fn(Box<Ty>) -> Kind) -> Ty {
    let (size, width) = measure(&inner);
    let (never, large) = (inner.never, inner.large);
    above(kind(Box::new(inner)), size, width, never, large)
}

fn flags(parts: &[Ty]) -> (bool, bool) {
    (parts.iter().any(|t| t.never), parts.iter().any(|t| t.large))
}

fn tuple(parts: &[Ty]) -> (u64, usize) {
    if parts.is_empty() {
        return (1, 0);
    }
    let size: u64 = parts.iter().map(|t| t.size).sum();
    (size + parts.len() as u64 - 1, parts.iter().map(|t| t.width).sum())
}

fn array(n: usize, t: &Ty) -> (u64, usize) {
    if n == 0 {
        return (1, 0);
    }
    (n as u64 * (t.size + 1) - 1, n * t.width)
}

fn list(bound: usize, t: &Ty) -> (u64, usize) {
    let (size, width) = array(bound / 2, t);
    if bound == 2 {
        return (2 + size, 1 + width);
    }
    let (rest_size, rest_width) = list(bound / 2, t);
    (3 + size + rest_size, 1 + width + rest_width)
}

fn sum_width(widths: &[usize]) -> usize {
    if widths.len() == 1 {
        return widths[0];
    }
    let (left, right) = widths.split_at(split(widths.len()));
    1 + sum_width(left).max(sum_width(right))
}

/// The left side's share of n parts, n at least 2.
fn split(n: usize) -> usize {
    n - n.next_power_of_two() / 2
}

// Lowered types

pub fn lower(ty: &[u8], out: &mut [u8]) -> Outcome<usize> {
    let ty = read_lowering(ty)?;
    let size = ty.size as usize;
    if size > out.len() {
        return Err(17);
    }
    put_lowered(&ty, &mut Cursor { out, at: 0 });
    Ok(size)
}

/// A buffer and the place of the next byte.
struct Cursor<'a> {
    out: &'a mut [u8],
    at: usize,
}

impl Cursor<'_> {
    fn push(&mut self, byte: u8) {
        self.out[self.at] = byte;
        self.at += 1;
    }

    fn extend(&mut self, bytes: &[u8]) {
        self.out[self.at..self.at + bytes.len()].copy_from_slice(bytes);
        self.at += bytes.len();
    }
}

fn put_lowered(ty: &Ty, out: &mut Cursor) {
    match &ty.kind {
        Kind::Never => unreachable!("row 6"),
        Kind::Bool => out.extend(&[1, 0, 0]),
        Kind::UInt(bits) => put_tree(2, 0, *bits, out, &mut |_, out| out.extend(&[1, 0, 0])),
        Kind::Either(sides) => {
            out.push(1);
            put_lowered(&sides[0], out);
            put_lowered(&sides[1], out);
        }
        Kind::Option(t) => {
            out.extend(&[1, 0]);
            put_lowered(t, out);
        }
        Kind::Tuple(parts) => put_tree(2, 0, parts.len(), out, &mut |i, out| put_lowered(&parts[i], out)),
        Kind::Array(n, t) => put_tree(2, 0, *n, out, &mut |_, out| put_lowered(t, out)),
        Kind::List(bound, t) => put_lowered_list(*bound, t, out),
        Kind::Enum(variants) => put_tree(1, 0, variants.len(), out, &mut |i, out| {
            let parts = &variants[i].parts;
            put_tree(2, 0, parts.len(), out, &mut |i, out| put_lowered(&parts[i], out))
        }),
    }
}

fn put_lowered_list(bound: usize, t: &Ty, out: &mut Cursor) {
    if bound == 2 {
        out.extend(&[1, 0]);
        return put_lowered(t, out);
    }
    out.extend(&[2, 1, 0]);
    put_tree(2, 0, bound / 2, out, &mut |_, out| put_lowered(t, out));
    put_lowered_list(bound / 2, t, out);
}

fn put_tree<F: FnMut(usize, &mut Cursor)>(kind: u8, from: usize, n: usize, out: &mut Cursor, leaf: &mut F) {
    match n {
        0 => out.push(0),
        1 => leaf(from, out),
        _ => {
            let left = split(n);
            out.push(kind);
            put_tree(kind, from, left, out, leaf);
            put_tree(kind, from + left, n - left, out, leaf);
        }
    }
}

// Room

/// The records of the lowered type, the bits of a frame, the most records of a shape.
pub fn room(ty: &[u8]) -> Outcome<[usize; 3]> {
    let ty = read_lowering(ty)?;
    Ok([ty.size as usize, ty.width, most(&ty)])
}

fn most(ty: &Ty) -> usize {
    match &ty.kind {
        Kind::Never => unreachable!("row 6"),
        Kind::Bool => 2,
        Kind::UInt(bits) => 3 * bits - 1,
        Kind::Either(sides) => 1 + most(&sides[0]).max(most(&sides[1])),
        Kind::Option(t) => 1 + most(t),
        Kind::Tuple(parts) => most_of_parts(parts),
        Kind::Array(0, _) => 1,
        Kind::Array(n, t) => n * (most(t) + 1) - 1,
        Kind::List(bound, t) => (bound - 1) * (most(t) + 1) + bound.trailing_zeros() as usize - 1,
        Kind::Enum(variants) => most_of_variants(variants),
    }
}

fn most_of_parts(parts: &[Ty]) -> usize {
    match parts.len() {
        0 => 1,
        n => parts.iter().map(most).sum::<usize>() + n - 1,
    }
}

fn most_of_variants(variants: &[Variant]) -> usize {
    if let [one] = variants {
        return most_of_parts(&one.parts);
    }
    let (left, right) = variants.split_at(split(variants.len()));
    1 + most_of_variants(left).max(most_of_variants(right))
}

// Value files

/// One record of a value file.
struct Record<'a> {
    kind: u8,
    choice: u8,
    n: usize,
    integer: &'a [u8; 32],
}

/// The records that are left, and the number that a fault among them earns.
struct Rest<'a> {
    bytes: &'a [u8],
    number: u32,
}

impl<'a> Rest<'a> {
    fn record(&mut self) -> Option<Record<'a>> {
        let (record, after) = self.bytes.split_first_chunk::<36>()?;
        self.bytes = after;
        let [kind, choice, high, low, ..] = *record;
        let integer = record[4..].try_into().unwrap();
        Some(Record { kind, choice, n: high as usize * 256 + low as usize, integer })
    }

    /// This must hold, or else the number.
    fn must(&mut self, holds: bool, number: u32) -> Option<()> {
        if !holds {
            self.number = number;
        }
        holds.then_some(())
    }
}

impl Record<'_> {
    fn no_integer(&self) -> bool {
        *self.integer == [0; 32]
    }

    /// The choice of a record of this kind, if there is nothing else in it.
    fn chosen(&self, kind: u8) -> Option<bool> {
        (self.kind == kind && self.choice < 2 && self.n == 0 && self.no_integer()).then_some(self.choice == 1)
    }

    /// The number of a record of this kind, if there is nothing else in it.
    fn number(&self, kind: u8) -> Option<usize> {
        (self.kind == kind && self.choice == 0 && self.no_integer()).then_some(self.n)
    }

    /// An integer of so many bits: its bytes, of which the first may be used in part.
    fn integer(&self, bits: usize, rest: &mut Rest) -> Option<&[u8]> {
        (self.kind == 2 && self.choice == 0 && self.n == bits).then_some(())?;
        let (zeros, used) = self.integer.split_at(32 - bits.div_ceil(8));
        rest.must(zeros.iter().all(|&b| b == 0) && (bits >= 8 || used[0] >> bits == 0), 21)?;
        Some(used)
    }
}

/// Row 15, the walk over the file, rows 16, 21 and 22.
fn whole_file(file: &[u8], walk: impl FnOnce(&mut Rest) -> Option<()>) -> Outcome<()> {
    if file.is_empty() || file.len() % 36 != 0 {
        return Err(15);
    }
    let mut rest = Rest { bytes: file, number: 16 };
    match walk(&mut rest) {
        Some(()) if rest.bytes.is_empty() => Ok(()),
        _ => Err(rest.number),
    }
}

fn deliver(result: &[u8], out: &mut [u8]) -> Outcome<usize> {
    if result.len() > out.len() {
        return Err(17);
    }
    out[..result.len()].copy_from_slice(result);
    Ok(result.len())
}

// Shapes

pub fn write_shape(ty: &[u8], value: &[u8], out: &mut [u8]) -> Outcome<usize> {
    let ty = read_lowering(ty)?;
    let mut shape = vec![];
    whole_file(value, |rest| put_shape(&ty, rest, &mut shape))?;
    deliver(&shape, out)
}

fn put_shape(ty: &Ty, rest: &mut Rest, out: &mut Vec<u8>) -> Option<()> {
    let record = rest.record()?;
    match &ty.kind {
        Kind::Never => None,
        Kind::Bool => {
            out.extend([1 + record.chosen(1)? as u8, 0]);
            Some(())
        }
        Kind::UInt(bits) => {
            put_integer(record.integer(*bits, rest)?, 8 * bits.div_ceil(8) - bits, *bits, out);
            Some(())
        }
        Kind::Either(sides) => {
            let right = record.chosen(3)?;
            out.push(1 + right as u8);
            put_shape(&sides[right as usize], rest, out)
        }
        Kind::Option(t) => {
            if record.chosen(4)? {
                out.push(2);
                return put_shape(t, rest, out);
            }
            out.extend([1, 0]);
            Some(())
        }
        Kind::Tuple(parts) => {
            (record.number(5)? == parts.len()).then_some(())?;
            put_parts(0, parts.len(), &|i| &parts[i], rest, out)
        }
        Kind::Array(n, t) => {
            (record.number(6)? == *n).then_some(())?;
            put_parts(0, *n, &|_| t, rest, out)
        }
        Kind::List(bound, t) => {
            let n = record.number(7)?;
            rest.must(n < *bound, 22)?;
            put_blocks(*bound, n, t, rest, out)
        }
        Kind::Enum(variants) => {
            let index = record.number(8)?;
            let parts = &variants.get(index)?.parts;
            put_injection(index, variants.len(), out);
            put_parts(0, parts.len(), &|i| &parts[i], rest, out)
        }
    }
}

fn put_integer(bytes: &[u8], from: usize, n: usize, out: &mut Vec<u8>) {
    if n == 1 {
        return out.extend([1 + (bytes[from / 8] >> (7 - from % 8) & 1), 0]);
    }
    out.push(3);
    put_integer(bytes, from, n / 2, out);
    put_integer(bytes, from + n / 2, n / 2, out);
}

fn put_parts<'a, F: Fn(usize) -> &'a Ty>(
    from: usize,
    n: usize,
    ty: &F,
    rest: &mut Rest,
    out: &mut Vec<u8>,
) -> Option<()> {
    match n {
        0 => {
            out.push(0);
            Some(())
        }
        1 => put_shape(ty(from), rest, out),
        _ => {
            let left = split(n);
            out.push(3);
            put_parts(from, left, ty, rest, out)?;
            put_parts(from + left, n - left, ty, rest, out)
        }
    }
}

/// The largest block first, if enough elements remain for it.
fn put_blocks(bound: usize, n: usize, t: &Ty, rest: &mut Rest, out: &mut Vec<u8>) -> Option<()> {
    let block = bound / 2;
    if bound > 2 {
        out.push(3);
    }
    let taken = if n >= block { block } else { 0 };
    if taken == 0 {
        out.extend([1, 0]);
    } else {
        out.push(2);
        put_parts(0, taken, &|_| t, rest, out)?;
    }
    if bound > 2 {
        put_blocks(block, n - taken, t, rest, out)?;
    }
    Some(())
}

fn put_injection(index: usize, n: usize, out: &mut Vec<u8>) {
    if n == 1 {
        return;
    }
    let left = split(n);
    if index < left {
        out.push(1);
        put_injection(index, left, out);
    } else {
        out.push(2);
        put_injection(index - left, n - left, out);
    }
}

// Records of shapes

/// The records of a value's shape. They are counted and not written.
pub fn shape_records(ty: &[u8], value: &[u8]) -> Outcome<usize> {
    let ty = read_lowering(ty)?;
    let mut records = 0;
    whole_file(value, |rest| count_shape(&ty, rest, &mut records))?;
    Ok(records)
}

fn count_shape(ty: &Ty, rest: &mut Rest, records: &mut usize) -> Option<()> {
    let record = rest.record()?;
    match &ty.kind {
        Kind::Never => None,
        Kind::Bool => {
            record.chosen(1)?;
            *records += 2;
            Some(())
        }
        Kind::UInt(bits) => {
            record.integer(*bits, rest)?;
            *records += 3 * bits - 1;
            Some(())
        }
        Kind::Either(sides) => {
            let right = record.chosen(3)?;
            *records += 1;
            count_shape(&sides[right as usize], rest, records)
        }
        Kind::Option(t) => {
            let some = record.chosen(4)?;
            *records += 1 + !some as usize;
            if some {
                count_shape(t, rest, records)?;
            }
            Some(())
        }
        Kind::Tuple(parts) => {
            (record.number(5)? == parts.len()).then_some(())?;
            count_parts(parts, rest, records)
        }
        Kind::Array(n, t) => {
            (record.number(6)? == *n).then_some(())?;
            *records += if *n == 0 { 1 } else { n - 1 };
            (0..*n).try_for_each(|_| count_shape(t, rest, records))
        }
        Kind::List(bound, t) => {
            let n = record.number(7)?;
            rest.must(n < *bound, 22)?;
            // The blocks are joined by pairs; an empty one has two records, another one for each element and its own.
            let blocks = bound.trailing_zeros() as usize;
            *records += blocks - 1 + n + 2 * (blocks - n.count_ones() as usize);
            (0..n).try_for_each(|_| count_shape(t, rest, records))
        }
        Kind::Enum(variants) => {
            let index = record.number(8)?;
            let parts = &variants.get(index)?.parts;
            *records += sums(index, variants.len());
            count_parts(parts, rest, records)
        }
    }
}

fn count_parts(parts: &[Ty], rest: &mut Rest, records: &mut usize) -> Option<()> {
    *records += if parts.is_empty() { 1 } else { parts.len() - 1 };
    parts.iter().try_for_each(|t| count_shape(t, rest, records))
}

/// The sums on the way to a variant.
fn sums(index: usize, n: usize) -> usize {
    if n == 1 {
        return 0;
    }
    let left = split(n);
    1 + if index < left { sums(index, left) } else { sums(index - left, n - left) }
}

// Values of shapes

pub fn reconstruct(ty: &[u8], shape: &[u8], out: &mut [u8]) -> Outcome<usize> {
    let ty = read_type(ty)?;
    if shape.len() > 65_536 {
        return Err(8);
    }
    if shape.iter().any(|&b| b > 3) || tree_end(shape) != Some(shape.len()) {
        return Err(9);
    }
    let mut file = vec![];
    let mut rest = Trees { rest: shape, lacking: false };
    take_shape(&ty, &mut rest, &mut file).ok_or(10u32)?;
    if rest.lacking {
        return Err(20);
    }
    deliver(&file, out)
}

/// What is left of a shape, and whether something else than a unit stood where one belongs.
struct Trees<'a> {
    rest: &'a [u8],
    lacking: bool,
}

/// Where the first tree ends, if it does.
fn tree_end(shape: &[u8]) -> Option<usize> {
    let mut open = 1;
    for (at, byte) in shape.iter().enumerate() {
        match byte {
            0 => open -= 1,
            3 => open += 1,
            _ => {}
        }
        if open == 0 {
            return Some(at + 1);
        }
    }
    None
}

fn next(rest: &mut Trees) -> u8 {
    let byte = rest.rest[0];
    rest.rest = &rest.rest[1..];
    byte
}

/// A left or a right, and which.
fn side(rest: &mut Trees) -> Option<bool> {
    match next(rest) {
        1 => Some(false),
        2 => Some(true),
        _ => None,
    }
}

fn expect(rest: &mut Trees, byte: u8) -> Option<()> {
    (next(rest) == byte).then_some(())
}

fn put_record(kind: u8, choice: u8, n: usize, out: &mut Vec<u8>) {
    let mut record = [0; 36];
    record[..4].copy_from_slice(&[kind, choice, (n >> 8) as u8, n as u8]);
    out.extend_from_slice(&record);
}

fn take_shape(ty: &Ty, rest: &mut Trees, out: &mut Vec<u8>) -> Option<()> {
    match &ty.kind {
        Kind::Never => None,
        Kind::Bool => {
            put_record(1, side(rest)? as u8, 0, out);
            expect(rest, 0)
        }
        Kind::UInt(bits) => {
            put_record(2, 0, *bits, out);
            let at = out.len() - bits.div_ceil(8);
            take_integer(rest, &mut out[at..], 8 * bits.div_ceil(8) - bits, *bits)
        }
        Kind::Either(sides) => {
            let right = side(rest)?;
            put_record(3, right as u8, 0, out);
            take_shape(&sides[right as usize], rest, out)
        }
        Kind::Option(t) => {
            let some = side(rest)?;
            put_record(4, some as u8, 0, out);
            if some {
                return take_shape(t, rest, out);
            }
            expect(rest, 0)
        }
        Kind::Tuple(parts) => {
            put_record(5, 0, parts.len(), out);
            take_product(parts.len(), &|i| &parts[i], rest, out)
        }
        Kind::Array(n, t) => {
            put_record(6, 0, *n, out);
            take_product(*n, &|_| t, rest, out)
        }
        Kind::List(bound, t) => {
            let at = out.len();
            put_record(7, 0, 0, out);
            let n = take_blocks(*bound, t, rest, out)?;
            out[at + 2..at + 4].copy_from_slice(&[(n >> 8) as u8, n as u8]);
            Some(())
        }
        Kind::Enum(variants) => {
            let index = take_injection(variants.len(), rest)?;
            let parts = &variants[index].parts;
            put_record(8, 0, index, out);
            take_product(parts.len(), &|i| &parts[i], rest, out)
        }
    }
}

fn take_integer(rest: &mut Trees, bytes: &mut [u8], from: usize, n: usize) -> Option<()> {
    if n == 1 {
        if side(rest)? {
            bytes[from / 8] |= 0x80 >> (from % 8);
        }
        return expect(rest, 0);
    }
    expect(rest, 3)?;
    take_integer(rest, bytes, from, n / 2)?;
    take_integer(rest, bytes, from + n / 2, n / 2)
}

fn take_product<'a, F: Fn(usize) -> &'a Ty>(n: usize, ty: &F, rest: &mut Trees, out: &mut Vec<u8>) -> Option<()> {
    if n == 0 {
        rest.lacking |= rest.rest[0] != 0;
        rest.rest = &rest.rest[tree_end(rest.rest)?..];
        return Some(());
    }
    take_parts(0, n, ty, rest, out)
}

fn take_parts<'a, F: Fn(usize) -> &'a Ty>(
    from: usize,
    n: usize,
    ty: &F,
    rest: &mut Trees,
    out: &mut Vec<u8>,
) -> Option<()> {
    if n == 1 {
        return take_shape(ty(from), rest, out);
    }
    let left = split(n);
    expect(rest, 3)?;
    take_parts(from, left, ty, rest, out)?;
    take_parts(from + left, n - left, ty, rest, out)
}

/// The elements, and how many they are.
fn take_blocks(bound: usize, t: &Ty, rest: &mut Trees, out: &mut Vec<u8>) -> Option<usize> {
    if bound > 2 {
        expect(rest, 3)?;
    }
    let full = side(rest)?;
    if full {
        take_parts(0, bound / 2, &|_| t, rest, out)?;
    } else {
        expect(rest, 0)?;
    }
    let own = if full { bound / 2 } else { 0 };
    let others = if bound > 2 { take_blocks(bound / 2, t, rest, out)? } else { 0 };
    Some(own + others)
}

fn take_injection(n: usize, rest: &mut Trees) -> Option<usize> {
    if n == 1 {
        return Some(0);
    }
    let left = split(n);
    match side(rest)? {
        true => Some(left + take_injection(n - left, rest)?),
        false => take_injection(left, rest),
    }
}

// Bits

fn get_bit(frame: &[u8], at: usize) -> bool {
    frame[at / 8] >> (7 - at % 8) & 1 == 1
}

/// The n bits from `at` on, 1 to 8 of them.
fn get_bits(frame: &[u8], at: usize, n: usize) -> u8 {
    let low = frame.get(at / 8 + 1).copied().unwrap_or(0);
    let both = u16::from_be_bytes([frame[at / 8], low]);
    (both << (at % 8) >> (16 - n)) as u8
}

/// The n bits from `at` on become the lowest of `bits`, 1 to 8 of them.
fn set_bits(frame: &mut [u8], at: usize, bits: u8, n: usize) {
    let shift = 16 - n - at % 8;
    let mask = (((1u32 << n) - 1) << shift) as u16;
    let new = (bits as u16) << shift;
    frame[at / 8] = frame[at / 8] & !(mask >> 8) as u8 | (new >> 8) as u8;
    if mask as u8 != 0 {
        frame[at / 8 + 1] = frame[at / 8 + 1] & !(mask as u8) | new as u8;
    }
}

fn all_zero(frame: &[u8], mut from: usize, to: usize) -> bool {
    while from < to {
        let n = (to - from).min(8);
        if get_bits(frame, from, n) != 0 {
            return false;
        }
        from += n;
    }
    true
}

fn clear(frame: &mut [u8], mut from: usize, to: usize) {
    while from < to {
        let n = (to - from).min(8);
        set_bits(frame, from, 0, n);
        from += n;
    }
}

// Frames

pub fn write_frame(ty: &[u8], value: &[u8], out: &mut [u8]) -> Outcome<usize> {
    let ty = read_lowering(ty)?;
    let mut frame = vec![0; ty.width.div_ceil(8)];
    whole_file(value, |rest| put_frame(&ty, rest, &mut frame, 0))?;
    deliver(&frame, out)
}

/// Writes the value at bit `at`, its padding too.
fn put_frame(ty: &Ty, rest: &mut Rest, frame: &mut [u8], at: usize) -> Option<()> {
    let record = rest.record()?;
    let end = at + ty.width;
    match &ty.kind {
        Kind::Never => None,
        Kind::Bool => {
            set_bits(frame, at, record.chosen(1)? as u8, 1);
            Some(())
        }
        Kind::UInt(bits) => {
            let mut at = at;
            for byte in record.integer(*bits, rest)? {
                set_bits(frame, at, *byte, (*bits).min(8));
                at += 8;
            }
            Some(())
        }
        Kind::Either(sides) => {
            let right = record.chosen(3)?;
            let taken = &sides[right as usize];
            set_bits(frame, at, right as u8, 1);
            put_frame(taken, rest, frame, at + 1)?;
            clear(frame, at + 1 + taken.width, end);
            Some(())
        }
        Kind::Option(t) => {
            let some = record.chosen(4)?;
            set_bits(frame, at, some as u8, 1);
            if some {
                return put_frame(t, rest, frame, at + 1);
            }
            clear(frame, at + 1, end);
            Some(())
        }
        Kind::Tuple(parts) => {
            (record.number(5)? == parts.len()).then_some(())?;
            put_row(parts, rest, frame, at)
        }
        Kind::Array(n, t) => {
            (record.number(6)? == *n).then_some(())?;
            put_run(*n, t, rest, frame, at)
        }
        Kind::List(bound, t) => {
            let mut left = record.number(7)?;
            rest.must(left < *bound, 22)?;
            let (mut block, mut at) = (bound / 2, at);
            while block > 0 {
                let full = left >= block;
                set_bits(frame, at, full as u8, 1);
                at += 1;
                if full {
                    put_run(block, t, rest, frame, at)?;
                    left -= block;
                } else {
                    clear(frame, at, at + block * t.width);
                }
                at += block * t.width;
                block /= 2;
            }
            Some(())
        }
        Kind::Enum(variants) => {
            let index = record.number(8)?;
            let variant = variants.get(index)?;
            let at = put_tags(index, variants.len(), frame, at);
            put_row(&variant.parts, rest, frame, at)?;
            clear(frame, at + variant.width, end);
            Some(())
        }
    }
}

fn put_row(parts: &[Ty], rest: &mut Rest, frame: &mut [u8], mut at: usize) -> Option<()> {
    for t in parts {
        put_frame(t, rest, frame, at)?;
        at += t.width;
    }
    Some(())
}

fn put_run(n: usize, t: &Ty, rest: &mut Rest, frame: &mut [u8], at: usize) -> Option<()> {
    for i in 0..n {
        put_frame(t, rest, frame, at + i * t.width)?;
    }
    Some(())
}

/// The sums on the way to a variant, and the bit after them.
fn put_tags(mut index: usize, mut n: usize, frame: &mut [u8], mut at: usize) -> usize {
    while n > 1 {
        let left = split(n);
        let right = index >= left;
        set_bits(frame, at, right as u8, 1);
        at += 1;
        (index, n) = if right { (index - left, n - left) } else { (index, left) };
    }
    at
}

pub fn read_frame(ty: &[u8], frame: &[u8], out: &mut [u8]) -> Outcome<usize> {
    let ty = read_lowering(ty)?;
    check_length(&ty, frame)?;
    let mut file = vec![];
    if !take_frame(&ty, frame, 0, &mut file) || !all_zero(frame, ty.width, frame.len() * 8) {
        return Err(12);
    }
    deliver(&file, out)
}

fn check_length(ty: &Ty, frame: &[u8]) -> Outcome<()> {
    if frame.len() == ty.width.div_ceil(8) {
        Ok(())
    } else {
        Err(11)
    }
}

/// Where the records go: to a file, or nowhere.
trait Sink {
    fn put(&mut self, kind: u8, choice: u8, n: usize) -> usize;
    fn set_number(&mut self, at: usize, n: usize);
    fn set_integer(&mut self, frame: &[u8], at: usize, bits: usize);
}

impl Sink for Vec<u8> {
    fn put(&mut self, kind: u8, choice: u8, n: usize) -> usize {
        put_record(kind, choice, n, self);
        self.len() - 36
    }

    fn set_number(&mut self, at: usize, n: usize) {
        self[at + 2..at + 4].copy_from_slice(&[(n >> 8) as u8, n as u8]);
    }

    fn set_integer(&mut self, frame: &[u8], mut at: usize, bits: usize) {
        let from = self.len() - bits.div_ceil(8);
        for byte in &mut self[from..] {
            *byte = get_bits(frame, at, bits.min(8));
            at += 8;
        }
    }
}

struct Nowhere;

impl Sink for Nowhere {
    fn put(&mut self, _: u8, _: u8, _: usize) -> usize {
        0
    }

    fn set_number(&mut self, _: usize, _: usize) {}

    fn set_integer(&mut self, _: &[u8], _: usize, _: usize) {}
}

/// Reads the value at bit `at`, and says whether its padding is zero.
fn take_frame<S: Sink>(ty: &Ty, frame: &[u8], at: usize, out: &mut S) -> bool {
    let end = at + ty.width;
    match &ty.kind {
        Kind::Never => false,
        Kind::Bool => {
            out.put(1, get_bit(frame, at) as u8, 0);
            true
        }
        Kind::UInt(bits) => {
            out.put(2, 0, *bits);
            out.set_integer(frame, at, *bits);
            true
        }
        Kind::Either(sides) => {
            let right = get_bit(frame, at);
            let taken = &sides[right as usize];
            out.put(3, right as u8, 0);
            take_frame(taken, frame, at + 1, out) && all_zero(frame, at + 1 + taken.width, end)
        }
        Kind::Option(t) => {
            let some = get_bit(frame, at);
            out.put(4, some as u8, 0);
            if some {
                return take_frame(t, frame, at + 1, out);
            }
            all_zero(frame, at + 1, end)
        }
        Kind::Tuple(parts) => {
            out.put(5, 0, parts.len());
            take_row(parts, frame, at, out)
        }
        Kind::Array(n, t) => {
            out.put(6, 0, *n);
            take_run(*n, t, frame, at, out)
        }
        Kind::List(bound, t) => {
            let record = out.put(7, 0, 0);
            let (mut block, mut at, mut n) = (bound / 2, at, 0);
            while block > 0 {
                let full = get_bit(frame, at);
                at += 1;
                let good = match full {
                    true => take_run(block, t, frame, at, out),
                    false => all_zero(frame, at, at + block * t.width),
                };
                if !good {
                    return false;
                }
                n += if full { block } else { 0 };
                at += block * t.width;
                block /= 2;
            }
            out.set_number(record, n);
            true
        }
        Kind::Enum(variants) => {
            let (index, at) = take_tags(variants.len(), frame, at);
            let variant = &variants[index];
            out.put(8, 0, index);
            take_row(&variant.parts, frame, at, out) && all_zero(frame, at + variant.width, end)
        }
    }
}

fn take_row<S: Sink>(parts: &[Ty], frame: &[u8], mut at: usize, out: &mut S) -> bool {
    for t in parts {
        if !take_frame(t, frame, at, out) {
            return false;
        }
        at += t.width;
    }
    true
}

fn take_run<S: Sink>(n: usize, t: &Ty, frame: &[u8], at: usize, out: &mut S) -> bool {
    (0..n).all(|i| take_frame(t, frame, at + i * t.width, out))
}

/// The variant that the tags lead to, and the bit after them.
fn take_tags(mut n: usize, frame: &[u8], mut at: usize) -> (usize, usize) {
    let mut index = 0;
    while n > 1 {
        let left = split(n);
        if get_bit(frame, at) {
            index += left;
            n -= left;
        } else {
            n = left;
        }
        at += 1;
    }
    (index, at)
}

// Parts

/// Rows 11 to 14: the part's type and its first bit.
fn find_part<'a>(ty: &'a Ty, frame: &[u8], path: &[u8]) -> Outcome<(&'a Ty, usize)> {
    check_length(ty, frame)?;
    if !take_frame(ty, frame, 0, &mut Nowhere) || !all_zero(frame, ty.width, frame.len() * 8) {
        return Err(12);
    }
    if path.len() % 2 != 0 {
        return Err(13);
    }
    let (mut ty, mut at) = (ty, 0);
    for step in path.chunks_exact(2) {
        (ty, at) = one_step(ty, frame, at, step[0] as usize * 256 + step[1] as usize).ok_or(14u32)?;
    }
    Ok((ty, at))
}

fn one_step<'a>(ty: &'a Ty, frame: &[u8], at: usize, index: usize) -> Option<(&'a Ty, usize)> {
    match &ty.kind {
        Kind::Never | Kind::Bool | Kind::UInt(_) => None,
        Kind::Either(sides) => (index == get_bit(frame, at) as usize).then(|| (&sides[index], at + 1)),
        Kind::Option(t) => (index == 0 && get_bit(frame, at)).then_some((&**t, at + 1)),
        Kind::Tuple(parts) => part_of(parts, at, index),
        Kind::Array(n, t) => (index < *n).then(|| (&**t, at + index * t.width)),
        Kind::List(bound, t) => {
            let (mut block, mut at, mut index) = (bound / 2, at, index);
            while block > 0 {
                let full = get_bit(frame, at);
                if full && index < block {
                    return Some((t, at + 1 + index * t.width));
                }
                index -= if full { block } else { 0 };
                at += 1 + block * t.width;
                block /= 2;
            }
            None
        }
        Kind::Enum(variants) => {
            let (variant, at) = take_tags(variants.len(), frame, at);
            part_of(&variants[variant].parts, at, index)
        }
    }
}

fn part_of(parts: &[Ty], at: usize, index: usize) -> Option<(&Ty, usize)> {
    let ty = parts.get(index)?;
    Some((ty, at + parts[..index].iter().map(|t| t.width).sum::<usize>()))
}

pub fn part_read(ty: &[u8], frame: &[u8], path: &[u8], out: &mut [u8]) -> Outcome<usize> {
    let ty = read_lowering(ty)?;
    let (part, at) = find_part(&ty, frame, path)?;
    let mut file = vec![];
    take_frame(part, frame, at, &mut file);
    deliver(&file, out)
}

pub fn part_edit(ty: &[u8], frame: &mut [u8], path: &[u8], value: &[u8]) -> Outcome<usize> {
    let ty = read_lowering(ty)?;
    let (part, at) = find_part(&ty, frame, path)?;
    let mut edited = frame.to_vec();
    whole_file(value, |rest| put_frame(part, rest, &mut edited, at))?;
    frame.copy_from_slice(&edited);
    Ok(frame.len())
}

// Day files

/// Rows 1 to 7, 18, 19 and 13, and the first frame that matches. Only a frame whose part has the value's bits is looked
/// at as a whole.
pub fn search(ty: &[u8], day: &[u8], path: &[u8], value: &[u8]) -> Outcome<Option<usize>> {
    let ty = read_lowering(ty)?;
    let size = ty.width.div_ceil(8);
    if size == 0 {
        return Err(18);
    }
    if day.len() % size != 0 {
        return Err(19);
    }
    if path.len() % 2 != 0 {
        return Err(13);
    }
    // The type of the part in the last frame, and the value's bits as one of that type.
    let mut sought: Option<(&Ty, Option<Vec<u8>>)> = None;
    for (index, frame) in day.chunks_exact(size).enumerate() {
        let Some((part, at)) = follow(&ty, frame, path) else { continue };
        let bits = match sought.take() {
            Some((of, bits)) if std::ptr::eq(of, part) => bits,
            _ => bits_of(part, value),
        };
        let same = bits.as_ref().is_some_and(|bits| same_bits(frame, at, bits, part.width));
        sought = Some((part, bits));
        let whole = || take_frame(&ty, frame, 0, &mut Nowhere) && all_zero(frame, ty.width, size * 8);
        if same && whole() {
            return Ok(Some(index));
        }
    }
    Ok(None)
}

/// The part that a path leads to by the tags of a frame, be it accepted or not, and its first bit.
fn follow<'a>(ty: &'a Ty, frame: &[u8], path: &[u8]) -> Option<(&'a Ty, usize)> {
    let (mut ty, mut at) = (ty, 0);
    for step in path.chunks_exact(2) {
        (ty, at) = one_step(ty, frame, at, step[0] as usize * 256 + step[1] as usize)?;
    }
    Some((ty, at))
}

/// The bits of a value file, if it is one of the type.
fn bits_of(ty: &Ty, value: &[u8]) -> Option<Vec<u8>> {
    let mut bits = vec![0; ty.width.div_ceil(8)];
    whole_file(value, |rest| put_frame(ty, rest, &mut bits, 0)).ok()?;
    Some(bits)
}

/// Are the n bits from `at` on the first n of `bits`?
fn same_bits(frame: &[u8], at: usize, bits: &[u8], n: usize) -> bool {
    let (first, shift, whole) = (at / 8, at % 8, n / 8);
    let alike = match shift {
        0 => frame[first..first + whole] == bits[..whole],
        _ => frame[first..].windows(2).zip(&bits[..whole]).all(|(two, &byte)| {
            let [high, low] = [two[0] << shift, two[1] >> (8 - shift)];
            high | low == byte
        }),
    };
    let rest = n % 8;
    alike && (rest == 0 || get_bits(frame, at + 8 * whole, rest) == get_bits(bits, 8 * whole, rest))
}

/// The loop that a search is compared with: the first frame whose n bits from `at` on are the first n of `bits`, and
/// nothing else. There is no type, no path and no value file, and no frame is accepted.
pub fn compare_only(day: &[u8], size: usize, at: usize, n: usize, bits: &[u8]) -> Option<usize> {
    if n <= 8 {
        let sought = get_bits(bits, 0, n);
        return day.chunks_exact(size).position(|frame| get_bits(frame, at, n) == sought);
    }
    day.chunks_exact(size).position(|frame| same_bits(frame, at, bits, n))
}
