//! The second frame writer and reader. It knows lowered types and shapes only, as 01 defines frames over them. So does
//! the count of the most records that a shape can have.

/// A lowered type with the end and the width of the tree at each record.
pub struct Lowered<'a> {
    records: &'a [u8],
    end: Vec<usize>,
    width: Vec<usize>,
}

impl<'a> Lowered<'a> {
    pub fn new(records: &'a [u8]) -> Self {
        let mut end = vec![0; records.len()];
        let mut width = vec![0; records.len()];
        for at in (0..records.len()).rev() {
            if records[at] == 0 {
                end[at] = at + 1;
                continue;
            }
            let left = at + 1;
            let right = end[left];
            end[at] = end[right];
            width[at] = match records[at] {
                1 => 1 + width[left].max(width[right]),
                _ => width[left] + width[right],
            };
        }
        Lowered { records, end, width }
    }

    pub fn width(&self) -> usize {
        self.width[0]
    }

    /// The length of a frame in bytes.
    pub fn length(&self) -> usize {
        self.width().div_ceil(8)
    }
}

/// The most records of a shape over a lowered type, from its last record to its first: one for a unit, one and the
/// longer side for a sum, one and both sides for a product.
pub fn longest(records: &[u8]) -> usize {
    let mut behind: Vec<usize> = vec![];
    for kind in records.iter().rev() {
        let most = match kind {
            0 => 1,
            _ => {
                let [left, right] = [(); 2].map(|()| behind.pop().expect("a tree"));
                1 + if *kind == 1 { left.max(right) } else { left + right }
            }
        };
        behind.push(most);
    }
    behind.pop().expect("a tree")
}

/// Writes the frame of a shape that belongs to the type.
pub fn write(ty: &Lowered, shape: &[u8]) -> Vec<u8> {
    pack(&bits(ty, shape))
}

/// The bits of that frame.
pub fn bits(ty: &Lowered, shape: &[u8]) -> Vec<bool> {
    let mut bits = vec![];
    let end = put(ty, 0, shape, 0, &mut bits);
    assert_eq!((end, bits.len()), (shape.len(), ty.width()));
    bits
}

fn put(ty: &Lowered, t: usize, shape: &[u8], s: usize, bits: &mut Vec<bool>) -> usize {
    let left = t + 1;
    match (ty.records[t], shape[s]) {
        (0, 0) => s + 1,
        (1, side @ (1 | 2)) => {
            let end = bits.len() + ty.width[t];
            bits.push(side == 2);
            let payload = if side == 1 { left } else { ty.end[left] };
            let next = put(ty, payload, shape, s + 1, bits);
            bits.resize(end, false);
            next
        }
        (2, 3) => {
            let next = put(ty, left, shape, s + 1, bits);
            put(ty, ty.end[left], shape, next, bits)
        }
        _ => unreachable!("the shape belongs to the type"),
    }
}

fn pack(bits: &[bool]) -> Vec<u8> {
    let mut bytes = vec![0; bits.len().div_ceil(8)];
    for (i, bit) in bits.iter().enumerate() {
        bytes[i / 8] |= (*bit as u8) << (7 - i % 8);
    }
    bytes
}

/// Bit i of a frame.
pub fn bit(frame: &[u8], i: usize) -> bool {
    frame[i / 8] >> (7 - i % 8) & 1 == 1
}

fn all_zero(frame: &[u8], from: usize, to: usize) -> bool {
    (from..to).all(|i| !bit(frame, i))
}

/// The shape whose frame it is: rows 11 and 12.
pub fn read(ty: &Lowered, frame: &[u8]) -> Result<Vec<u8>, u32> {
    if frame.len() != ty.length() {
        return Err(11);
    }
    let (shape, zero) = read_anyway(ty, frame);
    if !zero || !all_zero(frame, ty.width(), frame.len() * 8) {
        return Err(12);
    }
    Ok(shape)
}

/// The shape that the tags tell, and whether the padding is zero. The tail is not looked at.
pub fn read_anyway(ty: &Lowered, frame: &[u8]) -> (Vec<u8>, bool) {
    let mut shape = vec![];
    let zero = take(ty, 0, frame, 0, &mut shape);
    (shape, zero)
}

/// Reads the tree at record t from bit `at` on, and says whether its padding is zero.
fn take(ty: &Lowered, t: usize, frame: &[u8], at: usize, shape: &mut Vec<u8>) -> bool {
    let left = t + 1;
    match ty.records[t] {
        0 => {
            shape.push(0);
            true
        }
        1 => {
            let right = bit(frame, at);
            let payload = if right { ty.end[left] } else { left };
            shape.push(1 + right as u8);
            take(ty, payload, frame, at + 1, shape) & all_zero(frame, at + 1 + ty.width[payload], at + ty.width[t])
        }
        _ => {
            shape.push(3);
            take(ty, left, frame, at, shape) & take(ty, ty.end[left], frame, at + ty.width[left], shape)
        }
    }
}
