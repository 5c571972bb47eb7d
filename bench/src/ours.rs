//! The library, called through its C functions.

type Bytes = *const u8;
type Lent = *mut u8;
type Length = *mut usize;

#[rustfmt::skip]
extern "C" {
    fn niegluk_lower(ty: Bytes, ty_len: usize, out: Lent, out_len: usize, length: Length) -> u32;
    fn niegluk_write_shape(
        ty: Bytes, ty_len: usize, value: Bytes, value_len: usize, out: Lent, out_len: usize, length: Length,
    ) -> u32;
    fn niegluk_reconstruct(
        ty: Bytes, ty_len: usize, shape: Bytes, shape_len: usize, out: Lent, out_len: usize, length: Length,
    ) -> u32;
    fn niegluk_write_frame(
        ty: Bytes, ty_len: usize, value: Bytes, value_len: usize, out: Lent, out_len: usize, length: Length,
    ) -> u32;
    fn niegluk_read_frame(
        ty: Bytes, ty_len: usize, frame: Bytes, frame_len: usize, out: Lent, out_len: usize, length: Length,
    ) -> u32;
    fn niegluk_part_read(
        ty: Bytes, ty_len: usize, frame: Bytes, frame_len: usize, path: Bytes, path_len: usize,
        out: Lent, out_len: usize, length: Length,
    ) -> u32;
    fn niegluk_part_edit(
        ty: Bytes, ty_len: usize, frame: Lent, frame_len: usize, path: Bytes, path_len: usize,
        value: Bytes, value_len: usize, length: Length,
    ) -> u32;
    fn niegluk_room(ty: Bytes, ty_len: usize, lowered: Length, bits: Length, shape: Length) -> u32;
    fn niegluk_shape_records(ty: Bytes, ty_len: usize, value: Bytes, value_len: usize, records: Length) -> u32;
    fn niegluk_search(
        ty: Bytes, ty_len: usize, day: Bytes, day_len: usize, path: Bytes, path_len: usize,
        value: Bytes, value_len: usize, found: *mut u32, index: Length,
    ) -> u32;
}

type Outcome = Result<usize, u32>;

fn outcome(call: impl FnOnce(Length) -> u32) -> Outcome {
    let mut length = 0;
    match call(&mut length) {
        0 => Ok(length),
        number => Err(number),
    }
}

type Plain = unsafe extern "C" fn(Bytes, usize, Bytes, usize, Lent, usize, Length) -> u32;

fn two(entry: Plain, a: &[u8], b: &[u8], out: &mut [u8]) -> Outcome {
    outcome(|l| unsafe { entry(a.as_ptr(), a.len(), b.as_ptr(), b.len(), out.as_mut_ptr(), out.len(), l) })
}

pub fn lower(ty: &[u8], out: &mut [u8]) -> Outcome {
    outcome(|l| unsafe { niegluk_lower(ty.as_ptr(), ty.len(), out.as_mut_ptr(), out.len(), l) })
}

pub fn write_shape(ty: &[u8], value: &[u8], out: &mut [u8]) -> Outcome {
    two(niegluk_write_shape, ty, value, out)
}

pub fn reconstruct(ty: &[u8], shape: &[u8], out: &mut [u8]) -> Outcome {
    two(niegluk_reconstruct, ty, shape, out)
}

pub fn write_frame(ty: &[u8], value: &[u8], out: &mut [u8]) -> Outcome {
    two(niegluk_write_frame, ty, value, out)
}

pub fn read_frame(ty: &[u8], frame: &[u8], out: &mut [u8]) -> Outcome {
    two(niegluk_read_frame, ty, frame, out)
}

#[rustfmt::skip]
pub fn part_read(ty: &[u8], frame: &[u8], path: &[u8], out: &mut [u8]) -> Outcome {
    outcome(|l| unsafe {
        niegluk_part_read(
            ty.as_ptr(), ty.len(), frame.as_ptr(), frame.len(), path.as_ptr(), path.len(),
            out.as_mut_ptr(), out.len(), l,
        )
    })
}

#[rustfmt::skip]
pub fn part_edit(ty: &[u8], frame: &mut [u8], path: &[u8], value: &[u8]) -> Outcome {
    outcome(|l| unsafe {
        niegluk_part_edit(
            ty.as_ptr(), ty.len(), frame.as_mut_ptr(), frame.len(), path.as_ptr(), path.len(),
            value.as_ptr(), value.len(), l,
        )
    })
}

pub fn room(ty: &[u8]) -> Result<[usize; 3], u32> {
    let (mut lowered, mut bits, mut shape) = (0, 0, 0);
    match unsafe { niegluk_room(ty.as_ptr(), ty.len(), &mut lowered, &mut bits, &mut shape) } {
        0 => Ok([lowered, bits, shape]),
        number => Err(number),
    }
}

pub fn shape_records(ty: &[u8], value: &[u8]) -> Outcome {
    outcome(|l| unsafe { niegluk_shape_records(ty.as_ptr(), ty.len(), value.as_ptr(), value.len(), l) })
}

#[rustfmt::skip]
pub fn search(ty: &[u8], day: &[u8], path: &[u8], value: &[u8]) -> Result<Option<usize>, u32> {
    let mut found = 0;
    let index = outcome(|l| unsafe {
        niegluk_search(
            ty.as_ptr(), ty.len(), day.as_ptr(), day.len(), path.as_ptr(), path.len(),
            value.as_ptr(), value.len(), &mut found, l,
        )
    })?;
    Ok((found == 1).then_some(index))
}

/// The same by reading the part of each frame.
pub fn search_by_parts(ty: &[u8], day: &[u8], size: usize, path: &[u8], value: &[u8]) -> Option<usize> {
    let mut part = vec![0; value.len()];
    let reads = |frame: &[u8]| part_read(ty, frame, path, &mut part) == Ok(value.len()) && part == value;
    day.chunks_exact(size).position(reads)
}
