//! The functions of libniegluk.a, in safe Rust.
//!
//! Each takes whole files as bytes, writes its result to the front of `out` and answers the
//! result's length; an edit changes the frame's own bytes. Past the result's end no byte of `out`
//! changes, and where the operation is refused none at all. [`room`] and [`shape_records`] write
//! nothing: they tell how long buffers must be. Nor does [`search`]: it tells which frame of a day
//! file has a certain part. docs/FORMATS.md of the repository says what stands in the files. A List
//! bounded at b holds at most b - 1 elements.
//!
//! ```
//! // (u4, List of u1 bounded at 4), and the frame of (9, [1])
//! let ty = [5, 0, 0, 2, 2, 0, 0, 4, 7, 0, 0, 4, 2, 0, 0, 1];
//! let mut frame = [0x91, 0x80];
//! // a u4 that holds 6, for part 0
//! let mut six = [0; 36];
//! (six[0], six[3], six[35]) = (2, 4, 6);
//! niegluk::part_edit(&ty, &mut frame, &[0, 0], &six)?;
//! assert_eq!(frame, [0x61, 0x80]);
//! # Ok::<(), niegluk::Refusal>(())
//! ```
//!
//! No memory is taken but the stack; `NIEGLUK_STACK_..` in include/niegluk.h says how much. The
//! threads of the standard library have more, unless told otherwise. A thread with too little ends
//! at its guard page, as where Rust code overflows its stack.
//!
//! # Why this is safe
//!
//! The library asks of its caller that each pointer points to as many bytes as the length after it
//! says, that no one else writes them while the function runs, and that what the function writes
//! overlaps nothing else that is passed. A slice is as long as it says, and what it borrows changes
//! only through a `&mut`; a `&mut` overlaps no other borrow. Two `&` may overlap, and what is only
//! read may.

#![no_std]

mod c;
mod refusal;

pub use refusal::Refusal;

/// The room that a type takes, as [`room`] tells it.
#[derive(Clone, Copy, Debug, PartialEq, Eq, Hash)]
pub struct Room {
    /// The records of the lowered type: the bytes that [`lower`] writes.
    pub lowered: usize,
    /// The bits of a frame. It has `bits.div_ceil(8)` bytes.
    pub bits: usize,
    /// The most records that a shape has: the most bytes that [`write_shape`] writes. Some value's
    /// shape has as many, and none has more.
    pub shape: usize,
}

/// What a function of the library answered: its number, and what it left at `length`.
fn reply(number: u32, length: usize) -> Result<usize, Refusal> {
    match Refusal::of(number) {
        None => Ok(length),
        Some(refusal) => Err(refusal),
    }
}

/// Lowers a type: writes the lowered type's records, one byte each (0 a unit, 1 a sum, 2 a
/// product), parent first. At most 65,536 bytes.
///
/// # Errors
///
/// Numbers 1 to 7 and 17.
///
/// ```
/// // a u2 is a product of two bits, and a bit is a sum of two units
/// let mut out = [0xff; 8];
/// assert_eq!(niegluk::lower(&[2, 0, 0, 2], &mut out), Ok(7));
/// assert_eq!(out, [2, 1, 0, 0, 1, 0, 0, 0xff]);
/// // a Never
/// assert_eq!(niegluk::lower(&[0; 4], &mut out), Err(niegluk::Refusal::NeverStands));
/// ```
pub fn lower(ty: &[u8], out: &mut [u8]) -> Result<usize, Refusal> {
    let mut length = 0;
    // SAFETY: the lengths are the slices', and what is written, `out` and `length`, is `&mut`, so
    // nothing else overlaps it.
    let number = unsafe {
        c::niegluk_lower(
            ty.as_ptr(),
            ty.len(),
            out.as_mut_ptr(),
            out.len(),
            &raw mut length,
        )
    };
    reply(number, length)
}

/// Tells the room that a type takes. At most 65,536 records, 32,768 bits and 65,536 records.
///
/// # Errors
///
/// Numbers 1 to 7.
///
/// ```
/// // a List of u1 bounded at 4: its longest shapes are those of lists with three elements
/// let room = niegluk::room(&[7, 0, 0, 4, 2, 0, 0, 1])?;
/// assert_eq!((room.lowered, room.bits, room.shape), (15, 5, 10));
/// // a Never
/// assert_eq!(niegluk::room(&[0; 4]), Err(niegluk::Refusal::NeverStands));
/// # Ok::<(), niegluk::Refusal>(())
/// ```
pub fn room(ty: &[u8]) -> Result<Room, Refusal> {
    let (mut lowered, mut bits, mut shape) = (0, 0, 0);
    // SAFETY: the length is the slice's, and what is written, `lowered`, `bits` and `shape`, is
    // `&mut`, so nothing else overlaps it.
    let number = unsafe {
        c::niegluk_room(
            ty.as_ptr(),
            ty.len(),
            &raw mut lowered,
            &raw mut bits,
            &raw mut shape,
        )
    };
    let lowered = reply(number, lowered)?;
    Ok(Room {
        lowered,
        bits,
        shape,
    })
}

/// Writes the shape of a value: its records, one byte each (0 a unit, 1 a left, 2 a right, 3 a
/// pair), parent first. At most 65,536 bytes.
///
/// # Errors
///
/// Numbers 1 to 7, 15, 16, 21, 22 and 17.
///
/// ```
/// // true, as an Option of a Boolean
/// let mut value = [0; 72];
/// (value[0], value[1], value[36], value[37]) = (4, 1, 1, 1);
/// let mut out = [0; 3];
/// assert_eq!(niegluk::write_shape(&[4, 0, 0, 0, 1, 0, 0, 0], &value, &mut out), Ok(3));
/// assert_eq!(out, [2, 2, 0]);
/// ```
pub fn write_shape(ty: &[u8], value: &[u8], out: &mut [u8]) -> Result<usize, Refusal> {
    let mut length = 0;
    // SAFETY: the lengths are the slices', and what is written, `out` and `length`, is `&mut`, so
    // nothing else overlaps it.
    let number = unsafe {
        c::niegluk_write_shape(
            ty.as_ptr(),
            ty.len(),
            value.as_ptr(),
            value.len(),
            out.as_mut_ptr(),
            out.len(),
            &raw mut length,
        )
    };
    reply(number, length)
}

/// Tells how many records the shape of a value has: the length of what [`write_shape`] would write.
/// At most 65,536.
///
/// # Errors
///
/// Numbers 1 to 7, 15, 16, 21 and 22.
///
/// ```
/// // true, as an Option of a Boolean
/// let mut value = [0; 72];
/// (value[0], value[1], value[36], value[37]) = (4, 1, 1, 1);
/// assert_eq!(niegluk::shape_records(&[4, 0, 0, 0, 1, 0, 0, 0], &value), Ok(3));
/// ```
pub fn shape_records(ty: &[u8], value: &[u8]) -> Result<usize, Refusal> {
    let mut records = 0;
    // SAFETY: the lengths are the slices', and what is written, `records`, is `&mut`, so nothing
    // else overlaps it.
    let number = unsafe {
        c::niegluk_shape_records(
            ty.as_ptr(),
            ty.len(),
            value.as_ptr(),
            value.len(),
            &raw mut records,
        )
    };
    reply(number, records)
}

/// Reads a shape as a value of a type, and writes its value file, 36 bytes a record. The type need
/// not lower: a Never is refused only where the shape reaches it. Where an empty tuple, an array of
/// 0 or a variant without parts is read, only a unit may stand. For a type that lowers, what is
/// accepted are the shapes that belong to it, those that [`write_shape`] writes. At most 77,856,768
/// bytes.
///
/// # Errors
///
/// Numbers 1 to 5, 8, 9, 10, 20 and 17.
///
/// ```
/// // true, as an Option of a Boolean
/// let mut value = [0; 72];
/// assert_eq!(niegluk::reconstruct(&[4, 0, 0, 0, 1, 0, 0, 0], &[2, 2, 0], &mut value), Ok(72));
/// assert_eq!((value[0], value[1], value[36], value[37]), (4, 1, 1, 1));
///
/// // a pair where the empty tuple should stand
/// let pair = niegluk::reconstruct(&[5, 0, 0, 0], &[3, 0, 0], &mut value);
/// assert_eq!(pair, Err(niegluk::Refusal::NoUnit));
/// ```
pub fn reconstruct(ty: &[u8], shape: &[u8], out: &mut [u8]) -> Result<usize, Refusal> {
    let mut length = 0;
    // SAFETY: the lengths are the slices', and what is written, `out` and `length`, is `&mut`, so
    // nothing else overlaps it.
    let number = unsafe {
        c::niegluk_reconstruct(
            ty.as_ptr(),
            ty.len(),
            shape.as_ptr(),
            shape.len(),
            out.as_mut_ptr(),
            out.len(),
            &raw mut length,
        )
    };
    reply(number, length)
}

/// Cleans a shape: writes it with a unit wherever an empty tuple, an array of 0 or a variant without
/// parts is read, and all else as it is. It takes the shapes that [`reconstruct`] takes and those
/// that it refuses with 20, of any type. [`reconstruct`] accepts the result; for a type that lowers
/// it is what [`write_shape`] makes of that value. A shape that [`reconstruct`] accepts comes back
/// equal. Never longer than the shape, so at most 65,536 bytes.
///
/// # Errors
///
/// Numbers 1 to 5, 8, 9, 10 and 17.
///
/// ```
/// // a pair where the empty tuple should stand, beside true
/// let ty = [5, 0, 0, 2, 5, 0, 0, 0, 1, 0, 0, 0];
/// let mut out = [0xff; 6];
/// assert_eq!(niegluk::clean_shape(&ty, &[3, 3, 0, 0, 2, 0], &mut out), Ok(4));
/// assert_eq!(out, [3, 0, 2, 0, 0xff, 0xff]);
/// ```
pub fn clean_shape(ty: &[u8], shape: &[u8], out: &mut [u8]) -> Result<usize, Refusal> {
    let mut length = 0;
    // SAFETY: the lengths are the slices', and what is written, `out` and `length`, is `&mut`, so
    // nothing else overlaps it.
    let number = unsafe {
        c::niegluk_clean_shape(
            ty.as_ptr(),
            ty.len(),
            shape.as_ptr(),
            shape.len(),
            out.as_mut_ptr(),
            out.len(),
            &raw mut length,
        )
    };
    reply(number, length)
}

/// Writes the frame of a value: its bits, the first the highest of byte 0, and zeros to the end of
/// the last byte. At most 4,096 bytes, none for a type of width 0.
///
/// # Errors
///
/// Numbers 1 to 7, 15, 16, 21, 22 and 17.
///
/// ```
/// // a u4 that holds 9
/// let mut nine = [0; 36];
/// (nine[0], nine[3], nine[35]) = (2, 4, 9);
/// let mut frame = [0];
/// assert_eq!(niegluk::write_frame(&[2, 0, 0, 4], &nine, &mut frame), Ok(1));
/// assert_eq!(frame, [0x90]);
/// ```
pub fn write_frame(ty: &[u8], value: &[u8], out: &mut [u8]) -> Result<usize, Refusal> {
    let mut length = 0;
    // SAFETY: the lengths are the slices', and what is written, `out` and `length`, is `&mut`, so
    // nothing else overlaps it.
    let number = unsafe {
        c::niegluk_write_frame(
            ty.as_ptr(),
            ty.len(),
            value.as_ptr(),
            value.len(),
            out.as_mut_ptr(),
            out.len(),
            &raw mut length,
        )
    };
    reply(number, length)
}

/// Reads a frame of a type, and writes its value file, 36 bytes a record. A frame is accepted if
/// its length is the type's and no padding or tail bit is 1. At most 77,856,768 bytes.
///
/// # Errors
///
/// Numbers 1 to 7, 11, 12 and 17.
///
/// ```
/// let mut value = [0; 36];
/// assert_eq!(niegluk::read_frame(&[2, 0, 0, 4], &[0x90], &mut value), Ok(36));
/// assert_eq!(value[35], 9);
/// // a tail bit is 1
/// let refused = niegluk::read_frame(&[2, 0, 0, 4], &[0x91], &mut value);
/// assert_eq!(refused, Err(niegluk::Refusal::StrayBit));
/// ```
pub fn read_frame(ty: &[u8], frame: &[u8], out: &mut [u8]) -> Result<usize, Refusal> {
    let mut length = 0;
    // SAFETY: the lengths are the slices', and what is written, `out` and `length`, is `&mut`, so
    // nothing else overlaps it.
    let number = unsafe {
        c::niegluk_read_frame(
            ty.as_ptr(),
            ty.len(),
            frame.as_ptr(),
            frame.len(),
            out.as_mut_ptr(),
            out.len(),
            &raw mut length,
        )
    };
    reply(number, length)
}

/// Reads a part of a frame, and writes its value file, 36 bytes a record. A path is two-byte steps,
/// high byte first, of any number. Tuple, Array, List: index. Either: 0 or 1, the side taken.
/// Option: 0, if some. Enum: index in the payload of the variant present. The empty path is the
/// whole. At most 77,856,768 bytes.
///
/// # Errors
///
/// Numbers 1 to 7, 11 to 14 and 17.
///
/// ```
/// let ty = [5, 0, 0, 2, 2, 0, 0, 4, 7, 0, 0, 4, 2, 0, 0, 1];
/// let mut part = [0; 36];
/// // the element 0 of part 1
/// assert_eq!(niegluk::part_read(&ty, &[0x91, 0x80], &[0, 1, 0, 0], &mut part), Ok(36));
/// assert_eq!(part[35], 1);
/// ```
pub fn part_read(ty: &[u8], frame: &[u8], path: &[u8], out: &mut [u8]) -> Result<usize, Refusal> {
    let mut length = 0;
    // SAFETY: the lengths are the slices', and what is written, `out` and `length`, is `&mut`, so
    // nothing else overlaps it.
    let number = unsafe {
        c::niegluk_part_read(
            ty.as_ptr(),
            ty.len(),
            frame.as_ptr(),
            frame.len(),
            path.as_ptr(),
            path.len(),
            out.as_mut_ptr(),
            out.len(),
            &raw mut length,
        )
    };
    reply(number, length)
}

/// Replaces a part of a frame by a value of the part's type, in the frame's own bytes: the part's
/// bits, its inner padding included, are those of the new value's frame, and no other bit changes.
/// It answers the frame's length. Where it is refused, no bit of the frame changes.
///
/// # Errors
///
/// Numbers 1 to 7, 11 to 16, 21 and 22.
///
/// ```
/// // a u4 that holds 6 in the place of one that holds 9: the path of the whole is empty
/// let mut six = [0; 36];
/// (six[0], six[3], six[35]) = (2, 4, 6);
/// let mut frame = [0x90];
/// assert_eq!(niegluk::part_edit(&[2, 0, 0, 4], &mut frame, &[], &six), Ok(1));
/// assert_eq!(frame, [0x60]);
/// ```
pub fn part_edit(ty: &[u8], frame: &mut [u8], path: &[u8], value: &[u8]) -> Result<usize, Refusal> {
    let mut length = 0;
    // SAFETY: the lengths are the slices', and what is written, `frame` and `length`, is `&mut`, so
    // nothing else overlaps it.
    let number = unsafe {
        c::niegluk_part_edit(
            ty.as_ptr(),
            ty.len(),
            frame.as_mut_ptr(),
            frame.len(),
            path.as_ptr(),
            path.len(),
            value.as_ptr(),
            value.len(),
            &raw mut length,
        )
    };
    reply(number, length)
}

/// Searches a day file: frames of one type end to end, each of the type's frame length, no header. A
/// frame matches if it is accepted and [`part_read`], with room enough, would write exactly this
/// value file for it. It answers the index, from 0, of a frame that matches, any one if there are
/// several, and none only if no frame matches. A frame with a stray bit and one in which the path
/// leads to no part are passed over, and the value file is not checked: one that is no value matches
/// nothing.
///
/// # Errors
///
/// Numbers 1 to 7, 18, 19 and 13.
///
/// ```
/// // three frames of (u4, List of u1 bounded at 4); part 0 is 9, 6 and 9 in them
/// let ty = [5, 0, 0, 2, 2, 0, 0, 4, 7, 0, 0, 4, 2, 0, 0, 1];
/// let day = [0x91, 0x80, 0x61, 0x80, 0x90, 0x00];
/// let mut six = [0; 36];
/// (six[0], six[3], six[35]) = (2, 4, 6);
/// assert_eq!(niegluk::search(&ty, &day, &[0, 0], &six), Ok(Some(1)));
/// six[35] = 5;
/// assert_eq!(niegluk::search(&ty, &day, &[0, 0], &six), Ok(None));
/// // half a frame at the end
/// let cut = niegluk::search(&ty, &day[..5], &[0, 0], &six);
/// assert_eq!(cut, Err(niegluk::Refusal::DayLength));
/// ```
pub fn search(ty: &[u8], day: &[u8], path: &[u8], value: &[u8]) -> Result<Option<usize>, Refusal> {
    let (mut found, mut index) = (0, 0);
    // SAFETY: the lengths are the slices', and what is written, `found` and `index`, is `&mut`, so
    // nothing else overlaps it.
    let number = unsafe {
        c::niegluk_search(
            ty.as_ptr(),
            ty.len(),
            day.as_ptr(),
            day.len(),
            path.as_ptr(),
            path.len(),
            value.as_ptr(),
            value.len(),
            &raw mut found,
            &raw mut index,
        )
    };
    let index = reply(number, index)?;
    Ok((found == 1).then_some(index))
}
