//! The functions of include/niegluk.h. Each asks of its caller that
//!
//! - each pointer points to as many bytes as the length after it says, and that no one else writes
//!   them while the function runs;
//! - what it writes (`out`, the frame of an edit, `length`, a number that is told) overlaps nothing
//!   else that is passed.

pub type Bytes = *const u8;
pub type Lent = *mut u8;
pub type Length = *mut usize;
pub type Flag = *mut u32;

unsafe extern "C" {
    pub fn niegluk_lower(
        ty: Bytes,
        ty_len: usize,
        out: Lent,
        out_len: usize,
        length: Length,
    ) -> u32;

    pub fn niegluk_room(
        ty: Bytes,
        ty_len: usize,
        lowered: Length,
        bits: Length,
        shape: Length,
    ) -> u32;

    pub fn niegluk_write_shape(
        ty: Bytes,
        ty_len: usize,
        value: Bytes,
        value_len: usize,
        out: Lent,
        out_len: usize,
        length: Length,
    ) -> u32;

    pub fn niegluk_shape_records(
        ty: Bytes,
        ty_len: usize,
        value: Bytes,
        value_len: usize,
        records: Length,
    ) -> u32;

    pub fn niegluk_reconstruct(
        ty: Bytes,
        ty_len: usize,
        shape: Bytes,
        shape_len: usize,
        out: Lent,
        out_len: usize,
        length: Length,
    ) -> u32;

    pub fn niegluk_clean_shape(
        ty: Bytes,
        ty_len: usize,
        shape: Bytes,
        shape_len: usize,
        out: Lent,
        out_len: usize,
        length: Length,
    ) -> u32;

    pub fn niegluk_write_frame(
        ty: Bytes,
        ty_len: usize,
        value: Bytes,
        value_len: usize,
        out: Lent,
        out_len: usize,
        length: Length,
    ) -> u32;

    pub fn niegluk_read_frame(
        ty: Bytes,
        ty_len: usize,
        frame: Bytes,
        frame_len: usize,
        out: Lent,
        out_len: usize,
        length: Length,
    ) -> u32;

    pub fn niegluk_part_read(
        ty: Bytes,
        ty_len: usize,
        frame: Bytes,
        frame_len: usize,
        path: Bytes,
        path_len: usize,
        out: Lent,
        out_len: usize,
        length: Length,
    ) -> u32;

    pub fn niegluk_part_edit(
        ty: Bytes,
        ty_len: usize,
        frame: Lent,
        frame_len: usize,
        path: Bytes,
        path_len: usize,
        value: Bytes,
        value_len: usize,
        length: Length,
    ) -> u32;

    pub fn niegluk_search(
        ty: Bytes,
        ty_len: usize,
        day: Bytes,
        day_len: usize,
        path: Bytes,
        path_len: usize,
        value: Bytes,
        value_len: usize,
        found: Flag,
        index: Length,
    ) -> u32;
}
