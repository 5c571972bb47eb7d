//! Slices that a caller of C functions would look at twice: the same one twice, and empty ones.

use niegluk::{Refusal, part_edit, read_frame, write_frame};

#[test]
fn what_is_only_read_may_overlap() {
    // u32, and its four bytes again as a frame
    let file = [2, 0, 0, 32];
    let mut out = [7; 37];
    assert_eq!(read_frame(&file, &file, &mut out), Ok(36));
    assert_eq!(out[..4], file);
    assert_eq!(out[32..], [2, 0, 0, 32, 7]);
}

#[test]
fn slices_may_be_empty() {
    // the empty tuple has a frame of no bytes
    let unit = [5, 0, 0, 0];
    let mut value = [0; 36];
    value[0] = 5;
    assert_eq!(write_frame(&unit, &value, &mut []), Ok(0));
    assert_eq!(part_edit(&unit, &mut [], &[], &value), Ok(0));
    assert_eq!(read_frame(&unit, &[], &mut []), Err(Refusal::NoRoom));
    assert_eq!(write_frame(&[], &[], &mut []), Err(Refusal::TypeLength));
}
