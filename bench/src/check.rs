//! Runs recorded cases (oracle/README.md, 'Recorded cases') against the plain writer, so that it is known to do the
//! whole job: every row, and every lent byte.

use crate::plain;

/// The bytes of a case before its files: entry, number, room and five lengths.
const HEAD: usize = 20;

/// A number of three bytes, the highest first.
fn number(bytes: &[u8]) -> usize {
    bytes.iter().fold(0, |n, &b| n << 8 | usize::from(b))
}

struct Case<'a> {
    entry: u8,
    refusal: u32,
    room: usize,
    /// Type, file, path, value, result.
    files: [&'a [u8]; 5],
}

/// The first case, and what is behind it.
fn take(bytes: &[u8]) -> (Case<'_>, &[u8]) {
    let (head, mut rest) = bytes.split_at(HEAD);
    let mut files = [&rest[..0]; 5];
    for (i, file) in files.iter_mut().enumerate() {
        let at = 5 + 3 * i;
        (*file, rest) = rest.split_at(number(&head[at..at + 3]));
    }
    (Case { entry: head[0], refusal: u32::from(head[1]), room: number(&head[2..5]), files }, rest)
}

/// Is the case answered as recorded? None where the plain writer has not the entry.
fn right(case: &Case) -> Option<bool> {
    let [ty, file, path, value, result] = case.files;
    let before = if case.entry == 7 { file.to_vec() } else { vec![0xa5; case.room] };
    let mut lent = before.clone();
    let out = &mut lent[..];
    let told = match case.entry {
        1 => plain::lower(ty, out),
        2 => plain::write_shape(ty, file, out),
        3 => plain::reconstruct(ty, file, out),
        4 => plain::write_frame(ty, file, out),
        5 => plain::read_frame(ty, file, out),
        6 => plain::part_read(ty, file, path, out),
        7 => plain::part_edit(ty, out, path, value),
        9 => return Some(told_right(case, plain::room(ty).map(|told| told.to_vec()))),
        10 => return Some(told_right(case, plain::shape_records(ty, file).map(|told| vec![told]))),
        _ => return None,
    };
    let mut after = before;
    after[..result.len()].copy_from_slice(result);
    Some(told == if case.refusal == 0 { Ok(result.len()) } else { Err(case.refusal) } && lent == after)
}

/// Are these the numbers of the result, three bytes each?
fn told_right(case: &Case, told: Result<Vec<usize>, u32>) -> bool {
    let result = case.files[4].chunks(3).map(number).collect();
    told == if case.refusal == 0 { Ok(result) } else { Err(case.refusal) }
}

/// Prints how many cases there are, and which differ.
pub fn check(file: &str) -> bool {
    let bytes = std::fs::read(file).expect("the file can be read");
    let (count, mut rest) = bytes.split_at(3);
    let (mut differ, mut skipped) = (0, 0);
    for i in 0..number(count) {
        let (case, behind) = take(rest);
        let right = right(&case);
        skipped += right.is_none() as usize;
        if right == Some(false) {
            println!("case {i} of entry {} differs", case.entry);
            differ += 1;
        }
        rest = behind;
    }
    let left = rest.len();
    println!("{} cases, {differ} differ, {skipped} of an entry that it has not, {left} bytes left over", number(count));
    differ == 0 && rest.is_empty()
}
