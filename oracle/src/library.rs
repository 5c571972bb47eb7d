//! The library, called through its C functions.

use crate::case::{Answer, Case};
use crate::expect::Entry;
use crate::faulty;

/// Is the entry in the library that is linked?
pub fn has(entry: Entry) -> bool {
    let linked = match entry {
        Entry::PartRead | Entry::PartEdit => cfg!(parts),
        Entry::CleanShape => cfg!(cleaning),
        Entry::Room | Entry::ShapeRecords => cfg!(room),
        Entry::Search => cfg!(search),
        _ => true,
    };
    faulty::at_work() || cfg!(library) && linked
}

#[cfg(library)]
#[rustfmt::skip]
mod c {
    pub type Bytes = *const u8;
    pub type Lent = *mut u8;
    pub type Length = *mut usize;
    pub type Flag = *mut u32;

    extern "C" {
        pub fn niegluk_lower(ty: Bytes, ty_len: usize, out: Lent, out_len: usize, length: Length) -> u32;
        pub fn niegluk_write_shape(
            ty: Bytes, ty_len: usize, value: Bytes, value_len: usize, out: Lent, out_len: usize, length: Length,
        ) -> u32;
        pub fn niegluk_reconstruct(
            ty: Bytes, ty_len: usize, shape: Bytes, shape_len: usize, out: Lent, out_len: usize, length: Length,
        ) -> u32;
        pub fn niegluk_write_frame(
            ty: Bytes, ty_len: usize, value: Bytes, value_len: usize, out: Lent, out_len: usize, length: Length,
        ) -> u32;
        pub fn niegluk_read_frame(
            ty: Bytes, ty_len: usize, frame: Bytes, frame_len: usize, out: Lent, out_len: usize, length: Length,
        ) -> u32;
    }

    #[cfg(parts)]
    extern "C" {
        pub fn niegluk_part_read(
            ty: Bytes, ty_len: usize, frame: Bytes, frame_len: usize, path: Bytes, path_len: usize,
            out: Lent, out_len: usize, length: Length,
        ) -> u32;
        pub fn niegluk_part_edit(
            ty: Bytes, ty_len: usize, frame: Lent, frame_len: usize, path: Bytes, path_len: usize,
            value: Bytes, value_len: usize, length: Length,
        ) -> u32;
    }

    #[cfg(cleaning)]
    extern "C" {
        pub fn niegluk_clean_shape(
            ty: Bytes, ty_len: usize, shape: Bytes, shape_len: usize, out: Lent, out_len: usize, length: Length,
        ) -> u32;
    }

    #[cfg(room)]
    extern "C" {
        pub fn niegluk_room(ty: Bytes, ty_len: usize, lowered: Length, bits: Length, shape: Length) -> u32;
        pub fn niegluk_shape_records(
            ty: Bytes, ty_len: usize, value: Bytes, value_len: usize, records: Length,
        ) -> u32;
    }

    #[cfg(search)]
    extern "C" {
        pub fn niegluk_search(
            ty: Bytes, ty_len: usize, day: Bytes, day_len: usize, path: Bytes, path_len: usize,
            value: Bytes, value_len: usize, found: Flag, index: Length,
        ) -> u32;
    }
}

/// Bytes on both sides of what is lent and of each argument, to see a write outside it.
#[cfg(library)]
const GUARD: usize = 64;

#[cfg(library)]
const GUARD_BYTE: u8 = 0x5c;

/// Words between and around the numbers of a reply, to see a write outside them.
#[cfg(library)]
const GUARD_WORD: usize = 0x5c5c_5c5c_5c5c_5c5c;

/// Words around the flag of a reply.
#[cfg(library)]
const GUARD_FLAG: u32 = 0x5c5c_5c5c;

/// A number of a reply before it is written; no entry tells it.
#[cfg(library)]
const UNTOLD: usize = 0xdead_beef;

#[cfg(library)]
const UNTOLD_FLAG: u32 = 0xdead_beef;

/// An empty slice is sometimes a null pointer.
#[cfg(library)]
fn pointer(bytes: &[u8], null: bool) -> *const u8 {
    if bytes.is_empty() && null {
        return std::ptr::null();
    }
    bytes.as_ptr()
}

/// The answer of the library, or of its faulty stand-in.
pub fn answer(case: &Case) -> Answer {
    match faulty::at_work() {
        true => faulty::answer(case),
        false => linked_answer(case),
    }
}

/// Bytes between guards.
#[cfg(library)]
fn guarded(bytes: &[u8], guard: u8) -> Vec<u8> {
    [&[guard; GUARD], bytes, &[guard; GUARD]].concat()
}

/// The library's answer. It panics where an argument changes, a byte outside the lent ones or the arguments or a word
/// beside the numbers.
#[cfg(library)]
fn linked_answer(case: &Case) -> Answer {
    let before = case.lent();
    let mut lent = guarded(&before, GUARD_BYTE);
    // The fill's lowest bit says whether empty slices are null pointers.
    let null = case.fill & 1 == 1;
    let room = before.len();
    let out = if room == 0 && null { std::ptr::null_mut() } else { lent[GUARD..].as_mut_ptr() };
    let mut words = [GUARD_WORD; 7];
    let told = |i: usize| 2 * i + 1;
    (0..3).for_each(|i| words[told(i)] = UNTOLD);
    let before_call = words;
    let first = words.as_mut_ptr();
    let mut flags = [GUARD_FLAG, UNTOLD_FLAG, GUARD_FLAG];
    // What stands around the arguments differs from case to case.
    let all: Vec<Vec<u8>> = case.args.iter().map(|arg| guarded(arg, case.fill)).collect();
    let args: Vec<&[u8]> = all.iter().map(|arg| &arg[GUARD..arg.len() - GUARD]).collect();
    let flag = flags[1..].as_mut_ptr();
    let number = call(case.entry, &args, null, out, room, |i| first.wrapping_add(told(i)), flag);
    assert!(all.iter().zip(&case.args).all(|(arg, old)| *arg == guarded(old, case.fill)), "an argument changed");
    // A search tells a flag before its one number.
    let searches = case.entry == Entry::Search;
    let flagged = searches.then(|| std::mem::replace(&mut flags[1], UNTOLD_FLAG) as usize);
    let count = case.entry.numbers().len() - searches as usize;
    let told = (0..count).map(|i| std::mem::replace(&mut words[told(i)], UNTOLD));
    let numbers: Vec<usize> = flagged.into_iter().chain(told).collect();
    assert!(words == before_call, "a word beside the numbers changed");
    assert!(flags == [GUARD_FLAG, UNTOLD_FLAG, GUARD_FLAG], "a word beside the flag changed");
    let outside = lent[..GUARD].iter().chain(&lent[GUARD + room..]);
    assert!(outside.into_iter().all(|&b| b == GUARD_BYTE), "a byte outside the lent ones changed");
    Answer { number, numbers, others: vec![], lent: lent[GUARD..GUARD + room].to_vec() }
}

#[cfg(library)]
fn call(
    entry: Entry,
    args: &[&[u8]],
    null: bool,
    out: c::Lent,
    room: usize,
    told: impl Fn(usize) -> c::Length,
    flag: c::Flag,
) -> u32 {
    let at = |i: usize| pointer(args[i], null);
    let len = |i: usize| args[i].len();
    let length = told(0);
    #[cfg(not(search))]
    let _ = flag;
    unsafe {
        match entry {
            Entry::Lower => c::niegluk_lower(at(0), len(0), out, room, length),
            Entry::WriteShape => c::niegluk_write_shape(at(0), len(0), at(1), len(1), out, room, length),
            Entry::Reconstruct => c::niegluk_reconstruct(at(0), len(0), at(1), len(1), out, room, length),
            Entry::WriteFrame => c::niegluk_write_frame(at(0), len(0), at(1), len(1), out, room, length),
            Entry::ReadFrame => c::niegluk_read_frame(at(0), len(0), at(1), len(1), out, room, length),
            #[cfg(parts)]
            Entry::PartRead => c::niegluk_part_read(at(0), len(0), at(1), len(1), at(2), len(2), out, room, length),
            #[cfg(parts)]
            Entry::PartEdit => c::niegluk_part_edit(at(0), len(0), out, room, at(2), len(2), at(3), len(3), length),
            #[cfg(cleaning)]
            Entry::CleanShape => c::niegluk_clean_shape(at(0), len(0), at(1), len(1), out, room, length),
            #[cfg(room)]
            Entry::Room => c::niegluk_room(at(0), len(0), told(0), told(1), told(2)),
            #[cfg(room)]
            Entry::ShapeRecords => c::niegluk_shape_records(at(0), len(0), at(1), len(1), told(0)),
            #[cfg(search)]
            Entry::Search => {
                c::niegluk_search(at(0), len(0), at(1), len(1), at(2), len(2), at(3), len(3), flag, told(0))
            }
            #[cfg(not(all(parts, cleaning, room, search)))]
            _ => unreachable!("not in the library"),
        }
    }
}

#[cfg(not(library))]
fn linked_answer(_: &Case) -> Answer {
    unreachable!("no library is linked")
}
