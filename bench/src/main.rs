//! Counts instructions. For each job type, entry and writer it prepares all inputs, calls the entry once to see that the
//! answer is right, and then calls it CALLS times inside `measured`; `run` lets valgrind count what happens in there.
//!
//! Usage: bench CALLS [JOB ENTRY WRITER]. Each line of the output is one call of `measured`, in order.
//! Or: bench check FILE, to run recorded cases against the plain writer.

#![allow(dead_code)]

mod check;
mod days;
#[path = "../../oracle/src/frames.rs"]
mod frames;
mod jobs;
mod ours;
#[path = "../../oracle/src/paths.rs"]
mod paths;
mod plain;
/// The plain writer once more, for its search: so that it changes nothing in how the others are compiled.
#[path = "plain.rs"]
mod plain_days;
#[path = "../../oracle/src/rust.rs"]
mod rust;
mod second;
#[path = "../../oracle/src/spots.rs"]
mod spots;
#[path = "../../oracle/src/types.rs"]
mod types;
#[path = "../../oracle/src/values.rs"]
mod values;

use published::types::StructuralType;
use published::value::{StructuralValue, Value};

use days::Day;
use jobs::Job;
use types::{check_lowering, read_type, Ty};
use values::{check_shape, read_value, Val};

/// The region that valgrind counts.
#[no_mangle]
#[inline(never)]
pub fn measured(work: &mut dyn FnMut(), calls: usize) {
    for _ in 0..calls {
        work();
    }
}

/// The arguments of all entries, and their results.
struct Files {
    ty: Vec<u8>,
    value: Vec<u8>,
    lowered: Vec<u8>,
    shape: Vec<u8>,
    frame: Vec<u8>,
    path: Vec<u8>,
    part: Vec<u8>,
    new: Vec<u8>,
    edited: Vec<u8>,
}

fn files(job: &Job) -> Files {
    let ty = types::write_type(&job.ty);
    let value = values::write_value(&job.val);
    let path: Vec<u8> = job.path.iter().flat_map(|step| step.to_be_bytes()).collect();
    let new = values::write_value(&job.new);
    let frame = second::framed(&ty, &value).expect("the job is sound");
    let part = second::part_read(&ty, &frame, &path).expect("the path is sound");
    let edited = second::part_edit(&ty, &frame, &path, &new).expect("the new value is sound");
    let lowered = second::lowered(&ty).expect("the type lowers");
    let shape = second::shaped(&ty, &value).expect("the job is sound");
    Files { ty, value, lowered, shape, frame, path, part, new, edited }
}

const WRITING: [&str; 7] =
    ["lower", "write_shape", "reconstruct", "write_frame", "read_frame", "part_read", "part_edit"];

/// The entries that only tell numbers. They come last, behind all jobs of the others: what their writers take from the
/// allocator would shift the counts of those.
const TELLING: [&str; 2] = ["room", "shape_records"];

/// Ours, the published code from its own trees, the same from files and to files, the plain writer, the oracle's.
const WRITERS: [&str; 5] = ["ours", "published", "published-files", "plain", "second"];

/// What an entry writes.
fn result<'a>(entry: &str, f: &'a Files) -> &'a [u8] {
    match entry {
        "lower" => &f.lowered,
        "write_shape" => &f.shape,
        "reconstruct" | "read_frame" => &f.value,
        "write_frame" => &f.frame,
        "part_read" => &f.part,
        _ => &f.edited,
    }
}

/// A writer of the library's form: it writes into a lent buffer, for an edit the frame.
type Lending = fn(&Files, &mut [u8]) -> Result<usize, u32>;

fn lending(entry: &str, writer: &str) -> Option<Lending> {
    Some(match (writer, entry) {
        ("ours", "lower") => |f, out| ours::lower(&f.ty, out),
        ("ours", "write_shape") => |f, out| ours::write_shape(&f.ty, &f.value, out),
        ("ours", "reconstruct") => |f, out| ours::reconstruct(&f.ty, &f.shape, out),
        ("ours", "write_frame") => |f, out| ours::write_frame(&f.ty, &f.value, out),
        ("ours", "read_frame") => |f, out| ours::read_frame(&f.ty, &f.frame, out),
        ("ours", "part_read") => |f, out| ours::part_read(&f.ty, &f.frame, &f.path, out),
        ("ours", "part_edit") => |f, out| ours::part_edit(&f.ty, out, &f.path, &f.new),
        ("plain", "lower") => |f, out| plain::lower(&f.ty, out),
        ("plain", "write_shape") => |f, out| plain::write_shape(&f.ty, &f.value, out),
        ("plain", "reconstruct") => |f, out| plain::reconstruct(&f.ty, &f.shape, out),
        ("plain", "write_frame") => |f, out| plain::write_frame(&f.ty, &f.value, out),
        ("plain", "read_frame") => |f, out| plain::read_frame(&f.ty, &f.frame, out),
        ("plain", "part_read") => |f, out| plain::part_read(&f.ty, &f.frame, &f.path, out),
        ("plain", "part_edit") => |f, out| plain::part_edit(&f.ty, out, &f.path, &f.new),
        _ => return None,
    })
}

/// A writer that makes its result anew.
type Making = fn(&Files) -> Result<Vec<u8>, u32>;

fn making(entry: &str, writer: &str) -> Option<Making> {
    Some(match (writer, entry) {
        ("second", "lower") => |f| second::lowered(&f.ty),
        ("second", "write_shape") => |f| second::shaped(&f.ty, &f.value),
        ("second", "reconstruct") => |f| second::reconstructed(&f.ty, &f.shape),
        ("second", "write_frame") => |f| second::framed(&f.ty, &f.value),
        ("second", "read_frame") => |f| second::unframed(&f.ty, &f.frame),
        ("second", "part_read") => |f| second::part_read(&f.ty, &f.frame, &f.path),
        ("second", "part_edit") => |f| second::part_edit(&f.ty, &f.frame, &f.path, &f.new),
        ("published-files", "lower") => |f| Ok(rust::lower(&lowering(&f.ty)?)),
        ("published-files", "write_shape") => |f| {
            let ty = lowering(&f.ty)?;
            Ok(rust::shape(&ty, &read_value(&ty, &f.value)?))
        },
        ("published-files", "reconstruct") => |f| {
            let ty = read_type(&f.ty)?;
            check_shape(&f.shape)?;
            rust::reconstruct(&ty, &f.shape).ok_or(10)
        },
        _ => return None,
    })
}

fn lowering(file: &[u8]) -> Result<Ty, u32> {
    let ty = read_type(file)?;
    check_lowering(&ty)?;
    Ok(ty)
}

/// A writer that only tells numbers; of one number the others are 0.
type Telling = fn(&Files) -> Result<[usize; 3], u32>;

fn telling(entry: &str, writer: &str) -> Option<Telling> {
    Some(match (writer, entry) {
        ("ours", "room") => |f| ours::room(&f.ty),
        ("plain", "room") => |f| plain::room(&f.ty),
        ("second", "room") => |f| second::room(&f.ty),
        ("ours", "shape_records") => |f| Ok([ours::shape_records(&f.ty, &f.value)?, 0, 0]),
        ("plain", "shape_records") => |f| Ok([plain::shape_records(&f.ty, &f.value)?, 0, 0]),
        ("second", "shape_records") => |f| Ok([second::shape_records(&f.ty, &f.value)?, 0, 0]),
        _ => return None,
    })
}

/// Calls an entry; false if the writer does not have it.
fn measure(entry: &str, writer: &str, f: &Files, ty: &Ty, val: &Val, calls: usize) -> bool {
    if let Some(tell) = telling(entry, writer) {
        let right = if entry == "room" { second::room(&f.ty) } else { Ok([f.shape.len(), 0, 0]) };
        assert!(tell(f).is_ok() && tell(f) == right, "{writer} {entry}");
        measured(&mut || assert!(tell(f).is_ok()), calls);
        return true;
    }
    let right = result(entry, f);
    if let Some(write) = lending(entry, writer) {
        let lent = || if entry == "part_edit" { f.frame.clone() } else { vec![0xa5; right.len()] };
        let mut out = lent();
        assert!(write(f, &mut out) == Ok(right.len()) && out == right, "{writer} {entry}");
        out = lent();
        measured(&mut || assert!(write(f, &mut out).is_ok()), calls);
        return true;
    }
    if let Some(make) = making(entry, writer) {
        assert!(make(f).as_deref() == Ok(right), "{writer} {entry}");
        measured(&mut || assert!(make(f).is_ok()), calls);
        return true;
    }
    // The published code from trees that it finds ready; what it makes is dropped outside.
    let resolved = rust::resolved(ty);
    match (writer, entry) {
        ("published", "lower") => {
            let mut made = Vec::with_capacity(calls);
            measured(&mut || made.push(StructuralType::from(&resolved)), calls);
        }
        ("published", "write_shape") => {
            let value = rust::value(ty, val);
            let mut made = Vec::with_capacity(calls);
            measured(&mut || made.push(StructuralValue::from(&value)), calls);
        }
        ("published", "reconstruct") => {
            let shape = StructuralValue::from(rust::tree(&f.shape));
            let mut made = Vec::with_capacity(calls);
            measured(&mut || made.push(Value::reconstruct(&shape, &resolved)), calls);
            assert!(made.iter().all(Option::is_some));
        }
        _ => return false,
    }
    true
}

/// The arguments of a search, and what the loop beside it is given: the frames' length, the bits that are sought, and
/// where they stand.
struct Hunt {
    ty: Vec<u8>,
    day: Vec<u8>,
    path: Vec<u8>,
    value: Vec<u8>,
    size: usize,
    bits: Vec<u8>,
    width: usize,
    bit: usize,
}

fn hunt(day: &Day) -> Hunt {
    let ty = types::write_type(&day.ty);
    let path: Vec<u8> = day.path.iter().flat_map(|step| step.to_be_bytes()).collect();
    let value = values::write_value(&day.sought);
    let size = paths::width(&day.ty).div_ceil(8);
    let mut frames = vec![0; size * day.vals.len()];
    for (frame, val) in frames.chunks_exact_mut(size).zip(&day.vals) {
        ours::write_frame(&ty, &values::write_value(val), frame).expect("the job is sound");
    }
    let last = day.vals.last().expect("a day has a frame");
    let part = paths::follow(&day.ty, last, &path).expect("the path is sound");
    let bits = second::framed(&types::write_type(part.ty), &value).expect("the part is sound");
    Hunt { ty, day: frames, path, value, size, bits, width: paths::width(part.ty), bit: part.bit }
}

/// Ours, the loop that compares bits at one place, our `part_read` of each frame, the plain writer, and for a day of one
/// frame the oracle's `part_read`.
const SEARCHERS: [&str; 5] = ["ours", "loop", "part_read", "plain", "second"];

fn search(writer: &str, h: &Hunt) -> Result<Option<usize>, u32> {
    match writer {
        "ours" => ours::search(&h.ty, &h.day, &h.path, &h.value),
        "loop" => Ok(plain_days::compare_only(&h.day, h.size, h.bit, h.width, &h.bits)),
        "part_read" => Ok(ours::search_by_parts(&h.ty, &h.day, h.size, &h.path, &h.value)),
        "plain" => plain_days::search(&h.ty, &h.day, &h.path, &h.value),
        _ => Ok((second::part_read(&h.ty, &h.day, &h.path)? == h.value).then_some(0)),
    }
}

fn main() {
    let args: Vec<String> = std::env::args().skip(1).collect();
    if let [mode, file] = &args[..] {
        assert!(mode == "check", "usage: bench check FILE");
        std::process::exit(!check::check(file) as i32);
    }
    let calls = args.first().and_then(|n| n.parse().ok()).expect("usage: bench CALLS [JOB ENTRY WRITER]");
    let asked = |i: usize, name: &str| args.get(i).is_none_or(|arg| arg == name);
    measured(&mut || {}, calls);
    println!("nothing\tnothing\tnothing");
    for entries in [&WRITING[..], &TELLING[..]] {
        for job in jobs::jobs().iter().filter(|job| asked(1, job.name)) {
            let f = files(job);
            for entry in entries.iter().filter(|entry| asked(2, entry)) {
                for writer in WRITERS.into_iter().filter(|writer| asked(3, writer)) {
                    if measure(entry, writer, &f, &job.ty, &job.val, calls) {
                        println!("{}\t{entry}\t{writer}", job.name);
                    }
                }
            }
        }
    }
    // Searches come behind all others, for the same reason. The last column is the number of frames.
    for day in days::days().iter().filter(|day| asked(1, day.name) && asked(2, "search")) {
        let (h, frames) = (hunt(day), day.vals.len());
        let searchers = &SEARCHERS[..if frames == 1 { 5 } else { 4 }];
        for writer in searchers.iter().filter(|writer| asked(3, writer)) {
            assert!(search(writer, &h) == Ok(Some(frames - 1)), "{writer} search");
            measured(&mut || assert!(search(writer, &h).is_ok()), calls);
            println!("{}\tsearch\t{writer}\t{frames}", day.name);
        }
    }
}
