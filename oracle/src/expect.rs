//! What each entry answers: the rows in the order of 01 and 02, the published code where it decides, the second writer for frames.

use std::collections::HashMap;

use crate::case::put_number;
use crate::first_fault;
use crate::frames::{self, Lowered};
use crate::paths::{self, follow, Part};
use crate::room::{self, Room};
use crate::rust;
use crate::spots::{self, Met};
use crate::types::{self, all_small, check_lowering, lowering_work, read_type, without_never, Ty};
use crate::values::{self, check_shape, read_value, write_value, Val};

/// The entries. Recorded cases use these numbers.
#[derive(Clone, Copy, Debug, PartialEq)]
pub enum Entry {
    Lower = 1,
    WriteShape = 2,
    Reconstruct = 3,
    WriteFrame = 4,
    ReadFrame = 5,
    PartRead = 6,
    PartEdit = 7,
    CleanShape = 8,
    Room = 9,
    ShapeRecords = 10,
    Search = 11,
}

pub const ENTRIES: [Entry; 11] = [
    Entry::Lower,
    Entry::WriteShape,
    Entry::Reconstruct,
    Entry::WriteFrame,
    Entry::ReadFrame,
    Entry::PartRead,
    Entry::PartEdit,
    Entry::CleanShape,
    Entry::Room,
    Entry::ShapeRecords,
    Entry::Search,
];

impl Entry {
    pub fn name(self) -> &'static str {
        match self {
            Entry::Lower => "lower",
            Entry::WriteShape => "write_shape",
            Entry::Reconstruct => "reconstruct",
            Entry::WriteFrame => "write_frame",
            Entry::ReadFrame => "read_frame",
            Entry::PartRead => "part_read",
            Entry::PartEdit => "part_edit",
            Entry::CleanShape => "clean_shape",
            Entry::Room => "room",
            Entry::ShapeRecords => "shape_records",
            Entry::Search => "search",
        }
    }

    /// The names of the numbers that its reply has beside the first.
    pub fn numbers(self) -> &'static [&'static str] {
        match self {
            Entry::Room => &["lowered", "bits", "shape"],
            Entry::ShapeRecords => &["records"],
            Entry::Search => &["found", "index"],
            _ => &["length"],
        }
    }

    /// Does it only tell numbers, so that nothing is lent to it?
    pub fn only_tells(self) -> bool {
        matches!(self, Entry::Room | Entry::ShapeRecords | Entry::Search)
    }

    /// Does it read a shape? The type need not lower for it.
    pub fn reads_shape(self) -> bool {
        matches!(self, Entry::Reconstruct | Entry::CleanShape)
    }

    /// The names of the arguments, without the buffer.
    pub fn arguments(self) -> &'static [&'static str] {
        match self {
            Entry::Lower | Entry::Room => &["type"],
            Entry::WriteShape | Entry::WriteFrame | Entry::ShapeRecords => &["type", "value"],
            Entry::Reconstruct | Entry::CleanShape => &["type", "shape"],
            Entry::ReadFrame => &["type", "frame"],
            Entry::PartRead => &["type", "frame", "path"],
            Entry::PartEdit => &["type", "frame", "path", "value"],
            Entry::Search => &["type", "day", "path", "value"],
        }
    }
}

/// A result, or the number of the row that refuses. The result of an entry that only tells numbers are these, in three
/// bytes each; that of a search are the indexes of all frames that match, of which it tells any one.
pub type Outcome = Result<Vec<u8>, u32>;

/// Every number is below this.
pub const NUMBERS: usize = 23;

/// For a type that does not lower the published writer may make so many trees.
const MOST_WORK: usize = 1 << 22;

/// What an entry answers with a buffer that is long enough.
/// It panics where the published code and the plain one differ, or the two that number a value file or a shape or say
/// whether a frame matches, or where a cleaned shape or the room of a type is not what it must be.
pub fn outcome(entry: Entry, args: &[Vec<u8>]) -> Outcome {
    let ty = read_type(&args[0])?;
    if entry.reads_shape() {
        check_shape(&args[1])?;
        return match entry {
            Entry::Reconstruct => restored(&ty, &args[1]).map(|val| write_value(&val)),
            _ => cleaned(&ty, &args[1]),
        };
    }
    check_lowering(&ty)?;
    match entry {
        Entry::Lower => Ok(lowered(&ty)),
        Entry::Room => Ok(room::told(&ty).file()),
        Entry::WriteShape => Ok(shaped_within(&ty, &valued(&ty, &args[1])?)),
        Entry::ShapeRecords => Ok(records_told(&shaped_within(&ty, &valued(&ty, &args[1])?))),
        Entry::WriteFrame => Ok(framed(&ty, &valued(&ty, &args[1])?)),
        Entry::ReadFrame => Ok(write_value(&unframed(&ty, &args[1])?)),
        Entry::PartRead => part_read(&ty, &args[1], &args[2]),
        Entry::Search => searched(&ty, &args[1], &args[2], &args[3]),
        _ => part_edit(&ty, &args[1], &args[2], &args[3]),
    }
}

/// The lowered type, told by the published code.
pub fn lowered(ty: &Ty) -> Vec<u8> {
    let told = rust::lower(ty);
    assert!(told == types::lower(ty), "lowered types differ");
    assert!(told.len() as u64 == types::size(ty), "sizes differ");
    told
}

/// The value of a file: rows 15, 16, 21 and 22. The number is told by the reader and by the list of all faults.
pub fn valued(ty: &Ty, file: &[u8]) -> Result<Val, u32> {
    let read = read_value(ty, file);
    let (by_reader, by_list) = (read.as_ref().err().copied(), first_fault::number(ty, file));
    assert!(by_reader == by_list, "numbers of a value file differ: read {by_reader:?}, listed {by_list:?}");
    read
}

/// The shape, told by the published code.
pub fn shaped(ty: &Ty, val: &Val) -> Vec<u8> {
    let told = rust::shape(ty, val);
    assert!(told == values::shape(ty, val), "shapes differ");
    told
}

/// The shape of a value. It has no more records than the type's room says, and its frame as many bits.
fn shaped_within(ty: &Ty, val: &Val) -> Vec<u8> {
    let shape = shaped(ty, val);
    let records = lowered(ty);
    let room = Room::of(&records);
    assert!(shape.len() <= room.shape, "a shape has more records than the most that is told");
    assert!(frames::bits(&Lowered::new(&records), &shape).len() == room.bits, "a frame has not the bits that are told");
    shape
}

/// The number of a shape's records, as a result.
fn records_told(shape: &[u8]) -> Vec<u8> {
    let mut out = vec![];
    put_number(&mut out, shape.len());
    out
}

/// A shape by the earlier reading, before R-5: what is met in it, its value and the cleaned shape, or row 10. The cleaned
/// shape is told by the walk to the spots, and by two writers: it is what they make of the value that was read. The one
/// is the published code alone.
fn read_before(ty: &Ty, shape: &[u8]) -> Result<(Met, Val, Vec<u8>), u32> {
    let met = spots::met(ty, shape);
    let read = reconstructed(ty, shape);
    assert!(read.is_none() == (met.number() == Some(10)), "row 10 of a shape differs: walked {:?}", met.number());
    let val = read.ok_or(10u32)?;
    let clean = met.cleaned(shape);
    assert!(values::shape(ty, &val) == clean, "a cleaned shape is not what the plain writer makes of its value");
    if can_be_rewritten(ty, &val) {
        let written = rust::rewritten(&without_never(ty), shape).expect("the shape was read");
        assert!(written == clean, "a cleaned shape is not what the published writer makes of its value");
    }
    Ok((met, val, clean))
}

/// The value of a shape by today's reading: rows 10 and 20. 20 is told by the walk to the spots, and it comes where the
/// cleaned shape is another one.
fn restored(ty: &Ty, shape: &[u8]) -> Result<Val, u32> {
    let (met, val, clean) = read_before(ty, shape)?;
    let walked = met.number();
    assert!((clean != shape) == (walked == Some(20)), "row 20 of a shape differs: walked {walked:?}");
    walked.map_or(Ok(val), Err)
}

/// The cleaned shape: row 10. Both readings give it the value of the shape, it stays when it is cleaned again, and for a
/// type that lowers it is the value's shape.
fn cleaned(ty: &Ty, shape: &[u8]) -> Outcome {
    let (met, val, clean) = read_before(ty, shape)?;
    assert!((clean == shape) == met.lacking().is_empty(), "a shape that passes is changed, or one that does not stays");
    assert!(clean.len() <= shape.len(), "a cleaned shape is longer");
    assert!(
        reconstructed(ty, &clean).as_ref() == Some(&val),
        "a cleaned shape has another value by the earlier reading"
    );
    assert!(restored(ty, &clean).as_ref() == Ok(&val), "a cleaned shape has another value by today's reading, or none");
    assert!(spots::met(ty, &clean).cleaned(&clean) == clean, "a cleaned shape is cleaned again");
    if check_lowering(ty).is_ok() {
        assert!(shaped(ty, &val) == clean, "a cleaned shape is not the shape of its value");
    }
    Ok(clean)
}

/// The file of the value that the earlier reading gives to the shape of a case that it accepts.
pub fn value_before(args: &[Vec<u8>]) -> Vec<u8> {
    let ty = read_type(&args[0]).expect("the type is sound");
    write_value(&reconstructed(&ty, &args[1]).expect("the shape was read"))
}

/// Is the published writer called? It lowers a type at most values, which may take too long. It would panic at a Never:
/// empty tuples stand for those, as the shape reaches none.
pub fn can_be_rewritten(ty: &Ty, val: &Val) -> bool {
    all_small(ty) || lowering_work(ty) * val.records() <= MOST_WORK
}

/// The value of a shape by the earlier reading, before R-5: told by the published code.
pub fn reconstructed(ty: &Ty, shape: &[u8]) -> Option<Val> {
    let told = rust::reconstruct(ty, shape);
    let plain = values::reconstruct(ty, shape);
    assert!(told == plain.as_ref().map(write_value), "reconstructed values differ");
    plain
}

/// The frame, told by the second writer from the published lowered type and shape.
pub fn framed(ty: &Ty, val: &Val) -> Vec<u8> {
    let records = lowered(ty);
    let frame = frames::write(&Lowered::new(&records), &shaped(ty, val));
    assert!(frame.len() <= 4096, "frame too long");
    frame
}

/// The value of a frame, told by the second reader and the published `reconstruct`.
pub fn unframed(ty: &Ty, frame: &[u8]) -> Result<Val, u32> {
    unframed_over(ty, &Lowered::new(&lowered(ty)), frame)
}

/// The same, with the lowered type.
fn unframed_over(ty: &Ty, lowered: &Lowered, frame: &[u8]) -> Result<Val, u32> {
    let shape = frames::read(lowered, frame)?;
    Ok(reconstructed(ty, &shape).expect("a frame's shape belongs to its type"))
}

/// The file of a part: its records in the file of the whole.
fn part_read(ty: &Ty, frame: &[u8], path: &[u8]) -> Outcome {
    let old = unframed(ty, frame)?;
    let part = follow(ty, &old, path)?;
    Ok(part_file(&old, &part))
}

fn part_file(whole: &Val, part: &Part) -> Vec<u8> {
    let file = &write_value(whole)[stretch_of_file(part)];
    assert!(file == write_value(part.val), "part files differ");
    file.to_vec()
}

/// The frames of a day file: rows 18 and 19.
pub fn frames_of_day<'a>(lowered: &Lowered, day: &'a [u8]) -> Result<std::slice::Chunks<'a, u8>, u32> {
    match lowered.length() {
        0 => Err(18),
        length if day.len() % length != 0 => Err(19),
        length => Ok(day.chunks(length)),
    }
}

/// The indexes of all frames of a day file that match: rows 18, 19 and 13.
fn searched(ty: &Ty, day: &[u8], path: &[u8], value: &[u8]) -> Outcome {
    let records = lowered(ty);
    let lowered = Lowered::new(&records);
    let frames = frames_of_day(&lowered, day)?;
    if path.len() % 2 != 0 {
        return Err(13);
    }
    let mut seen: HashMap<&[u8], bool> = HashMap::new();
    let mut out = vec![];
    for (index, frame) in frames.enumerate() {
        if *seen.entry(frame).or_insert_with(|| frame_matches(ty, &lowered, frame, path, value)) {
            put_number(&mut out, index);
        }
    }
    Ok(out)
}

/// Does a frame match: is it accepted, and gives reading the part exactly the value file? It does where the file is of
/// a value of the part's type, and this value's frame stands in the part's stretch; and only there.
fn frame_matches(ty: &Ty, lowered: &Lowered, frame: &[u8], path: &[u8], value: &[u8]) -> bool {
    let Ok(whole) = unframed_over(ty, lowered, frame) else { return false };
    let Ok(part) = follow(ty, &whole, path) else { return false };
    let by_file = part_file(&whole, &part) == value;
    let by_bits = valued(part.ty, value).is_ok_and(|val| stands(&part, frame, &framed(part.ty, &val)));
    assert!(by_file == by_bits, "a frame matches by file {by_file}, by bits {by_bits}");
    by_file
}

/// Does the frame of a value of the part's type stand in the part's stretch?
fn stands(part: &Part, frame: &[u8], own: &[u8]) -> bool {
    (0..paths::width(part.ty)).all(|i| frames::bit(frame, part.bit + i) == frames::bit(own, i))
}

/// The bytes of a part's records in the file of the whole.
pub fn stretch_of_file(part: &Part) -> std::ops::Range<usize> {
    part.record * 36..(part.record + part.val.records()) * 36
}

/// The frame of the value whose part is replaced, record for record.
fn part_edit(ty: &Ty, frame: &[u8], path: &[u8], new: &[u8]) -> Outcome {
    let old = unframed(ty, frame)?;
    let part = follow(ty, &old, path)?;
    let new_val = valued(part.ty, new)?;
    let mut file = write_value(&old);
    file.splice(stretch_of_file(&part), new.iter().copied());
    let whole = valued(ty, &file).expect("the replaced file is a value of the type");
    let edited = framed(ty, &whole);
    check_stretch(&part, frame, &edited, &framed(part.ty, &new_val));
    Ok(edited)
}

/// The type that the value file of a case must be of, and the file. None where the case has none or an earlier row holds.
pub fn value_file(entry: Entry, args: &[Vec<u8>]) -> Option<(Ty, Vec<u8>)> {
    let ty = read_type(&args[0]).ok()?;
    check_lowering(&ty).ok()?;
    match entry {
        Entry::WriteShape | Entry::WriteFrame | Entry::ShapeRecords => Some((ty, args[1].clone())),
        Entry::PartEdit => {
            let old = unframed(&ty, &args[1]).ok()?;
            let part = follow(&ty, &old, &args[2]).ok()?;
            Some((part.ty.clone(), args[3].clone()))
        }
        _ => None,
    }
}

/// The type and the shape of a case. None where it has no shape or an earlier row holds.
pub fn shape_file(entry: Entry, args: &[Vec<u8>]) -> Option<(Ty, &[u8])> {
    let ty = read_type(&args[0]).ok()?;
    let shape = args.get(1).filter(|_| entry.reads_shape())?;
    check_shape(shape).ok()?;
    Some((ty, shape))
}

/// No bit outside the part's stretch changes, and the stretch is the part's own frame.
fn check_stretch(part: &Part, before: &[u8], after: &[u8], own: &[u8]) {
    let end = part.bit + paths::width(part.ty);
    for i in 0..before.len() * 8 {
        let right = if i < part.bit || i >= end { frames::bit(before, i) } else { frames::bit(own, i - part.bit) };
        assert!(frames::bit(after, i) == right, "bit {i} of an edited frame");
    }
}
