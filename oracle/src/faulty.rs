//! Stands in for a faulty library, to see that the comparison finds each fault and shrinks it.

use std::cmp::Reverse;
use std::sync::atomic::{AtomicUsize, Ordering};
use std::sync::Mutex;

use crate::case::{put_number, Answer, Case};
use crate::expect::{
    framed, lowered, outcome, reconstructed, shape_file, stretch_of_file, unframed, value_file, Entry, Outcome,
};
use crate::first_fault::faults;
use crate::frames::{self, Lowered};
use crate::paths::{follow, width};
use crate::spots::{met, with_units, Spot};
use crate::types::{check_lowering, read_type, split, write_type, Ty};
use crate::values::{read_value, write_value, Val};

pub const FAULTS: [&str; 76] = [
    "no fault",
    "an exact buffer is too short",
    "a length is one too long",
    "a refusal clears the buffer",
    "a result clears the bytes past its end",
    "a list is written without the elements after its first block",
    "an edit does nothing",
    "an edit follows only the first step",
    "reconstruction refuses a Never that it does not reach",
    "the depth is checked one level too late",
    "a row of the value comes before the frame's",
    "the last bit of a frame is lost",
    "an integer that is too large is said to be of another type",
    "the last fault of a value file decides",
    "a list at its bound is said to be of another type",
    "an integer is looked at before its record's choice and width",
    "anything may stand at a spot",
    "a spot refuses before what follows it is read",
    "a spot in a list is not looked at",
    "an array of 0 is not looked at",
    "the last spot of a shape decides",
    "a buffer that is too short refuses before a spot does",
    "what stands under a none or a bit is taken for a spot",
    "cleaning copies all",
    "cleaning puts a unit and goes on inside the tree that it replaced",
    "cleaning puts a unit under a none or a bit as well",
    "cleaning wants a buffer as long as the shape",
    "cleaning writes before it refuses",
    "a refused cleaning tells a length",
    "cleaning puts zeros behind its result, as far as the shape went",
    "cleaning refuses with 20",
    "cleaning stops at the first spot that has no unit",
    "cleaning leaves a spot in a list as it is",
    "cleaning leaves an array of 0 as it is",
    "cleaning refuses a type that does not lower",
    "cleaning refuses a buffer before it reads the shape",
    "the most records of a list are told with all its blocks empty",
    "the most records of a sum are told of its wider side",
    "the most records of a sum are told of its narrower side",
    "the most records of a product have a pair too many",
    "the most records of an enum of one variant have a sum",
    "the most records of an array of 0 have those of an element",
    "a type that lowers to too much is accepted with 65,537",
    "a type that lowers to too much is refused, but 65,537 is told",
    "the bits of a frame are told to the end of its last byte",
    "the records of the lowered type and of a shape are exchanged",
    "a refusal leaves the last number as it was",
    "the most records of the type are told for a value's shape",
    "the records of the value's file are told for its shape",
    "the shape's records of a list are told without the elements after its first block",
    "no fault: of several frames that match the last is found",
    "a search tells frame 0 wherever one matches",
    "a search skips the last frame",
    "a search skips the first frame",
    "a frame that is not accepted matches",
    "a frame with a tail bit matches",
    "a search compares only the first record",
    "a search compares only the first 8 bits of a part",
    "a search compares all but the last bit of a part",
    "a frame is told from 1 on",
    "a frame is told by its first byte",
    "the value's bits are kept where the part has another type",
    "a Boolean and a u1 are found as each other",
    "a search ends where the path leads nowhere",
    "a search ends at a frame that is not accepted",
    "a search is refused where the path leads nowhere",
    "a search is refused for its value file",
    "an odd path refuses before the day file",
    "a refused search leaves its flag as it was",
    "an index is told where no frame matches",
    "the flag tells how many frames match",
    "an empty day file is refused",
    "an edit of what an edit left puts back all around its part as it was before that one",
    "an edit of what an edit left counts the records as they were before that one",
    "a second edit of the same part is refused",
    "an edit to the value that is there is refused",
];

/// The faults from here on are those of the entries that only tell numbers.
const FIRST_OF_ROOM: usize = 36;

/// The faults from here on are those of a search. The first is none: it must not be found.
pub const FIRST_OF_SEARCH: usize = 50;

/// The faults from here on are those of two edits on one frame.
pub const FIRST_OF_PAIRS: usize = 72;

/// The accepted edit before this call: its arguments and what it left.
static EDIT_BEFORE: Mutex<Option<(Vec<Vec<u8>>, Vec<u8>)>> = Mutex::new(None);

/// The fault at work; the first one is none.
pub static FAULT: AtomicUsize = AtomicUsize::new(0);

pub fn at_work() -> bool {
    FAULT.load(Ordering::Relaxed) > 0
}

/// The answer of a library with this fault.
pub fn answer(case: &Case) -> Answer {
    let fault = FAULT.load(Ordering::Relaxed);
    let right = outcome(case.entry, &case.args);
    let mut answer = case.delivered(right.clone());
    let lends = !case.entry.only_tells();
    match fault {
        1 if lends && answer.number == 0 && answer.length() == case.room && case.entry != Entry::PartEdit => {
            case.delivered(Err(17))
        }
        2 if lends && answer.length() > 2 => Answer { numbers: vec![answer.length() + 1], ..answer },
        3 if answer.number > 13 => {
            answer.lent.fill(0);
            answer
        }
        4 if lends && answer.number == 0 => {
            let end = answer.length();
            answer.lent[end..].fill(0);
            answer
        }
        5 if case.entry == Entry::WriteShape => case.delivered(blanked(case).unwrap_or(right)),
        6 if case.entry == Entry::PartEdit => case.delivered(right.map(|_| case.args[1].clone())),
        7 if case.entry == Entry::PartEdit && case.args[2].len() > 2 && right.is_ok() => {
            let mut args = case.args.clone();
            args[2].truncate(2);
            case.delivered(outcome(case.entry, &args))
        }
        8 if case.entry == Entry::Reconstruct && right.is_ok() && outcome(Entry::Lower, &case.args) == Err(6) => {
            case.delivered(Err(10))
        }
        9 if right == Err(4) => case.delivered(outcome(case.entry, &raised(case)).or(Err(5))),
        10 if case.entry == Entry::PartEdit && right == Err(12) && case.args[3].len() % 36 != 0 => {
            case.delivered(Err(15))
        }
        11 if case.entry == Entry::WriteFrame && right.as_ref().is_ok_and(|frame| frame.len() > 1) => {
            let mut frame = right.unwrap();
            *frame.last_mut().unwrap() &= 0xfe;
            case.delivered(Ok(frame))
        }
        12 if right == Err(21) => case.delivered(Err(16)),
        13..=15 if matches!(right, Err(16 | 21 | 22)) => case.delivered(misnumbered(case, fault).map_or(right, Err)),
        16..=22 if case.entry == Entry::Reconstruct && matches!(right, Err(10 | 20)) => {
            case.delivered(misread(case, fault).unwrap_or(right))
        }
        27 if case.entry == Entry::CleanShape && matches!(answer.number, 10 | 17) => {
            let early = written_early(case);
            let room = answer.lent.len().min(early.len());
            answer.lent[..room].copy_from_slice(&early[..room]);
            answer
        }
        28 if case.entry == Entry::CleanShape && matches!(answer.number, 10 | 17) => {
            Answer { numbers: vec![written_early(case).len()], ..answer }
        }
        29 if case.entry == Entry::CleanShape && answer.number == 0 => {
            let (end, most) = (answer.length(), case.args[1].len().min(answer.lent.len()));
            answer.lent[end..most.max(end)].fill(0);
            answer
        }
        FIRST_OF_SEARCH..FIRST_OF_PAIRS if case.entry == Entry::Search => {
            missearched(case, fault - FIRST_OF_SEARCH, &answer).unwrap_or(answer)
        }
        FIRST_OF_ROOM..FIRST_OF_SEARCH if matches!(case.entry, Entry::Room | Entry::ShapeRecords) => {
            let numbers = mistold(case, fault, &answer);
            let number = if fault == 42 && answer.number == 7 { 0 } else { answer.number };
            Answer { number, numbers: numbers.unwrap_or(answer.numbers), ..answer }
        }
        23..FIRST_OF_ROOM if case.entry == Entry::CleanShape => {
            case.delivered(miscleaned(case, fault, &right).unwrap_or(right))
        }
        FIRST_OF_PAIRS.. if case.entry == Entry::PartEdit && right.is_ok() => {
            let before = EDIT_BEFORE.lock().expect("no call panics here").take();
            let answer = case.delivered(misedited(case, fault, &right, before).unwrap_or(right));
            if answer.number == 0 {
                let edit = (case.args.clone(), answer.lent.clone());
                *EDIT_BEFORE.lock().expect("no call panics here") = Some(edit);
            }
            answer
        }
        _ => answer,
    }
}

/// What one of the faults of two edits makes of an accepted one, where it matters. All but the last are those of an edit
/// of what the edit before has left.
fn misedited(case: &Case, fault: usize, right: &Outcome, before: Option<(Vec<Vec<u8>>, Vec<u8>)>) -> Option<Outcome> {
    if fault == FIRST_OF_PAIRS + 3 {
        let there = outcome(Entry::PartRead, &case.args[..3]);
        return (there.as_ref() == Ok(&case.args[3])).then_some(Err(16));
    }
    let (args, _) = before.filter(|(args, left)| args[0] == case.args[0] && *left == case.args[1])?;
    let ty = read_type(&case.args[0]).ok()?;
    let (earlier, old) = (unframed(&ty, &args[1]).ok()?, unframed(&ty, &case.args[1]).ok()?);
    match fault - FIRST_OF_PAIRS {
        0 => {
            let part = follow(&ty, &old, &case.args[2]).ok()?;
            let mut frame = args[1].clone();
            for i in part.bit..part.bit + width(part.ty) {
                let mask = 0x80 >> (i % 8);
                frame[i / 8] = frame[i / 8] & !mask | right.as_ref().ok()?[i / 8] & mask;
            }
            Some(Ok(frame))
        }
        1 => {
            let part = follow(&ty, &earlier, &case.args[2]).ok()?;
            let stretch = stretch_of_file(&part);
            let mut file = write_value(&old);
            if stretch.end > file.len() {
                return Some(Err(16));
            }
            file.splice(stretch, case.args[3].iter().copied());
            Some(read_value(&ty, &file).map(|val| framed(&ty, &val)))
        }
        2 => (args[2] == case.args[2]).then_some(Err(14)),
        _ => None,
    }
}

/// What one of the faults of a search answers, where it matters.
fn missearched(case: &Case, fault: usize, answer: &Answer) -> Option<Answer> {
    let [_, day, path, value] = &case.args[..] else { return None };
    let ty = read_type(&case.args[0]).ok().filter(|ty| check_lowering(ty).is_ok())?;
    let records = lowered(&ty);
    let lowered = Lowered::new(&records);
    let length = lowered.length();
    if length == 0 || day.len() % length != 0 {
        let first = fault == 17 && length > 0 && path.len() % 2 != 0;
        return match fault {
            18 => Some(Answer { numbers: vec![0xdead_beef, 0], ..answer.clone() }),
            _ => first.then(|| case.delivered(Err(13))),
        };
    }
    let frames: Vec<&[u8]> = day.chunks(length).collect();
    let telling = |numbers: [usize; 2]| Some(Answer { numbers: numbers.to_vec(), ..answer.clone() });
    let finding = |indexes: &[usize]| {
        let mut result = vec![];
        indexes.iter().for_each(|&index| put_number(&mut result, index));
        Some(case.delivered(Ok(result)))
    };
    let all = answer.indexes();
    match (fault, &all[..]) {
        (0, [.., last]) => return telling([1, *last]),
        (1, [_, ..]) => return telling([1, 0]),
        (2, _) => return finding(&all.into_iter().filter(|&i| i + 1 < frames.len()).collect::<Vec<_>>()),
        (3, _) => return finding(&all.into_iter().filter(|&i| i > 0).collect::<Vec<_>>()),
        (9, [one, ..]) => return telling([1, one + 1]),
        (10, [one, ..]) => return telling([1, one * length]),
        (18, _) if answer.number != 0 => return telling([0xdead_beef, 0]),
        (19, []) if answer.number == 0 => return telling([0, frames.len()]),
        (20, [_, ..]) => return telling([all.len(), all[0]]),
        (21, _) if frames.is_empty() => return Some(case.delivered(Err(19))),
        _ if answer.number != 0 => return None,
        _ => {}
    }
    // What is read of each frame, by its tags alone, and of the part.
    let mut found = vec![];
    let mut kept: Option<Option<Vec<u8>>> = None;
    for (index, frame) in frames.into_iter().enumerate() {
        let accepted = unframed(&ty, frame);
        let (shape, zero) = frames::read_anyway(&lowered, frame);
        let read = fault == 4 || fault == 5 && zero;
        let whole = match accepted {
            Ok(whole) => whole,
            Err(_) if read => reconstructed(&ty, &shape)?,
            Err(_) if fault == 14 => break,
            Err(_) => continue,
        };
        let Ok(part) = follow(&ty, &whole, path) else {
            match fault {
                13 => break,
                15 => return Some(case.delivered(Err(14))),
                _ => continue,
            }
        };
        let file = write_value(part.val);
        let val = read_value(part.ty, value);
        let bits = framed(part.ty, part.val);
        let own = val.as_ref().ok().map(|val| framed(part.ty, val));
        let alike = |own: &[u8], most: usize| {
            let same = |i: usize| i / 8 < own.len() && frames::bit(own, i) == frames::bit(&bits, i);
            (0..width(part.ty).min(most)).all(same)
        };
        let matches = match fault {
            6 => value.len() >= 36 && file[..36] == value[..36],
            7 => own.is_some_and(|own| alike(&own, 8)),
            8 => own.is_some_and(|own| alike(&own, width(part.ty).saturating_sub(1))),
            11 => kept.get_or_insert(own).as_ref().is_some_and(|own| alike(own, usize::MAX)),
            12 => flags_as_bits(&file) == flags_as_bits(value),
            16 => match val {
                Err(number) => return Some(case.delivered(Err(number))),
                Ok(_) => file == *value,
            },
            _ => file == *value,
        };
        if matches {
            found.push(index);
        }
    }
    finding(&found)
}

/// A value file with a u1 in place of each Boolean.
fn flags_as_bits(file: &[u8]) -> Vec<u8> {
    let mut file = file.to_vec();
    for record in file.chunks_exact_mut(36).filter(|record| record[0] == 1) {
        (record[0], record[3], record[35]) = (2, 1, record[1]);
        record[1] = 0;
    }
    file
}

/// The numbers that one of the faults of room and of a shape's records tells, where it matters.
fn mistold(case: &Case, fault: usize, answer: &Answer) -> Option<Vec<usize>> {
    let told = answer.numbers.clone();
    if fault == 46 && answer.number != 0 {
        return Some([&told[1..], &[0xdead_beef]].concat());
    }
    if matches!(fault, 42 | 43) && answer.number == 7 {
        return Some(vec![65_537; told.len()]);
    }
    if answer.number != 0 {
        return None;
    }
    let ty = read_type(&case.args[0]).ok()?;
    match (case.entry, fault) {
        (Entry::Room, 36..=41) => Some(vec![told[0], told[1], most(&ty, fault).records]),
        (Entry::Room, 44) => Some(vec![told[0], told[1].next_multiple_of(8), told[2]]),
        (Entry::Room, 45) => Some(vec![told[2], told[1], told[0]]),
        (Entry::ShapeRecords, 47) => Some(vec![most(&ty, fault).records]),
        (Entry::ShapeRecords, 48) => Some(vec![case.args[1].len() / 36]),
        (Entry::ShapeRecords, 49) => blanked(case)?.ok().map(|shape| vec![shape.len()]),
        _ => None,
    }
}

/// The most records of a shape, and the bits of a frame.
#[derive(Clone, Copy)]
struct Most {
    records: usize,
    bits: usize,
}

/// These of a type, kind by kind, with one of the faults.
fn most(ty: &Ty, fault: usize) -> Most {
    let unit = Most { records: 1, bits: 0 };
    let all = |types: &[Ty]| most_of_product(&types.iter().map(|t| most(t, fault)).collect::<Vec<_>>(), fault);
    match ty {
        Ty::Never => unit,
        Ty::Bool => Most { records: 2, bits: 1 },
        Ty::UInt(bits) => most_of_product(&vec![Most { records: 2, bits: 1 }; *bits], fault),
        Ty::Either(l, r) => most_of_sum(&[most(l, fault), most(r, fault)], fault),
        Ty::Option(t) => most_of_sum(&[unit, most(t, fault)], fault),
        Ty::Tuple(types) => all(types),
        Ty::Array(0, t) if fault == 41 => Most { bits: 0, ..most(t, fault) },
        Ty::Array(n, t) => most_of_product(&vec![most(t, fault); *n], fault),
        Ty::List(bound, t) => most_of_list(*bound, most(t, fault), fault),
        Ty::Enum(variants) => {
            let sum = most_of_sum(&variants.iter().map(|types| all(types)).collect::<Vec<_>>(), fault);
            Most { records: sum.records + (fault == 40 && variants.len() == 1) as usize, ..sum }
        }
    }
}

fn most_of_product(parts: &[Most], fault: usize) -> Most {
    let pairs = parts.len().saturating_sub(1);
    let more = (fault == 39 && pairs > 0) as usize;
    let records = parts.iter().map(|part| part.records).sum::<usize>().max(1);
    Most { records: records + pairs + more, bits: parts.iter().map(|part| part.bits).sum() }
}

fn most_of_sum(sides: &[Most], fault: usize) -> Most {
    if let [one] = sides {
        return *one;
    }
    let (left, right) = sides.split_at(split(sides.len()));
    let [l, r] = [left, right].map(|sides| most_of_sum(sides, fault));
    let (narrow, wide) = if l.bits < r.bits { (l, r) } else { (r, l) };
    let records = match fault {
        37 => wide.records,
        38 => narrow.records,
        _ => l.records.max(r.records),
    };
    Most { records: 1 + records, bits: 1 + wide.bits }
}

fn most_of_list(bound: usize, element: Most, fault: usize) -> Most {
    let block = most_of_product(&vec![element; bound / 2], fault);
    let some = Most { records: 1 + if fault == 36 { 1 } else { block.records }, bits: 1 + block.bits };
    match bound {
        2 => some,
        _ => most_of_product(&[some, most_of_list(bound / 2, element, fault)], fault),
    }
}

/// The number that one of the faults of value files gives to a refused one, where it matters.
fn misnumbered(case: &Case, fault: usize) -> Option<u32> {
    let (ty, mut file) = value_file(case.entry, &case.args)?;
    let all = faults(&ty, &file);
    let first = *all.iter().min()?;
    match fault {
        13 => all.iter().max_by_key(|f| (f.place, Reverse(f.number))).map(|f| f.number),
        14 if first.number == 22 => {
            let n = &mut file[36 * first.place + 2..][..2];
            let fewer = u16::from_be_bytes([n[0], n[1]]) - 1;
            n.copy_from_slice(&fewer.to_be_bytes());
            (!faults(&ty, &file).contains(&first)).then_some(16)
        }
        15 => all.iter().find(|f| f.place == first.place && f.number == 21).map(|f| f.number),
        _ => None,
    }
}

/// What one of the faults of shapes makes of a refused one, where it matters.
fn misread(case: &Case, fault: usize) -> Option<Outcome> {
    let (ty, shape) = shape_file(case.entry, &case.args)?;
    let met = met(&ty, shape);
    let lacking = met.lacking();
    let value = reconstructed(&ty, shape).map(|val| write_value(&val));
    let passes = match fault {
        16 => true,
        17 => return (lacking.first()?.place < met.misfits.first()?.place).then_some(Err(20)),
        18 => lacking.iter().all(|spot| in_list(spot)),
        19 => lacking.iter().all(|spot| spot.kind == 6),
        20 => met.spots.last()?.unit,
        21 => return (value?.len() > case.room).then_some(Err(17)),
        _ => return (!met.misfits.is_empty() && met.misfits.iter().all(|misfit| misfit.under)).then_some(Err(20)),
    };
    value.filter(|_| passes).map(Ok)
}

fn in_list(spot: &Spot) -> bool {
    spot.above.iter().any(|&(kind, _)| kind == 7)
}

/// What one of the faults of cleaning makes of a shape, where it matters.
fn miscleaned(case: &Case, fault: usize, right: &Outcome) -> Option<Outcome> {
    let (ty, shape) = shape_file(case.entry, &case.args)?;
    let met = met(&ty, shape);
    let with_some = |holds: fn(&Spot) -> bool| {
        let spots = met.spots.iter().filter(|spot| holds(spot));
        Some(Ok(with_units(shape, spots.map(|spot| spot.place))))
    };
    match (fault, right) {
        (23, Ok(_)) => Some(Ok(shape.to_vec())),
        (24, Ok(_)) => {
            let mut inside = shape.to_vec();
            met.spots.iter().for_each(|spot| inside[spot.place] = 0);
            Some(Ok(inside))
        }
        (25, Err(10)) if met.misfits.iter().all(|misfit| misfit.under) => {
            let spots = met.spots.iter().map(|spot| spot.place);
            let mut places: Vec<usize> = spots.chain(met.misfits.iter().map(|misfit| misfit.place)).collect();
            places.sort();
            Some(Ok(with_units(shape, places)))
        }
        (26, Ok(_)) | (35, Err(10)) => (case.room < shape.len()).then_some(Err(17)),
        (30, Ok(_)) => met.number().map(Err),
        (31, Ok(_)) => met.lacking().first().map(|spot| Ok(with_units(shape, [spot.place]))),
        (32, Ok(_)) => with_some(|spot| !in_list(spot)),
        (33, Ok(_)) => with_some(|spot| spot.kind != 6),
        (34, _) => check_lowering(&ty).err().map(Err),
        _ => None,
    }
}

/// The front of what cleaning makes of a shape that is one tree: up to where it is not of its type.
fn written_early(case: &Case) -> Vec<u8> {
    let Some((ty, shape)) = shape_file(case.entry, &case.args) else { return vec![] };
    let met = met(&ty, shape);
    let end = met.misfits.first().map_or(shape.len(), |misfit| misfit.place);
    let spots = met.spots.iter().map(|spot| spot.place);
    with_units(&shape[..end], spots.take_while(|&place| place < end))
}

/// The shape of the value without the elements after each list's first block.
fn blanked(case: &Case) -> Option<Outcome> {
    let ty = read_type(&case.args[0]).ok()?;
    let val = read_value(&ty, &case.args[1]).ok()?;
    let args = [write_type(&ty), write_value(&blank(&ty, &val))];
    Some(outcome(Entry::WriteShape, &args))
}

fn blank(ty: &Ty, val: &Val) -> Val {
    match (ty, val) {
        (Ty::List(bound, _), Val::List(all)) if all.len() > bound / 2 => Val::List(all[..bound / 2].to_vec()),
        (Ty::Tuple(types), Val::Tuple(all)) => Val::Tuple(types.iter().zip(all).map(|(t, v)| blank(t, v)).collect()),
        _ => val.clone(),
    }
}

/// The type without its first record, so that each other one stands a level higher.
fn raised(case: &Case) -> Vec<Vec<u8>> {
    let mut args = case.args.clone();
    args[0].drain(..4);
    args
}
