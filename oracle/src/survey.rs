//! Counts what the random cases reach among the accepted ones, which faults meet in value files, what stands at the spots
//! of shapes, and what day files have.

use std::collections::BTreeMap;

use crate::case::{numbers_of, Case};
use crate::expect::{can_be_rewritten, outcome, reconstructed, shape_file, value_file, Entry, ENTRIES};
use crate::first_fault::faults;
use crate::frames::{self, Lowered};
use crate::generate::{random_case, Scale};
use crate::paths::{follow, width};
use crate::random::Random;
use crate::room::{has_few_values, Room};
use crate::spots::{met, Spot};
use crate::types::{check_lowering, children, lower, read_type, size, write_type, Ty};
use crate::values::{reconstruct, write_value};

/// The deepest record; a Variant is a level of its own.
fn depth(ty: &Ty) -> usize {
    let most = |types: &[Ty]| types.iter().map(depth).max().unwrap_or(0);
    match ty {
        Ty::Never | Ty::Bool | Ty::UInt(_) => 1,
        Ty::Either(l, r) => 1 + depth(l).max(depth(r)),
        Ty::Option(t) | Ty::Array(_, t) | Ty::List(_, t) => 1 + depth(t),
        Ty::Tuple(types) => 1 + most(types),
        Ty::Enum(variants) => 2 + variants.iter().map(|parts| most(parts)).max().unwrap_or(0),
    }
}

/// What a type file's records show.
fn features_of_records(file: &[u8]) -> Vec<String> {
    let mut all = vec![];
    for record in file.chunks(4) {
        let n = record[2] as usize * 256 + record[3] as usize;
        match (record[0], n) {
            (2, _) => all.push(format!("integer of {n:3} bits")),
            (6, 0) => all.push("array of 0".into()),
            (7, _) => all.push(format!("list bound {n:5}")),
            (8, 1) => all.push("enum of one variant".into()),
            (8, 90..) => all.push("enum of 90 variants or more".into()),
            _ => {}
        }
    }
    all
}

fn features(case: &Case, ty: &Ty, result: &[u8]) -> Vec<String> {
    let mut all = features_of_records(&case.args[0]);
    let mut put = |holds: bool, name: &str| {
        if holds {
            all.push(name.to_string());
        }
    };
    if case.entry == Entry::Room {
        put(has_few_values(ty), "every value is tried");
        put(narrower_is_longer(ty), "a narrower side that is longer");
        put(width(ty) == 0, "no bits");
    }
    if case.entry == Entry::ShapeRecords {
        let longest = result == &Room::of(&lower(ty)).file()[6..];
        put(longest, "as many records as a shape of the type can have");
    }
    if case.entry == Entry::Search {
        features_of_search(case, ty, result).into_iter().for_each(|name| put(true, &name));
    }
    put(depth(ty) == 32, "depth 32");
    put(case.args[0].len() >= 4_000, "1,000 records or more");
    put(case.args[0].len() == 4_096, "1,024 records");
    match check_lowering(ty) {
        Err(6) => put(true, "a Never that is not reached"),
        Err(_) => put(true, "beyond row 7"),
        Ok(()) => {
            put(size(ty) > 30_000, "lowers to over 30,000");
            put(size(ty) == 65_535, "lowers to 65,535");
        }
    }
    if matches!(case.entry, Entry::PartRead | Entry::PartEdit | Entry::Search) {
        let steps = case.args[2].len() / 2;
        put(true, &format!("path of {} steps", ["0", "1", "2", "3", "4 or more"][steps.min(4)]));
    }
    put(case.entry == Entry::PartEdit && result != case.args[1], "an edit that changes the frame");
    if case.entry.reads_shape() {
        put(case.args[1].len() > 65_000, "shape of over 65,000");
        let met = met(ty, &case.args[1]);
        put(true, &format!("{} spots with units", some(met.spots.len() - met.lacking().len())));
    }
    if case.entry == Entry::CleanShape {
        put(case.args[1] == result, "a shape that stays");
        put(case.args[1].len() > result.len() + 10_000, "cleaned of over 10,000 records");
        all.extend(lacking_units(case));
    }
    all
}

/// How many frames a day file has, which of them match, where the path leads, and what the damaged ones have.
fn features_of_search(case: &Case, ty: &Ty, result: &[u8]) -> Vec<String> {
    let [_, day, path, value] = &case.args[..] else { unreachable!("four arguments") };
    let records = lower(ty);
    let lowered = Lowered::new(&records);
    let frames: Vec<&[u8]> = day.chunks(lowered.length()).collect();
    let indexes = numbers_of(result);
    let (mut leads, mut sound, mut only_damaged) = (0, 0, false);
    let mut all: Vec<String> = vec![];
    let mut types: Vec<Vec<u8>> = vec![];
    for frame in &frames {
        let (shape, _) = frames::read_anyway(&lowered, frame);
        let val = reconstruct(ty, &shape).expect("a frame's shape belongs to its type");
        let part = follow(ty, &val, path).ok();
        let has = part.as_ref().is_some_and(|part| write_value(part.val) == *value);
        if frames::read(&lowered, frame).is_err() {
            only_damaged |= has && indexes.is_empty();
            all.push(format!("a damaged frame{}", if has { " that has the value" } else { "" }));
            continue;
        }
        sound += 1;
        leads += part.is_some() as usize;
        if let Some(part) = part.as_ref().filter(|_| !path.is_empty()) {
            types.push(write_type(part.ty));
            let bits = width(part.ty);
            let place = if part.bit % 8 == 0 { "at a byte" } else { "between bytes" };
            let wide = ["of no bits", "of up to 8 bits", "of more bits"][bits.min(1) + (bits > 8) as usize];
            all.push(format!("a part {wide} {place}"));
            if has {
                all.push(format!("found, {wide} {place}"));
            }
        }
    }
    types.sort();
    types.dedup();
    let led = ["no", "some", "all"][(leads > 0) as usize + (leads > 0 && leads == sound) as usize];
    let which = match &indexes[..] {
        [] => "nowhere",
        [_] if frames.len() == 1 => "the only frame",
        [0] => "the first alone",
        [one] if one + 1 == frames.len() => "the last alone",
        [_] => "one in the middle",
        all if all.len() == frames.len() => "all",
        _ => "several",
    };
    let count = match frames.len() {
        n @ 0..=1 => n.to_string(),
        2..=12 => "2 to 12".into(),
        13..=199 => "13 to 199".into(),
        _ => "200 or more".into(),
    };
    all.extend([format!("{count} frames"), format!("found {which}"), format!("the path leads in {led} sound frames")]);
    if types.len() > 1 {
        let files = if indexes.is_empty() { "nowhere" } else { "found" };
        all.push(format!("parts of different types, {files}"));
    }
    if only_damaged {
        all.push("nowhere, but in a damaged frame".into());
    }
    if value.is_empty() || value.len() % 36 != 0 {
        all.push("a value file of a bad length".into());
    }
    all
}

/// Has the type a choice whose narrower side has the longer shape?
fn narrower_is_longer(ty: &Ty) -> bool {
    let room = |t: &Ty| Room::of(&lower(t));
    let differ = |l: &Room, r: &Room| (l.bits < r.bits && l.shape > r.shape) || (l.bits > r.bits && l.shape < r.shape);
    let below = children(ty).into_iter().any(narrower_is_longer);
    below
        || match ty {
            Ty::Either(l, r) => differ(&room(l), &room(r)),
            Ty::Enum(variants) if variants.len() == 2 => {
                let [l, r] = [0, 1].map(|i| room(&Ty::Tuple(variants[i].clone())));
                differ(&l, &r)
            }
            _ => false,
        }
}

fn some(n: usize) -> &'static str {
    ["0", "1", "2", "3 or more"][n.min(3)]
}

/// How the fault that decides on a value file meets the others.
fn meetings(case: &Case) -> Vec<String> {
    let Some((ty, file)) = value_file(case.entry, &case.args) else { return vec![] };
    let mut all = faults(&ty, &file);
    all.sort();
    let Some((first, others)) = all.split_first() else { return vec![] };
    let mut met = vec![format!("fault {}", first.number)];
    for other in others {
        let place = match other.place {
            place if place == first.place => "beside",
            place if place == file.len() / 36 => "before the end,",
            _ => "before",
        };
        met.push(format!("fault {} {place} {}", first.number, other.number));
    }
    met
}

/// What is read at a spot, and right above it.
fn spot_name(spot: &Spot) -> String {
    let read = match spot.kind {
        5 => "an empty tuple",
        6 => "an array of 0",
        _ => "a variant without parts",
    };
    let above = match spot.above.last() {
        None => "alone",
        Some((3, _)) => "in an Either",
        Some((4, _)) => "in an Option",
        Some((5, _)) => "in a Tuple",
        Some((6, _)) => "in an Array",
        Some((7, _)) => "in a List",
        Some((8, 1)) => "in an Enum of one",
        Some((8, _)) => "in an Enum",
        Some((_, 1)) => "as a payload",
        Some(_) => "in a payload",
    };
    format!("{read} {above}")
}

/// At which spots of a shape anything but a unit stands, and how these meet what is not of the type.
fn lacking_units(case: &Case) -> Vec<String> {
    let Some((ty, shape)) = shape_file(case.entry, &case.args) else { return vec![] };
    let met = met(&ty, shape);
    let lacking = met.lacking();
    let mut all = vec![];
    let mut put = |holds: bool, name: String| {
        if holds {
            all.push(name);
        }
    };
    if let Some(val) = reconstructed(&ty, shape).filter(|_| !lacking.is_empty()) {
        let told = if case.entry == Entry::CleanShape { "cleaned" } else { "20" };
        lacking.iter().for_each(|spot| put(true, format!("{told} at {}", spot_name(spot))));
        put(true, format!("{told} at {} spots", some(lacking.len())));
        put(lacking.len() < met.spots.len(), format!("{told} beside a spot with its unit"));
        put(check_lowering(&ty) == Err(6), format!("{told}, a Never that is not reached"));
        put(check_lowering(&ty) == Err(7), format!("{told}, beyond row 7"));
        put(!can_be_rewritten(&ty, &val), format!("{told}, the published writer is not called"));
    }
    for misfit in &met.misfits {
        put(lacking.iter().any(|spot| spot.place < misfit.place), "10 behind a spot without its unit".into());
        put(lacking.iter().any(|spot| spot.place > misfit.place), "10 before a spot without its unit".into());
    }
    all
}

pub fn survey(seed: u64, count: u64) -> bool {
    let mut r = Random::new(seed);
    let mut reached: BTreeMap<String, u64> = BTreeMap::new();
    for _ in 0..count {
        let case = random_case(&mut r, &ENTRIES, Scale::Any);
        let mut all = match outcome(case.entry, &case.args) {
            Ok(result) => features(&case, &read_type(&case.args[0]).expect("the case is accepted"), &result),
            Err(16 | 21 | 22) => meetings(&case),
            Err(10 | 20) => lacking_units(&case),
            Err(_) => continue,
        };
        all.sort();
        all.dedup();
        for name in all {
            *reached.entry(format!("{name}, {}", case.entry.name())).or_default() += 1;
            *reached.entry(name).or_default() += 1;
        }
    }
    reached.iter().for_each(|(name, n)| println!("{n:8} {name}"));
    true
}
