//! Cases at the limits: the most records, the deepest types, the longest values; and values of every number of parts.

use crate::case::Case;
use crate::compare::Tally;
use crate::expect::{framed, Entry, Outcome, ENTRIES};
use crate::generate::{random_path, random_value, shape_with_tree};
use crate::paths::follow;
use crate::random::Random;
use crate::spoil::spoiled;
use crate::types::{check_lowering, write_type, Ty};
use crate::values::{shape, shape_over, write_value, Val};

/// So many values of each type are tried.
const VALUES: usize = 1;

/// No value has more records.
const MOST: i64 = 1 << 21;

fn nest(levels: usize, inner: Ty, wrap: impl Fn(Ty) -> Ty) -> Ty {
    (0..levels).fold(inner, |ty, _| wrap(ty))
}

fn types() -> Vec<(&'static str, Ty)> {
    let unit = Ty::Tuple(vec![]);
    let single = |ty| Ty::Tuple(vec![ty]);
    let array = |n, ty| Ty::Array(n, Box::new(ty));
    let list = |bound, ty| Ty::List(bound, Box::new(ty));
    let wide = |ty| Ty::Tuple([vec![ty], vec![Ty::Tuple(vec![]); 32]].concat());
    vec![
        ("32,768 units, 30 tuples deep", array(32_768, nest(30, unit.clone(), single))),
        ("16,384 Booleans, 30 tuples deep", array(16_384, nest(30, Ty::Bool, single))),
        ("a list of units", list(16_384, unit.clone())),
        ("a list of Booleans", list(8_192, Ty::Bool)),
        ("64 integers of 256 bits", array(64, Ty::UInt(256))),
        ("31 lists of a u256", nest(31, Ty::UInt(256), |ty| Ty::List(2, Box::new(ty)))),
        ("8 lists of bound 4", nest(8, Ty::Bool, |ty| Ty::List(4, Box::new(ty)))),
        ("15 enums", nest(15, Ty::UInt(8), |ty| Ty::Enum(vec![vec![], vec![ty, Ty::Bool]]))),
        ("31 tuples of 33 parts", nest(31, Ty::Bool, wide)),
        ("1,023 integers of 4 bits", Ty::Tuple(vec![Ty::UInt(4); 1_023])),
        ("1,022 parts in a variant", Ty::Enum(vec![vec![Ty::Bool; 1_022]])),
        ("511 variants", Ty::Enum(vec![vec![Ty::UInt(8)]; 511])),
        ("Eithers inside each other", nest(31, Ty::UInt(64), |ty| Ty::Either(Box::new(Ty::Bool), Box::new(ty)))),
        ("a unit", unit.clone()),
        ("Eithers of units", nest(31, unit.clone(), |ty| Ty::Either(Box::new(unit.clone()), Box::new(ty)))),
    ]
}

fn arguments(r: &mut Random, entry: Entry, ty: &Ty, val: &Val) -> Vec<Vec<u8>> {
    let file = write_type(ty);
    match entry {
        Entry::Lower | Entry::Room => vec![file],
        Entry::WriteShape | Entry::WriteFrame | Entry::ShapeRecords => vec![file, write_value(val)],
        Entry::Reconstruct | Entry::CleanShape => vec![file, shape(ty, val)],
        Entry::ReadFrame => vec![file, framed(ty, val)],
        Entry::Search => day_arguments(r, ty, val),
        _ => {
            let path = random_path(r, val);
            let mut all = vec![file, framed(ty, val), path];
            if entry == Entry::PartEdit {
                let part = follow(ty, val, &all[2]).unwrap_or_else(|_| panic!("the path is sound"));
                let new = random_value(r, part.ty, &mut MOST.clone()).expect("the type has a value");
                all.push(write_value(&new));
            }
            all
        }
    }
}

/// A day file of the value and of two others, one of which differs in a bit, in any order, a path and its part.
fn day_arguments(r: &mut Random, ty: &Ty, val: &Val) -> Vec<Vec<u8>> {
    let path = random_path(r, val);
    let part = follow(ty, val, &path).unwrap_or_else(|_| panic!("the path is sound"));
    let other = random_value(r, ty, &mut MOST.clone()).expect("the type has a value");
    let mut frames = vec![framed(ty, val), framed(ty, &other), framed(ty, val)];
    if let Some(bits) = Some(frames[2].len() * 8).filter(|&bits| bits > 0) {
        let bit = r.below(bits);
        frames[2][bit / 8] ^= 0x80 >> (bit % 8);
    }
    let first = r.below(3);
    frames.rotate_left(first);
    vec![write_type(ty), frames.concat(), path, write_value(part.val)]
}

fn with_argument(args: &[Vec<u8>], which: usize, new: Vec<u8>) -> Vec<Vec<u8>> {
    let mut args = args.to_vec();
    args[which] = new;
    args
}

/// Searches of day files of many frames, of which only the last matches, or none.
fn long_days(r: &mut Random, tally: &mut Tally) {
    let option = Ty::Option(Box::new(Ty::UInt(4)));
    let days = [
        (Ty::UInt(8), vec![], Val::UInt(8, with_last(9)), [8, 9]),
        (option, vec![0, 0], Val::UInt(4, with_last(9)), [0xc0, 0xc8]),
    ];
    for (ty, path, val, [other, sought]) in days {
        for (n, last) in [(255, sought), (65_536, sought), (65_537, sought), (70_000, other), (300_000, sought)] {
            let day = [vec![other; n - 1], vec![last]].concat();
            let args = vec![write_type(&ty), day, path.clone(), write_value(&val)];
            let mut case = Case { entry: Entry::Search, args, room: 0, fill: r.byte(), plain_fill: false };
            tally.run(&mut case, |_, _| 0, None);
        }
    }
}

/// An integer's bytes.
fn with_last(byte: u8) -> [u8; 32] {
    let mut bytes = [0; 32];
    bytes[31] = byte;
    bytes
}

/// Shapes of a value with trees in place of units: the smallest tree at one spot, one that makes the shape as long as it
/// may be, one that makes it too long, and a left at every spot.
fn shapes_without_units(r: &mut Random, ty: &Ty, val: &Val) -> Vec<Vec<u8>> {
    let fill = 65_537usize.saturating_sub(shape(ty, val).len());
    let trees = [2, fill, fill + 1].into_iter().filter(|&n| n > 1);
    let mut all: Vec<Vec<u8>> = trees.filter_map(|n| shape_with_tree(r, ty, val, n)).collect();
    if val.spots() > 0 {
        all.push(shape_over(ty, val, &|_, out| out.extend([1, 0])));
    }
    all
}

/// Arguments with faults in the value file or without a unit in the shape, where the entry has one; an edit is of the
/// whole.
fn bad_arguments(r: &mut Random, entry: Entry, ty: &Ty, val: &Val) -> Vec<Vec<Vec<u8>>> {
    let file = write_type(ty);
    let bad_values = |r: &mut Random| spoiled(r, ty, val).into_iter();
    match entry {
        Entry::WriteShape | Entry::WriteFrame | Entry::ShapeRecords => {
            bad_values(r).map(|bad| vec![file.clone(), bad]).collect()
        }
        Entry::PartEdit => bad_values(r).map(|bad| vec![file.clone(), framed(ty, val), vec![], bad]).collect(),
        Entry::Reconstruct | Entry::CleanShape => {
            shapes_without_units(r, ty, val).into_iter().map(|bad| vec![file.clone(), bad]).collect()
        }
        Entry::Search => {
            let frame = framed(ty, val);
            let whole = vec![file, [&frame[..], &frame].concat(), vec![], write_value(val)];
            let others =
                [(1, vec![0]), (1, [&frame[..], &[0]].concat()), (1, vec![255; 2 * frame.len()]), (2, vec![0])];
            let mut all: Vec<Vec<Vec<u8>>> = others.map(|(which, bad)| with_argument(&whole, which, bad)).into();
            all.extend(bad_values(r).map(|bad| with_argument(&whole, 3, bad)));
            all.push(whole);
            all
        }
        _ => vec![],
    }
}

/// Runs every entry on a value of the type, on sound arguments and, if they are wanted, on bad ones.
fn run_entries(r: &mut Random, tally: &mut Tally, ty: &Ty, bad_too: bool) {
    let val = random_value(r, ty, &mut MOST.clone()).expect("the type has a value");
    for entry in ENTRIES {
        let mut all = vec![arguments(r, entry, ty, &val)];
        if bad_too {
            all.extend(bad_arguments(r, entry, ty, &val));
        }
        for args in all {
            let mut case = Case { entry, args, room: 0, fill: r.byte(), plain_fill: false };
            let short = r.percent(20) as usize;
            let room = |_: &Case, told: &Outcome| told.as_ref().map_or(9, |result| result.len().saturating_sub(short));
            tally.run(&mut case, room, None);
        }
    }
}

/// Runs every entry on values of the large types; true if nothing differs.
pub fn giants(seed: u64) -> bool {
    let mut r = Random::new(seed);
    let mut tally = Tally::default();
    for (name, ty) in types() {
        assert!(check_lowering(&ty).is_ok(), "{name} lowers");
        for _ in 0..VALUES {
            run_entries(&mut r, &mut tally, &ty, true);
        }
    }
    long_days(&mut r, &mut tally);
    tally.finish()
}

/// Arrays, and as far as a type file has records for them Tuples and Enums, of n parts.
fn of_parts(n: usize) -> Vec<Ty> {
    let mut all = vec![Ty::Array(n, Box::new(Ty::Bool))];
    if n <= 1_023 {
        all.extend([Ty::Tuple(vec![Ty::Bool; n]), Ty::Enum(vec![vec![]; n])]);
    }
    all
}

/// Runs every entry on values with n parts or variants, for every n up to and beyond the 1,024 records of a type file,
/// and for some that are far beyond them; true if nothing differs.
pub fn splits(seed: u64) -> bool {
    let mut r = Random::new(seed);
    let mut tally = Tally::default();
    let far = [2_047, 2_048, 2_049, 4_096, 4_097, 8_191, 10_000, 16_383, 16_384];
    for n in (2..=1_100).chain(far) {
        for ty in of_parts(n) {
            run_entries(&mut r, &mut tally, &ty, false);
        }
    }
    tally.finish()
}
