//! Random day files: frames of one type end to end, some of them damaged, with a path and a value that all, some or none
//! of them have.

use crate::expect::Entry;
use crate::frames::{self, Lowered};
use crate::generate::{
    damage, damage_path, near, random_bytes, random_path, random_type, random_value, value_of, Scale,
};
use crate::paths::{follow, width};
use crate::random::Random;
use crate::spoil::spoiled;
use crate::types::{check_lowering, lower, write_type, Ty};
use crate::values::{read_value, reconstruct, shape, write_value, Val};

/// A frame has at most so many bytes in a day file of many.
const LONG_FRAME: usize = 40;

fn boxed(ty: Ty) -> Box<Ty> {
    Box::new(ty)
}

// Types

/// A type for a part of a variant.
fn part_type(r: &mut Random) -> Ty {
    let bits = |bits| boxed(Ty::UInt(bits));
    let unit = Ty::Tuple(vec![]);
    let all = [
        Ty::Bool,
        Ty::UInt(1),
        Ty::UInt(2),
        Ty::UInt(4),
        Ty::UInt(8),
        Ty::UInt(16),
        Ty::UInt(64),
        unit.clone(),
        Ty::Array(0, bits(8)),
        Ty::Option(bits(1)),
        Ty::Option(boxed(unit)),
        Ty::Tuple(vec![Ty::Bool, Ty::Bool]),
        Ty::Tuple(vec![Ty::UInt(1), Ty::UInt(2)]),
        Ty::Array(2, bits(1)),
        Ty::Array(3, bits(4)),
        Ty::List(2, bits(1)),
        Ty::Enum(vec![vec![], vec![Ty::UInt(1)]]),
    ];
    r.pick(&all)
}

/// Types that have value files in common, which have other bits in each.
fn relatives(r: &mut Random) -> Vec<Ty> {
    let one = part_type(r);
    let list = |bound: usize| Ty::List(bound, boxed(one.clone()));
    let either = |other: Ty| Ty::Either(boxed(one.clone()), boxed(other));
    let variants = |n: usize| Ty::Enum([vec![vec![one.clone()]], vec![vec![]; n]].concat());
    match r.below(4) {
        0 => vec![list(2), list(4), list(8)],
        1 => vec![either(Ty::Bool), either(Ty::UInt(8)), either(one.clone())],
        2 => vec![variants(0), variants(1), variants(2), variants(4)],
        _ => vec![Ty::Tuple(vec![list(4), Ty::Bool]), Ty::Tuple(vec![list(2), Ty::Bool])],
    }
}

/// An Enum whose variants have parts of different types at the same index, or an Either of them.
fn alternating(r: &mut Random) -> Ty {
    let firsts = if r.percent(50) { relatives(r) } else { (0..r.between(2, 4)).map(|_| part_type(r)).collect() };
    if r.percent(10) {
        return Ty::Either(boxed(r.pick(&firsts)), boxed(r.pick(&firsts)));
    }
    let mut variants: Vec<Vec<Ty>> = firsts.into_iter().map(|first| vec![first]).collect();
    for parts in &mut variants {
        let more = r.pick(&[0, 0, 1, 2]);
        parts.extend((0..more).map(|_| part_type(r)));
        // So that it does not stand at the same bit either.
        if r.percent(10) {
            let last = parts.len() - 1;
            parts.swap(0, last);
        }
    }
    if r.percent(20) {
        let at = r.below(variants.len() + 1);
        variants.insert(at, vec![]);
    }
    Ty::Enum(variants)
}

/// The type with others around it, so that it begins at any bit.
fn within(r: &mut Random, ty: Ty) -> Ty {
    let lead = r.pick(&[Ty::Bool, Ty::UInt(2), Ty::UInt(4), Ty::UInt(8), Ty::Tuple(vec![Ty::Bool, Ty::UInt(2)])]);
    match r.below(12) {
        0..=4 => ty,
        5 | 6 => Ty::Tuple(vec![lead, ty]),
        7 => Ty::Tuple(vec![lead, ty, Ty::UInt(16)]),
        8 => Ty::Array(r.between(2, 3), boxed(ty)),
        9 => Ty::List(4, boxed(ty)),
        10 => Ty::Option(boxed(ty)),
        _ => Ty::Either(boxed(lead), boxed(ty)),
    }
}

/// A type whose frames have no bytes.
fn without_bits(r: &mut Random) -> Ty {
    let unit = Ty::Tuple(vec![]);
    let all = [
        unit.clone(),
        Ty::Array(0, boxed(Ty::UInt(8))),
        Ty::Array(3, boxed(unit.clone())),
        Ty::Tuple(vec![unit.clone(), unit.clone()]),
        Ty::Enum(vec![vec![]]),
        Ty::Enum(vec![vec![unit]]),
    ];
    r.pick(&all)
}

fn day_type(r: &mut Random, scale: Scale) -> Ty {
    match r.below(100) {
        0 => without_bits(r),
        1..=40 => {
            let ty = alternating(r);
            within(r, ty)
        }
        _ => random_type(r, Entry::PartRead, scale),
    }
}

// Values

fn steps(path: &[u8]) -> Vec<usize> {
    path.chunks(2).map(|step| step[0] as usize * 256 + step[1] as usize).collect()
}

/// The value with its part at the steps, which lead to one, replaced.
fn with_part(val: &Val, steps: &[usize], new: &Val) -> Val {
    let Some((&step, rest)) = steps.split_first() else { return new.clone() };
    let mut val = val.clone();
    let child = match &mut val {
        Val::Either(_, v) | Val::Option(Some(v)) => &mut **v,
        Val::Tuple(all) | Val::Array(all) | Val::List(all) | Val::Enum(_, all) => &mut all[step],
        _ => unreachable!("the steps lead to a part"),
    };
    *child = with_part(child, rest, new);
    val
}

fn day_value(r: &mut Random, ty: &Ty, scale: Scale) -> Option<Val> {
    let few = random_value(r, ty, &mut 60);
    few.or_else(|| value_of(r, ty, scale))
}

/// The values of a day file: fresh ones, ones that were there, and these with another part somewhere.
fn day_values(r: &mut Random, ty: &Ty, count: usize, scale: Scale) -> Vec<Val> {
    let mut all: Vec<Val> = vec![];
    for _ in 0..count {
        let old = if all.is_empty() || r.percent(50) { None } else { Some(r.pick(&all)) };
        let made = match old {
            None => day_value(r, ty, scale),
            Some(old) if r.percent(40) => Some(old),
            Some(old) => {
                let path = random_path(r, &old);
                let part = follow(ty, &old, &path).unwrap_or_else(|_| panic!("the path is sound"));
                day_value(r, part.ty, scale).map(|new| with_part(&old, &steps(&path), &new))
            }
        };
        all.extend(made);
    }
    all
}

/// Puts the value at the path, or another one, in some of the values where the path leads to a part that can hold it.
fn spread(r: &mut Random, ty: &Ty, path: &[u8], file: &[u8], all: &mut [Val]) {
    let (sought, other) = r.pick(&[(0, 0), (20, 0), (50, 10), (80, 0), (10, 60)]);
    for val in all {
        let Ok(part) = follow(ty, val, path) else { continue };
        let new = match r.below(100) {
            n if n < sought => read_value(part.ty, file).ok(),
            n if n < sought + other => random_value(r, part.ty, &mut 60),
            _ => None,
        };
        if let Some(new) = new {
            *val = with_part(val, &steps(path), &new);
        }
    }
}

/// How many frames there are, of so many bytes each.
fn frame_count(r: &mut Random, length: usize, scale: Scale) -> usize {
    let few = scale == Scale::Small || length > LONG_FRAME;
    match r.below(100) {
        0..=2 => 0,
        3..=14 => 1,
        _ if length > 1_000 => r.between(2, 3),
        _ if few => r.between(2, 6),
        15..=16 => r.between(13, 60),
        17 if r.percent(40) => r.pick(&[200, 255, 256, 257, 300]),
        _ => r.between(2, 12),
    }
}

// Frames

/// Sets a bit that must be zero, if a few tries find one. It stands outside the stretch if there is one.
fn with_stray_bit(
    r: &mut Random,
    lowered: &Lowered,
    frame: &[u8],
    stretch: &std::ops::Range<usize>,
) -> Option<Vec<u8>> {
    let bits = frame.len() * 8;
    let mut tries: Vec<usize> = (0..12).map(|_| r.below(bits)).collect();
    if lowered.width() < bits {
        tries.insert(r.below(3), r.between(lowered.width(), bits - 1));
    }
    tries.sort_by_key(|i| stretch.contains(i));
    tries.into_iter().find_map(|i| {
        let mut damaged = frame.to_vec();
        damaged[i / 8] ^= 0x80 >> (i % 8);
        frames::read(lowered, &damaged).is_err().then_some(damaged)
    })
}

/// Changes a frame, but not its length.
fn spoil_frame(r: &mut Random, lowered: &Lowered, frame: &mut Vec<u8>) {
    match r.below(6) {
        0 => frame.iter_mut().for_each(|b| *b = r.byte()),
        1 => frame.fill(255),
        2 | 3 => {
            let at = r.below(frame.len());
            frame[at] ^= 1 << r.below(8);
        }
        _ => *frame = with_stray_bit(r, lowered, frame, &(0..0)).unwrap_or_else(|| frame.clone()),
    }
}

/// Damages frames: some of any, or all that have the value, or all of these but one.
fn damage_frames(r: &mut Random, day: &mut Day, lowered: &Lowered, part: &std::ops::Range<usize>) {
    let having: Vec<usize> = (0..day.frames.len()).filter(|&i| day.has[i]).collect();
    let spared = match r.below(100) {
        0..=54 => return,
        55..=74 => {
            let often = r.pick(&[20, 50, 100]);
            for frame in &mut day.frames {
                if r.percent(often) {
                    spoil_frame(r, lowered, frame);
                }
            }
            return;
        }
        75..=84 => None,
        _ if having.is_empty() => None,
        _ => Some(r.pick(&[having[0], having[having.len() - 1], having[having.len() / 2]])),
    };
    for i in having.into_iter().filter(|&i| Some(i) != spared) {
        if let Some(damaged) = with_stray_bit(r, lowered, &day.frames[i], part) {
            day.frames[i] = damaged;
        }
    }
}

/// The frames of a day file, and which of them have the value before they are damaged.
struct Day {
    frames: Vec<Vec<u8>>,
    has: Vec<bool>,
}

// Value files

/// The file with one thing changed that is not seen from far: an integer's bit, a choice, a count.
fn altered(r: &mut Random, file: &[u8]) -> Vec<u8> {
    let mut file = file.to_vec();
    let at = 36 * r.below(file.len() / 36);
    let record = &mut file[at..at + 36];
    match record[0] {
        2 => {
            let bits = record[2] as usize * 256 + record[3] as usize;
            let bit = if r.percent(50) { 0 } else { r.below(bits) };
            record[35 - bit / 8] ^= 1 << (bit % 8);
        }
        1 | 3 | 4 => record[1] ^= 1,
        _ => record[3] = record[3].wrapping_add(r.pick(&[1, 255])),
    }
    file
}

/// The value file to look for, where the part of one frame is this: that part's, one that is nearly it, another one, or
/// none.
fn sought_file(r: &mut Random, ty: &Ty, val: &Val, whole: (&Ty, &Val), scale: Scale) -> Vec<u8> {
    let file = write_value(val);
    match r.below(100) {
        0..=59 => file,
        60..=67 => altered(r, &file),
        68..=73 => day_value(r, ty, scale).map_or(file, |other| write_value(&other)),
        74..=80 => {
            // The same bits as a value of another type, if they are one, or any value of that.
            let other = near(r, ty);
            let lowers = check_lowering(&other).is_ok() && width(&other) == width(ty);
            let same = reconstruct(&other, &shape(ty, val)).filter(|_| lowers);
            same.or_else(|| day_value(r, &other, scale)).map_or(file, |other| write_value(&other))
        }
        81..=84 => {
            let path = random_path(r, whole.1);
            let part = follow(whole.0, whole.1, &path).unwrap_or_else(|_| panic!("the path is sound"));
            write_value(part.val)
        }
        85..=87 => {
            let record = r.below(file.len() / 36) * 36;
            [&file[..], &file[record..record + 36]].concat()
        }
        88..=91 => spoiled(r, ty, val).unwrap_or(file),
        92..=94 => vec![],
        95..=96 => file[..r.below(file.len())].to_vec(),
        97 => [&file[..], &[0]].concat(),
        _ => {
            let mut file = file;
            damage(r, &mut file, 36);
            file
        }
    }
}

// Searches

/// The arguments of a search, and the value that is there at the path, with its type.
pub fn random_search(r: &mut Random, scale: Scale) -> (Vec<Vec<u8>>, Option<(Ty, Val)>) {
    let ty = day_type(r, scale);
    let file = write_type(&ty);
    // Sometimes the rest is made for another type.
    let ty = if r.percent(5) { near(r, &ty) } else { ty };
    if check_lowering(&ty).is_err() {
        let path = r.pick(&[vec![], vec![0, 0], vec![0]]);
        return (vec![file, random_bytes(r, 6), path, random_bytes(r, 72)], None);
    }
    let records = lower(&ty);
    let lowered = Lowered::new(&records);
    let count = frame_count(r, lowered.length(), scale);
    let mut all = day_values(r, &ty, count.max(1), scale);
    let Some(whole) = all.get(r.below(all.len().max(1))).cloned() else {
        return (vec![file, random_bytes(r, 6), vec![], random_bytes(r, 72)], None);
    };
    let mut path = if r.percent(8) { vec![] } else { random_path(r, &whole) };
    let part = follow(&ty, &whole, &path).unwrap_or_else(|_| panic!("the path is sound"));
    let value = sought_file(r, part.ty, part.val, (&ty, &whole), scale);
    spread(r, &ty, &path, &value, &mut all);
    all.truncate(count);
    let has = |val: &Val| follow(&ty, val, &path).is_ok_and(|part| write_value(part.val) == value);
    let frames = all.iter().map(|val| frames::write(&lowered, &shape(&ty, val))).collect();
    let mut day = Day { frames, has: all.iter().map(has).collect() };
    if lowered.length() > 0 {
        damage_frames(r, &mut day, &lowered, &(part.bit..part.bit + width(part.ty)));
    }
    let mut bytes = day.frames.concat();
    match r.below(100) {
        0 => drop(bytes.pop()),
        1 => bytes.push(r.byte()),
        2 => bytes.truncate(r.below(bytes.len() + 1)),
        3 => bytes.extend(random_bytes(r, 3)),
        _ => {}
    }
    let there = (part.ty.clone(), part.val.clone());
    let whole_frames = bytes.len() % lowered.length().max(1) == 0;
    match r.below(100) {
        0..=4 => damage_path(r, &mut path),
        5..=34 if !whole_frames => path.push(0),
        5..=7 => path = all.first().map(|val| random_path(r, val)).unwrap_or_default(),
        _ => {}
    }
    (vec![file, bytes, path, value], Some(there))
}
