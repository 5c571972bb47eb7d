//! All cases of small size: every type file of few records from a menu, every shape of few records, and what follows.

use std::collections::BTreeSet;

use crate::case::{hex, Case};
use crate::compare::{caught, Tally};
use crate::expect::{unframed, Entry, Outcome};
use crate::paths::{follow, width};
use crate::room::try_all_values;
use crate::spoil::all_spoiled;
use crate::types::{check_lowering, read_type, write_type, Ty};
use crate::values::{read_value, reconstruct, write_value};

/// The records of the types: kind and n.
#[rustfmt::skip]
const MENU: [(u8, u8); 21] = [
    (0, 0), (1, 0), (2, 1), (2, 2), (2, 4), (3, 0), (4, 0), (5, 0), (5, 1), (5, 2), (5, 3),
    (6, 0), (6, 1), (6, 2), (6, 3), (7, 2), (7, 4), (8, 1), (8, 2), (9, 0), (9, 1),
];

/// Frames, values and paths of one type are tried up to these counts.
const MOST_FRAMES: usize = 300;
const MOST_NEW: usize = 12;

/// About so many sound frames of a type stand in a day file.
const MOST_DAY: usize = 24;

/// Every value of a type with at most so many is tried for its room.
const MOST_VALUES: u64 = 70_000;

/// All trees of exactly n records, for each n up to `most`.
fn trees(most: usize) -> Vec<Vec<Vec<u8>>> {
    let mut by_size: Vec<Vec<Vec<u8>>> = vec![vec![], vec![vec![0]]];
    for n in 2..=most {
        let mut all = vec![];
        for kind in [1, 2] {
            all.extend(by_size[n - 1].iter().map(|t| [&[kind], &t[..]].concat()));
        }
        for left in 1..n - 1 {
            for l in &by_size[left] {
                all.extend(by_size[n - 1 - left].iter().map(|r| [&[3], &l[..], &r[..]].concat()));
            }
        }
        by_size.push(all);
    }
    by_size
}

struct Run {
    tally: Tally,
    count: usize,
    /// Paths and the part's types for which values with faults were tried, of one type.
    tried: BTreeSet<(Vec<u8>, Vec<u8>)>,
    /// Types of which every value was tried, these values, and whether the room of the types holds for them.
    types: u64,
    values: u64,
    all_hold: bool,
}

impl Run {
    /// Runs a case with an exact buffer; every third one is a byte short, every fifth has room. Every fourth one that
    /// cleans is as long as the shape. Those that have none are not counted for it.
    fn case(&mut self, entry: Entry, args: &[&[u8]]) -> Option<Outcome> {
        self.count += !entry.only_tells() as usize;
        let count = self.count;
        let args = args.iter().map(|a| a.to_vec()).collect();
        let mut case = Case { entry, args, room: 0, fill: count as u8, plain_fill: false };
        let room = |case: &Case, outcome: &Outcome| match outcome {
            Ok(result) if count % 3 == 0 => result.len().saturating_sub(1),
            Ok(_) if case.entry == Entry::CleanShape && count % 4 == 0 => case.args[1].len(),
            Ok(result) if count % 5 == 0 => result.len() + 3,
            Ok(result) => result.len(),
            Err(_) => count % 7,
        };
        self.tally.run(&mut case, room, None)
    }

    /// All that can be tried of one sound type.
    fn sound_type(&mut self, file: &[u8], ty: &Ty, shapes: &[Vec<u8>]) {
        let mut values = BTreeSet::new();
        for shape in shapes {
            if let Some(Ok(value)) = self.case(Entry::Reconstruct, &[file, shape]) {
                values.insert(value);
            }
            self.case(Entry::CleanShape, &[file, shape]);
        }
        if check_lowering(ty).is_err() {
            return;
        }
        let mut frames = BTreeSet::new();
        self.all_values(file, ty);
        for value in &values {
            self.case(Entry::WriteShape, &[file, value]);
            self.case(Entry::ShapeRecords, &[file, value]);
            if let Some(Ok(frame)) = self.case(Entry::WriteFrame, &[file, value]) {
                frames.insert(frame);
            }
            let val = read_value(ty, value).expect("the value was read");
            for bad in all_spoiled(ty, &val) {
                self.case(Entry::WriteShape, &[file, &bad]);
                self.case(Entry::ShapeRecords, &[file, &bad]);
                self.case(Entry::WriteFrame, &[file, &bad]);
            }
        }
        self.tried.clear();
        let frames = all_frames(&frames);
        for frame in &frames {
            if let Some(Ok(value)) = self.case(Entry::ReadFrame, &[file, frame]) {
                self.parts(file, ty, frame, &value, shapes);
            }
        }
        self.days(file, ty, &frames);
    }

    /// Day files of frames that are accepted and of such that are not, in order and in another, all paths of up to two
    /// steps, and values: those of the parts, with faults, and the whole's.
    fn days(&mut self, file: &[u8], ty: &Ty, frames: &BTreeSet<Vec<u8>>) {
        let length = width(ty).div_ceil(8);
        let (sound, damaged): (Vec<_>, Vec<_>) = frames
            .iter()
            .filter(|frame| frame.len() == length)
            .map(|frame| (frame, unframed(ty, frame).ok()))
            .partition(|(_, val)| val.is_some());
        let few = sound.iter().step_by(1 + sound.len() / MOST_DAY);
        let few: Vec<_> = few.map(|(frame, val)| (*frame, val.as_ref().expect("it is sound"))).collect();
        let damaged: Vec<_> = damaged.into_iter().map(|(frame, _)| frame).collect();
        let mut day: Vec<u8> = vec![];
        let mut back: Vec<u8> = vec![];
        for (i, (frame, _)) in few.iter().enumerate() {
            // Every third one stands behind one that is not accepted.
            let bad = damaged.get(i / 3).filter(|_| i % 3 == 2).map_or(&[][..], |bad| bad);
            day = [&day[..], bad, frame].concat();
            back = [&frame[..], bad, &back].concat();
        }
        let bad = damaged.into_iter().take(MOST_DAY).flatten().copied().collect();
        let days = [day.clone(), back, bad, vec![], [&day[..], &[0]].concat()];
        for path in all_paths() {
            let mut values = BTreeSet::new();
            for (_, val) in &few {
                let part = follow(ty, val, &path).ok();
                values.extend(part.map(|part| write_value(part.val)).filter(|_| values.len() < MOST_NEW));
            }
            let spoiled = few.iter().find_map(|(_, val)| {
                let part = follow(ty, val, &path).ok()?;
                all_spoiled(part.ty, part.val).into_iter().next()
            });
            values.extend(spoiled);
            values.extend(few.first().map(|(_, val)| write_value(val)));
            values.insert(vec![]);
            values.retain(|value| length > 0 || value.is_empty());
            for (day, value) in days.iter().flat_map(|day| values.iter().map(move |value| (day, value))) {
                self.case(Entry::Search, &[file, day, &path, value]);
            }
        }
    }

    /// Every value of a type that has not too many, for its room.
    fn all_values(&mut self, file: &[u8], ty: &Ty) {
        match caught("our own", || try_all_values(ty, MOST_VALUES)) {
            Ok(n) => {
                self.types += (n > 0) as u64;
                self.values += n;
            }
            Err(text) => {
                println!("DIFFERS type {}\n{text}\n", hex(file));
                self.all_hold = false;
            }
        }
    }

    /// All paths of up to two steps, and values of the part's type.
    fn parts(&mut self, file: &[u8], ty: &Ty, frame: &[u8], value: &[u8], shapes: &[Vec<u8>]) {
        let whole = read_value(ty, value).expect("the frame was read");
        for path in all_paths() {
            self.case(Entry::PartRead, &[file, frame, &path]);
            let new: Vec<Vec<u8>> = match follow(ty, &whole, &path) {
                Ok(part) => {
                    let all = shapes.iter().filter_map(|s| reconstruct(part.ty, s));
                    let mut all: Vec<_> = all.take(MOST_NEW).map(|v| write_value(&v)).chain([value.to_vec()]).collect();
                    if self.tried.insert((path.clone(), write_type(part.ty))) {
                        all.extend(all_spoiled(part.ty, part.val));
                    }
                    all
                }
                Err(_) => vec![value.to_vec()],
            };
            for new in new {
                self.case(Entry::PartEdit, &[file, frame, &path, &new]);
            }
        }
    }
}

fn all_paths() -> Vec<Vec<u8>> {
    let mut all = vec![vec![], vec![0], vec![0, 0, 0]];
    for first in 0..3 {
        all.push(vec![0, first]);
        all.extend((0..3).map(|second| vec![0, first, 0, second]));
    }
    all
}

/// The frames, all of one byte if they are that long, and those with one bit flipped or another length.
fn all_frames(frames: &BTreeSet<Vec<u8>>) -> BTreeSet<Vec<u8>> {
    let mut all = frames.clone();
    if frames.iter().any(|f| f.len() == 1) {
        all.extend((0..=255).map(|b| vec![b]));
    }
    for frame in frames {
        for bit in 0..frame.len() * 8 {
            let mut flipped = frame.clone();
            flipped[bit / 8] ^= 0x80 >> (bit % 8);
            all.insert(flipped);
        }
        all.insert([&frame[..], &[0]].concat());
        all.insert(frame[..frame.len().saturating_sub(1)].to_vec());
    }
    all.into_iter().take(MOST_FRAMES).collect()
}

/// Runs every type file of up to so many records with every shape of up to so many; true if nothing differs.
pub fn exhaust(records: usize, nodes: usize) -> bool {
    let shapes = trees(nodes).concat();
    let mut run =
        Run { tally: Tally::default(), count: 0, tried: BTreeSet::new(), types: 0, values: 0, all_hold: true };
    let mut files: Vec<Vec<u8>> = vec![vec![]];
    for _ in 0..records {
        let longer = files.iter().flat_map(|f| MENU.map(|(kind, n)| [&f[..], &[kind, 0, 0, n]].concat()));
        files = longer.collect();
        for file in &files {
            run.case(Entry::Lower, &[file]);
            run.case(Entry::Room, &[file]);
            if let Ok(ty) = read_type(file) {
                run.sound_type(file, &ty, &shapes);
            }
        }
    }
    println!("room: of {} types every value was tried, {} in all", run.types, run.values);
    run.tally.finish() && run.all_hold
}
