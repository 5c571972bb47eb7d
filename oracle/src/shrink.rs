//! Makes a case that differs smaller: looks for a small one, then drops, cuts, zeroes, as long as it still differs.

use crate::case::Case;
use crate::compare::{expected_outcome, run, Trouble};
use crate::expect::Entry;
use crate::generate::{random_case_of, random_room, Scale};
use crate::paths::width;
use crate::random::Random;
use crate::types::{check_lowering, read_type};

/// Tries are few, so that a large case does not hold up the run.
const TRIES: usize = 20_000;

const SMALL_TRIES: usize = 4_000;

fn total(case: &Case) -> usize {
    case.args.iter().map(Vec::len).sum()
}

struct Shrinker {
    best: Case,
    trouble: Trouble,
    tries: usize,
}

impl Shrinker {
    /// Takes a case if it differs too.
    fn take(&mut self, case: Case) -> bool {
        if self.tries == TRIES {
            return false;
        }
        self.tries += 1;
        match run(&case) {
            Ok(_) => false,
            Err(trouble) => {
                self.best = case;
                self.trouble = trouble;
                true
            }
        }
    }

    /// Tries small random cases of the same entry.
    fn look_for_small(&mut self) {
        let mut r = Random::new(1);
        for _ in 0..SMALL_TRIES {
            let mut case = random_case_of(&mut r, self.best.entry, Scale::Small);
            let Ok(outcome) = expected_outcome(&case) else { continue };
            case.room = random_room(&mut r, &case, &outcome);
            if total(&case) < total(&self.best) {
                self.take(case);
            }
        }
    }

    fn with_argument(&self, which: usize, bytes: Vec<u8>) -> Case {
        let mut case = self.best.clone();
        case.args[which] = bytes;
        case
    }

    /// Drops runs of bytes, long ones first.
    fn drop_runs(&mut self, which: usize, record: usize) -> bool {
        let mut better = false;
        let mut run = (self.best.args[which].len() / 2).next_multiple_of(record);
        while run > 0 {
            let mut at = 0;
            while at + run <= self.best.args[which].len() {
                let mut bytes = self.best.args[which].clone();
                bytes.drain(at..at + run);
                if self.take(self.with_argument(which, bytes)) {
                    better = true;
                } else {
                    at += record;
                }
            }
            run = if run > record { (run / 2).next_multiple_of(record) } else { 0 };
        }
        better
    }

    /// Drops a type record and counts one part less in a record before it.
    fn drop_part(&mut self) -> bool {
        let mut better = false;
        let mut at = 4;
        while at + 4 <= self.best.args[0].len() {
            let taken = (0..at / 4).rev().any(|parent| {
                let mut bytes = self.best.args[0].clone();
                bytes.drain(at..at + 4);
                let n = u16::from_be_bytes([bytes[parent * 4 + 2], bytes[parent * 4 + 3]]);
                let fewer = n.saturating_sub(1).to_be_bytes();
                bytes[parent * 4 + 2..parent * 4 + 4].copy_from_slice(&fewer);
                n > 0 && self.take(self.with_argument(0, bytes))
            });
            better |= taken;
            at += if taken { 0 } else { 4 };
        }
        better
    }

    /// Zeroes bytes, or halves them, or takes one off.
    fn lower_bytes(&mut self, which: usize) -> bool {
        let mut better = false;
        for at in 0..self.best.args[which].len() {
            let byte = self.best.args[which][at];
            for lower in [0, byte / 2, byte.saturating_sub(1)] {
                let mut bytes = self.best.args[which].clone();
                if lower < bytes[at] {
                    bytes[at] = lower;
                    better |= self.take(self.with_argument(which, bytes));
                }
            }
        }
        better
    }

    fn smaller_room(&mut self) -> bool {
        let mut better = false;
        for room in [0, self.best.room / 2, self.best.room.saturating_sub(1)] {
            if room < self.best.room {
                let case = Case { room, ..self.best.clone() };
                better |= self.take(case);
            }
        }
        better
    }
}

/// The length of a frame of the case's type, 1 where there is none.
fn frame_length(case: &Case) -> usize {
    let ty = read_type(&case.args[0]).ok().filter(|ty| check_lowering(ty).is_ok());
    ty.map_or(1, |ty| width(&ty).div_ceil(8).max(1))
}

fn record_length(name: &str, case: &Case) -> usize {
    match name {
        "day" => frame_length(case),
        "type" => 4,
        "value" => 36,
        "path" => 2,
        _ => 1,
    }
}

pub fn shrink(case: &Case, trouble: Trouble) -> (Case, Trouble) {
    let mut s = Shrinker { best: case.clone(), trouble, tries: 0 };
    s.look_for_small();
    loop {
        let mut better = false;
        for (which, name) in case.entry.arguments().iter().enumerate() {
            better |= s.drop_runs(which, record_length(name, &s.best));
            better |= s.drop_runs(which, 1);
            better |= s.lower_bytes(which);
        }
        better |= s.drop_part();
        better |= case.entry != Entry::PartEdit && s.smaller_room();
        if !better || s.tries == TRIES {
            return (s.best, s.trouble);
        }
    }
}
