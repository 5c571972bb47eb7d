//! Compares the library with the expected answers, case after case, and counts.

use std::panic::{catch_unwind, AssertUnwindSafe};
use std::sync::atomic::Ordering;

use crate::case::{Answer, Case};
use crate::expect::{lowered, outcome, value_before, Entry, Outcome, ENTRIES, NUMBERS};
use crate::faulty::{FAULT, FAULTS, FIRST_OF_PAIRS, FIRST_OF_SEARCH};
use crate::frames::Lowered;
use crate::generate::{random_case, random_room, Scale};
use crate::library;
use crate::pairs::pairs;
use crate::random::Random;
use crate::room::longest_value;
use crate::shrink::shrink;
use crate::types::read_type;
use crate::values::write_value;

/// So many cases that differ are shrunk and printed.
pub const MOST_SHOWN: u64 = 3;

/// The counts of one entry: by number, 0 where accepted.
#[derive(Clone, Copy, Default)]
struct Counts {
    by_number: [u64; NUMBERS],
    /// Of searches: those with a frame that matches.
    found: u64,
    differ: u64,
}

impl Counts {
    fn cases(&self) -> u64 {
        self.by_number.iter().sum::<u64>() + self.differ
    }

    fn line(&self, entry: Entry) -> String {
        let refused = (1..NUMBERS).filter(|&n| self.by_number[n] > 0);
        let refused: Vec<String> = refused.map(|n| format!("{n}:{}", self.by_number[n])).collect();
        let found = if entry == Entry::Search { format!(" ({} found)", self.found) } else { String::new() };
        let against = if library::has(entry) { "" } else { " (not in the library)" };
        let (name, cases, accepted, differ) = (entry.name(), self.cases(), self.by_number[0], self.differ);
        let refused = refused.join(" ");
        format!("{name}: {cases} cases, {accepted} accepted{found}, refused {refused}, {differ} differ{against}")
    }
}

/// What went wrong with a case, if anything.
pub enum Trouble {
    /// The published code and the plain one differ, or the two that number a value file or a shape or say whether a
    /// frame matches, or a cleaned shape, the room of a type or what two edits leave is not what it must be, or one
    /// panics.
    Ourselves(String),
    Library(String),
}

impl Trouble {
    pub fn text(&self) -> &str {
        match self {
            Trouble::Ourselves(text) | Trouble::Library(text) => text,
        }
    }
}

pub fn caught<T>(what: &str, f: impl FnOnce() -> T) -> Result<T, String> {
    catch_unwind(AssertUnwindSafe(f)).map_err(|cause| {
        let text = cause.downcast_ref::<String>().cloned();
        let text = text.or_else(|| cause.downcast_ref::<&str>().map(|s| s.to_string()));
        format!("{what}: {}", text.unwrap_or_default())
    })
}

/// The expected outcome, or what our own disagree on.
pub fn expected_outcome(case: &Case) -> Result<Outcome, Trouble> {
    caught("our own", || outcome(case.entry, &case.args)).map_err(Trouble::Ourselves)
}

/// Compares the library's answer with the expected one. What it has cleaned is then fed back to it, the numbers that it
/// told are the lengths of buffers, and the frame that it found is read.
pub fn compare_with(case: &Case, expected: &Answer) -> Result<(), Trouble> {
    if !library::has(case.entry) {
        return Ok(());
    }
    let answer = compare_once(case, expected)?;
    if answer.number != 0 {
        return Ok(());
    }
    let after = match case.entry {
        Entry::CleanShape => fed_back,
        Entry::Room => in_its_room,
        Entry::ShapeRecords => in_its_records,
        Entry::Search => where_found,
        _ => return Ok(()),
    };
    let calls = caught("our own", || after(case, &answer)).map_err(Trouble::Ourselves)?;
    for (again, expected) in calls.into_iter().filter(|(again, _)| library::has(again.entry)) {
        let text = |trouble: Trouble| format!("what was answered, fed back:\n{}{}", again.show(), trouble.text());
        compare_once(&again, &expected).map_err(|trouble| Trouble::Library(text(trouble)))?;
    }
    Ok(())
}

/// The library's answer to one call, if it is the expected one.
fn compare_once(case: &Case, expected: &Answer) -> Result<Answer, Trouble> {
    let answer = caught("library", || library::answer(case)).map_err(Trouble::Library)?;
    if !expected.allows(&answer) {
        let text = format!("expected {}\nlibrary  {}", expected.show(case.entry), answer.show(case.entry));
        return Err(Trouble::Library(text));
    }
    Ok(answer)
}

/// What must hold of a shape that the library has cleaned: it reads as the value that the earlier reading gave to the
/// shape, and stays when it is cleaned again.
fn fed_back(case: &Case, answer: &Answer) -> Vec<(Case, Answer)> {
    let clean = &answer.lent[..answer.length()];
    let results = [(Entry::Reconstruct, value_before(&case.args)), (Entry::CleanShape, clean.to_vec())];
    let again = |(entry, result): (Entry, Vec<u8>)| {
        let args = vec![case.args[0].clone(), clean.to_vec()];
        let again = Case { entry, args, room: result.len(), ..case.clone() };
        let expected = again.delivered(Ok(result));
        (again, expected)
    };
    results.into_iter().map(again).collect()
}

/// Calls with buffers that are as long as the room told: the lowered type, and the shape and the frame of a value with
/// the longest shape, fit. Of this value as many records are told.
fn in_its_room(case: &Case, answer: &Answer) -> Vec<(Case, Answer)> {
    let &[lowered, bits, shape] = &answer.numbers[..] else { unreachable!("three numbers") };
    let ty = read_type(&case.args[0]).expect("the type is accepted");
    let value = write_value(&longest_value(&ty));
    let file = || case.args[0].clone();
    let calls = [
        (Entry::Lower, vec![file()], lowered),
        (Entry::WriteShape, vec![file(), value.clone()], shape),
        (Entry::WriteFrame, vec![file(), value.clone()], bits.div_ceil(8)),
        (Entry::ShapeRecords, vec![file(), value], 0),
    ];
    calls.into_iter().map(|(entry, args, room)| in_exactly(case, entry, args, room)).collect()
}

/// The shape of the value with a buffer that is as long as was told.
fn in_its_records(case: &Case, answer: &Answer) -> Vec<(Case, Answer)> {
    vec![in_exactly(case, Entry::WriteShape, case.args.clone(), answer.numbers[0])]
}

/// Reads the part of the frame that was found: it is the value file. That frame alone is a day file in which it is
/// found again.
fn where_found(case: &Case, answer: &Answer) -> Vec<(Case, Answer)> {
    let &[1, index] = &answer.numbers[..] else { return vec![] };
    let ty = read_type(&case.args[0]).expect("the type is accepted");
    let length = Lowered::new(&lowered(&ty)).length();
    let mut args = case.args.clone();
    args[1] = args[1][index * length..][..length].to_vec();
    let value = args[3].clone();
    let reading = Case { entry: Entry::PartRead, args: args[..3].to_vec(), room: value.len(), ..case.clone() };
    let alone = Case { args, ..case.clone() };
    [(reading, value), (alone, vec![0; 3])]
        .map(|(again, result)| {
            let expected = again.delivered(Ok(result));
            (again, expected)
        })
        .into()
}

/// A call that must be accepted with this buffer, and leave none of it over.
fn in_exactly(case: &Case, entry: Entry, args: Vec<Vec<u8>>, room: usize) -> (Case, Answer) {
    let again = Case { entry, args, room, ..case.clone() };
    let expected = again.delivered(outcome(entry, &again.args));
    assert!(expected.number == 0, "a room that is told is too small");
    assert!(entry.only_tells() || expected.length() == room, "a room that is told is too large");
    (again, expected)
}

/// Runs one case with its buffer as it is.
pub fn run(case: &Case) -> Result<Answer, Trouble> {
    let expected = case.delivered(expected_outcome(case)?);
    compare_with(case, &expected)?;
    Ok(expected)
}

/// The counts of a run.
#[derive(Default)]
pub struct Tally {
    counts: [Counts; ENTRIES.len()],
    cases: u64,
    shown: u64,
}

impl Tally {
    /// Runs a case with the buffer that is chosen for its outcome, and counts it. Gives the outcome.
    pub fn run(
        &mut self,
        case: &mut Case,
        room: impl FnOnce(&Case, &Outcome) -> usize,
        trace: Option<&str>,
    ) -> Option<Outcome> {
        self.cases += 1;
        let answer = expected_outcome(case).and_then(|outcome| {
            case.room = if case.entry.only_tells() { 0 } else { room(case, &outcome) };
            if let Some(file) = trace {
                std::fs::write(file, case.show()).expect("the trace is written");
            }
            let expected = case.delivered(outcome.clone());
            compare_with(case, &expected).map(|()| (expected.number, outcome))
        });
        let counts = &mut self.counts[case.entry as usize - 1];
        match answer {
            Ok((number, outcome)) => {
                counts.by_number[number as usize] += 1;
                counts.found += outcome.as_ref().is_ok_and(|result| !result.is_empty()) as u64;
                Some(outcome)
            }
            Err(trouble) => {
                counts.differ += 1;
                self.shown += 1;
                if self.shown <= MOST_SHOWN {
                    report(self.cases, case, trouble);
                }
                None
            }
        }
    }

    /// Prints a line for each entry that has cases; true if nothing differs.
    pub fn finish(&self) -> bool {
        for (entry, counts) in ENTRIES.into_iter().zip(&self.counts) {
            if counts.cases() > 0 {
                println!("{}", counts.line(entry));
            }
        }
        self.counts.iter().all(|c| c.differ == 0)
    }
}

/// Runs random cases of these entries; true if nothing differs.
pub fn compare(entries: &[Entry], seed: u64, count: u64, trace: Option<&str>) -> bool {
    let mut r = Random::new(seed);
    let mut tally = Tally::default();
    for _ in 0..count {
        let mut case = random_case(&mut r, entries, Scale::Any);
        tally.run(&mut case, |case, outcome| random_room(&mut r, case, outcome), trace);
    }
    tally.finish()
}

/// Runs random cases against each fault, and random pairs against the faults of two edits and against none; true if every
/// fault is found and nothing else, as another right index of a search. Pairs must find the faults of two edits.
/// The first of them are left out if a number is given.
pub fn try_faults(seed: u64, count: u64, first: usize) -> bool {
    let mut good = true;
    for (fault, name) in FAULTS.iter().enumerate().skip(first) {
        println!("FAULT {fault}: {name}");
        FAULT.store(fault, Ordering::Relaxed);
        let of_pairs = fault >= FIRST_OF_PAIRS;
        let by_cases = !compare(&ENTRIES, seed, count, None);
        let by_pairs = (fault == 0 || of_pairs).then(|| !pairs(seed, count / 5));
        good &= match by_pairs {
            Some(found) if of_pairs => found,
            Some(found) => !found && !by_cases,
            None => by_cases == (fault != FIRST_OF_SEARCH),
        };
        let found = |found: bool| if found { "found" } else { "not found" };
        let by_pairs = by_pairs.map_or("not tried", found);
        println!("fault {fault}: {} by cases, {by_pairs} by pairs\n", found(by_cases));
    }
    FAULT.store(0, Ordering::Relaxed);
    println!("{}", if good { "all faults are found" } else { "a fault is not found" });
    good
}

/// Prints a case that differs, as small as it can be made, after the number of the case in the run.
fn report(number: u64, case: &Case, trouble: Trouble) {
    let (small, trouble) = shrink(case, trouble);
    println!("DIFFERS at case {number}\n{}{}\n", small.show(), trouble.text());
}
