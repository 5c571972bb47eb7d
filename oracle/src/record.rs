//! Recorded cases: writes them to a file, shows a file as text, and runs it against the library.

use std::collections::HashSet;

use crate::case::{hex, numbers_of, put_number, Answer, Case};
use crate::compare::{compare_with, expected_outcome};
use crate::edges::{edges, Edge};
use crate::expect::{Entry, ENTRIES, NUMBERS};
use crate::generate::{random_case, random_room, Scale};
use crate::random::Random;

/// No argument and no result of a random case is longer.
const LONGEST: usize = 2_000;

/// The random cases stop here, so that the file stays below 1.5 MB with the long ones.
const BYTES: usize = 1_000_000;

/// So many cases of each entry and number are taken before others are.
const ENOUGH: usize = 12;

/// The result as it is recorded: empty where refused; the numbers of an entry that only tells them; of a search a byte for
/// each frame up to the last that matches, 1 where it matches.
fn result(case: &Case, answer: &Answer) -> Vec<u8> {
    let mut told = vec![];
    match case.entry.only_tells() {
        _ if case.entry == Entry::Search => told = marks(&answer.indexes()),
        true if answer.number == 0 => answer.numbers.iter().for_each(|&n| put_number(&mut told, n)),
        true => {}
        false => told.extend(&answer.lent[..answer.length()]),
    }
    told
}

/// A byte for each index up to the last, 1 at these.
fn marks(indexes: &[usize]) -> Vec<u8> {
    let mut marks = vec![0; indexes.last().map_or(0, |last| last + 1)];
    indexes.iter().for_each(|&index| marks[index] = 1);
    marks
}

/// The indexes of marks, as a search's result.
fn marked(marks: &[u8]) -> Vec<u8> {
    assert!(marks.iter().all(|&mark| mark < 2) && marks.last() != Some(&0), "the last mark is 1");
    let mut indexes = vec![];
    (0..marks.len()).filter(|&index| marks[index] == 1).for_each(|index| put_number(&mut indexes, index));
    indexes
}

/// A case as it is recorded: entry, number, room, the lengths of five files, and these; what an entry does not take is
/// an empty file.
fn recorded(case: &Case, answer: &Answer) -> Vec<u8> {
    let mut files: Vec<&[u8]> = case.args.iter().map(Vec::as_slice).collect();
    files.resize(4, &[]);
    let result = result(case, answer);
    files.push(&result);
    let mut out = vec![case.entry as u8, answer.number as u8];
    put_number(&mut out, answer.lent.len());
    files.iter().for_each(|file| put_number(&mut out, file.len()));
    out.extend(files.concat());
    out
}

/// Checks the hand-written cases against the published code and the second writer; true if all hold.
pub fn check_edges() -> bool {
    let all: Vec<Edge> = edges().into_iter().flat_map(|group| group.short.into_iter().chain(group.long)).collect();
    let mut good = true;
    for edge in &all {
        let trouble = match expected_outcome(&edge.case) {
            Err(trouble) => Some(trouble.text().to_string()),
            Ok(told) => {
                let told = edge.case.delivered(told);
                let by_hand = edge.case.delivered(edge.expected.clone());
                let show = |answer: &Answer| answer.show(edge.case.entry);
                let differ = (told != by_hand).then(|| format!("by hand {}\ntold {}", show(&by_hand), show(&told)));
                differ.or_else(|| compare_with(&edge.case, &told).err().map(|t| t.text().to_string()))
            }
        };
        if let Some(text) = trouble {
            println!("DIFFERS {}\n{}{text}\n", edge.name, edge.case.show());
            good = false;
        }
    }
    println!("edges: {} cases by hand, {}", all.len(), if good { "0 differ" } else { "some differ" });
    good
}

fn recorded_edge(edge: &Edge) -> Vec<u8> {
    recorded(&edge.case, &edge.case.delivered(edge.expected.clone()))
}

fn small(case: &Case) -> bool {
    case.args.iter().all(|arg| arg.len() <= LONGEST)
}

/// Writes the hand-written cases and `count` random ones; of entries that came later a tenth as many, behind all
/// before.
pub fn record(file: &str, seed: u64, count: usize) -> bool {
    if !check_edges() {
        return false;
    }
    let mut cases: Vec<Vec<u8>> = vec![];
    for (later, group) in edges().iter().enumerate() {
        let (seed, count) = (seed + later as u64, if later == 0 { count } else { count / 10 });
        let Some(random) = random_cases(group.entries, seed, count) else { return false };
        cases.extend(group.short.iter().map(recorded_edge));
        cases.extend(random);
        cases.extend(group.long.iter().map(recorded_edge));
    }
    let mut file_bytes = vec![];
    put_number(&mut file_bytes, cases.len());
    file_bytes.extend(cases.concat());
    println!("{} cases, {} bytes", cases.len(), file_bytes.len());
    std::fs::write(file, file_bytes).is_ok()
}

/// About `count` random cases of these entries, as they are recorded. None where our own disagree.
fn random_cases(entries: &[Entry], seed: u64, count: usize) -> Option<Vec<Vec<u8>>> {
    let mut cases = vec![];
    let mut size = 0;
    let mut seen = HashSet::new();
    let mut taken = [[0; NUMBERS]; ENTRIES.len() + 1];
    let mut r = Random::new(seed);
    let mut tries = 0;
    while cases.len() < count && size < BYTES && tries < 20 * count {
        tries += 1;
        let mut case = random_case(&mut r, entries, Scale::Small);
        let outcome = expected_outcome(&case).ok()?;
        if !small(&case) || outcome.as_ref().is_ok_and(|result| result.len() > LONGEST) {
            continue;
        }
        case.room = random_room(&mut r, &case, &outcome);
        (case.fill, case.plain_fill) = (0xa5, true);
        let answer = case.delivered(outcome);
        let number = &mut taken[case.entry as usize][answer.number as usize];
        // What is common stays out while what is rare is still missing; long cases are rarer.
        let share = count / entries.len() / if answer.number == 0 { 2 } else { 17 };
        let bytes = recorded(&case, &answer);
        if *number >= ENOUGH.max(share) || (bytes.len() > 750 && !r.percent(15)) || !seen.insert(bytes.clone()) {
            continue;
        }
        *number += 1;
        size += bytes.len();
        cases.push(bytes);
    }
    for &entry in entries {
        let numbers = (0..NUMBERS).filter(|&n| taken[entry as usize][n] > 0);
        let numbers: Vec<String> = numbers.map(|n| format!("{n}:{}", taken[entry as usize][n])).collect();
        println!("{}: random cases {}", entry.name(), numbers.join(" "));
    }
    Some(cases)
}

/// Takes the fields of recorded cases one by one.
struct Fields<'a>(&'a [u8]);

impl<'a> Fields<'a> {
    fn bytes(&mut self, count: usize) -> &'a [u8] {
        let (bytes, rest) = self.0.split_at(count);
        self.0 = rest;
        bytes
    }

    fn byte(&mut self) -> u8 {
        self.bytes(1)[0]
    }

    fn number(&mut self) -> usize {
        self.bytes(3).iter().fold(0, |n, &b| n * 256 + b as usize)
    }

    fn case(&mut self) -> (Case, Answer) {
        let entry = ENTRIES[self.byte() as usize - 1];
        let number = self.byte() as u32;
        let room = self.number();
        let lengths: Vec<usize> = (0..5).map(|_| self.number()).collect();
        let mut files: Vec<Vec<u8>> = lengths.iter().map(|&n| self.bytes(n).to_vec()).collect();
        let result = files.pop().unwrap();
        let result = if entry == Entry::Search { marked(&result) } else { result };
        let unused = files.split_off(entry.arguments().len());
        assert!(unused.iter().all(Vec::is_empty), "what an entry does not take is empty");
        let case = Case { entry, args: files, room, fill: 0xa5, plain_fill: true };
        let answer = case.delivered(if number == 0 { Ok(result) } else { Err(number) });
        (case, answer)
    }
}

/// The cases of a recorded file.
fn read(file: &str) -> Vec<(Case, Answer)> {
    let bytes = std::fs::read(file).expect("the file is read");
    let mut fields = Fields(&bytes);
    let cases = (0..fields.number()).map(|_| fields.case()).collect();
    assert!(fields.0.is_empty(), "nothing follows the last case");
    cases
}

/// Bytes after their count.
fn counted(bytes: &[u8]) -> String {
    format!("{} {}", bytes.len(), hex(bytes))
}

/// Numbers after their count.
fn listed(numbers: &[usize]) -> String {
    let all = std::iter::once(numbers.len()).chain(numbers.iter().copied());
    all.map(|n| n.to_string()).collect::<Vec<_>>().join(" ")
}

/// Prints a recorded file as text, a case a line.
pub fn show(file: &str) -> bool {
    for (case, answer) in read(file) {
        let args: Vec<String> = case.args.iter().map(|arg| counted(arg)).collect();
        let result = result(&case, &answer);
        let result = match case.entry {
            Entry::Search => listed(&answer.indexes()),
            entry if entry.only_tells() => listed(&numbers_of(&result)),
            _ => counted(&result),
        };
        println!("{} {} {} {} {result}", case.entry.name(), args.join(" "), case.room, answer.number);
    }
    true
}

/// Runs a recorded file against the library; true if nothing differs.
pub fn replay(file: &str) -> bool {
    let (mut cases, mut differ, mut skipped) = (0, 0, 0);
    for (case, told) in read(file) {
        cases += 1;
        skipped += !crate::library::has(case.entry) as u32;
        if let Err(trouble) = compare_with(&case, &told) {
            differ += 1;
            println!("DIFFERS\n{}{}\n", case.show(), trouble.text());
        }
    }
    println!("replay: {cases} cases, {differ} differ, {skipped} of entries that the library has not");
    differ == 0
}
