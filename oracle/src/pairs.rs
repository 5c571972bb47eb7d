//! Two edits on one frame: in both orders, of one part twice, and to the value that is there.

use std::collections::BTreeMap;
use std::fmt::Write;
use std::ops::Range;

use crate::case::{hex, Case};
use crate::compare::{caught, compare_with, Trouble, MOST_SHOWN};
use crate::edges::pair_edges;
use crate::expect::{framed, outcome, stretch_of_file, unframed, valued, Entry, Outcome};
use crate::generate::Scale;
use crate::library;
use crate::pair_cases::random_pair;
use crate::paths::{follow, width, Part};
use crate::random::Random;
use crate::types::{read_type, Ty};
use crate::values::{write_value, Val};

/// So many small pairs are tried in place of one that differs.
const SMALL_TRIES: usize = 4_000;

#[derive(Clone)]
pub struct Edit {
    pub path: Vec<u8>,
    /// The new value's file.
    pub new: Vec<u8>,
}

/// Two edits of one frame of a type.
#[derive(Clone)]
pub struct Pair {
    pub ty: Vec<u8>,
    pub frame: Vec<u8>,
    pub edits: [Edit; 2],
    /// The fill of the first case that is made of it; those of the others count up from it.
    pub fill: u8,
}

impl Pair {
    /// The arguments of one of the edits, of a frame.
    fn to_edit(&self, which: usize, frame: &[u8], new: &[u8]) -> Vec<Vec<u8>> {
        [self.to_read(which, frame), vec![new.to_vec()]].concat()
    }

    /// The arguments to read the part of one of the edits, of a frame.
    fn to_read(&self, which: usize, frame: &[u8]) -> Vec<Vec<u8>> {
        vec![self.ty.clone(), frame.to_vec(), self.edits[which].path.clone()]
    }

    /// What one of the edits makes of a frame.
    fn edited(&self, which: usize, frame: &[u8]) -> Outcome {
        outcome(Entry::PartEdit, &self.to_edit(which, frame, &self.edits[which].new))
    }

    fn size(&self) -> usize {
        let edits = self.edits.iter().map(|edit| edit.path.len() + edit.new.len());
        self.ty.len() + self.frame.len() + edits.sum::<usize>()
    }

    /// All arguments in hexadecimal.
    fn show(&self) -> String {
        let mut text = String::new();
        let mut put = |name: &str, bytes: &[u8]| {
            writeln!(text, "  {name} ({} bytes) {}", bytes.len(), hex(bytes)).unwrap();
        };
        put("type", &self.ty);
        put("frame", &self.frame);
        for (edit, name) in self.edits.iter().zip(["first", "second"]) {
            put(&format!("{name} path"), &edit.path);
            put(&format!("{name} value"), &edit.new);
        }
        text
    }
}

/// How the parts of the first and the second edit lie to each other.
#[derive(Clone, Copy, Debug, PartialEq)]
enum Relation {
    Apart,
    FirstWithin,
    SecondWithin,
    Same,
}

fn relation(first_within: bool, second_within: bool) -> Relation {
    match (first_within, second_within) {
        (false, false) => Relation::Apart,
        (true, false) => Relation::FirstWithin,
        (false, true) => Relation::SecondWithin,
        (true, true) => Relation::Same,
    }
}

/// A part lies within another if all its records are among the other's.
fn by_records(first: &Range<usize>, second: &Range<usize>) -> Relation {
    let within = |one: &Range<usize>, other: &Range<usize>| one.clone().all(|record| other.contains(&record));
    relation(within(first, second), within(second, first))
}

/// A part lies within another if its steps begin with the other's.
fn by_paths(first: &[u8], second: &[u8]) -> Relation {
    relation(first.starts_with(second), second.starts_with(first))
}

fn disjoint(one: &Range<usize>, other: &Range<usize>) -> bool {
    one.end <= other.start || other.end <= one.start
}

/// What is expected of a pair, and what is counted.
struct Told {
    /// The first edit alone, and the second alone.
    alone: [Outcome; 2],
    /// The second edit on what the first left, and the first on what the second left.
    after: [Outcome; 2],
    facts: Vec<&'static str>,
}

impl Told {
    /// What one edit alone leaves; a refused one leaves the frame.
    fn left<'a>(&'a self, pair: &'a Pair, first: usize) -> &'a [u8] {
        self.alone[first].as_ref().unwrap_or(&pair.frame)
    }

    /// What both leave, one after the other.
    fn left_by_both<'a>(&'a self, pair: &'a Pair, first: usize) -> &'a [u8] {
        self.after[first].as_ref().map_or(self.left(pair, first), Vec::as_slice)
    }

    fn put(&mut self, holds: bool, fact: &'static str) {
        if holds {
            self.facts.push(fact);
        }
    }
}

/// What is expected of a pair. It panics where that is not what R-2 says.
fn told(pair: &Pair) -> Told {
    let alone = [0, 1].map(|which| pair.edited(which, &pair.frame));
    let mut told = Told { alone, after: [Err(0), Err(0)], facts: vec![] };
    told.after = [0, 1].map(|first| pair.edited(1 - first, told.left(pair, first)));
    match told.alone.iter().filter(|outcome| outcome.is_err()).count() {
        0 => check_accepted(pair, &mut told),
        1 => told.put(true, "one is refused alone"),
        _ => told.put(true, "both are refused alone"),
    }
    if paths_part(pair) {
        check_refused(&mut told);
    }
    told
}

/// Neither path's steps begin with the other's. A path of odd length has no steps.
fn paths_part(pair: &Pair) -> bool {
    let [one, other] = pair.edits.each_ref().map(|edit| &edit.path[..]);
    [one, other].iter().any(|path| path.len() % 2 == 1) || by_paths(one, other) == Relation::Apart
}

/// An edit that is refused alone is refused behind the other, too, with the same number, if the paths part.
fn check_refused(told: &mut Told) {
    for which in [0, 1] {
        if told.alone[which].is_err() {
            let alike = told.after[1 - which] == told.alone[which];
            assert!(alike, "an edit that is refused alone is answered otherwise behind the other");
            told.facts.push("an edit is refused alone, and alike behind the other");
        }
    }
}

/// The words of R-2, of two edits that are accepted alone.
fn check_accepted(pair: &Pair, told: &mut Told) {
    let ty = read_type(&pair.ty).expect("the type is sound");
    let old = unframed(&ty, &pair.frame).expect("the frame is accepted");
    let follow =
        |which: usize| follow(&ty, &old, &pair.edits[which].path).unwrap_or_else(|_| panic!("there is a part"));
    let parts = [follow(0), follow(1)];
    let [first, second] = parts.each_ref().map(|part| part.record..part.record + part.val.records());
    let relation = by_records(&first, &second);
    let other = by_paths(&pair.edits[0].path, &pair.edits[1].path);
    assert!(relation == other, "the parts lie {relation:?} by their records, {other:?} by their paths");
    match relation {
        Relation::Apart => {
            assert!(disjoint(&first, &second), "parts that lie apart have a record in common");
            let [one, other] = parts.each_ref().map(|part| part.bit..part.bit + width(part.ty));
            assert!(disjoint(&one, &other), "parts that lie apart have a bit in common");
            let at_once = Ok(both_at_once(&ty, &old, &parts, &pair.edits));
            for first in [0, 1] {
                assert!(told.after[first] == at_once, "two edits leave another frame than both at once");
            }
            put_apart(pair, &ty, &old, &parts, told);
        }
        Relation::Same => {
            for first in [0, 1] {
                assert!(told.after[first] == told.alone[1 - first], "the second edit of a part leaves another frame");
            }
            put_same(pair, &parts[0], told);
        }
        _ => put_within(pair, &parts, relation, told),
    }
}

/// The frame of the value in whose file both parts are replaced, the later one first.
fn both_at_once(ty: &Ty, old: &Val, parts: &[Part; 2], edits: &[Edit; 2]) -> Vec<u8> {
    let mut file = write_value(old);
    let mut order = [0, 1];
    order.sort_by_key(|&which| std::cmp::Reverse(parts[which].record));
    for which in order {
        file.splice(stretch_of_file(&parts[which]), edits[which].new.iter().copied());
    }
    let whole = valued(ty, &file).expect("the replaced file is a value of the type");
    framed(ty, &whole)
}

/// What is counted, in the order in which it is printed.
const FACTS: [&str; 30] = [
    "apart",
    "apart, a part of width 0",
    "apart, the earlier part's record count changes",
    "apart, both edits change the frame",
    "apart, in one Tuple",
    "apart, in one Array",
    "apart, in one List",
    "apart, its first and its last element",
    "apart, in two of its blocks",
    "apart, in one variant",
    "apart, children of one record",
    "apart, within one Option",
    "apart, within one Either",
    "within",
    "within, the first in the second",
    "within, the second in the first",
    "within, the outer one is the whole value",
    "within, the inner one has width 0",
    "within, the second edit is refused in one order",
    "within, the orders leave different frames",
    "same",
    "same, of width 0",
    "same, the whole value",
    "same, both edits change the record count",
    "same, the orders leave different frames",
    "one is refused alone",
    "both are refused alone",
    "an edit is refused alone, and alike behind the other",
    "a part is read and edited to what it is",
    "an edited part is read",
];

/// Does an edit change the number of its part's records?
fn changes_count(edit: &Edit, part: &Part) -> bool {
    edit.new.len() != 36 * part.val.records()
}

fn put_apart(pair: &Pair, ty: &Ty, old: &Val, parts: &[Part; 2], told: &mut Told) {
    let earlier = if parts[0].record < parts[1].record { 0 } else { 1 };
    let paths = pair.edits.each_ref().map(|edit| &edit.path[..]);
    let common = paths[0].chunks(2).zip(paths[1].chunks(2)).take_while(|(a, b)| a == b).count();
    let fork = follow(ty, old, &paths[0][..2 * common]).unwrap_or_else(|_| panic!("there is a part"));
    let numbers = paths.map(|path| path[2 * common] as usize * 256 + path[2 * common + 1] as usize);
    told.put(true, "apart");
    told.put(parts.iter().any(|part| width(part.ty) == 0), "apart, a part of width 0");
    told.put(changes_count(&pair.edits[earlier], &parts[earlier]), "apart, the earlier part's record count changes");
    let change = told.alone.iter().all(|frame| frame.as_ref() != Ok(&pair.frame));
    told.put(change, "apart, both edits change the frame");
    match (fork.ty, fork.val) {
        (Ty::Tuple(_), _) => told.put(true, "apart, in one Tuple"),
        (Ty::Array(..), _) => told.put(true, "apart, in one Array"),
        (Ty::List(bound, _), Val::List(all)) => {
            told.put(true, "apart, in one List");
            let ends = [0, all.len() - 1];
            told.put(ends.iter().all(|end| numbers.contains(end)), "apart, its first and its last element");
            let blocks = numbers.map(|number| block(*bound, all.len(), number));
            told.put(blocks[0] != blocks[1], "apart, in two of its blocks");
        }
        _ => told.put(true, "apart, in one variant"),
    }
    told.put(paths.iter().all(|path| path.len() == 2 * common + 2), "apart, children of one record");
    let above: Vec<&Val> = (0..common).map(|steps| value_at(old, &paths[0][..2 * steps])).collect();
    told.put(above.iter().any(|val| matches!(val, Val::Option(_))), "apart, within one Option");
    told.put(above.iter().any(|val| matches!(val, Val::Either(..))), "apart, within one Either");
}

/// The part that sound steps lead to.
fn value_at<'a>(val: &'a Val, path: &[u8]) -> &'a Val {
    path.chunks(2).fold(val, |at, step| match at {
        Val::Either(_, side) => side,
        _ => at.children()[step[0] as usize * 256 + step[1] as usize],
    })
}

/// The size of the block in which an element stands.
fn block(bound: usize, length: usize, number: usize) -> usize {
    let block = bound / 2;
    let taken = if length >= block { block } else { 0 };
    if number < taken {
        return block;
    }
    self::block(block, length - taken, number - taken)
}

fn put_within(pair: &Pair, parts: &[Part; 2], relation: Relation, told: &mut Told) {
    let inner = if relation == Relation::FirstWithin { 0 } else { 1 };
    told.put(true, "within");
    told.put(inner == 0, "within, the first in the second");
    told.put(inner == 1, "within, the second in the first");
    told.put(parts[1 - inner].record == 0, "within, the outer one is the whole value");
    told.put(width(parts[inner].ty) == 0, "within, the inner one has width 0");
    let refused = told.after.iter().any(Outcome::is_err);
    told.put(refused, "within, the second edit is refused in one order");
    let differ = told.left_by_both(pair, 0) != told.left_by_both(pair, 1);
    told.put(differ, "within, the orders leave different frames");
}

fn put_same(pair: &Pair, part: &Part, told: &mut Told) {
    told.put(true, "same");
    told.put(width(part.ty) == 0, "same, of width 0");
    told.put(part.record == 0, "same, the whole value");
    let change = pair.edits.iter().all(|edit| changes_count(edit, part));
    told.put(change, "same, both edits change the record count");
    told.put(told.after[0] != told.after[1], "same, the orders leave different frames");
}

/// A call with what it must come to.
struct Call {
    name: &'static str,
    entry: Entry,
    args: Vec<Vec<u8>>,
    expected: Outcome,
}

/// The calls in their order. A frame that an earlier call left and a value that it read are the expected ones: a run stops
/// at the first difference.
fn calls(pair: &Pair, told: &mut Told) -> Vec<Call> {
    let mut all = vec![];
    let mut put = |name, entry, args, expected: &Outcome| {
        all.push(Call { name, entry, args, expected: expected.clone() });
    };
    for first in [0, 1] {
        let second = 1 - first;
        let [one, other] = [first, second].map(|which| &pair.edits[which].new);
        put("alone", Entry::PartEdit, pair.to_edit(first, &pair.frame, one), &told.alone[first]);
        let args = pair.to_edit(second, told.left(pair, first), other);
        put("after the other", Entry::PartEdit, args, &told.after[first]);
    }
    for which in [0, 1] {
        let args = pair.to_read(which, &pair.frame);
        let there = outcome(Entry::PartRead, &args);
        put("the part is read", Entry::PartRead, args, &there);
        if let Ok(there) = there {
            let args = pair.to_edit(which, &pair.frame, &there);
            let same = Ok(pair.frame.clone());
            assert!(outcome(Entry::PartEdit, &args) == same, "an edit to the value that is there changes the frame");
            put("to the value that is there", Entry::PartEdit, args, &same);
            told.facts.push("a part is read and edited to what it is");
        }
        if told.alone[which].is_ok() {
            let args = pair.to_read(which, told.left(pair, which));
            let new = Ok(pair.edits[which].new.clone());
            assert!(outcome(Entry::PartRead, &args) == new, "an edited part does not read as its new value");
            put("the edited part is read", Entry::PartRead, args, &new);
            told.facts.push("an edited part is read");
        }
    }
    all
}

/// Compares the library's answers with the expected ones, call after call.
fn make_calls(pair: &Pair, calls: Vec<Call>) -> Result<(), Trouble> {
    for (number, call) in calls.into_iter().enumerate() {
        let room = call.expected.as_ref().map_or(40, Vec::len);
        let fill = pair.fill.wrapping_add(number as u8);
        let case = Case { entry: call.entry, args: call.args, room, fill, plain_fill: false };
        let expected = case.delivered(call.expected);
        let text = |trouble: Trouble| format!("call {number}, {}:\n{}{}", call.name, case.show(), trouble.text());
        compare_with(&case, &expected).map_err(|trouble| Trouble::Library(text(trouble)))?;
    }
    Ok(())
}

/// Runs one pair.
fn run(pair: &Pair) -> Result<Told, Trouble> {
    let expectation = || {
        let mut told = told(pair);
        let calls = calls(pair, &mut told);
        (told, calls)
    };
    let (told, calls) = caught("our own", expectation).map_err(Trouble::Ourselves)?;
    make_calls(pair, calls)?;
    Ok(told)
}

/// The smallest of some small pairs that differs, or the pair itself.
fn shrink(pair: &Pair, trouble: Trouble) -> (Pair, Trouble) {
    let mut r = Random::new(1);
    let mut best = (pair.clone(), trouble);
    for _ in 0..SMALL_TRIES {
        let small = random_pair(&mut r, Scale::Small);
        if small.size() < best.0.size() {
            if let Err(trouble) = run(&small) {
                best = (small, trouble);
            }
        }
    }
    best
}

/// Runs random pairs; true if nothing differs.
pub fn pairs(seed: u64, count: u64) -> bool {
    let mut r = Random::new(seed);
    let mut counts: BTreeMap<&str, u64> = FACTS.map(|fact| (fact, 0)).into();
    let mut differ = 0;
    for number in 1..=count {
        let scale = r.pick(&[Scale::Small, Scale::Any]);
        let pair = random_pair(&mut r, scale);
        match run(&pair) {
            Ok(told) => told.facts.into_iter().for_each(|fact| *counts.get_mut(fact).expect("it is counted") += 1),
            Err(trouble) => {
                differ += 1;
                if differ <= MOST_SHOWN {
                    let (small, trouble) = shrink(&pair, trouble);
                    println!("DIFFERS at pair {number}\n{}{}\n", small.show(), trouble.text());
                }
            }
        }
    }
    FACTS.iter().for_each(|fact| println!("{:8} {fact}", counts[fact]));
    let against = if library::has(Entry::PartEdit) { "" } else { " (not in the library)" };
    println!("pairs: {count} cases, {differ} differ{against}");
    differ == 0
}

/// A pair with the results by hand: each edit alone, then each after the other.
pub struct PairEdge {
    pub name: &'static str,
    pub pair: Pair,
    /// The first edit alone, and the second alone.
    pub alone: [Outcome; 2],
    /// The second edit on what the first left, and the first on what the second left.
    pub after: [Outcome; 2],
}

fn show(outcomes: &[Outcome; 2]) -> String {
    let show =
        |outcome: &Outcome| outcome.as_ref().map_or_else(|number| format!("number {number}"), |frame| hex(frame));
    outcomes.each_ref().map(show).join(", ")
}

/// Checks the hand-written pairs; true if all hold.
pub fn check_edges() -> bool {
    let all = pair_edges();
    let mut good = true;
    for edge in &all {
        let trouble = match run(&edge.pair) {
            Err(trouble) => Some(trouble.text().to_string()),
            Ok(told) => {
                let by_hand = [&edge.alone, &edge.after].map(show);
                let told = [&told.alone, &told.after].map(show);
                (by_hand != told).then(|| format!("by hand {}\ntold    {}", by_hand.join(", "), told.join(", ")))
            }
        };
        if let Some(text) = trouble {
            println!("DIFFERS {}\n{}{text}\n", edge.name, edge.pair.show());
            good = false;
        }
    }
    println!("pairs: {} cases by hand, {}", all.len(), if good { "0 differ" } else { "some differ" });
    good
}
