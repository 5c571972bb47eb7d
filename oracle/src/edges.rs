//! Cases written by hand with the results that 01 and 02 name, and the smallest inputs of their rows.

use crate::case::{put_number, Case};
use crate::day_edges::{long_searches, searches};
use crate::expect::Entry::{self, *};
use crate::expect::{Outcome, ENTRIES};
use crate::pairs::{Edit, Pair, PairEdge};

/// A case and its result with this buffer.
pub struct Edge {
    pub name: &'static str,
    pub case: Case,
    pub expected: Outcome,
}

/// The cases of some entries: the short ones, and those with long arguments or results.
pub struct Group {
    pub entries: &'static [Entry],
    pub short: Vec<Edge>,
    pub long: Vec<Edge>,
}

/// Records of a type file: kind and n.
pub fn ty(records: &[(u8, u16)]) -> Vec<u8> {
    records.iter().flat_map(|&(kind, n)| [kind, 0, (n >> 8) as u8, n as u8]).collect()
}

/// A record of a value file: kind, choice, n and a small integer.
pub type Record = (u8, u8, u16, u8);

/// The bytes of records.
pub fn val(records: &[Record]) -> Vec<u8> {
    let mut out = vec![];
    for &(kind, choice, n, integer) in records {
        out.extend([kind, choice, (n >> 8) as u8, n as u8]);
        out.extend([0; 31]);
        out.push(integer);
    }
    out
}

/// A digit a record.
fn digits(text: &str) -> Vec<u8> {
    text.bytes().filter(|b| *b != b' ').map(|b| b - b'0').collect()
}

pub fn steps(all: &[u16]) -> Vec<u8> {
    all.iter().flat_map(|s| s.to_be_bytes()).collect()
}

pub struct Edges(Vec<Edge>);

impl Edges {
    fn put(&mut self, name: &'static str, entry: Entry, args: &[&[u8]], room: usize, expected: Outcome) {
        let args = args.iter().map(|a| a.to_vec()).collect();
        let case = Case { entry, args, room, fill: 0xa5, plain_fill: true };
        self.0.push(Edge { name, case, expected });
    }

    /// Accepted with an exact buffer, and with two bytes more; refused with one byte less.
    fn good(&mut self, name: &'static str, entry: Entry, args: &[&[u8]], result: &[u8]) {
        self.put(name, entry, args, result.len(), Ok(result.to_vec()));
        if entry == PartEdit || result.len() > 2_000 {
            return;
        }
        self.put(name, entry, args, result.len() + 2, Ok(result.to_vec()));
        if !result.is_empty() {
            self.put(name, entry, args, result.len() - 1, Err(17));
        }
    }

    fn bad(&mut self, name: &'static str, entry: Entry, args: &[&[u8]], number: u32) {
        self.put(name, entry, args, 40, Err(number));
    }

    /// The numbers that an entry tells, or the number that refuses.
    pub fn tell(&mut self, name: &'static str, entry: Entry, args: &[&[u8]], told: Result<&[usize], u32>) {
        let file = |numbers: &[usize]| {
            let mut out = vec![];
            numbers.iter().for_each(|&n| put_number(&mut out, n));
            out
        };
        self.put(name, entry, args, 0, told.map(file));
    }

    /// The records of a value's shape, or the number that refuses.
    fn records(&mut self, name: &'static str, ty: &[u8], value: &[u8], told: Result<usize, u32>) {
        self.tell(name, ShapeRecords, &[ty, value], told.as_ref().map(std::slice::from_ref).map_err(|&n| n));
    }

    /// A value file that all its entries refuse; an edit is of the whole, in a frame of zeros.
    fn bad_value(&mut self, name: &'static str, ty: &[u8], value: &[u8], zeros: usize, number: u32) {
        self.bad(name, WriteShape, &[ty, value], number);
        self.bad(name, WriteFrame, &[ty, value], number);
        self.bad(name, PartEdit, &[ty, &vec![0; zeros], &[], value], number);
    }

    /// A shape that is cleaned, or refused. A buffer that is shorter than the shape may still be long enough.
    fn clean(&mut self, name: &'static str, records: &[(u8, u16)], shape: &str, cleaned: Result<&str, u32>) {
        let args: [&[u8]; 2] = [&ty(records), &digits(shape)];
        match cleaned.map(digits) {
            Err(number) => self.bad(name, CleanShape, &args, number),
            Ok(result) => {
                self.good(name, CleanShape, &args, &result);
                if result.len() + 1 < args[1].len() {
                    self.put(name, CleanShape, &args, args[1].len() - 1, Ok(result));
                }
            }
        }
    }
}

pub const LIST: [(u8, u16); 2] = [(7, 4), (2, 1)];
pub const PAIR: [(u8, u16); 4] = [(5, 2), (2, 4), (7, 4), (2, 1)];
pub const CHOICE: [(u8, u16); 3] = [(3, 0), (2, 4), (1, 0)];
pub const VARIANTS: [(u8, u16); 7] = [(8, 3), (9, 0), (9, 1), (2, 1), (9, 2), (2, 1), (1, 0)];
pub const UNIT: (u8, u16) = (5, 0);

pub fn bits(all: &[u8]) -> Vec<Record> {
    all.iter().map(|&b| (2, 0, 1, b)).collect()
}

pub fn list(all: &[u8]) -> Vec<Record> {
    [vec![(7, 0, all.len() as u16, 0)], bits(all)].concat()
}

/// (9, list) as a value of PAIR.
pub fn pair(all: &[u8]) -> Vec<u8> {
    val(&[vec![(5, 0, 2, 0), (2, 0, 4, 9)], list(all)].concat())
}

/// All cases of 'Along the edges', and the program `job`'s.
fn along_the_edges(e: &mut Edges) {
    let units = [
        "200",
        "20200",
        "2200200",
        "202200200",
        "22002200200",
        "2202002200200",
        "222002002200200",
        "20222002002200200",
    ];
    for (i, lowered) in units.iter().enumerate() {
        e.good("split", Lower, &[&ty(&[(6, i as u16 + 2), UNIT])], &digits(lowered));
    }
    e.good("lowered ()", Lower, &[&ty(&[UNIT])], &digits("0"));
    e.good("u2", Lower, &[&ty(&[(2, 2)])], &digits("2100100"));
    e.good("three Booleans", Lower, &[&ty(&[(5, 3), (1, 0), (1, 0), (1, 0)])], &digits("21002100100"));
    e.good("list of u1 bound 4", Lower, &[&ty(&LIST)], &digits("210210010010100"));
    let shapes: [(&[u8], &str); 4] =
        [(&[], "31010"), (&[1], "310220"), (&[1, 0], "323201010"), (&[1, 0, 1], "3232010220")];
    for (all, shape) in shapes {
        e.good("that list", WriteShape, &[&ty(&LIST), &val(&list(all))], &digits(shape));
        e.good("that list back", Reconstruct, &[&ty(&LIST), &digits(shape)], &val(&list(all)));
    }
    for entry in [WriteShape, WriteFrame] {
        e.bad("four elements", entry, &[&ty(&LIST), &val(&list(&[1, 0, 1, 1]))], 22);
        e.bad("a u1 holding 2", entry, &[&ty(&[(2, 1)]), &val(&bits(&[2]))], 21);
        e.bad("writing a none of Never", entry, &[&ty(&[(4, 0), (0, 0)]), &val(&[(4, 0, 0, 0)])], 6);
    }
    let variants: [(&[Record], &str); 3] = [
        (&[(8, 0, 0, 0)], "10"),
        (&[(8, 0, 1, 0), (2, 0, 1, 1)], "2120"),
        (&[(8, 0, 2, 0), (2, 0, 1, 1), (1, 0, 0, 0)], "2232010"),
    ];
    for (value, shape) in variants {
        e.good("variants", WriteShape, &[&ty(&VARIANTS), &val(value)], &digits(shape));
        e.good("variants back", Reconstruct, &[&ty(&VARIANTS), &digits(shape)], &val(value));
    }
    let right = val(&[(3, 1, 0, 0), (1, 1, 0, 0)]);
    let left = val(&[(3, 0, 0, 0), (2, 0, 4, 9)]);
    for (value, frame) in [(&right, [0xc0]), (&left, [0x48])] {
        e.good("either u4 or bool", WriteFrame, &[&ty(&CHOICE), value], &frame);
        e.good("either u4 or bool back", ReadFrame, &[&ty(&CHOICE), &frame], value);
    }
    e.bad("300 as ()", Reconstruct, &[&ty(&[UNIT]), &digits("300")], 20);
    e.bad("1300 as Option bool", Reconstruct, &[&ty(&[(4, 0), (1, 0)]), &digits("1300")], 10);
    e.good("10 as Option Never", Reconstruct, &[&ty(&[(4, 0), (0, 0)]), &digits("10")], &val(&[(4, 0, 0, 0)]));
    e.bad("an array of 32,769 units", Lower, &[&ty(&[(6, 32_769), UNIT])], 7);
    let options = |n: usize| ty(&[vec![(4, 0); n], vec![(1, 0)]].concat());
    e.good("31 Options", Lower, &[&options(31)], &digits(&format!("{}100", "10".repeat(31))));
    e.bad("32 Options", Lower, &[&options(32)], 4);
    let whole = ty(&PAIR);
    e.good("job's type", Lower, &[&whole], &digits("2221001002100100210210010010100"));
    e.good("job's shape", WriteShape, &[&whole, &pair(&[1])], &digits("333201031020310220"));
    e.good("job's frame", WriteFrame, &[&whole, &pair(&[1])], &[0x91, 0x80]);
    e.good("job's frame back", ReadFrame, &[&whole, &[0x91, 0x80]], &pair(&[1]));
    let six = val(&[(2, 0, 4, 6)]);
    e.good("part 0 to 6", PartEdit, &[&whole, &[0x91, 0x80], &steps(&[0]), &six], &[0x61, 0x80]);
    let three = val(&list(&[1, 0, 1]));
    e.good("part 1 to [1, 0, 1]", PartEdit, &[&whole, &[0x91, 0x80], &steps(&[1]), &three], &[0x9d, 0x80]);
    e.good("the whole", PartEdit, &[&whole, &[0x91, 0x80], &[], &pair(&[1, 0, 1])], &[0x9d, 0x80]);
    e.good("part 1", PartRead, &[&whole, &[0x91, 0x80], &steps(&[1])], &val(&list(&[1])));
    e.good("part 1, 0", PartRead, &[&whole, &[0x91, 0x80], &steps(&[1, 0])], &val(&bits(&[1])));
    e.good("the whole", PartRead, &[&whole, &[0x91, 0x80], &[]], &pair(&[1]));
    e.bad("path 1, 1", PartRead, &[&whole, &[0x91, 0x80], &steps(&[1, 1])], 14);
    e.bad("path 1, 1", PartEdit, &[&whole, &[0x91, 0x80], &steps(&[1, 1]), &val(&bits(&[1]))], 14);
}

/// The smallest inputs of the type rows, and rows that meet.
pub fn bad_types() -> Vec<(&'static str, Vec<u8>, u32)> {
    let deep = |last: &[u8]| [ty(&[(4, 0); 32]), last.to_vec()].concat();
    vec![
        ("empty", vec![], 1),
        ("three bytes", vec![1, 0, 0], 1),
        ("five bytes", vec![1, 0, 0, 0, 0], 1),
        ("kind 10", ty(&[(10, 0)]), 3),
        ("byte 1", vec![1, 1, 0, 0], 3),
        ("Boolean with n", ty(&[(1, 1)]), 3),
        ("Never with n", ty(&[(0, 1)]), 3),
        ("u0", ty(&[(2, 0)]), 3),
        ("u3", ty(&[(2, 3)]), 3),
        ("u512", ty(&[(2, 512)]), 3),
        ("Either with n", ty(&[(3, 1), (1, 0), (1, 0)]), 3),
        ("Option with n", ty(&[(4, 256), (1, 0)]), 3),
        ("list bound 0", ty(&[(7, 0), (1, 0)]), 3),
        ("list bound 1", ty(&[(7, 1), (1, 0)]), 3),
        ("list bound 6", ty(&[(7, 6), (1, 0)]), 3),
        ("enum of none", ty(&[(8, 0)]), 3),
        ("a Variant at the root", ty(&[(9, 0)]), 3),
        ("a Variant in a tuple", ty(&[(5, 1), (9, 0)]), 3),
        ("a type for a Variant", ty(&[(8, 1), (1, 0)]), 3),
        ("bad and too deep", deep(&ty(&[(10, 0)])), 3),
        ("missing and too deep", deep(&[]), 5),
        ("too deep and left over", deep(&ty(&[(1, 0), (1, 0)])), 4),
        ("missing", ty(&[(4, 0)]), 5),
        ("left over", ty(&[(1, 0), (1, 0)]), 5),
        ("a bad one left over", ty(&[(1, 0), (10, 0)]), 5),
        ("Never", ty(&[(0, 0)]), 6),
        ("Never in an array of 0", ty(&[(6, 0), (0, 0)]), 6),
        ("too large in an array of 0", ty(&[(6, 0), (6, 32_769), UNIT]), 7),
        ("too large and Never", ty(&[(5, 2), (6, 32_769), UNIT, (0, 0)]), 6),
    ]
}

fn type_rows(e: &mut Edges) {
    for (name, file, number) in bad_types() {
        e.bad(name, Lower, &[&file], number);
        for entry in [WriteShape, WriteFrame, ReadFrame] {
            e.bad(name, entry, &[&file, &[]], number);
        }
        e.bad(name, PartRead, &[&file, &[], &[]], number);
        e.bad(name, PartEdit, &[&file, &[], &[0], &[]], number);
        if number < 6 {
            e.bad(name, Reconstruct, &[&file, &[]], number);
        }
    }
    e.good("enum of one", Lower, &[&ty(&[(8, 1), (9, 1), (1, 0)])], &digits("100"));
    e.good("list bound 2", Lower, &[&ty(&[(7, 2), (1, 0)])], &digits("10100"));
    e.good("array of 0", Lower, &[&ty(&[(6, 0), (1, 0)])], &digits("0"));
}

const NOT_ONE_TREE: [&str; 7] = ["", "4", "00", "3", "1", "30", "3000"];

/// The smallest inputs of the other rows, and rows that meet.
fn other_rows(e: &mut Edges) {
    let u4 = ty(&[(2, 4)]);
    for shape in NOT_ONE_TREE {
        e.bad("not one tree", Reconstruct, &[&u4, &digits(shape)], 9);
    }
    e.bad("u2 with 3100", Reconstruct, &[&ty(&[(2, 2)]), &digits("3100")], 10);
    e.bad("Never", Reconstruct, &[&ty(&[(0, 0)]), &digits("0")], 10);
    e.bad("Never is reached", Reconstruct, &[&ty(&[(4, 0), (0, 0)]), &digits("20")], 10);
    let one = ty(&[(8, 1), (9, 1), (1, 0)]);
    e.good("enum of one", WriteShape, &[&one, &val(&[(8, 0, 0, 0), (1, 1, 0, 0)])], &digits("20"));
    let incident = ty(&[(7, 8), (2, 1)]);
    let four = val(&list(&[1, 0, 1, 1]));
    e.good("four of a bound 8", WriteShape, &[&incident, &four], &digits("3233201032020 31010"));
    e.good("four of a bound 8", WriteFrame, &[&incident, &four], &[0xd8, 0x00]);
    e.good("four of a bound 8", ReadFrame, &[&incident, &[0xd8, 0x00]], &four);
    for (frame, number) in [(&[][..], 11), (&[0x90, 0][..], 11), (&[0x98][..], 12)] {
        e.bad("frame", ReadFrame, &[&u4, frame], number);
        e.bad("frame", PartRead, &[&u4, frame, &[0]], number);
        e.bad("frame", PartEdit, &[&u4, frame, &[0], &[]], number);
    }
    e.bad("padding", ReadFrame, &[&ty(&CHOICE), &[0xc8]], 12);
    e.bad("odd path", PartRead, &[&u4, &[0x90], &[0]], 13);
    e.bad("odd path", PartEdit, &[&u4, &[0x90], &[0], &[]], 13);
    e.bad("no such part", PartRead, &[&u4, &[0x90], &steps(&[0])], 14);
    e.bad("no such part", PartEdit, &[&u4, &[0x90], &steps(&[0]), &[]], 14);
    e.bad("the other side", PartRead, &[&ty(&CHOICE), &[0xc0], &steps(&[0])], 14);
    e.good("the side taken", PartRead, &[&ty(&CHOICE), &[0xc0], &steps(&[1])], &val(&[(1, 1, 0, 0)]));
    for file in [vec![], vec![0; 35], vec![0; 37]] {
        e.bad("value's length", WriteShape, &[&u4, &file], 15);
        e.bad("value's length", WriteFrame, &[&u4, &file], 15);
        e.bad("value's length", PartEdit, &[&u4, &[0x90], &[], &file], 15);
    }
    let values = [
        val(&[(1, 0, 0, 0)]),
        val(&[(2, 1, 4, 16)]),
        val(&[(2, 1, 4, 1)]),
        val(&[(2, 0, 8, 1)]),
        val(&[(2, 0, 4, 1), (2, 0, 4, 1)]),
    ];
    for file in &values {
        e.bad("not a u4", WriteShape, &[&u4, file], 16);
        e.bad("not a u4", WriteFrame, &[&u4, file], 16);
        e.bad("not a u4", PartEdit, &[&u4, &[0x90], &[], file], 16);
    }
    e.good("a part of width 0", PartEdit, &[&ty(&[UNIT]), &[], &[], &val(&[(5, 0, 0, 0)])], &[]);
    e.good("a frame of no bytes", WriteFrame, &[&ty(&[UNIT]), &val(&[(5, 0, 0, 0)])], &[]);
}

/// Rows 16, 21 and 22 in values of PAIR.
fn faults_of_a_pair(e: &mut Edges) {
    const TWO: Record = (5, 0, 2, 0);
    const NINE: Record = (2, 0, 4, 9);
    const SIXTEEN: Record = (2, 0, 4, 16);
    const EMPTY: Record = (7, 0, 0, 0);
    const FOUR: Record = (7, 0, 4, 0);
    const ONE: Record = (2, 0, 1, 1);
    const LARGE: Record = (2, 0, 1, 2);
    const TRUE: Record = (1, 1, 0, 0);
    let values: [(&'static str, &[Record], u32); 34] = [
        ("too large", &[TWO, SIXTEEN, EMPTY], 21),
        ("an element too large", &[TWO, NINE, (7, 0, 2, 0), ONE, LARGE], 21),
        ("at the bound", &[TWO, NINE, FOUR, ONE, ONE, ONE, ONE], 22),
        ("at the bound, no elements", &[TWO, NINE, FOUR], 22),
        ("above the bound", &[TWO, NINE, (7, 0, 5, 0), ONE, ONE, ONE, ONE, ONE], 22),
        ("far above the bound", &[TWO, NINE, (7, 0, 65_535, 0)], 22),
        ("above the bound by the high byte", &[TWO, NINE, (7, 0, 256, 0)], 22),
        ("too large, another kind", &[TWO, (1, 0, 4, 16), EMPTY], 16),
        ("too large, a choice", &[TWO, (2, 1, 4, 16), EMPTY], 16),
        ("too large, another width", &[TWO, (2, 0, 2, 16), EMPTY], 16),
        ("fits the width that it names", &[TWO, (2, 0, 8, 16), EMPTY], 16),
        ("at the bound, another kind", &[TWO, NINE, (6, 0, 4, 0)], 16),
        ("at the bound, a choice", &[TWO, NINE, (7, 1, 4, 0)], 16),
        ("at the bound, an unused byte", &[TWO, NINE, (7, 0, 4, 1)], 16),
        ("too large, then at the bound", &[TWO, SIXTEEN, FOUR], 21),
        ("too large, then another kind", &[TWO, SIXTEEN, TRUE], 21),
        ("too large, then a choice", &[TWO, SIXTEEN, (7, 1, 0, 0)], 21),
        ("at the bound, then too large", &[TWO, NINE, FOUR, LARGE, ONE, ONE, ONE], 22),
        ("at the bound, then another kind", &[TWO, NINE, FOUR, TRUE], 22),
        ("an element too large, then another kind", &[TWO, NINE, (7, 0, 2, 0), LARGE, TRUE], 21),
        ("another kind, then too large", &[TWO, NINE, (7, 0, 2, 0), TRUE, LARGE], 16),
        ("another count, then too large", &[(5, 0, 3, 0), SIXTEEN, EMPTY, ONE], 16),
        ("an unused byte, then too large", &[(5, 0, 2, 1), SIXTEEN, EMPTY], 16),
        ("another width, then at the bound", &[TWO, (2, 0, 8, 9), FOUR], 16),
        ("missing", &[TWO, NINE, (7, 0, 3, 0), ONE, ONE], 16),
        ("too large, then missing", &[TWO, SIXTEEN], 21),
        ("an element too large, then missing", &[TWO, NINE, (7, 0, 3, 0), LARGE], 21),
        ("at the bound, then missing", &[TWO, NINE, FOUR, ONE, ONE, ONE], 22),
        ("left over", &[TWO, NINE, EMPTY, ONE], 16),
        ("too large, then left over", &[TWO, SIXTEEN, EMPTY, ONE], 21),
        ("at the bound, then left over", &[TWO, NINE, FOUR, ONE, ONE, ONE, ONE, ONE], 22),
        ("below the bound, a fourth left over", &[TWO, NINE, (7, 0, 3, 0), ONE, ONE, ONE, ONE], 16),
        ("left over and too large", &[TWO, NINE, EMPTY, SIXTEEN], 16),
        ("left over and at the bound", &[TWO, NINE, EMPTY, FOUR], 16),
    ];
    for (name, value, number) in values {
        e.bad_value(name, &ty(&PAIR), &val(value), 2, number);
    }
    let whole = ty(&PAIR);
    let edits: [(&'static str, &[u8], &[u8], &[Record], u32); 9] = [
        ("part 0 to 16", &[0x91, 0x80], &steps(&[0]), &[SIXTEEN], 21),
        ("part 0 to a u1", &[0x91, 0x80], &steps(&[0]), &[LARGE], 16),
        ("part 1 to four elements", &[0x91, 0x80], &steps(&[1]), &[FOUR, ONE, ONE, ONE, ONE], 22),
        ("part 1 to an element too large", &[0x91, 0x80], &steps(&[1]), &[(7, 0, 1, 0), LARGE], 21),
        ("part 1, 0 to 2", &[0x91, 0x80], &steps(&[1, 0]), &[LARGE], 21),
        ("part 1, 0 to a list at the bound", &[0x91, 0x80], &steps(&[1, 0]), &[FOUR], 16),
        ("no such part, too large", &[0x91, 0x80], &steps(&[1, 1]), &[LARGE], 14),
        ("odd path, too large", &[0x91, 0x80], &[0], &[SIXTEEN], 13),
        ("tail, too large", &[0x91, 0x81], &steps(&[0]), &[SIXTEEN], 12),
    ];
    for (name, frame, path, value, number) in edits {
        e.bad(name, PartEdit, &[&whole, frame, path, &val(value)], number);
    }
    let cut = &val(&[TWO, SIXTEEN])[..71];
    e.bad_value("too large, a length of 71", &whole, cut, 2, 15);
}

/// Rows 16, 21 and 22 under each kind, at each width and at some bounds.
fn faults_of_kinds(e: &mut Edges) {
    let large = (2, 0, 1, 2);
    let kinds: [(&[(u8, u16)], Record); 7] = [
        (&[(3, 0), (2, 1), (1, 0)], (3, 0, 0, 0)),
        (&[(3, 0), (1, 0), (2, 1)], (3, 1, 0, 0)),
        (&[(4, 0), (2, 1)], (4, 1, 0, 0)),
        (&[(5, 1), (2, 1)], (5, 0, 1, 0)),
        (&[(6, 1), (2, 1)], (6, 0, 1, 0)),
        (&[(7, 2), (2, 1)], (7, 0, 1, 0)),
        (&[(8, 2), (9, 0), (9, 1), (2, 1)], (8, 0, 1, 0)),
    ];
    for (records, (kind, choice, n, _)) in kinds {
        let t = ty(records);
        e.bad_value("too large under it", &t, &val(&[(kind, choice, n, 0), large]), 1, 21);
        e.bad_value("an unused byte above", &t, &val(&[(kind, choice, n, 1), large]), 1, 16);
        e.bad_value("no such choice above", &t, &val(&[(kind, 2, n, 0), large]), 1, 16);
        e.bad_value("missing under it", &t, &val(&[(kind, choice, n, 0)]), 1, 16);
    }
    let variants = ty(&VARIANTS);
    e.bad_value("a variant past the last", &variants, &val(&[(8, 0, 3, 0), large]), 1, 16);
    e.bad_value("the last variant", &variants, &val(&[(8, 0, 2, 0), large, (1, 2, 0, 0)]), 1, 21);
    let two = ty(&[(5, 2), (1, 0), (2, 1)]);
    for (flag, number) in [((1, 1, 0, 0), 21), ((1, 2, 0, 0), 16), ((1, 0, 1, 0), 16), ((1, 0, 0, 1), 16)] {
        e.bad_value("a Boolean before", &two, &val(&[(5, 0, 2, 0), flag, large]), 1, number);
    }
    for bits in [1, 2, 4, 8, 16, 32, 64, 128] {
        let bytes = (bits as usize).div_ceil(8);
        let t = ty(&[(2, bits)]);
        let with = |at: usize, byte: u8| {
            let mut value = val(&[(2, 0, bits, 0)]);
            value[at] = byte;
            value
        };
        let place = 35 - bits as usize / 8;
        e.bad_value("2 to the width", &t, &with(place, 1 << (bits % 8)), bytes, 21);
        e.bad_value("the highest bit", &t, &with(4, 0x80), bytes, 21);
        let most = if bits < 8 { !(0xff >> bits) } else { 0xff };
        let mut value = with(35, if bits < 8 { 0xff >> (8 - bits) } else { 0xff });
        value[36 - bytes..35].fill(0xff);
        e.good("one below", WriteFrame, &[&t, &value], &vec![most; bytes]);
    }
    let all = [&val(&[(2, 0, 256, 0)])[..4], &[0xff; 32]].concat();
    e.good("the greatest of 256 bits", WriteFrame, &[&ty(&[(2, 256)]), &all], &[0xff; 32]);
    for (bound, zeros) in [(2, 1), (4, 1), (256, 1), (16_384, 2)] {
        let t = ty(&[(7, bound), UNIT]);
        e.bad_value("at the bound", &t, &val(&[(7, 0, bound, 0)]), zeros, 22);
        e.bad_value("one below the bound, missing", &t, &val(&[(7, 0, bound - 1, 0)]), zeros, 16);
    }
}

pub const NOTHING: Record = (5, 0, 0, 0);

/// Units at the spots of a shape, and shapes that have none: type, shape, value.
const WITH_UNITS: [(&str, &[(u8, u16)], &str, &[Record]); 31] = [
    ("()", &[UNIT], "0", &[NOTHING]),
    ("an array of 0", &[(6, 0), (1, 0)], "0", &[(6, 0, 0, 0)]),
    ("an array of 0 of Never", &[(6, 0), (0, 0)], "0", &[(6, 0, 0, 0)]),
    ("the one variant", &[(8, 1), (9, 0)], "0", &[(8, 0, 0, 0)]),
    ("variant 0 of two", &[(8, 2), (9, 0), (9, 0)], "10", &[(8, 0, 0, 0)]),
    ("variant 1 of two", &[(8, 2), (9, 0), (9, 0)], "20", &[(8, 0, 1, 0)]),
    ("a payload of one ()", &[(8, 1), (9, 1), UNIT], "0", &[(8, 0, 0, 0), NOTHING]),
    ("a payload of two ()", &[(8, 1), (9, 2), UNIT, UNIT], "300", &[(8, 0, 0, 0), NOTHING, NOTHING]),
    ("none", &[(4, 0), UNIT], "10", &[(4, 0, 0, 0)]),
    ("some ()", &[(4, 0), UNIT], "20", &[(4, 1, 0, 0), NOTHING]),
    ("left ()", &[(3, 0), UNIT, (1, 0)], "10", &[(3, 0, 0, 0), NOTHING]),
    ("left () not taken", &[(3, 0), UNIT, (1, 0)], "220", &[(3, 1, 0, 0), (1, 1, 0, 0)]),
    ("right ()", &[(3, 0), (1, 0), UNIT], "20", &[(3, 1, 0, 0), NOTHING]),
    ("right () not taken", &[(3, 0), (1, 0), UNIT], "120", &[(3, 0, 0, 0), (1, 1, 0, 0)]),
    ("no elements of ()", &[(7, 4), UNIT], "31010", &[(7, 0, 0, 0)]),
    ("an element of ()", &[(7, 4), UNIT], "31020", &[(7, 0, 1, 0), NOTHING]),
    ("two elements of ()", &[(7, 4), UNIT], "3230010", &[(7, 0, 2, 0), NOTHING, NOTHING]),
    ("three elements of ()", &[(7, 4), UNIT], "3230020", &[(7, 0, 3, 0), NOTHING, NOTHING, NOTHING]),
    ("an element of an array of 0", &[(7, 2), (6, 0), (1, 0)], "20", &[(7, 0, 1, 0), (6, 0, 0, 0)]),
    ("an array of one ()", &[(6, 1), UNIT], "0", &[(6, 0, 1, 0), NOTHING]),
    ("an array of two ()", &[(6, 2), UNIT], "300", &[(6, 0, 2, 0), NOTHING, NOTHING]),
    ("a tuple of one ()", &[(5, 1), UNIT], "0", &[(5, 0, 1, 0), NOTHING]),
    ("a tuple of two ()", &[(5, 2), UNIT, UNIT], "300", &[(5, 0, 2, 0), NOTHING, NOTHING]),
    ("() and a Boolean", &[(5, 2), UNIT, (1, 0)], "3010", &[(5, 0, 2, 0), NOTHING, (1, 0, 0, 0)]),
    ("a Boolean and ()", &[(5, 2), (1, 0), UNIT], "3100", &[(5, 0, 2, 0), (1, 0, 0, 0), NOTHING]),
    ("() and a u2", &[(5, 2), UNIT, (2, 2)], "3031020", &[(5, 0, 2, 0), NOTHING, (2, 0, 2, 1)]),
    ("() beside a Never", &[(5, 2), UNIT, (4, 0), (0, 0)], "3010", &[(5, 0, 2, 0), NOTHING, (4, 0, 0, 0)]),
    ("() and a large one", &[(5, 2), UNIT, (4, 0), (6, 32_769), UNIT], "3010", &[(5, 0, 2, 0), NOTHING, (4, 0, 0, 0)]),
    ("some large array of 0", &[(4, 0), (6, 0), (6, 32_769), UNIT], "20", &[(4, 1, 0, 0), (6, 0, 0, 0)]),
    ("true", &[(1, 0)], "20", &[(1, 1, 0, 0)]),
    ("a u1", &[(2, 1)], "10", &[(2, 0, 1, 0)]),
];

/// Anything else at the spots of a shape, with the rows before and behind 20: type, shape, and the cleaned shape or the
/// number that refuses.
const WITHOUT_UNITS: [(&str, &[(u8, u16)], &str, Result<&str, u32>); 69] = [
    ("a left as ()", &[UNIT], "10", Ok("0")),
    ("a right as ()", &[UNIT], "20", Ok("0")),
    ("a larger tree as ()", &[UNIT], "3102300", Ok("0")),
    ("a pair as an array of 0", &[(6, 0), (1, 0)], "300", Ok("0")),
    ("a left as an array of 0", &[(6, 0), (1, 0)], "10", Ok("0")),
    ("a Boolean as an array of 0", &[(6, 0), (1, 0)], "20", Ok("0")),
    ("an array of 0 of Never", &[(6, 0), (0, 0)], "10", Ok("0")),
    ("variant 0 of three, a pair", &VARIANTS, "1300", Ok("10")),
    ("variant 0 of three, a left", &VARIANTS, "110", Ok("10")),
    ("the one variant, a pair", &[(8, 1), (9, 0)], "300", Ok("0")),
    ("the one variant, a left", &[(8, 1), (9, 0)], "10", Ok("0")),
    ("variant 0 of two", &[(8, 2), (9, 0), (9, 0)], "110", Ok("10")),
    ("variant 1 of two", &[(8, 2), (9, 0), (9, 0)], "210", Ok("20")),
    ("a payload of one ()", &[(8, 1), (9, 1), UNIT], "10", Ok("0")),
    ("a payload of one array of 0", &[(8, 1), (9, 1), (6, 0), (1, 0)], "10", Ok("0")),
    ("a payload of two (), the first", &[(8, 1), (9, 2), UNIT, UNIT], "3100", Ok("300")),
    ("a payload of two (), the second", &[(8, 1), (9, 2), UNIT, UNIT], "3010", Ok("300")),
    ("a payload of two (), one tree", &[(8, 1), (9, 2), UNIT, UNIT], "0", Err(10)),
    ("some (), a left", &[(4, 0), UNIT], "210", Ok("20")),
    ("some (), a pair", &[(4, 0), UNIT], "2300", Ok("20")),
    ("none of (), a left", &[(4, 0), UNIT], "110", Err(10)),
    ("none of (), a pair", &[(4, 0), UNIT], "1300", Err(10)),
    ("left ()", &[(3, 0), UNIT, (1, 0)], "110", Ok("10")),
    ("left () not taken", &[(3, 0), UNIT, (1, 0)], "2300", Err(10)),
    ("right ()", &[(3, 0), (1, 0), UNIT], "210", Ok("20")),
    ("right () not taken", &[(3, 0), (1, 0), UNIT], "1300", Err(10)),
    ("an element of (), bound 2", &[(7, 2), UNIT], "210", Ok("20")),
    ("no elements, bound 2", &[(7, 2), UNIT], "110", Err(10)),
    ("an element of ()", &[(7, 4), UNIT], "310210", Ok("31020")),
    ("the first of two elements", &[(7, 4), UNIT], "32320010", Ok("3230010")),
    ("the second of two elements", &[(7, 4), UNIT], "32302010", Ok("3230010")),
    ("the third of three elements", &[(7, 4), UNIT], "32300210", Ok("3230020")),
    ("an empty block of two", &[(7, 4), UNIT], "311020", Err(10)),
    ("an empty block of one", &[(7, 4), UNIT], "32300110", Err(10)),
    ("an element, then an empty block", &[(7, 4), UNIT], "323200110", Err(10)),
    ("an array of 0 as an element", &[(7, 2), (6, 0), (1, 0)], "220", Ok("20")),
    ("a variant as an element", &[(7, 2), (8, 2), (9, 0), (9, 0)], "2110", Ok("210")),
    ("an array of one ()", &[(6, 1), UNIT], "10", Ok("0")),
    ("an array of two (), the first", &[(6, 2), UNIT], "3100", Ok("300")),
    ("an array of two (), the second", &[(6, 2), UNIT], "3010", Ok("300")),
    ("an array of three (), the last", &[(6, 3), UNIT], "303010", Ok("30300")),
    ("a tuple of one ()", &[(5, 1), UNIT], "300", Ok("0")),
    ("a tuple of two (), the first", &[(5, 2), UNIT, UNIT], "33000", Ok("300")),
    ("a tuple of two (), the second", &[(5, 2), UNIT, UNIT], "30300", Ok("300")),
    ("a tuple of two (), both", &[(5, 2), UNIT, UNIT], "31020", Ok("300")),
    ("a tuple of two (), one tree", &[(5, 2), UNIT, UNIT], "10", Err(10)),
    ("a tuple of (), then an array of 0", &[(5, 2), UNIT, (6, 0), (1, 0)], "3010", Ok("300")),
    ("() and a Boolean", &[(5, 2), UNIT, (1, 0)], "31010", Ok("3010")),
    ("a Boolean and ()", &[(5, 2), (1, 0), UNIT], "31010", Ok("3100")),
    ("() and no Boolean", &[(5, 2), UNIT, (1, 0)], "3100", Err(10)),
    ("no Boolean and ()", &[(5, 2), (1, 0), UNIT], "3010", Err(10)),
    ("() and no u2", &[(5, 2), UNIT, (2, 2)], "310310110", Err(10)),
    ("no u2 and ()", &[(5, 2), (2, 2), UNIT], "331011010", Err(10)),
    ("(), (), no Boolean", &[(5, 3), UNIT, UNIT, (1, 0)], "3103100", Err(10)),
    ("(), no Boolean, ()", &[(5, 3), UNIT, (1, 0), UNIT], "3103010", Err(10)),
    ("() beside a Never", &[(5, 2), UNIT, (4, 0), (0, 0)], "31010", Ok("3010")),
    ("() and a Never", &[(5, 2), UNIT, (4, 0), (0, 0)], "31020", Err(10)),
    ("a Never and ()", &[(5, 2), (4, 0), (0, 0), UNIT], "32010", Err(10)),
    ("() and a large one", &[(5, 2), UNIT, (4, 0), (6, 32_769), UNIT], "31010", Ok("3010")),
    ("some large array of 0", &[(4, 0), (6, 0), (6, 32_769), UNIT], "210", Ok("20")),
    ("false, a left", &[(1, 0)], "110", Err(10)),
    ("a u1, a pair", &[(2, 1)], "1300", Err(10)),
    ("a u2, a left", &[(2, 2)], "310110", Err(10)),
    ("one left over", &[UNIT], "100", Err(9)),
    ("a pair and one left over", &[UNIT], "3000", Err(9)),
    ("one missing", &[UNIT], "310", Err(9)),
    ("a byte above 3", &[UNIT], "14", Err(9)),
    ("a type left over", &[UNIT, UNIT], "10", Err(5)),
    ("a tuple's part missing", &[(5, 1)], "10", Err(5)),
];

fn spots_with_units(e: &mut Edges) {
    for (name, records, shape, value) in WITH_UNITS {
        e.good(name, Reconstruct, &[&ty(records), &digits(shape)], &val(value));
    }
}

fn spots_without_units(e: &mut Edges) {
    for (name, records, shape, cleaned) in WITHOUT_UNITS {
        e.bad(name, Reconstruct, &[&ty(records), &digits(shape)], cleaned.err().unwrap_or(20));
    }
    for room in [0, 35, 36] {
        e.put("a left as (), its value or less", Reconstruct, &[&ty(&[UNIT]), &digits("10")], room, Err(20));
    }
    let two = ty(&[(5, 2), UNIT, (1, 0)]);
    for room in [0, 107, 108] {
        e.put("() and a Boolean, its value or less", Reconstruct, &[&two, &digits("31010")], room, Err(20));
        e.put("() and no Boolean, its value or less", Reconstruct, &[&two, &digits("3100")], room, Err(10));
    }
}

/// More shapes to clean: trees at several spots, at some levels, and that look like what is read around them.
const CLEANED: [(&str, &[(u8, u16)], &str, Result<&str, u32>); 30] = [
    ("trees around a u1", &[(5, 3), UNIT, (2, 1), UNIT], "3 3102300 3 20 23100", Ok("3 0 3 20 0")),
    ("trees around no u1", &[(5, 3), UNIT, (2, 1), UNIT], "3 3102300 3 210 23100", Err(10)),
    ("a tree like the part behind it", &[(5, 2), UNIT, (5, 2), (1, 0), (1, 0)], "3 31020 31020", Ok("3 0 31020")),
    ("a tree like the part before it", &[(5, 2), (5, 2), (1, 0), (1, 0), UNIT], "3 31020 31020", Ok("3 31020 0")),
    ("a tree like the whole", &[(5, 2), UNIT, (1, 0)], "3 3010 10", Ok("3 0 10")),
    ("a pair of pairs", &[(5, 2), UNIT, UNIT], "3 300 300", Ok("300")),
    ("a pair in a pair", &[(5, 2), UNIT, UNIT], "3 33000 0", Ok("300")),
    ("trees in tuples in a tuple", &[(5, 2), (5, 2), UNIT, UNIT, (5, 1), UNIT], "33 10 20 300", Ok("33 0 0 0")),
    ("trees in an array of tuples", &[(6, 2), (5, 2), UNIT, (1, 0)], "3 3 10 20 3 300 10", Ok("3 3 0 20 3 0 10")),
    ("a u2 before a tree", &[(5, 2), (2, 2), (6, 0), (0, 0)], "3 31020 1110", Ok("3 31020 0")),
    ("some of some of some", &[(4, 0), (4, 0), (4, 0), UNIT], "222 300", Ok("222 0")),
    ("some of none", &[(4, 0), (4, 0), UNIT], "2 10", Ok("2 10")),
    ("some of none, a left", &[(4, 0), (4, 0), UNIT], "2 110", Err(10)),
    ("left of left", &[(3, 0), (3, 0), UNIT, (1, 0), (6, 0), (1, 0)], "11 20", Ok("11 0")),
    ("right of left", &[(3, 0), (3, 0), UNIT, (1, 0), (6, 0), (1, 0)], "12 20", Ok("12 20")),
    ("right of left, no Boolean", &[(3, 0), (3, 0), UNIT, (1, 0), (6, 0), (1, 0)], "12 300", Err(10)),
    ("right", &[(3, 0), (3, 0), UNIT, (1, 0), (6, 0), (1, 0)], "2 3200", Ok("2 0")),
    ("an array of Options", &[(6, 3), (4, 0), (6, 0), (2, 8)], "3 2300 3 10 220", Ok("3 20 3 10 20")),
    ("the same, a tree under the none", &[(6, 3), (4, 0), (6, 0), (2, 8)], "3 2300 3 110 220", Err(10)),
    ("the first of three variants", &[(8, 3), (9, 0), (9, 1), UNIT, (9, 2), UNIT, (1, 0)], "1 20", Ok("1 0")),
    ("the second", &[(8, 3), (9, 0), (9, 1), UNIT, (9, 2), UNIT, (1, 0)], "21 300", Ok("21 0")),
    ("the third", &[(8, 3), (9, 0), (9, 1), UNIT, (9, 2), UNIT, (1, 0)], "22 3 10 20", Ok("22 3 0 20")),
    ("the third, no Boolean", &[(8, 3), (9, 0), (9, 1), UNIT, (9, 2), UNIT, (1, 0)], "22 3 10 0", Err(10)),
    ("a list of variants", &[(7, 4), (8, 2), (9, 0), (9, 1), (2, 1)], "3 23 1300 220 2110", Ok("3 23 10 220 210")),
    ("a list of variants, no u1", &[(7, 4), (8, 2), (9, 0), (9, 1), (2, 1)], "3 23 1300 2210 2110", Err(10)),
    ("seven trees", &[(7, 8), UNIT], "3 23 31010 31010 3 231010 210", Ok("3 23 300 300 3 2300 20")),
    ("seven trees, cut", &[(7, 8), UNIT], "3 23 31010 31010 3 231010 21", Err(9)),
    ("none of Never", &[(4, 0), (0, 0)], "10", Ok("10")),
    ("none of Never, a left", &[(4, 0), (0, 0)], "110", Err(10)),
    ("some Never", &[(4, 0), (0, 0)], "20", Err(10)),
];

/// What is cleaned, with all rows before 17.
fn cleaned_shapes(e: &mut Edges) {
    for (name, records, shape, _) in WITH_UNITS {
        let same = digits(shape);
        e.put(name, CleanShape, &[&ty(records), &same], same.len(), Ok(same.clone()));
    }
    for (name, records, shape, cleaned) in WITHOUT_UNITS.into_iter().chain(CLEANED) {
        e.clean(name, records, shape, cleaned);
    }
    for shape in NOT_ONE_TREE {
        e.clean("not one tree", &[(2, 4)], shape, Err(9));
    }
    e.clean("u2 with 3100", &[(2, 2)], "3100", Err(10));
    e.clean("Never", &[(0, 0)], "0", Err(10));
    let options = |n: usize| [vec![(4, 0); n], vec![UNIT]].concat();
    e.clean("31 Options", &options(31), &format!("{}3200", "2".repeat(31)), Ok(&format!("{}0", "2".repeat(31))));
    e.clean("32 Options", &options(32), &format!("{}3200", "2".repeat(32)), Err(4));
    for (name, file, number) in bad_types() {
        // A type that does not lower is no matter; but no bytes are no shape.
        e.bad(name, CleanShape, &[&file, &[]], if number < 6 { number } else { 9 });
    }
    let rooms = |room, least| if room < least { Err(17) } else { Ok(()) };
    let two = ty(&[(5, 2), UNIT, (1, 0)]);
    for room in 0..9 {
        let one = rooms(room, 1).map(|()| digits("0"));
        e.put("a larger tree as ()", CleanShape, &[&ty(&[UNIT]), &digits("3102300")], room, one);
        let four = rooms(room, 4).map(|()| digits("3010"));
        e.put("() and a Boolean", CleanShape, &[&two, &digits("330010")], room, four);
    }
    for room in [0, 3, 4] {
        e.put("() and no Boolean", CleanShape, &[&two, &digits("3100")], room, Err(10));
        e.put("() and one left over", CleanShape, &[&two, &digits("310100")], room, Err(9));
    }
}

/// Long arguments; no result is as long.
fn long_cleaned_shapes(e: &mut Edges) {
    e.bad("1,025 records", CleanShape, &[&ty(&[(1, 0); 1_025]), &[]], 2);
    e.put("65,536 records under ()", CleanShape, &[&ty(&[UNIT]), &lefts(65_536)], 1, Ok(digits("0")));
    e.bad("65,537 records", CleanShape, &[&ty(&[UNIT]), &lefts(65_537)], 8);
    let array = ty(&[(6, 16_384), UNIT]);
    let units = full("3", 14, "0");
    e.put("an array of 16,384 units", CleanShape, &[&array, &units], units.len(), Ok(units.clone()));
    // 1,024 zeros, and an empty tuple with all that a shape may have besides.
    let zeros = full("3", 10, "10");
    let long_type = ty(&[(5, 2), (6, 4), (2, 256), UNIT]);
    let long = [digits("3"), zeros.clone(), lefts(65_535 - zeros.len())].concat();
    let result = [digits("3"), zeros, digits("0")].concat();
    e.put("65,536 records", CleanShape, &[&long_type, &long], result.len(), Ok(result.clone()));
    e.put("65,536 records, one byte short", CleanShape, &[&long_type, &long], result.len() - 1, Err(17));
}

/// The room of types: records of the lowered type, bits of a frame, the most records of a shape. By hand, with L, B and
/// S for these three of what is below:
/// - a unit has 1, 0, 1, a Boolean 3, 1, 2;
/// - an integer of w bits has w Booleans and w - 1 pairs: 4w - 1, w, 3w - 1;
/// - a product of n has its parts and n - 1 pairs, with no part it is a unit;
/// - a sum of two has a record, a bit and the sides: all of L, the larger B, the larger S;
/// - a list bounded at b = 2^k has k blocks and k - 1 pairs; a block of m has a record, a bit and m elements; in L also
///   a unit: (b - 1)(L + 1) + 2k - 1, (b - 1)B + k, (b - 1)(S + 1) + k - 1. An Option is one with b = 2.
const ROOMS: [(&str, &[(u8, u16)], [usize; 3]); 71] = [
    ("()", &[UNIT], [1, 0, 1]),
    ("a Boolean", &[(1, 0)], [3, 1, 2]),
    ("u1", &[(2, 1)], [3, 1, 2]),
    ("u2", &[(2, 2)], [7, 2, 5]),
    ("u4", &[(2, 4)], [15, 4, 11]),
    ("u8", &[(2, 8)], [31, 8, 23]),
    ("u16", &[(2, 16)], [63, 16, 47]),
    ("u32", &[(2, 32)], [127, 32, 95]),
    ("u64", &[(2, 64)], [255, 64, 191]),
    ("u128", &[(2, 128)], [511, 128, 383]),
    ("u256", &[(2, 256)], [1_023, 256, 767]),
    ("Either of units", &[(3, 0), UNIT, UNIT], [3, 1, 2]),
    ("Either u4 or bool", &CHOICE, [19, 5, 12]),
    ("Either bool or u4", &[(3, 0), (1, 0), (2, 4)], [19, 5, 12]),
    ("Either () or bool", &[(3, 0), UNIT, (1, 0)], [5, 2, 3]),
    // 9 units have 17 records and no bit, a u4 has 11 and four bits.
    ("the left longer, the right wider", &[(3, 0), (6, 9), UNIT, (2, 4)], [33, 5, 18]),
    ("the right longer, the left wider", &[(3, 0), (2, 4), (6, 9), UNIT], [33, 5, 18]),
    // No bits each, 7 records and 1.
    ("as wide, the left longer", &[(3, 0), (5, 4), UNIT, UNIT, UNIT, UNIT, UNIT], [9, 1, 8]),
    ("as wide, the right longer", &[(3, 0), UNIT, (6, 4), UNIT], [9, 1, 8]),
    // As long each, 5 records: two bits, and three units without a bit.
    ("as long, the left wider", &[(3, 0), (2, 2), (6, 3), UNIT], [13, 3, 6]),
    ("as long, the right wider", &[(3, 0), (6, 3), UNIT, (2, 2)], [13, 3, 6]),
    ("Option of ()", &[(4, 0), UNIT], [3, 1, 2]),
    ("Option of a Boolean", &[(4, 0), (1, 0)], [5, 2, 3]),
    ("Option of Option", &[(4, 0), (4, 0), (1, 0)], [7, 3, 4]),
    ("Option of an array of 0", &[(4, 0), (6, 0), (1, 0)], [3, 1, 2]),
    ("some of a longer side", &[(4, 0), (3, 0), (2, 1), (6, 4), UNIT], [13, 3, 9]),
    ("a tuple of one", &[(5, 1), (1, 0)], [3, 1, 2]),
    ("a tuple of two ()", &[(5, 2), UNIT, UNIT], [3, 0, 3]),
    ("() and a Boolean", &[(5, 2), UNIT, (1, 0)], [5, 1, 4]),
    ("three Booleans", &[(5, 3), (1, 0), (1, 0), (1, 0)], [11, 3, 8]),
    ("tuples in a tuple", &[(5, 2), (5, 2), UNIT, UNIT, (5, 1), UNIT], [5, 0, 5]),
    ("four parts", &[(5, 4), (1, 0), (2, 2), UNIT, (4, 0), (1, 0)], [19, 5, 14]),
    ("an array of 0", &[(6, 0), (1, 0)], [1, 0, 1]),
    ("an array of 0 of u256", &[(6, 0), (2, 256)], [1, 0, 1]),
    ("an array of 0 of arrays", &[(6, 0), (6, 32_768), UNIT], [1, 0, 1]),
    ("an array of one", &[(6, 1), (1, 0)], [3, 1, 2]),
    ("an array of two ()", &[(6, 2), UNIT], [3, 0, 3]),
    ("an array of three", &[(6, 3), (1, 0)], [11, 3, 8]),
    ("an array of five u2", &[(6, 5), (2, 2)], [39, 10, 29]),
    ("an array of lists", &[(6, 3), (7, 4), UNIT], [29, 6, 23]),
    ("an array of arrays of 0", &[(6, 3), (6, 0), (1, 0)], [5, 0, 5]),
    ("a list of (), bound 2", &[(7, 2), UNIT], [3, 1, 2]),
    ("a list of (), bound 4", &[(7, 4), UNIT], [9, 2, 7]),
    ("a list of (), bound 8", &[(7, 8), UNIT], [19, 3, 16]),
    ("a list of (), bound 16", &[(7, 16), UNIT], [37, 4, 33]),
    ("a list of (), bound 1,024", &[(7, 1_024), UNIT], [2_065, 10, 2_055]),
    ("a list of (), bound 16,384", &[(7, 16_384), UNIT], [32_793, 14, 32_779]),
    ("a list of Booleans, bound 2", &[(7, 2), (1, 0)], [5, 2, 3]),
    ("a list of u1, bound 4", &LIST, [15, 5, 10]),
    ("a list of u1, bound 8", &[(7, 8), (2, 1)], [33, 10, 23]),
    ("a list of u8, bound 1,024", &[(7, 1_024), (2, 8)], [32_755, 8_194, 24_561]),
    ("a list of Booleans, bound 8,192", &[(7, 8_192), (1, 0)], [32_789, 8_204, 24_585]),
    ("a list of an array of 0", &[(7, 2), (6, 0), (1, 0)], [3, 1, 2]),
    ("a list of Options", &[(7, 4), (4, 0), UNIT], [15, 5, 10]),
    ("a list of lists", &[(7, 4), (7, 4), (1, 0)], [51, 17, 34]),
    ("the one variant", &[(8, 1), (9, 0)], [1, 0, 1]),
    ("the one variant, a part", &[(8, 1), (9, 1), (1, 0)], [3, 1, 2]),
    ("the one variant, two parts", &[(8, 1), (9, 2), (1, 0), (2, 2)], [11, 3, 8]),
    ("two variants without parts", &[(8, 2), (9, 0), (9, 0)], [3, 1, 2]),
    ("three variants", &VARIANTS, [13, 4, 7]),
    // Of three the first hangs alone, here a u2; () and a u1 hang under a further sum.
    ("three variants, the first the longest", &[(8, 3), (9, 1), (2, 2), (9, 0), (9, 1), (2, 1)], [13, 3, 6]),
    // Of five the first hangs alone, and four under two further sums: these four have 3 records.
    ("five variants, the way is longer", &[(8, 5), (9, 1), (2, 1), (9, 0), (9, 0), (9, 0), (9, 0)], [11, 3, 4]),
    ("five variants, a part is longer", &[(8, 5), (9, 1), (2, 2), (9, 0), (9, 0), (9, 0), (9, 0)], [15, 3, 6]),
    // 8 units have 15 records and no bit, a u4 has 11 and four bits.
    ("the wider variant is shorter", &[(8, 2), (9, 1), (6, 8), UNIT, (9, 1), (2, 4)], [31, 5, 16]),
    ("the wider variant is first, and shorter", &[(8, 2), (9, 1), (2, 4), (9, 1), (6, 8), UNIT], [31, 5, 16]),
    ("a sorting job", &JOB, [775, 196, 579]),
    ("job's type", &PAIR, [31, 9, 22]),
    ("32,768 units", &[(6, 32_768), UNIT], [65_535, 0, 65_535]),
    ("16,384 Booleans", &[(6, 16_384), (1, 0)], [65_535, 16_384, 49_151]),
    ("64 of u256", &[(6, 64), (2, 256)], [65_535, 16_384, 49_151]),
    ("Option of 32,767 units", &[(4, 0), (6, 32_767), UNIT], [65_535, 1, 65_534]),
];

/// The room of types, and the rows before it.
fn rooms(e: &mut Edges) {
    for (name, records, told) in ROOMS {
        e.tell(name, Room, &[&ty(records)], Ok(&told));
    }
    let options = |n: usize, inner: (u8, u16)| [vec![(4, 0); n], vec![inner]].concat();
    e.tell("31 Options", Room, &[&ty(&options(31, (1, 0)))], Ok(&[65, 32, 33]));
    e.tell("31 Options of ()", Room, &[&ty(&options(31, UNIT))], Ok(&[63, 31, 32]));
    e.tell("32 Options", Room, &[&ty(&options(32, (1, 0)))], Err(4));
    // 30 Options of a Boolean have 63, 31 and 32.
    let largest = [vec![(6, 1_024)], options(30, (1, 0))].concat();
    e.tell("the largest frame", Room, &[&ty(&largest)], Ok(&[65_535, 31_744, 33_791]));
    for (name, file, number) in bad_types() {
        e.tell(name, Room, &[&file], Err(number));
    }
    e.tell("32,769 units", Room, &[&ty(&[(6, 32_769), UNIT])], Err(7));
    e.tell("16,385 Booleans", Room, &[&ty(&[(6, 16_385), (1, 0)])], Err(7));
    e.tell("Option of 32,768 units", Room, &[&ty(&[(4, 0), (6, 32_768), UNIT])], Err(7));
    e.tell("a list of (), bound 32,768", Room, &[&ty(&[(7, 32_768), UNIT])], Err(7));
    e.tell("too large beside an Option", Room, &[&ty(&[(5, 2), (4, 0), UNIT, (6, 65_535), (1, 0)])], Err(7));
}

/// Type files of a thousand records.
fn long_rooms(e: &mut Edges) {
    e.tell("1,025 records", Room, &[&ty(&[(1, 0); 1_025])], Err(2));
    e.tell("1,025 records, the first bad", Room, &[&ty(&[(10, 0); 1_025])], Err(2));
    // 1,023 parts and 1,022 pairs or sums; of 1,023 the deepest hangs under ten sums.
    let many = |kind: u8, leaf| ty(&[vec![(kind, 1_023)], vec![leaf; 1_023]].concat());
    e.tell("1,023 units", Room, &[&many(5, UNIT)], Ok(&[2_045, 0, 2_045]));
    e.tell("1,023 of u4", Room, &[&many(5, (2, 4))], Ok(&[16_367, 4_092, 12_275]));
    e.tell("1,023 variants", Room, &[&many(8, (9, 0))], Ok(&[2_045, 10, 11]));
}

/// The records of a shape: as many as each shape written by hand has, and the rows of `write_shape` before 17.
fn shape_records(e: &mut Edges) {
    let mut seen = vec![];
    let mut before = Edges(vec![]);
    for part in [along_the_edges, type_rows, other_rows, faults_of_a_pair, faults_of_kinds] {
        part(&mut before);
    }
    for Edge { name, case, expected } in before.0 {
        if case.entry == WriteShape && expected != Err(17) && !seen.contains(&case.args) {
            e.records(name, &case.args[0], &case.args[1], expected.map(|shape| shape.len()));
            seen.push(case.args);
        }
    }
    for (name, records, shape, value) in WITH_UNITS {
        let has = |record| records.contains(&record);
        let refused = if has((0, 0)) { Some(6) } else { has((6, 32_769)).then_some(7) };
        e.records(name, &ty(records), &val(value), refused.map_or(Ok(digits(shape).len()), Err));
    }
    // Two pairs join the blocks of four, two and one; an empty block has two records, one of n units a right and
    // 2n - 1.
    for (n, told) in [8, 8, 10, 10, 14, 14, 16, 16].into_iter().enumerate() {
        let value = [vec![(7, 0, n as u16, 0)], vec![NOTHING; n]].concat();
        e.records("a list of (), bound 8", &ty(&[(7, 8), UNIT]), &val(&value), Ok(told));
    }
    // Two records a bit and the pairs, whatever the integer is.
    for (bits, told) in [(1, 2), (2, 5), (4, 11), (8, 23), (16, 47), (32, 95), (64, 191), (128, 383), (256, 767)] {
        for n in [0, 1] {
            e.records("an integer", &ty(&[(2, bits)]), &val(&[(2, 0, bits, n)]), Ok(told));
        }
    }
    // A left and 17 records of units, a right and 11 of a u4.
    let sides = ty(&[(3, 0), (6, 9), UNIT, (2, 4)]);
    let units = [vec![(3, 0, 0, 0), (6, 0, 9, 0)], vec![NOTHING; 9]].concat();
    e.records("the longer side", &sides, &val(&units), Ok(18));
    e.records("the shorter side", &sides, &val(&[(3, 1, 0, 0), (2, 0, 4, 9)]), Ok(12));
    // 2 pairs, 23 of the u8, 2 of the none; of the hits 2 pairs, 2 of each empty block, 1 + 71 of a block of one.
    let job = |all: &[(u16, u16)]| {
        let none = val(&[(4, 0, 0, 0)]);
        [val(&[(5, 0, 3, 0)]), integer(8, 0x2a), hits(all), none].concat()
    };
    e.records("a sorting job, no hits", &ty(&JOB), &job(&[]), Ok(35));
    e.records("a sorting job, a hit", &ty(&JOB), &job(&[(0x1234, 0x56)]), Ok(105));
    e.records("a hit's kind too large", &ty(&JOB), &job(&[(1, 256)]), Err(21));
    e.records("eight hits", &ty(&JOB), &job(&[(1, 1); 8]), Err(22));
    e.records("no such density", &ty(&JOB), &job(&[])[..108], Err(16));
    e.records("half a density", &ty(&JOB), &job(&[])[..143], Err(15));
}

/// Long value files and shapes.
fn long_shape_records(e: &mut Edges) {
    e.records("1,025 records", &ty(&[(1, 0); 1_025]), &[], Err(2));
    let zeros = val(&[vec![(6, 0, 64, 0)], vec![(2, 0, 256, 0); 64]].concat());
    e.records("64 of u256", &ty(&[(6, 64), (2, 256)]), &zeros, Ok(49_151));
    e.records("63 of u256", &ty(&[(6, 64), (2, 256)]), &zeros[..36 * 64], Err(16));
    // 7 pairs join the blocks of 128, 64 .. 1; one of n units has a right and 2n - 1.
    let full = val(&[vec![(7, 0, 255, 0)], vec![NOTHING; 255]].concat());
    e.records("255 elements, bound 256", &ty(&[(7, 256), UNIT]), &full, Ok(517));
    e.records("255 elements, bound 128", &ty(&[(7, 128), UNIT]), &full, Err(22));
}

/// A chain of n records.
fn lefts(n: usize) -> Vec<u8> {
    [vec![1; n - 1], vec![0]].concat()
}

/// A full tree: so many levels of forks above equal leaves.
fn full(fork: &str, levels: usize, leaf: &str) -> Vec<u8> {
    (0..levels).fold(digits(leaf), |tree, _| [digits(fork), tree.clone(), tree].concat())
}

/// Long arguments or results; they stand at the end of the recorded file.
fn long_ones(e: &mut Edges) {
    let over = ty(&[(1, 0); 1_025]);
    e.bad("1,025 records", Lower, &[&over], 2);
    for entry in [WriteShape, WriteFrame, ReadFrame] {
        e.bad("1,025 records", entry, &[&over, &[]], 2);
    }
    e.bad("1,025 records", PartRead, &[&over, &[], &[]], 2);
    e.bad("1,025 records", PartEdit, &[&over, &[], &[0], &[]], 2);
    e.bad("1,025 records, the first bad", Reconstruct, &[&ty(&[(10, 0); 1_025]), &[]], 2);
    let many = [vec![(5, 1_023)], vec![UNIT; 1_023]].concat();
    e.bad("1,024 records", WriteShape, &[&ty(&many), &val(&[NOTHING])], 16);
    e.bad("65,536 records under ()", Reconstruct, &[&ty(&[UNIT]), &lefts(65_536)], 20);
    e.bad("65,537 records", Reconstruct, &[&ty(&[UNIT]), &lefts(65_537)], 8);
    // 85 integers of 256 zeros hang as 1, 4, 16 and 64 of them; then 64 zeros, and some of 32 units.
    let bits = |levels| full("3", levels, "10");
    let integers = [digits("333"), bits(8), bits(10), bits(12), bits(14)].concat();
    let long = [digits("3"), integers, digits("3"), bits(6), digits("2"), full("3", 5, "0")].concat();
    let long_type = ty(&[(5, 3), (6, 85), (2, 256), (2, 64), (4, 0), (6, 32), UNIT]);
    let long_value = [
        vec![(5, 0, 3, 0), (6, 0, 85, 0)],
        vec![(2, 0, 256, 0); 85],
        vec![(2, 0, 64, 0), (4, 1, 0, 0), (6, 0, 32, 0)],
        vec![NOTHING; 32],
    ];
    let long_value = val(&long_value.concat());
    e.good("65,536 records", Reconstruct, &[&long_type, &long], &long_value);
    e.put("65,536 records, one byte short", Reconstruct, &[&long_type, &long], long_value.len() - 1, Err(17));
    let array = ty(&[(6, 32_768), UNIT]);
    e.good("an array of 32,768 units", Lower, &[&array], &full("2", 15, "0"));
    e.put("an array of 32,768 units, one byte short", Lower, &[&array], 65_534, Err(17));
}

/// The cases of the first seven entries, then those of the ones that came later, so that those before stay as they are.
pub fn edges() -> [Group; 4] {
    let (entries, later) = ENTRIES.split_at(7);
    let (cleaning, later) = later.split_at(1);
    let (telling, searching) = later.split_at(2);
    let of = |parts: &[fn(&mut Edges)]| {
        let mut all = Edges(vec![]);
        parts.iter().for_each(|part| part(&mut all));
        all.0
    };
    let short = of(&[
        along_the_edges,
        type_rows,
        other_rows,
        faults_of_a_pair,
        faults_of_kinds,
        spots_with_units,
        spots_without_units,
    ]);
    [
        Group { entries, short, long: of(&[long_ones]) },
        Group { entries: cleaning, short: of(&[cleaned_shapes]), long: of(&[long_cleaned_shapes]) },
        Group { entries: telling, short: of(&[rooms, shape_records]), long: of(&[long_rooms, long_shape_records]) },
        Group { entries: searching, short: of(&[searches]), long: of(&[long_searches]) },
    ]
}

/// A sorting job: (u8 recipe, List of (u16, u8) hits bound 8, Option u16 density). Its frame has 196 bits: the recipe from
/// bit 0 on, the blocks of four, two and one hits from 8, 105 and 154 on, the density from 179 on.
pub const JOB: [(u8, u16); 8] = [(5, 3), (2, 8), (7, 8), (5, 2), (2, 16), (2, 8), (4, 0), (2, 16)];

/// The job (0x2a, [(0x1234, 0x56)], some 0x0203), and the job (0x2a, [(0x1234, 0x56), (1, 0xff), (0xabcd, 0xef)], none).
pub const ONE_HIT: &str = "2a 000000000000 000000000000 000000000000 22468ad02030";
pub const THREE_HITS: &str = "2a 000000000000 000000000000 448d1580007f f579bde00000";

/// Bytes of two hexadecimal digits each.
pub fn bytes(text: &str) -> Vec<u8> {
    let digits: Vec<u32> = text.chars().filter_map(|c| c.to_digit(16)).collect();
    digits.chunks(2).map(|pair| (pair[0] * 16 + pair[1]) as u8).collect()
}

pub fn integer(bits: u16, n: u16) -> Vec<u8> {
    let mut record = val(&[(2, 0, bits, n as u8)]);
    record[34] = (n >> 8) as u8;
    record
}

pub fn hit(position: u16, kind: u16) -> Vec<u8> {
    [val(&[(5, 0, 2, 0)]), integer(16, position), integer(8, kind)].concat()
}

pub fn hits(all: &[(u16, u16)]) -> Vec<u8> {
    let hits = all.iter().flat_map(|&(position, kind)| hit(position, kind));
    val(&[(7, 0, all.len() as u16, 0)]).into_iter().chain(hits).collect()
}

pub fn density(n: u16) -> Vec<u8> {
    [val(&[(4, 1, 0, 0)]), integer(16, n)].concat()
}

struct PairEdges(Vec<PairEdge>);

impl PairEdges {
    /// A frame, two edits of it, the frames that each leaves alone and that each leaves after the other.
    fn put(
        &mut self,
        name: &'static str,
        (records, frame): (&[(u8, u16)], &str),
        edits: [(&[u16], Vec<u8>); 2],
        alone: [Result<&str, u32>; 2],
        after: [Result<&str, u32>; 2],
    ) {
        let edits = edits.map(|(path, new)| Edit { path: steps(path), new });
        let pair = Pair { ty: ty(records), frame: bytes(frame), edits, fill: 0xa5 };
        let [alone, after] = [alone, after].map(|all| all.map(|told| told.map(bytes)));
        self.0.push(PairEdge { name, pair, alone, after });
    }
}

/// Camera and density sensor edit a job.
fn pairs_of_a_job(e: &mut PairEdges) {
    let one = (&JOB[..], ONE_HIT);
    let three = (&JOB[..], THREE_HITS);
    let none = || val(&[(4, 0, 0, 0)]);
    let two_hits = || hits(&[(0x1234, 0x56), (1, 0xff)]);
    let with_two = Ok("2a 000000000000 000000000000 448d1580007f c00000102030");
    let without_hits = Ok("2a 000000000000 000000000000 000000000000 000000102030");
    let without_density = Ok("2a 000000000000 000000000000 000000000000 22468ac00000");
    let beef = Ok("2a 000000000000 000000000000 000000000000 22468adbeef0");
    let recipe_255 = Ok("ff 000000000000 000000000000 000000000000 22468ad02030");

    let both = Ok("2a 000000000000 000000000000 448d1580007f c00000000000");
    e.put("hits, density", one, [(&[1], two_hits()), (&[2], none())], [with_two, without_density], [both; 2]);
    let both = Ok("2a 000000000000 000000000000 448d1580007f c000001beef0");
    let edits: [(&[u16], _); 2] = [(&[1], two_hits()), (&[2, 0], integer(16, 0xbeef))];
    e.put("hits, the density's number", one, edits, [with_two, beef], [both; 2]);
    let both = Ok("ff 000000000000 000000000000 000000000000 000000102030");
    let edits: [(&[u16], _); 2] = [(&[0], integer(8, 255)), (&[1], hits(&[]))];
    e.put("recipe, no hits", one, edits, [recipe_255, without_hits], [both; 2]);
    e.put(
        "the two numbers of a hit",
        one,
        [(&[1, 0, 0], integer(16, 0xffff)), (&[1, 0, 1], integer(8, 0))],
        [
            Ok("2a 000000000000 000000000000 000000000000 3fffead02030"),
            Ok("2a 000000000000 000000000000 000000000000 224680102030"),
        ],
        [Ok("2a 000000000000 000000000000 000000000000 3fffe0102030"); 2],
    );
    e.put(
        "hits in two blocks",
        three,
        [(&[1, 1], hit(0, 0)), (&[1, 2], hit(0x8000, 1))],
        [
            Ok("2a 000000000000 000000000000 448d15800000 3579bde00000"),
            Ok("2a 000000000000 000000000000 448d1580007f f00000200000"),
        ],
        [Ok("2a 000000000000 000000000000 448d15800000 300000200000"); 2],
    );
    e.put(
        "density, a fourth hit",
        three,
        [(&[2], density(1)), (&[1], hits(&[(1, 1), (2, 2), (3, 3), (4, 4)]))],
        [
            Ok("2a 000000000000 000000000000 448d1580007f f579bdf00010"),
            Ok("2a 800080800101 000181800202 000000000000 000000000000"),
        ],
        [Ok("2a 800080800101 000181800202 000000000000 000000100010"); 2],
    );

    let edits: [(&[u16], _); 2] = [(&[1], two_hits()), (&[1], hits(&[]))];
    e.put("hits twice", one, edits, [with_two, without_hits], [without_hits, with_two]);
    let edits: [(&[u16], _); 2] = [(&[2], none()), (&[2], density(0xbeef))];
    e.put("density twice", one, edits, [without_density, beef], [beef, without_density]);

    let edits: [(&[u16], _); 2] = [(&[2], density(0x0203)), (&[1, 0], hit(0x1234, 0x56))];
    e.put("to what is there", one, edits, [Ok(ONE_HIT); 2], [Ok(ONE_HIT); 2]);
    let whole = [val(&[(5, 0, 3, 0)]), integer(8, 0x2a), hits(&[(0x1234, 0x56)]), density(0x0203)].concat();
    let edits: [(&[u16], _); 2] = [(&[], whole), (&[2, 0], integer(16, 0x0203))];
    e.put("to what is there, the whole", one, edits, [Ok(ONE_HIT); 2], [Ok(ONE_HIT); 2]);

    let seven = Ok("2a 000000000000 000000000000 000000000000 22468ad00070");
    let edits: [(&[u16], _); 2] = [(&[2], density(7)), (&[2, 0], integer(16, 0xbeef))];
    e.put("density, its number", one, edits, [seven, beef], [beef, seven]);
    let edits: [(&[u16], _); 2] = [(&[2], none()), (&[2, 0], integer(16, 0xbeef))];
    e.put("no density, its number", one, edits, [without_density, beef], [Err(14), without_density]);
    let other_hit = Ok("2a 000000000000 000000000000 000000000000 3fffead02030");
    let edits: [(&[u16], _); 2] = [(&[1, 0], hit(0xffff, 0x56)), (&[1], hits(&[]))];
    e.put("a hit, no hits", one, edits, [other_hit, without_hits], [without_hits, Err(14)]);
    let last = Ok("2a 000000000000 000000000000 7fffd580007f c00000102030");
    let edits: [(&[u16], _); 2] = [(&[1, 0], hit(0xffff, 0x56)), (&[1], two_hits())];
    e.put("a hit, two hits", one, edits, [other_hit, with_two], [with_two, last]);
    let bare = [val(&[(5, 0, 3, 0)]), integer(8, 1), hits(&[]), none()].concat();
    let bare_frame = Ok("01 000000000000 000000000000 000000000000 000000000000");
    let last = Ok("ff 000000000000 000000000000 000000000000 000000000000");
    let edits: [(&[u16], _); 2] = [(&[], bare), (&[0], integer(8, 255))];
    e.put("the whole, recipe", one, edits, [bare_frame, recipe_255], [last, bare_frame]);

    let edits: [(&[u16], _); 2] = [(&[0], integer(8, 256)), (&[2], none())];
    e.put("a recipe too large", one, edits, [Err(21), without_density], [without_density, Err(21)]);
    let last = Ok("2a 000000000000 000000000000 448d15bfffc0 000000102030");
    let edits: [(&[u16], _); 2] = [(&[1, 1], hit(0xffff, 0)), (&[1], two_hits())];
    e.put("a hit that is not there yet", one, edits, [Err(14), with_two], [with_two, last]);
}

/// Parts of width 0, and parts under each kind.
fn pairs_of_kinds(e: &mut PairEdges) {
    let nothing = || val(&[NOTHING]);
    let four = |n: u16| integer(4, n);
    let flag = |choice: u8| val(&[(1, choice, 0, 0)]);
    let nine = (&[(5, 3), (2, 4), UNIT, (1, 0)][..], "98");
    let edits: [(&[u16], _); 2] = [(&[1], nothing()), (&[0], four(6))];
    e.put("() and a u4", nine, edits, [Ok("98"), Ok("68")], [Ok("68"); 2]);
    let edits: [(&[u16], _); 2] = [(&[2], flag(0)), (&[1], nothing())];
    e.put("a Boolean and ()", nine, edits, [Ok("90"), Ok("98")], [Ok("90"); 2]);
    let edits: [(&[u16], _); 2] = [(&[1], nothing()), (&[1], nothing())];
    e.put("() twice", nine, edits, [Ok("98"); 2], [Ok("98"); 2]);
    let edits: [(&[u16], _); 2] = [(&[0], nothing()), (&[1], nothing())];
    e.put("() and ()", (&[(5, 2), UNIT, UNIT], ""), edits, [Ok(""); 2], [Ok(""); 2]);
    let edits: [(&[u16], _); 2] = [(&[0], val(&[(6, 0, 0, 0)])), (&[1], val(&list(&[1, 0])))];
    let array = [(5, 2), (6, 0), (2, 8), (7, 4), (2, 1)];
    e.put("an array of 0 and a list", (&array, "18"), edits, [Ok("18"), Ok("c0")], [Ok("c0"); 2]);
    let edits: [(&[u16], _); 2] = [(&[0], nothing()), (&[], val(&[(4, 0, 0, 0)]))];
    e.put("() in a some, none", (&[(4, 0), UNIT], "80"), edits, [Ok("80"), Ok("00")], [Ok("00"), Err(14)]);

    let edits: [(&[u16], _); 2] = [(&[0], four(6)), (&[1], val(&list(&[1, 0, 1])))];
    e.put("both of a pair", (&PAIR, "9180"), edits, [Ok("6180"), Ok("9d80")], [Ok("6d80"); 2]);
    let edits: [(&[u16], _); 2] = [(&[2], four(5)), (&[0], four(10))];
    e.put("in an array", (&[(6, 3), (2, 4)], "1230"), edits, [Ok("1250"), Ok("a230")], [Ok("a250"); 2]);
    let variant = (&VARIANTS[..], "e0");
    let edits: [(&[u16], _); 2] = [(&[0], val(&bits(&[0]))), (&[1], flag(1))];
    e.put("in a variant", variant, edits, [Ok("c0"), Ok("f0")], [Ok("d0"); 2]);
    let edits: [(&[u16], _); 2] = [(&[], val(&[(8, 0, 1, 0), (2, 0, 1, 1)])), (&[0], val(&bits(&[0])))];
    e.put("another variant, a part", variant, edits, [Ok("a0"), Ok("c0")], [Ok("80"), Ok("a0")]);
    let either = (&[(3, 0), (5, 2), (2, 4), (1, 0), (1, 0)][..], "4c");
    let edits: [(&[u16], _); 2] = [(&[0, 0], four(6)), (&[0, 1], flag(0))];
    e.put("in a left", either, edits, [Ok("34"), Ok("48")], [Ok("30"); 2]);
    let edits: [(&[u16], _); 2] = [(&[], val(&[(3, 1, 0, 0), (1, 1, 0, 0)])), (&[0, 0], four(6))];
    e.put("the other side, a part", either, edits, [Ok("c0"), Ok("34")], [Err(14), Ok("c0")]);
}

/// Pairs of edits by hand. They are not among the recorded cases.
pub fn pair_edges() -> Vec<PairEdge> {
    let mut all = PairEdges(vec![]);
    pairs_of_a_job(&mut all);
    pairs_of_kinds(&mut all);
    all.0
}
