//! Searches of day files written by hand with the frames that match by 02, and the rows before them.

use crate::edges::{
    bad_types, bits, bytes, density, hit, hits, integer, list, pair, steps, ty, val, Edges, Record, CHOICE, JOB, LIST,
    NOTHING, ONE_HIT, PAIR, THREE_HITS, UNIT, VARIANTS,
};
use crate::expect::Entry::Search;

type Records<'a> = &'a [(u8, u16)];

const U4: Records = &[(2, 4)];
const U8: Records = &[(2, 8)];
const OPTION: Records = &[(4, 0), (2, 4)];
const THREE: Records = &[(6, 3), (2, 4)];
const LIST_8: Records = &[(7, 8), (2, 4)];
const SENSORS: Records = &[(5, 3), (2, 4), (7, 8), (2, 4), (4, 0), (2, 8)];
/// Variants (u4) and (u1).
const U4_OR_U1: Records = &[(8, 2), (9, 1), (2, 4), (9, 1), (2, 1)];
/// Variants (list of u1 bound 4) and (list of u1 bound 2): a list of at most one is a value of both, with other bits.
const TWO_LISTS: Records = &[(8, 2), (9, 1), (7, 4), (2, 1), (9, 1), (7, 2), (2, 1)];
const AROUND_NOTHING: Records = &[(5, 3), (2, 4), UNIT, (2, 4)];

const fn four(n: u8) -> Record {
    (2, 0, 4, n)
}

const fn one(n: u8) -> Record {
    (2, 0, 1, n)
}

const fn flag(choice: u8) -> Record {
    (1, choice, 0, 0)
}

const NONE: Record = (4, 0, 0, 0);
const SOME: Record = (4, 1, 0, 0);

impl Edges {
    /// The indexes of all frames that match, or the number that refuses.
    fn find(
        &mut self,
        name: &'static str,
        records: Records,
        (day, path): (&str, &[u16]),
        value: &[u8],
        told: Result<&[usize], u32>,
    ) {
        self.tell(name, Search, &[&ty(records), &bytes(day), &steps(path), value], told);
    }
}

/// Type, day file, steps, value, and the frames that match.
type Row<'a> = (&'static str, Records<'a>, (&'a str, &'a [u16]), &'a [Record], &'a [usize]);

/// A job of the papers, (u4, list of u1 bound 4): 9180 is (9, [1]), 6180 (6, [1]), 9000 (9, []), 9100 (9, [0]),
/// 9c00 (9, [1, 0]), 9d80 (9, [1, 0, 1]). 9181 has a tail bit, 9380 a padding bit.
const OF_A_PAIR: [Row; 44] = [
    ("no frames", &PAIR, ("", &[0]), &[four(9)], &[]),
    ("no frames, no value", &PAIR, ("", &[]), &[], &[]),
    ("one frame", &PAIR, ("9180", &[0]), &[four(9)], &[0]),
    ("one frame, another u4", &PAIR, ("9180", &[0]), &[four(6)], &[]),
    ("the first and the last", &PAIR, ("9180 6180 9000", &[0]), &[four(9)], &[0, 2]),
    ("the last", &PAIR, ("9180 9000 6180", &[0]), &[four(6)], &[2]),
    ("the middle one", &PAIR, ("9180 6180 9000", &[0]), &[four(6)], &[1]),
    ("all", &PAIR, ("9180 9180 9180", &[1, 0]), &[one(1)], &[0, 1, 2]),
    ("a list of one", &PAIR, ("9100 9180 9c00", &[1]), &[(7, 0, 1, 0), one(1)], &[1]),
    ("a list of two", &PAIR, ("9100 9180 9c00", &[1]), &[(7, 0, 2, 0), one(1), one(0)], &[2]),
    ("a list that only begins like it", &PAIR, ("9180 9d80", &[1]), &[(7, 0, 2, 0), one(1), one(0)], &[]),
    ("the empty list", &PAIR, ("9100 9000", &[1]), &[(7, 0, 0, 0)], &[1]),
    ("a tail bit before it", &PAIR, ("9181 9180", &[0]), &[four(9)], &[1]),
    ("a padding bit before it", &PAIR, ("9380 9180", &[0]), &[four(9)], &[1]),
    ("a tail bit behind it", &PAIR, ("9180 9181", &[0]), &[four(9)], &[0]),
    ("damaged ones around it", &PAIR, ("9181 9380 9180 91ff", &[0]), &[four(9)], &[2]),
    ("only damaged ones", &PAIR, ("9181 9380", &[0]), &[four(9)], &[]),
    ("a damaged one", &PAIR, ("9181", &[0]), &[four(9)], &[]),
    ("a damaged one, the part beside it", &PAIR, ("9181 9380", &[1]), &[(7, 0, 1, 0), one(1)], &[]),
    ("an element of some lists", &PAIR, ("9000 9180 9100 6180", &[1, 0]), &[one(1)], &[1, 3]),
    ("an element of one list", &PAIR, ("9180 9c00 9d80", &[1, 2]), &[one(1)], &[2]),
    ("an element of no list", &PAIR, ("9000 9180", &[1, 1]), &[one(1)], &[]),
    ("an element behind the bound", &PAIR, ("9d80 9d80", &[1, 3]), &[one(1)], &[]),
    ("no such part", &PAIR, ("9180 9180", &[2]), &[four(9)], &[]),
    ("a step too many", &PAIR, ("9180 9180", &[0, 0]), &[four(9)], &[]),
    ("step 65,535", &PAIR, ("9180", &[65_535]), &[four(9)], &[]),
    ("step 256", &PAIR, ("9180", &[256]), &[four(9)], &[]),
    ("no value", &PAIR, ("9180", &[0]), &[], &[]),
    ("a record of zeros", &PAIR, ("9180 0000", &[0]), &[(0, 0, 0, 0)], &[]),
    ("too large", &PAIR, ("0000 1000", &[0]), &[four(16)], &[]),
    ("a u8", &PAIR, ("9180", &[0]), &[(2, 0, 8, 9)], &[]),
    ("a choice", &PAIR, ("9180", &[0]), &[(2, 1, 4, 9)], &[]),
    ("a record more", &PAIR, ("9180", &[0]), &[four(9), four(9)], &[]),
    ("a record less", &PAIR, ("9c00", &[1]), &[(7, 0, 2, 0), one(1)], &[]),
    ("a list at its bound", &PAIR, ("9180", &[1]), &[(7, 0, 4, 0), one(1), one(1), one(1), one(1)], &[]),
    ("an unused byte", &PAIR, ("9180", &[1]), &[(7, 0, 1, 1), one(1)], &[]),
    ("the other part's value", &PAIR, ("9180", &[1]), &[four(9)], &[]),
    ("a part's value for the whole", &PAIR, ("9180", &[]), &[four(9)], &[]),
    ("an array for a list", &PAIR, ("9180", &[1]), &[(6, 0, 1, 0), one(1)], &[]),
    ("a Boolean for a u1", &PAIR, ("9180", &[1, 0]), &[flag(1)], &[]),
    ("all ones", &PAIR, ("ffff ffff", &[0]), &[four(15)], &[]),
    ("zeros", &PAIR, ("0000 0000 0000", &[0]), &[four(0)], &[0, 1, 2]),
    ("zeros, an empty list", &PAIR, ("0000 0000", &[1]), &[(7, 0, 0, 0)], &[0, 1]),
    ("zeros, no element", &PAIR, ("0000 0000", &[1, 0]), &[one(0)], &[]),
];

/// Parts of each kind, and the whole of each.
const OF_KINDS: [Row; 70] = [
    ("a left", &CHOICE, ("48 c0 48", &[0]), &[four(9)], &[0, 2]),
    ("a right", &CHOICE, ("48 c0 48", &[1]), &[flag(1)], &[1]),
    ("the whole right", &CHOICE, ("48 c0 48", &[]), &[(3, 1, 0, 0), flag(1)], &[1]),
    ("the whole left", &CHOICE, ("48 c0 48", &[]), &[(3, 0, 0, 0), four(9)], &[0, 2]),
    ("a right's padding", &CHOICE, ("c8 c1 c0", &[1]), &[flag(1)], &[2]),
    ("no third side", &CHOICE, ("48 c0", &[2]), &[four(9)], &[]),
    ("the left of equal sides", &[(3, 0), (2, 1), (2, 1)], ("00 40 80 c0", &[0]), &[one(1)], &[1]),
    ("the right of equal sides", &[(3, 0), (2, 1), (2, 1)], ("00 40 80 c0", &[1]), &[one(1)], &[3]),
    ("some", OPTION, ("00 c8 00", &[0]), &[four(9)], &[1]),
    ("none", OPTION, ("00 c8 00", &[]), &[NONE], &[0, 2]),
    ("none, its padding", OPTION, ("08 40", &[]), &[NONE], &[]),
    ("the whole some", OPTION, ("00 c8 00", &[]), &[SOME, four(9)], &[1]),
    ("no second part of a some", OPTION, ("c8 c8", &[1]), &[four(9)], &[]),
    ("some of some", &[(4, 0), (4, 0), (2, 1)], ("00 80 e0 c0", &[0, 0]), &[one(1)], &[2]),
    ("some of none", &[(4, 0), (4, 0), (2, 1)], ("00 80 e0 c0", &[0]), &[NONE], &[1]),
    ("none of some", &[(4, 0), (4, 0), (2, 1)], ("00 80 e0 c0", &[]), &[NONE], &[0]),
    ("an element", THREE, ("1230 3210", &[2]), &[four(1)], &[1]),
    ("the same in both", THREE, ("1230 3210", &[1]), &[four(2)], &[0, 1]),
    ("the whole array", THREE, ("1230 3210", &[]), &[(6, 0, 3, 0), four(3), four(2), four(1)], &[1]),
    ("behind the array", THREE, ("1230 3210", &[3]), &[four(0)], &[]),
    ("an array's tail", THREE, ("1231 3210", &[1]), &[four(2)], &[1]),
    ("in an array in an array", &[(6, 2), (6, 2), (2, 2)], ("1b e4", &[1, 0]), &[(2, 0, 2, 1)], &[1]),
    (
        "an array in an array",
        &[(6, 2), (6, 2), (2, 2)],
        ("1b e4", &[1]),
        &[(6, 0, 2, 0), (2, 0, 2, 2), (2, 0, 2, 3)],
        &[0],
    ),
    ("no hits", LIST_8, ("00000000 891a0000", &[]), &[(7, 0, 0, 0)], &[0]),
    ("four hits", LIST_8, ("00000000 891a0000", &[]), &[(7, 0, 4, 0), four(1), four(2), four(3), four(4)], &[1]),
    ("a hit of the first block", LIST_8, ("891a0000 891a55ae", &[3]), &[four(4)], &[0, 1]),
    ("the last hit", LIST_8, ("891a0000 891a55ae", &[6]), &[four(7)], &[1]),
    ("another last hit", LIST_8, ("891a0000 891a55ae", &[6]), &[four(6)], &[]),
    (
        "hits of a job",
        SENSORS,
        ("9000044a6000 9891a00013d0", &[1]),
        &[(7, 0, 4, 0), four(1), four(2), four(3), four(4)],
        &[1],
    ),
    ("density of a job", SENSORS, ("9000044a6000 9891a00013d0", &[2, 0]), &[(2, 0, 8, 61)], &[1]),
    ("no density", SENSORS, ("9000044a6000 9891a00013d0", &[2]), &[NONE], &[0]),
    ("recipe of a job", SENSORS, ("9000044a6000 9891a00013d0", &[0]), &[four(9)], &[0, 1]),
    ("first of a variant", &VARIANTS, ("00 a0 e0 c0 a0", &[0]), &[one(1)], &[1, 2, 4]),
    ("second of a variant", &VARIANTS, ("00 a0 e0 c0 a0", &[1]), &[flag(0)], &[2, 3]),
    ("variant 0", &VARIANTS, ("00 a0 e0 c0 a0", &[]), &[(8, 0, 0, 0)], &[0]),
    ("variant 1", &VARIANTS, ("00 a0 e0 c0 a0", &[]), &[(8, 0, 1, 0), one(1)], &[1, 4]),
    ("variant 2", &VARIANTS, ("00 a0 e0 c0 a0", &[]), &[(8, 0, 2, 0), one(1), flag(0)], &[2]),
    ("a variant's padding", &VARIANTS, ("01 b0 e8 a0", &[0]), &[one(1)], &[3]),
    ("no third of a variant", &VARIANTS, ("00 a0 e0", &[2]), &[flag(0)], &[]),
    ("the one variant", &[(8, 1), (9, 2), (1, 0), (2, 4)], ("c8 48", &[1]), &[four(9)], &[0, 1]),
    ("the one variant, its first", &[(8, 1), (9, 2), (1, 0), (2, 4)], ("c8 48", &[0]), &[flag(0)], &[1]),
    ("a u1 where others have a u4", U4_OR_U1, ("48 c0 48 c0", &[0]), &[one(1)], &[1, 3]),
    ("a u4 where others have a u1", U4_OR_U1, ("48 c0 48 c0", &[0]), &[four(9)], &[0, 2]),
    ("a u4 behind u1s", U4_OR_U1, ("c0 80 c0 48", &[0]), &[four(9)], &[3]),
    ("a u1 behind u4s", U4_OR_U1, ("48 40 78 c0", &[0]), &[one(1)], &[3]),
    // 9 and 1 begin with the same bit, 0 and 0 as well.
    ("a u1 of the same bits", U4_OR_U1, ("48 00 40", &[0]), &[one(1)], &[]),
    ("a u4 of the same bits", U4_OR_U1, ("c0 80", &[0]), &[four(8)], &[]),
    ("zero of two widths, the u1", U4_OR_U1, ("00 80 00 80", &[0]), &[one(0)], &[1, 3]),
    ("zero of two widths, the u4", U4_OR_U1, ("80 00 80 00", &[0]), &[four(0)], &[1, 3]),
    // [1] is 0 00011 and 1 11 000, [0] is 0 00010 and 1 10 000, [1, 0] is 0 11000.
    ("a list of two types", TWO_LISTS, ("0c e0 00 80", &[0]), &[(7, 0, 1, 0), one(1)], &[0, 1]),
    ("the second of them", TWO_LISTS, ("08 e0", &[0]), &[(7, 0, 1, 0), one(1)], &[1]),
    ("the first behind it", TWO_LISTS, ("c0 0c", &[0]), &[(7, 0, 1, 0), one(1)], &[1]),
    ("the empty one of both", TWO_LISTS, ("0c 80 e0 00", &[0]), &[(7, 0, 0, 0)], &[1, 3]),
    ("zero in both", TWO_LISTS, ("0c c0 e0 08", &[0]), &[(7, 0, 1, 0), one(0)], &[1, 3]),
    ("too long for one", TWO_LISTS, ("80 e0 60 c0", &[0]), &[(7, 0, 2, 0), one(1), one(0)], &[2]),
    ("their elements", TWO_LISTS, ("08 e0 0c 60", &[0, 0]), &[one(1)], &[1, 2, 3]),
    ("one of them with padding", TWO_LISTS, ("e4 c0 0c", &[0]), &[(7, 0, 1, 0), one(1)], &[2]),
    // Parts over byte boundaries.
    ("a u8 over two bytes", &[(5, 3), (2, 4), (2, 8), (2, 4)], ("1ab2 1ac2 3ab4", &[1]), &[(2, 0, 8, 0xab)], &[0, 2]),
    (
        "two parts over two bytes",
        &[(5, 2), (2, 4), (5, 2), (2, 8), (2, 4)],
        ("1ab2 1ab3", &[1]),
        &[(5, 0, 2, 0), (2, 0, 8, 0xab), four(3)],
        &[1],
    ),
    // The same bits as another type's value.
    ("an array for a u2", &[(2, 2)], ("40", &[]), &[(6, 0, 2, 0), one(0), one(1)], &[]),
    ("a u2 for an array", &[(6, 2), (2, 1)], ("40", &[]), &[(2, 0, 2, 1)], &[]),
    ("a tuple for an array", &[(6, 2), (2, 1)], ("40", &[]), &[(5, 0, 2, 0), one(0), one(1)], &[]),
    ("an Either for an Option", &[(4, 0), (2, 1)], ("c0", &[]), &[(3, 1, 0, 0), one(1)], &[]),
    ("a list for an Option", &[(4, 0), (2, 1)], ("c0", &[]), &[(7, 0, 1, 0), one(1)], &[]),
    ("a variant for a Boolean", &[(1, 0)], ("80", &[]), &[(8, 0, 1, 0)], &[]),
    ("a part for a tuple of it", &[(5, 1), (2, 4)], ("90", &[]), &[four(9)], &[]),
    ("a tuple for its part", &[(5, 1), (2, 4)], ("90", &[0]), &[(5, 0, 1, 0), four(9)], &[]),
    ("a tuple of one", &[(5, 1), (2, 4)], ("90", &[0]), &[four(9)], &[0]),
    ("the root", U4, ("90 60 90 98", &[]), &[four(9)], &[0, 2]),
    ("no part of a u4", U4, ("90", &[0]), &[four(9)], &[]),
];

/// Parts of width 0 are the same wherever the path leads to them.
const OF_NOTHING: [Row; 12] = [
    ("() in a tuple", AROUND_NOTHING, ("96 93", &[1]), &[NOTHING], &[0, 1]),
    ("an array of 0 for ()", AROUND_NOTHING, ("96 93", &[1]), &[(6, 0, 0, 0)], &[]),
    ("nothing for ()", AROUND_NOTHING, ("96 93", &[1]), &[], &[]),
    ("a part of ()", AROUND_NOTHING, ("96 93", &[1, 0]), &[NOTHING], &[]),
    ("() in a damaged frame", &[(5, 2), (2, 4), UNIT], ("91 98 90", &[1]), &[NOTHING], &[2]),
    ("() in a some", &[(4, 0), UNIT], ("00 80 00", &[0]), &[NOTHING], &[1]),
    ("() in a left", &[(3, 0), UNIT, (1, 0)], ("00 c0 80", &[0]), &[NOTHING], &[0]),
    ("an array of 0", &[(5, 2), (6, 0), (2, 8), (2, 8)], ("01 02", &[0]), &[(6, 0, 0, 0)], &[0, 1]),
    ("an element of ()", &[(7, 4), UNIT], ("00 40 80 c0", &[2]), &[NOTHING], &[3]),
    ("the first element of ()", &[(7, 4), UNIT], ("00 40 80 c0", &[0]), &[NOTHING], &[1, 2, 3]),
    ("two elements of ()", &[(7, 4), UNIT], ("00 40 80 c0", &[]), &[(7, 0, 2, 0), NOTHING, NOTHING], &[2]),
    ("a variant without parts", &[(8, 2), (9, 0), (9, 1), UNIT], ("00 80", &[0]), &[NOTHING], &[1]),
];

/// Sorting jobs.
fn searches_of_jobs(e: &mut Edges) {
    let day = [ONE_HIT, THREE_HITS, ONE_HIT].concat();
    let mut find =
        |name, path: &[u16], value: Vec<u8>, told: &[usize]| e.find(name, &JOB, (&day, path), &value, Ok(told));
    find("a recipe", &[0], integer(8, 0x2a), &[0, 1, 2]);
    find("another recipe", &[0], integer(8, 0x2b), &[]);
    find("one hit", &[1], hits(&[(0x1234, 0x56)]), &[0, 2]);
    find("three hits", &[1], hits(&[(0x1234, 0x56), (1, 0xff), (0xabcd, 0xef)]), &[1]);
    find("three hits, the last another", &[1], hits(&[(0x1234, 0x56), (1, 0xff), (0xabcd, 0xee)]), &[]);
    find("the first hit, in two blocks", &[1, 0], hit(0x1234, 0x56), &[0, 1, 2]);
    find("the third hit", &[1, 2], hit(0xabcd, 0xef), &[1]);
    find("the third hit's kind", &[1, 2, 1], integer(8, 0xef), &[1]);
    find("a hit's position", &[1, 0, 0], integer(16, 0x1234), &[0, 1, 2]);
    find("a fourth hit", &[1, 3], hit(0, 0), &[]);
    find("no density", &[2], val(&[NONE]), &[1]);
    find("a density", &[2], density(0x0203), &[0, 2]);
    find("a density's number", &[2, 0], integer(16, 0x0203), &[0, 2]);
    find("a density's number, one more", &[2, 0], integer(16, 0x0204), &[]);
    find("a density's number of 8 bits", &[2, 0], integer(8, 3), &[]);
    find("eight hits", &[1], hits(&[(0x1234, 0x56); 8]), &[]);
    let damaged = ONE_HIT.replace("2030", "2031");
    let day = [&damaged, THREE_HITS, &damaged].concat();
    e.find("a density, damaged", &JOB, (&day, &[2]), &density(0x0203), Ok(&[]));
    e.find("a recipe, damaged around it", &JOB, (&day, &[0]), &integer(8, 0x2a), Ok(&[1]));
}

/// Parts at far bits, at far steps and of far frames.
fn far_searches(e: &mut Edges) {
    // true, 0xabcd is 1 1010101111001101 and seven tail bits.
    let flag_and_number: Records = &[(5, 2), (1, 0), (2, 16)];
    let day = "d5e680 55e680 d5e600 d5e681";
    e.find("a u16 at bit 1", flag_and_number, (day, &[1]), &integer(16, 0xabcd), Ok(&[0, 1]));
    e.find("a u16 at bit 1, its last bit", flag_and_number, (day, &[1]), &integer(16, 0xabcc), Ok(&[2]));
    let frame = |last: &str| format!("1f {} {last}", "ff".repeat(31));
    let day = [frame("f0"), frame("e0"), frame("f1")].concat();
    let mut ones = [&val(&[(2, 0, 256, 0)])[..4], &[0xff; 32]].concat();
    e.find("a u256 at bit 4", &[(5, 2), (2, 4), (2, 256)], (&day, &[1]), &ones, Ok(&[0]));
    ones[35] = 0xfe;
    e.find("a u256 at bit 4, its last bit", &[(5, 2), (2, 4), (2, 256)], (&day, &[1]), &ones, Ok(&[1]));
    // 300 Booleans in 38 bytes; of the second frame number 256 is true.
    let day = ["00".repeat(38), "00".repeat(32), "80".into(), "00".repeat(5)].concat();
    let told: [(u16, u8, &[usize]); 7] =
        [(256, 1, &[1]), (256, 0, &[0]), (0, 1, &[]), (255, 1, &[]), (257, 1, &[]), (299, 0, &[0, 1]), (300, 0, &[])];
    for (step, choice, told) in told {
        e.find("of 300 Booleans", &[(6, 300), (1, 0)], (&day, &[step]), &val(&[flag(choice)]), Ok(told));
    }
    let all: Vec<u8> = (0..=255).chain([7, 8]).collect();
    for (n, told) in [(0, &[0][..]), (7, &[7, 256]), (8, &[8, 257]), (255, &[255])] {
        e.tell("of 258 frames", Search, &[&ty(U8), &all, &[], &val(&[(2, 0, 8, n)])], Ok(told));
    }
    let last = [vec![0; 1_999], vec![1]].concat();
    e.tell("the last of 2,000 frames", Search, &[&ty(U8), &last, &[], &val(&[(2, 0, 8, 1)])], Ok(&[1_999]));
    let options: Vec<(u8, u16)> = [vec![(4, 0); 31], vec![(2, 1)]].concat();
    let zeros = [0; 31];
    e.find("31 Options", &options, ("ffffffff fffffffe 00000000", &zeros), &val(&[one(1)]), Ok(&[0]));
    e.find("31 Options, a zero", &options, ("ffffffff fffffffe 00000000", &zeros), &val(&[one(0)]), Ok(&[1]));
    e.find("31 Options, a step more", &options, ("ffffffff", &[0; 32]), &val(&[one(1)]), Ok(&[]));
    e.find("31 Options, 30 steps", &options, ("ffffffff fffffffc", &zeros[1..]), &val(&[NONE]), Ok(&[1]));
}

/// Rows 1 to 7, 18, 19 and 13, and which comes first. The value file has no row.
fn rows_of_a_search(e: &mut Edges) {
    let odd: &[u8] = &[0];
    for (name, file, number) in bad_types() {
        e.tell(name, Search, &[&file, &[], &[], &[]], Err(number));
        e.tell(name, Search, &[&file, &[0], odd, &[]], Err(number));
    }
    let units: [(&'static str, Records); 8] = [
        ("()", &[UNIT]),
        ("an array of 0", &[(6, 0), (2, 8)]),
        ("an array of units", &[(6, 3), UNIT]),
        ("32,768 units", &[(6, 32_768), UNIT]),
        ("a tuple of units", &[(5, 2), UNIT, UNIT]),
        ("the one variant", &[(8, 1), (9, 0)]),
        ("the one variant with ()", &[(8, 1), (9, 1), UNIT]),
        ("an array of 0 in a tuple", &[(5, 1), (6, 0), (2, 256)]),
    ];
    for (name, records) in units {
        e.find(name, records, ("", &[]), &val(&[NOTHING]), Err(18));
        e.tell(name, Search, &[&ty(records), &[0], odd, &[]], Err(18));
    }
    let whole = ty(&PAIR);
    let nine = val(&[four(9)]);
    let days: [&[u8]; 4] = [&[0x91], &[0x91, 0x80, 0x61], &[0], &[0x91, 0x80, 0x91, 0x80, 0]];
    for day in days {
        e.tell("half a frame", Search, &[&whole, day, &steps(&[0]), &nine], Err(19));
        e.tell("half a frame, odd path", Search, &[&whole, day, odd, &nine], Err(19));
        e.tell("half a frame, no value", Search, &[&whole, day, &[], &[0; 36]], Err(19));
    }
    e.tell("25 bytes and one", Search, &[&ty(&JOB), &[0; 26], &[], &[]], Err(19));
    e.tell("24 bytes", Search, &[&ty(&JOB), &[0; 24], odd, &[]], Err(19));
    for path in [&[0][..], &[0, 0, 0], &[0, 1, 0, 0, 0], &[255]] {
        e.tell("odd path", Search, &[&whole, &[0x91, 0x80], path, &nine], Err(13));
        e.tell("odd path, no frames", Search, &[&whole, &[], path, &nine], Err(13));
        e.tell("odd path, a damaged frame, no value", Search, &[&whole, &[0x91, 0x81], path, &[0; 36]], Err(13));
    }
    for value in [&[][..], &[0; 35], &[0; 37], &nine[..35], &[nine.clone(), vec![0]].concat()] {
        e.tell("value's length", Search, &[&whole, &[0x91, 0x80, 0, 0], &steps(&[0]), value], Ok(&[]));
    }
    e.tell("a long path", Search, &[&whole, &[0x91, 0x80], &[0; 200], &nine], Ok(&[]));
    e.tell("a bad path, no frames", Search, &[&whole, &[], &[255, 255], &nine], Ok(&[]));
}

pub fn searches(e: &mut Edges) {
    for (name, records, place, value, told) in OF_A_PAIR.into_iter().chain(OF_KINDS).chain(OF_NOTHING) {
        e.find(name, records, place, &val(value), Ok(told));
    }
    e.find("the whole", &PAIR, ("9180", &[]), &pair(&[1]), Ok(&[0]));
    e.find("the whole of all", &PAIR, ("9180 9180 9180", &[]), &pair(&[1]), Ok(&[0, 1, 2]));
    e.find("the whole of the last", &PAIR, ("9000 9181 9180", &[]), &pair(&[1]), Ok(&[2]));
    e.find("the whole, damaged", &PAIR, ("9181", &[]), &pair(&[1]), Ok(&[]));
    e.find("the whole, a record less", &PAIR, ("9180", &[]), &pair(&[1])[..108], Ok(&[]));
    e.find("the whole list", &LIST, ("c0 d8 18", &[]), &val(&list(&[1, 0])), Ok(&[0]));
    e.find("elements of a list", &LIST, ("c0 d8 18", &[2]), &val(&bits(&[1])), Ok(&[1]));
    searches_of_jobs(e);
    far_searches(e);
    rows_of_a_search(e);
}

/// Long types and day files.
pub fn long_searches(e: &mut Edges) {
    e.tell("1,025 records", Search, &[&ty(&[(1, 0); 1_025]), &[0], &[0], &[]], Err(2));
    // 1,023 Booleans in 128 bytes; of the second frame the last is true. Its tail is a bit.
    let many = ty(&[vec![(5, 1_023)], vec![(1, 0); 1_023]].concat());
    let day = [vec![0; 128], vec![0; 127], vec![2], vec![0; 127], vec![3]].concat();
    e.tell("1,023 Booleans", Search, &[&many, &day, &steps(&[1_022]), &val(&[flag(1)])], Ok(&[1]));
    e.tell("1,023 Booleans, false", Search, &[&many, &day, &steps(&[1_022]), &val(&[flag(0)])], Ok(&[0]));
    // 64 integers of 256 bits in 2,048 bytes.
    let wide = ty(&[(6, 64), (2, 256)]);
    let day = [vec![0; 2_048], vec![0; 2_047], vec![5], vec![0; 2_048]].concat();
    e.tell("the last of 64 of u256", Search, &[&wide, &day, &steps(&[63]), &val(&[(2, 0, 256, 5)])], Ok(&[1]));
    e.tell("the others", Search, &[&wide, &day, &steps(&[63]), &val(&[(2, 0, 256, 0)])], Ok(&[0, 2]));
    let last = [vec![0; 29_999], vec![1]].concat();
    e.tell("the last of 30,000 frames", Search, &[&ty(U8), &last, &[], &val(&[(2, 0, 8, 1)])], Ok(&[29_999]));
}
