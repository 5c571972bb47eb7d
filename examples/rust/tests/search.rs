//! A search finds a frame whose part reads as the value file, or none only if no frame has it, and
//! each row that can refuse it does.

use niegluk::{Refusal, part_edit, part_read, room, search, write_frame};

/// A u8, a List of u4 bounded at 4, and an Option of a u8: 31 bits.
const TYPE: [u8; 24] = [
    5, 0, 0, 3, 2, 0, 0, 8, 7, 0, 0, 4, 2, 0, 0, 4, 4, 0, 0, 0, 2, 0, 0, 8,
];

const RECIPE: [u8; 2] = [0, 0];
const SECOND_HIT: [u8; 4] = [0, 1, 0, 1];
const DENSITY: [u8; 4] = [0, 2, 0, 0];

/// A record of a value file: kind, choice, n and an integer of one byte.
fn record(kind: u8, choice: u8, n: u8, integer: u8) -> [u8; 36] {
    let mut record = [0; 36];
    (record[0], record[1], record[3], record[35]) = (kind, choice, n, integer);
    record
}

/// An integer of so many bits.
fn uint(bits: u8, integer: u8) -> [u8; 36] {
    record(2, 0, bits, integer)
}

/// The frame of a value of `TYPE`.
fn frame(recipe: u8, hits: &[u8], density: Option<u8>) -> Vec<u8> {
    let mut value = [record(5, 0, 3, 0), uint(8, recipe)].concat();
    value.extend(record(7, 0, hits.len() as u8, 0));
    hits.iter().for_each(|&hit| value.extend(uint(4, hit)));
    value.extend(record(4, density.is_some() as u8, 0, 0));
    density.iter().for_each(|&d| value.extend(uint(8, d)));
    let mut frame = vec![0; room(&TYPE).unwrap().bits.div_ceil(8)];
    assert_eq!(write_frame(&TYPE, &value, &mut frame), Ok(frame.len()));
    frame
}

/// Twelve frames, three of which are damaged.
fn day() -> Vec<Vec<u8>> {
    let mut frames = vec![
        frame(1, &[], None),
        frame(2, &[3], Some(60)),
        frame(7, &[3, 9], None),
        frame(7, &[3, 9], Some(61)),
        frame(2, &[1, 2, 3], Some(7)),
        frame(7, &[], Some(60)),
        frame(9, &[9, 9, 9], None),
        frame(7, &[0, 0], Some(0)),
        frame(1, &[9], Some(255)),
        frame(3, &[], None),
        frame(0, &[5, 5], Some(61)),
        frame(200, &[15, 15, 15], Some(255)),
    ];
    // the last bit of a density that is none; the third hit of two, and of none
    frames[2][3] |= 2;
    frames[7][2] |= 4;
    frames[5][2] |= 4;
    frames
}

/// The frames that match, by the words of the request.
fn matching(frames: &[Vec<u8>], path: &[u8], value: &[u8]) -> Vec<usize> {
    let reads = |frame: &[u8]| {
        let mut part = [0xa5; 8 * 36];
        part_read(&TYPE, frame, path, &mut part).map(|length| part[..length].to_vec())
    };
    let all = frames.iter().enumerate();
    all.filter(|(_, frame)| reads(frame).as_deref() == Ok(value))
        .map(|(i, _)| i)
        .collect()
}

/// Searches, and compares the answer with what each frame reads as.
fn check(frames: &[Vec<u8>], path: &[u8], value: &[u8]) -> Option<usize> {
    let right = matching(frames, path, value);
    let found = search(&TYPE, &frames.concat(), path, value).unwrap();
    match found {
        Some(index) => assert!(right.contains(&index), "{index} of {right:?}"),
        None => assert_eq!(right, []),
    }
    found
}

#[test]
fn every_part_of_every_frame_is_found_and_no_other() {
    let frames = day();
    let mut found = 0;
    for n in 0..=255 {
        for (path, bits) in [
            (&RECIPE[..], 8),
            (&SECOND_HIT, 4),
            (&DENSITY, 8),
            (&[0, 0, 0, 0], 1),
            (&[0, 3], 8),
        ] {
            // every day file that begins and ends with one of the frames
            for start in [0, 2, 3, 5, 7, 11] {
                found += check(&frames[start..], path, &uint(bits, n)).is_some() as usize;
                found += check(&frames[..start], path, &uint(bits, n)).is_some() as usize;
            }
        }
    }
    assert!(found > 0);
}

#[test]
fn damaged_frames_are_passed_over() {
    let frames = day();
    // frames 2, 5 and 7 have the recipe 7 too
    assert_eq!(check(&frames, &RECIPE, &uint(8, 7)), Some(3));
    assert_eq!(check(&frames[4..], &RECIPE, &uint(8, 7)), None);
    assert_eq!(check(&frames[4..8], &DENSITY, &uint(8, 60)), None);
}

#[test]
fn a_path_may_lead_nowhere_in_some_frames_or_in_all() {
    let frames = day();
    assert_eq!(check(&frames, &SECOND_HIT, &uint(4, 2)), Some(4));
    assert_eq!(check(&frames, &[0, 1, 0, 2], &uint(4, 3)), Some(4));
    assert_eq!(check(&frames, &[0, 1, 0, 3], &uint(4, 3)), None);
    assert_eq!(check(&frames, &[0, 2, 0, 1], &uint(8, 60)), None);
}

#[test]
fn lists_options_and_the_whole_are_parts_too() {
    let frames = day();
    let hits = [record(7, 0, 1, 0), uint(4, 9)].concat();
    assert_eq!(check(&frames, &[0, 1], &hits), Some(8));
    assert!([0, 6, 9].contains(&check(&frames, &[0, 2], &record(4, 0, 0, 0)).unwrap()));
    let whole = [
        record(5, 0, 3, 0),
        uint(8, 3),
        record(7, 0, 0, 0),
        record(4, 0, 0, 0),
    ]
    .concat();
    assert_eq!(check(&frames, &[], &whole), Some(9));
}

#[test]
fn a_file_that_is_no_value_matches_nothing() {
    let frames = day();
    let four = [uint(4, 9); 4].concat();
    let files: [(&[u8], Vec<u8>); 7] = [
        (&RECIPE, vec![]),
        (&RECIPE, uint(8, 7)[..35].to_vec()),
        (&RECIPE, uint(4, 7).to_vec()),
        (&RECIPE, [uint(8, 7), uint(8, 7)].concat()),
        (&SECOND_HIT, uint(4, 16 + 9).to_vec()),
        (&[0, 1], [&record(7, 0, 4, 0)[..], &four].concat()),
        (&[0, 2], record(4, 1, 0, 0).to_vec()),
    ];
    for (path, file) in files {
        assert_eq!(check(&frames, path, &file), None);
    }
}

#[test]
fn a_day_may_have_no_frames_and_what_is_edited_is_found() {
    assert_eq!(check(&[], &RECIPE, &uint(8, 7)), None);
    let mut frames = day();
    assert_eq!(check(&frames, &RECIPE, &uint(8, 77)), None);
    part_edit(&TYPE, &mut frames[11], &RECIPE, &uint(8, 77)).unwrap();
    assert_eq!(check(&frames, &RECIPE, &uint(8, 77)), Some(11));
}

#[test]
fn rows_come_in_their_order() {
    let frames = day().concat();
    let seven = uint(8, 7);
    let unit = [5, 0, 0, 0];
    let deep = [[4, 0, 0, 0].repeat(32), vec![1, 0, 0, 0]].concat();
    let types: [(&[u8], Refusal); 7] = [
        (&[], Refusal::TypeLength),
        (&[1, 0, 0, 0].repeat(1025), Refusal::TypeTooLong),
        (&[10, 0, 0, 0], Refusal::BadRecord),
        (&deep, Refusal::TooDeep),
        (&[4, 0, 0, 0], Refusal::NotOneType),
        (&[0, 0, 0, 0], Refusal::NeverStands),
        (&[6, 0, 0x80, 1, 5, 0, 0, 0], Refusal::TooLarge),
    ];
    for (ty, refusal) in types {
        assert_eq!(search(ty, &[0], &[0], &[]), Err(refusal));
    }
    assert_eq!(search(&unit, &[], &[], &[]), Err(Refusal::NoBytes));
    assert_eq!(search(&unit, &[0], &[0], &[]), Err(Refusal::NoBytes));
    for cut in 1..4 {
        let day = &frames[..frames.len() - cut];
        assert_eq!(search(&TYPE, day, &RECIPE, &seven), Err(Refusal::DayLength));
        assert_eq!(search(&TYPE, day, &[0], &[]), Err(Refusal::DayLength));
    }
    assert_eq!(search(&TYPE, &frames, &[0], &seven), Err(Refusal::PathOdd));
    assert_eq!(search(&TYPE, &[], &[0; 3], &[]), Err(Refusal::PathOdd));
}
