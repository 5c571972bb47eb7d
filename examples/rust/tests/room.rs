//! The room of a type is the room that its values need, and each row that can refuse it does.

use niegluk::{Refusal, Room, lower, room, shape_records, write_frame, write_shape};

/// A Boolean, a u2, and a List of units bounded at 4.
const TYPE: [u8; 20] = [5, 0, 0, 3, 1, 0, 0, 0, 2, 0, 0, 2, 7, 0, 0, 4, 5, 0, 0, 0];

/// A record of a value file: kind, choice 0, n and an integer of one byte.
fn record(kind: u8, n: u8, integer: u8) -> [u8; 36] {
    let mut record = [0; 36];
    (record[0], record[3], record[35]) = (kind, n, integer);
    record
}

/// (false, 2, a list of n units) as a value of `TYPE`.
fn value(n: u8) -> Vec<u8> {
    let mut file = [
        record(5, 3, 0),
        record(1, 0, 0),
        record(2, 2, 2),
        record(7, n, 0),
    ]
    .concat();
    (0..n).for_each(|_| file.extend(record(5, 0, 0)));
    file
}

#[test]
fn buffers_of_that_length_are_enough_and_no_longer_than_needed() {
    let told = room(&TYPE).unwrap();
    assert_eq!(
        told,
        Room {
            lowered: 21,
            bits: 5,
            shape: 16
        }
    );
    assert_eq!(lower(&TYPE, &mut vec![0; told.lowered]), Ok(told.lowered));
    let mut most = 0;
    for n in 0..4 {
        let records = shape_records(&TYPE, &value(n)).unwrap();
        assert_eq!(
            write_shape(&TYPE, &value(n), &mut vec![0; records]),
            Ok(records)
        );
        let short = write_shape(&TYPE, &value(n), &mut vec![0; records - 1]);
        assert_eq!(short, Err(Refusal::NoRoom));
        let bytes = told.bits.div_ceil(8);
        assert_eq!(
            write_frame(&TYPE, &value(n), &mut vec![0; bytes]),
            Ok(bytes)
        );
        most = most.max(records);
    }
    assert_eq!(most, told.shape);
}

#[test]
fn the_longer_side_of_a_choice_may_be_the_narrower_one() {
    // Either a u1, a bit and 2 records, or an array of 4 units, no bit and 7 records
    let choice = [3, 0, 0, 0, 2, 0, 0, 1, 6, 0, 0, 4, 5, 0, 0, 0];
    assert_eq!(
        room(&choice),
        Ok(Room {
            lowered: 11,
            bits: 2,
            shape: 8
        })
    );
}

#[test]
fn a_type_that_does_not_lower_has_no_room() {
    let deep = [[4, 0, 0, 0].repeat(32), vec![1, 0, 0, 0]].concat();
    let types: [(&[u8], Refusal); 7] = [
        (&[], Refusal::TypeLength),
        (&[1, 0, 0, 0].repeat(1025), Refusal::TypeTooLong),
        (&[10, 0, 0, 0], Refusal::BadRecord),
        (&deep, Refusal::TooDeep),
        (&[4, 0, 0, 0], Refusal::NotOneType),
        (&[0, 0, 0, 0], Refusal::NeverStands),
        (&[6, 0, 0x80, 1, 5, 0, 0, 0], Refusal::TooLarge),
    ];
    for (ty, refusal) in types {
        assert_eq!(room(ty), Err(refusal));
        assert_eq!(shape_records(ty, &[]), Err(refusal));
    }
}

#[test]
fn a_file_that_is_no_value_has_no_shape() {
    let wide = [
        record(5, 3, 0),
        record(1, 0, 0),
        record(2, 2, 4),
        record(7, 0, 0),
    ]
    .concat();
    let other = [
        record(5, 3, 0),
        record(1, 0, 0),
        record(2, 1, 1),
        record(7, 0, 0),
    ]
    .concat();
    assert_eq!(
        shape_records(&TYPE, &value(0)[1..]),
        Err(Refusal::ValueLength)
    );
    assert_eq!(shape_records(&TYPE, &other), Err(Refusal::NotOneValue));
    assert_eq!(shape_records(&TYPE, &wide), Err(Refusal::IntegerTooLarge));
    assert_eq!(shape_records(&TYPE, &value(4)), Err(Refusal::ListTooLong));
}
