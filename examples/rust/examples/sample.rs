//! Asks how much room the type of the sample takes, (u4, List of u1 bounded at 4), lends buffers of
//! that length for the shape and the frame of (9, [1]), edits part 0 of the frame to 6, reads the
//! part and the whole back, and looks for part 0 in a day file of both frames.

use niegluk::{
    Refusal, part_edit, part_read, read_frame, room, search, shape_records, write_frame,
    write_shape,
};

const TYPE: [u8; 16] = [5, 0, 0, 2, 2, 0, 0, 4, 7, 0, 0, 4, 2, 0, 0, 1];
const RECORD: usize = 36;

/// A record of a value file: kind, choice 0, n and an integer of one byte.
fn record(kind: u8, n: u8, integer: u8) -> [u8; RECORD] {
    let mut record = [0; RECORD];
    (record[0], record[3], record[35]) = (kind, n, integer);
    record
}

fn main() -> Result<(), Refusal> {
    // a Tuple of two: a u4 that holds 9, and a List of one, a u1 that holds 1
    let value = [
        record(5, 2, 0),
        record(2, 4, 9),
        record(7, 1, 0),
        record(2, 1, 1),
    ]
    .concat();
    // known of the type, before there is a value
    let room = room(&TYPE)?;
    println!(
        "room {} lowered records, {} bits, shapes of up to {} records",
        room.lowered, room.bits, room.shape
    );
    let mut shape = vec![0; room.shape];
    let length = write_shape(&TYPE, &value, &mut shape)?;
    println!("shape {length} of {}", shape.len());
    // known of the value, before its shape is written
    let mut shape = vec![0; shape_records(&TYPE, &value)?];
    let length = write_shape(&TYPE, &value, &mut shape)?;
    println!("shape {length} of {}", shape.len());

    let mut frame = vec![0; room.bits.div_ceil(8)];
    let length = write_frame(&TYPE, &value, &mut frame)?;
    println!("frame {length} {:02x}{:02x}", frame[0], frame[1]);
    let mut day = frame.clone();

    let first = [0, 0];
    part_edit(&TYPE, &mut frame, &first, &record(2, 4, 6))?;
    println!("edited {:02x}{:02x}", frame[0], frame[1]);

    let mut part = [0; RECORD];
    part_read(&TYPE, &frame, &first, &mut part)?;
    println!("part 0 holds {}", part[35]);

    let mut whole = [0; 4 * RECORD];
    let length = read_frame(&TYPE, &frame, &mut whole)?;
    let (number, element) = (whole[2 * RECORD - 1], whole[4 * RECORD - 1]);
    println!("value {length} bytes: ({number}, [{element}])");

    // a day file of two frames, the one before the edit and the one after it
    day.extend(&frame);
    for number in [9, 6, 5] {
        match search(&TYPE, &day, &first, &record(2, 4, number))? {
            Some(index) => println!("part 0 holds {number} in frame {index}"),
            None => println!("part 0 holds {number} in no frame"),
        }
    }

    // a List bounded at 4 holds at most 3 elements
    let one = record(2, 1, 1);
    let four = [record(7, 4, 0), one, one, one, one].concat();
    if let Err(refusal) = part_edit(&TYPE, &mut frame, &[0, 1], &four) {
        println!("refused {}: {refusal}", refusal.number());
    }
    Ok(())
}
