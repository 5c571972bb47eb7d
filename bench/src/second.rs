//! Every entry by the oracle's plain code, as it stands: frames over lowered types and shapes, a bit at a time.

use crate::frames::{self, Lowered};
use crate::paths::follow;
use crate::spots;
use crate::types::{check_lowering, lower, read_type, Ty};
use crate::values::{check_shape, read_value, reconstruct, shape, write_value, Val};

pub type Outcome = Result<Vec<u8>, u32>;

fn lowering(file: &[u8]) -> Result<Ty, u32> {
    let ty = read_type(file)?;
    check_lowering(&ty)?;
    Ok(ty)
}

pub fn lowered(ty: &[u8]) -> Outcome {
    Ok(lower(&lowering(ty)?))
}

pub fn shaped(ty: &[u8], value: &[u8]) -> Outcome {
    let ty = lowering(ty)?;
    Ok(shape(&ty, &read_value(&ty, value)?))
}

pub fn room(ty: &[u8]) -> Result<[usize; 3], u32> {
    let lowered = lowered(ty)?;
    Ok([lowered.len(), Lowered::new(&lowered).width(), frames::longest(&lowered)])
}

pub fn shape_records(ty: &[u8], value: &[u8]) -> Result<usize, u32> {
    Ok(shaped(ty, value)?.len())
}

pub fn reconstructed(ty: &[u8], shape: &[u8]) -> Outcome {
    let ty = read_type(ty)?;
    check_shape(shape)?;
    match spots::met(&ty, shape).number() {
        Some(number) => Err(number),
        None => reconstruct(&ty, shape).map(|val| write_value(&val)).ok_or(10),
    }
}

fn frame_of(ty: &Ty, val: &Val) -> Vec<u8> {
    frames::write(&Lowered::new(&lower(ty)), &shape(ty, val))
}

fn value_of(ty: &Ty, frame: &[u8]) -> Result<Val, u32> {
    let shape = frames::read(&Lowered::new(&lower(ty)), frame)?;
    Ok(reconstruct(ty, &shape).expect("a frame's shape belongs to its type"))
}

pub fn framed(ty: &[u8], value: &[u8]) -> Outcome {
    let ty = lowering(ty)?;
    Ok(frame_of(&ty, &read_value(&ty, value)?))
}

pub fn unframed(ty: &[u8], frame: &[u8]) -> Outcome {
    Ok(write_value(&value_of(&lowering(ty)?, frame)?))
}

pub fn part_read(ty: &[u8], frame: &[u8], path: &[u8]) -> Outcome {
    let ty = lowering(ty)?;
    let old = value_of(&ty, frame)?;
    Ok(write_value(follow(&ty, &old, path)?.val))
}

pub fn part_edit(ty: &[u8], frame: &[u8], path: &[u8], new: &[u8]) -> Outcome {
    let ty = lowering(ty)?;
    let old = value_of(&ty, frame)?;
    let part = follow(&ty, &old, path)?;
    read_value(part.ty, new)?;
    let mut file = write_value(&old);
    file.splice(part.record * 36..(part.record + part.val.records()) * 36, new.iter().copied());
    let whole = read_value(&ty, &file).expect("the replaced file is a value of the type");
    Ok(frame_of(&ty, &whole))
}
