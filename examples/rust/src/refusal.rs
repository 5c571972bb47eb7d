//! Why an operation is refused.

use core::error::Error;
use core::fmt::{Display, Formatter, Result};

/// Why an operation is refused: the first row of the table, downward, that holds.
#[derive(Clone, Copy, Debug, PartialEq, Eq, Hash)]
#[non_exhaustive]
pub enum Refusal {
    /// 1: the type file is empty, or its length is no multiple of 4.
    TypeLength,
    /// 2: the type file has over 1,024 records.
    TypeTooLong,
    /// 3: a record of the type has a bad kind, byte 1 or n, or a Variant stands where a type
    /// belongs, or the reverse.
    BadRecord,
    /// 4: a record of the type is deeper than 32, the root being 1.
    TooDeep,
    /// 5: a record of the type is missing, or some are left over.
    NotOneType,
    /// 6: the type has a Never in it, so it does not lower.
    NeverStands,
    /// 7: the type, a type in it or a payload type lowers to over 65,536 records.
    TooLarge,
    /// 8: the shape has over 65,536 records.
    ShapeTooLong,
    /// 9: the shape has a byte above 3, or is not exactly one tree.
    NotOneTree,
    /// 10: the shape does not read as a value of the type.
    NotReconstructed,
    /// 20: something other than a unit stands where the shape is read as an empty tuple, an array
    /// of 0 or a variant without parts.
    NoUnit,
    /// 11: the frame has another length than the type's frames.
    FrameLength,
    /// 12: a padding or tail bit of the frame is 1.
    StrayBit,
    /// 18: in the place of 11, for a search: a frame of the type has no bytes.
    NoBytes,
    /// 19: in the place of 12, for a search: the day file's length is no multiple of a frame's.
    DayLength,
    /// 13: the path's length is odd.
    PathOdd,
    /// 14: the path leads to no part of the frame's value.
    NoSuchPart,
    /// 15: the value file is empty, or its length is no multiple of 36.
    ValueLength,
    /// 16: the value file is not one value of the type; for an edit, of the part's type.
    NotOneValue,
    /// 21: in the place of 16, an integer in the value file is too large for its width.
    IntegerTooLarge,
    /// 22: in the place of 16, a list in the value file is as long as its bound, or longer.
    ListTooLong,
    /// 17: the result needs more bytes than the buffer has.
    NoRoom,
    /// A number that this crate has no name for. The library that it was written for answers none.
    Unknown(u32),
}

impl Refusal {
    /// The refusal with this number of the table; 0 is none.
    pub(crate) const fn of(number: u32) -> Option<Self> {
        Some(match number {
            0 => return None,
            1 => Self::TypeLength,
            2 => Self::TypeTooLong,
            3 => Self::BadRecord,
            4 => Self::TooDeep,
            5 => Self::NotOneType,
            6 => Self::NeverStands,
            7 => Self::TooLarge,
            8 => Self::ShapeTooLong,
            9 => Self::NotOneTree,
            10 => Self::NotReconstructed,
            11 => Self::FrameLength,
            12 => Self::StrayBit,
            13 => Self::PathOdd,
            14 => Self::NoSuchPart,
            15 => Self::ValueLength,
            16 => Self::NotOneValue,
            17 => Self::NoRoom,
            18 => Self::NoBytes,
            19 => Self::DayLength,
            20 => Self::NoUnit,
            21 => Self::IntegerTooLarge,
            22 => Self::ListTooLong,
            other => Self::Unknown(other),
        })
    }

    /// The table's number.
    ///
    /// ```
    /// assert_eq!(niegluk::Refusal::NoRoom.number(), 17);
    /// ```
    #[must_use]
    pub const fn number(self) -> u32 {
        match self {
            Self::TypeLength => 1,
            Self::TypeTooLong => 2,
            Self::BadRecord => 3,
            Self::TooDeep => 4,
            Self::NotOneType => 5,
            Self::NeverStands => 6,
            Self::TooLarge => 7,
            Self::ShapeTooLong => 8,
            Self::NotOneTree => 9,
            Self::NotReconstructed => 10,
            Self::FrameLength => 11,
            Self::StrayBit => 12,
            Self::PathOdd => 13,
            Self::NoSuchPart => 14,
            Self::ValueLength => 15,
            Self::NotOneValue => 16,
            Self::NoRoom => 17,
            Self::NoBytes => 18,
            Self::DayLength => 19,
            Self::NoUnit => 20,
            Self::IntegerTooLarge => 21,
            Self::ListTooLong => 22,
            Self::Unknown(number) => number,
        }
    }
}

impl Display for Refusal {
    /// The table's sentence.
    fn fmt(&self, f: &mut Formatter<'_>) -> Result {
        f.write_str(match self {
            Self::TypeLength => "The type file is empty, or its length is no multiple of 4.",
            Self::TypeTooLong => "The type file has over 1,024 records.",
            Self::BadRecord => {
                "A record of the type has a bad kind, byte 1 or n, or a Variant stands where a \
                 type belongs, or the reverse."
            }
            Self::TooDeep => "A record of the type is deeper than 32, the root being 1.",
            Self::NotOneType => "A record of the type is missing, or some are left over.",
            Self::NeverStands => "The type has a Never in it, so it does not lower.",
            Self::TooLarge => {
                "The type, a type in it or a payload type lowers to over 65,536 records."
            }
            Self::ShapeTooLong => "The shape has over 65,536 records.",
            Self::NotOneTree => "The shape has a byte above 3, or is not exactly one tree.",
            Self::NotReconstructed => "The shape does not read as a value of the type.",
            Self::NoUnit => {
                "Something other than a unit stands where the shape is read as an empty tuple, an \
                 array of 0 or a variant without parts."
            }
            Self::FrameLength => "The frame has another length than the type's frames.",
            Self::StrayBit => "A padding or tail bit of the frame is 1.",
            Self::NoBytes => "A frame of the type has no bytes.",
            Self::DayLength => "The day file's length is no multiple of a frame's.",
            Self::PathOdd => "The path's length is odd.",
            Self::NoSuchPart => "The path leads to no part of the frame's value.",
            Self::ValueLength => "The value file is empty, or its length is no multiple of 36.",
            Self::NotOneValue => {
                "The value file is not one value of the type; for an edit, of the part's type."
            }
            Self::IntegerTooLarge => "An integer in the value file is too large for its width.",
            Self::ListTooLong => "A list in the value file is as long as its bound, or longer.",
            Self::NoRoom => "The result needs more bytes than the buffer has.",
            Self::Unknown(number) => {
                return write!(f, "The library answered {number}, which has no name here.");
            }
        })
    }
}

impl Error for Refusal {}

#[cfg(test)]
mod tests {
    use super::Refusal;

    #[test]
    fn every_number_is_its_refusals_own() {
        for number in (1..1000).chain([u32::MAX]) {
            assert_eq!(Refusal::of(number).map(Refusal::number), Some(number));
        }
        assert_eq!(Refusal::of(0), None);
    }
}
