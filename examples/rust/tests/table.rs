//! The refusals' numbers and sentences are those of the repository's table and header.

use niegluk::Refusal;

const README: &str = include_str!("../../../README.md");
const HEADER: &str = include_str!("../../../include/niegluk.h");

const ALL: [Refusal; 22] = [
    Refusal::TypeLength,
    Refusal::TypeTooLong,
    Refusal::BadRecord,
    Refusal::TooDeep,
    Refusal::NotOneType,
    Refusal::NeverStands,
    Refusal::TooLarge,
    Refusal::ShapeTooLong,
    Refusal::NotOneTree,
    Refusal::NotReconstructed,
    Refusal::NoUnit,
    Refusal::FrameLength,
    Refusal::StrayBit,
    Refusal::NoBytes,
    Refusal::DayLength,
    Refusal::PathOdd,
    Refusal::NoSuchPart,
    Refusal::ValueLength,
    Refusal::NotOneValue,
    Refusal::IntegerTooLarge,
    Refusal::ListTooLong,
    Refusal::NoRoom,
];

/// A name as C has it: `TypeLength` is `TYPE_LENGTH`.
fn in_capitals(name: &str) -> String {
    let mut capitals = String::new();
    for letter in name.chars() {
        if letter.is_uppercase() {
            capitals.push('_');
        }
        capitals.push(letter.to_ascii_uppercase());
    }
    capitals
}

#[test]
fn sentences_are_the_tables() {
    for refusal in ALL {
        let row = format!("| {} | {refusal} |\n", refusal.number());
        assert!(README.contains(&row), "{row}");
    }
}

#[test]
fn names_and_numbers_are_the_headers() {
    for refusal in ALL {
        let name = in_capitals(&format!("{refusal:?}"));
        let line = format!("    NIEGLUK{name} = {}", refusal.number());
        assert!(
            HEADER.lines().any(|l| l.trim_end_matches(',') == line),
            "{line}"
        );
    }
}
