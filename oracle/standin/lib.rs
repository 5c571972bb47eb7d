//! The root of the crate around the published files. Everything here stands in for files that are not at hand.

pub mod array;
pub mod num;
pub mod str;
pub mod types;
pub mod value;

pub mod error {
    use crate::types::UIntType;

    /// The one error that the values' constructors give.
    #[derive(Debug)]
    pub enum Error {
        IntegerOutOfBounds { ty: UIntType },
    }

    pub struct Diagnostic;

    pub trait WithSpan {}
}

/// Text is left out: these names are imported and not used.
pub mod ast {}

pub mod parse {
    pub trait ParseFromStr {}
}

mod driver {
    pub const MAIN_STR: &str = "main";
}

mod lexer {
    pub fn is_keyword(_: &str) -> bool {
        false
    }
}

/// For the oracle: an enum's type from its variants' parts. Variant i is named `v` and i.
pub fn enumeration(variants: Vec<Vec<types::ResolvedType>>) -> types::ResolvedType {
    let variants = variants.into_iter().enumerate();
    let variants = variants.map(|(i, parts)| types::EnumVariantInfo::new(variant_name(i), parts.into()));
    types::ResolvedType::enumeration(types::EnumInfo::new("E".into(), variants.collect()))
}

/// For the oracle: the name of variant i.
pub fn variant_name(i: usize) -> str::Identifier {
    str::Identifier::from_str_unchecked(&format!("v{i}"))
}
