//! Stands in for types/mod.rs: the two traits that the published files implement, and their re-exports.

mod inner;
mod resolved;
mod structural;

pub use inner::{EnumInfo, EnumVariantInfo, TypeInner, UIntType};
pub use resolved::ResolvedType;
pub use structural::StructuralType;

use std::sync::Arc;

use crate::num::NonZeroPow2Usize;

/// Names of builtin aliases are metadata for tooling. None is used here.
#[derive(Clone, Copy, Debug, Eq, PartialEq, Hash)]
pub enum BuiltinAlias {}

pub trait TypeConstructible: Sized + From<UIntType> {
    fn either(left: Self, right: Self) -> Self;

    fn option(inner: Self) -> Self;

    fn boolean() -> Self;

    fn tuple<I: IntoIterator<Item = Self>>(elements: I) -> Self;

    fn unit() -> Self {
        Self::tuple([])
    }

    fn product(left: Self, right: Self) -> Self {
        Self::tuple([left, right])
    }

    fn array(element: Self, size: usize) -> Self;

    fn list(element: Self, bound: NonZeroPow2Usize) -> Self;

    fn u8() -> Self {
        Self::from(UIntType::U8)
    }
}

pub trait TypeDeconstructible: Sized {
    fn as_either(&self) -> Option<(&Self, &Self)>;

    fn as_option(&self) -> Option<&Self>;

    fn is_boolean(&self) -> bool;

    fn as_integer(&self) -> Option<UIntType>;

    fn as_tuple(&self) -> Option<&[Arc<Self>]>;

    fn as_array(&self) -> Option<(&Self, usize)>;

    fn as_list(&self) -> Option<(&Self, NonZeroPow2Usize)>;
}
