//! Stands in for the crate `either`: the enum alone.

#[derive(Clone, Copy, Debug, Eq, PartialEq, Hash)]
pub enum Either<L, R> {
    Left(L),
    Right(R),
}
