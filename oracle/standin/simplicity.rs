//! Stands in for the crate `simplicity`: final types, values, and bits collected into bytes.
//!
//! A value is a tree with its type beside it. The sides that a value does not take are types, as in the crate.

use std::fmt;
use std::sync::Arc;

use types::Final;

pub mod types {
    use std::fmt;
    use std::hash::{Hash, Hasher};
    use std::marker::PhantomData;
    use std::sync::Arc;

    /// A unit, sum or product. The mark tells types apart, as the crate's Merkle root does.
    #[derive(Clone, Debug)]
    pub struct Final {
        bound: CompleteBound,
        mark: u128,
    }

    #[derive(Clone, Debug)]
    pub enum CompleteBound {
        Unit,
        Sum(Arc<Final>, Arc<Final>),
        Product(Arc<Final>, Arc<Final>),
    }

    /// Mixes a kind and two marks into one of 128 bits.
    fn mix(kind: u128, left: u128, right: u128) -> u128 {
        let mut mark = kind;
        for word in [left, right] {
            for part in [word as u64 as u128, word >> 64] {
                mark = (mark ^ part).wrapping_mul(0xda94_2042_e4dd_58b5_c0ff_ee11_9e37_79b9);
                mark ^= mark >> 61;
                mark = mark.rotate_left(29);
            }
        }
        mark
    }

    impl Final {
        pub fn unit() -> Arc<Self> {
            Arc::new(Final { bound: CompleteBound::Unit, mark: 1 })
        }

        pub fn sum(left: Arc<Self>, right: Arc<Self>) -> Arc<Self> {
            let mark = mix(2, left.mark, right.mark);
            Arc::new(Final { bound: CompleteBound::Sum(left, right), mark })
        }

        pub fn product(left: Arc<Self>, right: Arc<Self>) -> Arc<Self> {
            let mark = mix(3, left.mark, right.mark);
            Arc::new(Final { bound: CompleteBound::Product(left, right), mark })
        }

        /// The type of words of 2^N bits.
        pub fn two_two_n_fixed<const N: usize>() -> Arc<Self> {
            let mut word = Self::sum(Self::unit(), Self::unit());
            for _ in 0..N {
                word = Self::product(word.clone(), word);
            }
            word
        }

        pub fn bound(&self) -> &CompleteBound {
            &self.bound
        }
    }

    impl PartialEq for Final {
        fn eq(&self, other: &Self) -> bool {
            self.mark == other.mark
        }
    }

    impl Eq for Final {}

    impl Hash for Final {
        fn hash<H: Hasher>(&self, state: &mut H) {
            self.mark.hash(state)
        }
    }

    impl fmt::Display for Final {
        fn fmt(&self, f: &mut fmt::Formatter<'_>) -> fmt::Result {
            match &self.bound {
                CompleteBound::Unit => f.write_str("1"),
                CompleteBound::Sum(l, r) => write!(f, "({l} + {r})"),
                CompleteBound::Product(l, r) => write!(f, "({l} * {r})"),
            }
        }
    }

    /// Inference is not used here: both names stand for the signature of `to_unfinalized`.
    pub struct Context<'brand>(PhantomData<&'brand ()>);

    pub struct Type<'brand>(pub Arc<Final>, PhantomData<&'brand ()>);

    impl<'brand> Type<'brand> {
        pub fn complete(_: &Context<'brand>, bound: Arc<Final>) -> Self {
            Type(bound, PhantomData)
        }
    }
}

/// The tree of a value.
#[derive(Clone, Debug, Eq, PartialEq, Hash)]
pub enum Node {
    Unit,
    Left(Arc<Value>),
    Right(Arc<Value>),
    Product(Arc<Value>, Arc<Value>),
}

#[derive(Clone, Debug, Eq, PartialEq, Hash)]
pub struct Value {
    node: Node,
    ty: Arc<Final>,
}

impl Value {
    pub fn unit() -> Self {
        Value { node: Node::Unit, ty: Final::unit() }
    }

    pub fn left(left: Self, right: Arc<Final>) -> Self {
        let ty = Final::sum(left.ty.clone(), right);
        Value { node: Node::Left(Arc::new(left)), ty }
    }

    pub fn right(left: Arc<Final>, right: Self) -> Self {
        let ty = Final::sum(left, right.ty.clone());
        Value { node: Node::Right(Arc::new(right)), ty }
    }

    pub fn product(left: Self, right: Self) -> Self {
        let ty = Final::product(left.ty.clone(), right.ty.clone());
        Value { node: Node::Product(Arc::new(left), Arc::new(right)), ty }
    }

    pub fn none(inner: Arc<Final>) -> Self {
        Self::left(Self::unit(), inner)
    }

    pub fn some(inner: Self) -> Self {
        Self::right(Final::unit(), inner)
    }

    /// A word of the given bits of an integer, the highest leftmost.
    fn word(bytes: &[u8], from: usize, bits: usize) -> Self {
        if bits > 1 {
            let half = bits / 2;
            return Self::product(Self::word(bytes, from, half), Self::word(bytes, from + half, half));
        }
        match bytes[from / 8] >> (7 - from % 8) & 1 {
            0 => Self::left(Self::unit(), Final::unit()),
            _ => Self::right(Final::unit(), Self::unit()),
        }
    }

    pub fn u1(value: u8) -> Self {
        assert!(value < 2);
        Self::word(&[value], 7, 1)
    }

    pub fn u2(value: u8) -> Self {
        assert!(value < 4);
        Self::word(&[value], 6, 2)
    }

    pub fn u4(value: u8) -> Self {
        assert!(value < 16);
        Self::word(&[value], 4, 4)
    }

    pub fn u8(value: u8) -> Self {
        Self::word(&[value], 0, 8)
    }

    pub fn u16(value: u16) -> Self {
        Self::word(&value.to_be_bytes(), 0, 16)
    }

    pub fn u32(value: u32) -> Self {
        Self::word(&value.to_be_bytes(), 0, 32)
    }

    pub fn u64(value: u64) -> Self {
        Self::word(&value.to_be_bytes(), 0, 64)
    }

    pub fn u128(value: u128) -> Self {
        Self::word(&value.to_be_bytes(), 0, 128)
    }

    pub fn u256(value: [u8; 32]) -> Self {
        Self::word(&value, 0, 256)
    }

    pub fn as_ref(&self) -> ValueRef<'_> {
        ValueRef(self)
    }

    pub fn is_of_type(&self, ty: &Final) -> bool {
        *self.ty == *ty
    }

    /// For the oracle: the tree itself.
    pub fn node(&self) -> &Node {
        &self.node
    }
}

impl fmt::Display for Value {
    fn fmt(&self, f: &mut fmt::Formatter<'_>) -> fmt::Result {
        match &self.node {
            Node::Unit => f.write_str("e"),
            Node::Left(v) => write!(f, "L({v})"),
            Node::Right(v) => write!(f, "R({v})"),
            Node::Product(l, r) => write!(f, "({l},{r})"),
        }
    }
}

/// A value that is looked at.
#[derive(Clone, Copy, Debug)]
pub struct ValueRef<'v>(&'v Value);

impl<'v> ValueRef<'v> {
    pub fn is_unit(&self) -> bool {
        matches!(self.0.node, Node::Unit)
    }

    pub fn as_left(&self) -> Option<ValueRef<'v>> {
        match &self.0.node {
            Node::Left(v) => Some(ValueRef(v)),
            _ => None,
        }
    }

    pub fn as_right(&self) -> Option<ValueRef<'v>> {
        match &self.0.node {
            Node::Right(v) => Some(ValueRef(v)),
            _ => None,
        }
    }

    pub fn as_product(&self) -> Option<(ValueRef<'v>, ValueRef<'v>)> {
        match &self.0.node {
            Node::Product(l, r) => Some((ValueRef(l), ValueRef(r))),
            _ => None,
        }
    }

    pub fn to_value(&self) -> Value {
        self.0.clone()
    }
}

pub mod dag {
    use super::{Node, ValueRef};

    pub enum Dag<T> {
        Nullary,
        Unary(T),
        Binary(T, T),
    }

    pub trait DagLike: Sized {
        fn as_dag_node(&self) -> Dag<Self>;
    }

    impl DagLike for ValueRef<'_> {
        fn as_dag_node(&self) -> Dag<Self> {
            match &self.0.node {
                Node::Unit => Dag::Nullary,
                Node::Left(v) | Node::Right(v) => Dag::Unary(ValueRef(v)),
                Node::Product(l, r) => Dag::Binary(ValueRef(l), ValueRef(r)),
            }
        }
    }
}

/// Bits collected into bytes, the first the highest of byte 0, and their count.
pub trait BitCollector {
    fn collect_bits(self) -> (Vec<u8>, usize);
}

impl<I: Iterator<Item = bool>> BitCollector for I {
    fn collect_bits(self) -> (Vec<u8>, usize) {
        let mut bytes = vec![];
        let mut count = 0;
        for bit in self {
            if count % 8 == 0 {
                bytes.push(0);
            }
            if bit {
                *bytes.last_mut().unwrap() |= 0x80 >> (count % 8);
            }
            count += 1;
        }
        (bytes, count)
    }
}
