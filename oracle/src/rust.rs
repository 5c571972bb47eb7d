//! The way into the published code and out of it: types, values and shapes in its own form.

use std::sync::Arc;

use either::Either;
use published::num::{NonZeroPow2Usize, Pow2Usize, U256};
use published::types::{ResolvedType, StructuralType, TypeConstructible, UIntType};
use published::value::{StructuralValue, UIntValue, Value, ValueConstructible, ValueInner};
use simplicity::types::{CompleteBound, Final};
use simplicity::{Node, Value as SimValue};

use crate::types::Ty;
use crate::values::{put_value_record, Val};

fn integer_type(bits: usize) -> UIntType {
    UIntType::from_bit_width(Pow2Usize::new(bits).unwrap()).unwrap()
}

fn list_bound(bound: usize) -> NonZeroPow2Usize {
    NonZeroPow2Usize::new(bound).unwrap()
}

/// The published form of a type.
pub fn resolved(ty: &Ty) -> ResolvedType {
    match ty {
        Ty::Never => ResolvedType::never(),
        Ty::Bool => ResolvedType::boolean(),
        Ty::UInt(bits) => ResolvedType::from(integer_type(*bits)),
        Ty::Either(l, r) => ResolvedType::either(resolved(l), resolved(r)),
        Ty::Option(t) => ResolvedType::option(resolved(t)),
        Ty::Tuple(parts) => ResolvedType::tuple(parts.iter().map(resolved)),
        Ty::Array(n, t) => ResolvedType::array(resolved(t), *n),
        Ty::List(bound, t) => ResolvedType::list(resolved(t), list_bound(*bound)),
        Ty::Enum(variants) => {
            published::enumeration(variants.iter().map(|parts| parts.iter().map(resolved).collect()).collect())
        }
    }
}

/// The lowered type, by `From<&ResolvedType> for StructuralType`.
pub fn lower(ty: &Ty) -> Vec<u8> {
    let lowered = StructuralType::from(&resolved(ty));
    let mut out = vec![];
    put_final(lowered.as_ref(), &mut out);
    out
}

fn put_final(ty: &Final, out: &mut Vec<u8>) {
    let (kind, l, r) = match ty.bound() {
        CompleteBound::Unit => return out.push(0),
        CompleteBound::Sum(l, r) => (1, l, r),
        CompleteBound::Product(l, r) => (2, l, r),
    };
    out.push(kind);
    put_final(l, out);
    put_final(r, out);
}

/// The published integer of a width, if its constructor takes it and it comes back as these bytes.
fn integer(bits: usize, bytes: &[u8; 32]) -> Option<UIntValue> {
    let made = match bits {
        1 => UIntValue::u1(bytes[31]).ok()?,
        2 => UIntValue::u2(bytes[31]).ok()?,
        4 => UIntValue::u4(bytes[31]).ok()?,
        _ => UIntValue::try_from(&bytes[32 - bits / 8..]).ok()?,
    };
    (integer_bytes(&made) == (bits, *bytes)).then_some(made)
}

/// Has the published code an integer of this width with these bytes?
pub fn has_integer(bits: usize, bytes: &[u8; 32]) -> bool {
    integer(bits, bytes).is_some()
}

/// The published form of a value of a type.
pub fn value(ty: &Ty, val: &Val) -> Value {
    match (ty, val) {
        (_, Val::Bool(bit)) => Value::from(*bit),
        (_, Val::UInt(bits, bytes)) => Value::from(integer(*bits, bytes).expect("the integer fits its width")),
        (Ty::Either(l, r), Val::Either(false, v)) => Value::left(value(l, v), resolved(r)),
        (Ty::Either(l, r), Val::Either(true, v)) => Value::right(resolved(l), value(r, v)),
        (Ty::Option(t), Val::Option(None)) => Value::none(resolved(t)),
        (Ty::Option(t), Val::Option(Some(v))) => Value::some(value(t, v)),
        (Ty::Tuple(types), Val::Tuple(all)) => Value::tuple(values(types, all)),
        (Ty::Array(_, t), Val::Array(all)) => Value::array(all.iter().map(|v| value(t, v)), resolved(t)),
        (Ty::List(bound, t), Val::List(all)) => {
            Value::list(all.iter().map(|v| value(t, v)), resolved(t), list_bound(*bound))
        }
        (Ty::Enum(variants), Val::Enum(index, all)) => {
            let name = published::variant_name(*index);
            Value::enum_variant(&resolved(ty), &name, values(&variants[*index], all)).unwrap()
        }
        _ => unreachable!("the value is of the type"),
    }
}

fn values(types: &[Ty], all: &[Val]) -> Vec<Value> {
    types.iter().zip(all).map(|(t, v)| value(t, v)).collect()
}

/// The shape, by `From<&Value> for StructuralValue`.
pub fn shape(ty: &Ty, val: &Val) -> Vec<u8> {
    written(&value(ty, val))
}

fn written(value: &Value) -> Vec<u8> {
    let structural = StructuralValue::from(value);
    let mut out = vec![];
    put_node(structural.as_ref(), &mut out);
    out
}

fn put_node(value: &SimValue, out: &mut Vec<u8>) {
    match value.node() {
        Node::Unit => out.push(0),
        Node::Left(v) => {
            out.push(1);
            put_node(v, out);
        }
        Node::Right(v) => {
            out.push(2);
            put_node(v, out);
        }
        Node::Product(l, r) => {
            out.push(3);
            put_node(l, out);
            put_node(r, out);
        }
    }
}

/// The tree of a shape, from its last record to its first. Sides not taken are units.
pub fn tree(shape: &[u8]) -> SimValue {
    let mut stack: Vec<SimValue> = vec![];
    for byte in shape.iter().rev() {
        let made = match byte {
            0 => SimValue::unit(),
            1 => SimValue::left(stack.pop().unwrap(), Final::unit()),
            2 => SimValue::right(Final::unit(), stack.pop().unwrap()),
            _ => {
                let left = stack.pop().unwrap();
                SimValue::product(left, stack.pop().unwrap())
            }
        };
        stack.push(made);
    }
    assert_eq!(stack.len(), 1);
    stack.pop().unwrap()
}

fn read(ty: &Ty, shape: &[u8]) -> Option<Value> {
    let structural = StructuralValue::from(tree(shape));
    Value::reconstruct(&structural, &resolved(ty))
}

/// The value file that a shape reads as, by `Value::reconstruct`.
pub fn reconstruct(ty: &Ty, shape: &[u8]) -> Option<Vec<u8>> {
    let mut out = vec![];
    put_file(&read(ty, shape)?, &mut out);
    Some(out)
}

/// The shape that `From<&Value> for StructuralValue` makes of the value that `Value::reconstruct` reads.
pub fn rewritten(ty: &Ty, shape: &[u8]) -> Option<Vec<u8>> {
    read(ty, shape).map(|value| written(&value))
}

fn integer_bytes(value: &UIntValue) -> (usize, [u8; 32]) {
    let (bits, wide) = match *value {
        UIntValue::U1(n) => (1, U256::from(n)),
        UIntValue::U2(n) => (2, U256::from(n)),
        UIntValue::U4(n) => (4, U256::from(n)),
        UIntValue::U8(n) => (8, U256::from(n)),
        UIntValue::U16(n) => (16, U256::from(n)),
        UIntValue::U32(n) => (32, U256::from(n)),
        UIntValue::U64(n) => (64, U256::from(n)),
        UIntValue::U128(n) => (128, U256::from(n)),
        UIntValue::U256(n) => (256, n),
    };
    (bits, wide.to_byte_array())
}

fn put_file(value: &Value, out: &mut Vec<u8>) {
    let none = &[0; 32];
    match value.inner() {
        ValueInner::Boolean(bit) => put_value_record(1, *bit as u8, 0, none, out),
        ValueInner::UInt(integer) => {
            let (bits, bytes) = integer_bytes(integer);
            put_value_record(2, 0, bits, &bytes, out)
        }
        ValueInner::Either(Either::Left(v)) => {
            put_value_record(3, 0, 0, none, out);
            put_file(v, out)
        }
        ValueInner::Either(Either::Right(v)) => {
            put_value_record(3, 1, 0, none, out);
            put_file(v, out)
        }
        ValueInner::Option(None) => put_value_record(4, 0, 0, none, out),
        ValueInner::Option(Some(v)) => {
            put_value_record(4, 1, 0, none, out);
            put_file(v, out)
        }
        ValueInner::Tuple(all) => put_files(5, all.len(), all, out),
        ValueInner::Array(all) => put_files(6, all.len(), all, out),
        ValueInner::List(all, _) => put_files(7, all.len(), all, out),
        ValueInner::Enum(index, all) => put_files(8, *index, all, out),
    }
}

fn put_files(kind: u8, n: usize, all: &Arc<[Value]>, out: &mut Vec<u8>) {
    put_value_record(kind, 0, n, &[0; 32], out);
    all.iter().for_each(|v| put_file(v, out));
}
