//! Value files with faults put in on purpose: finer ones (21 and 22), ordinary ones (16), and several that meet.

use crate::first_fault::power_of_two;
use crate::generate::{random_value, BITS};
use crate::random::Random;
use crate::types::Ty;
use crate::values::{put_first_record, Val};

/// A list that is too long gets no more elements than these.
const MOST_ELEMENTS: usize = 70;

/// A record of a value file with its type and what stands under it.
#[derive(Clone)]
struct Node<'a> {
    ty: &'a Ty,
    record: [u8; 36],
    under: Vec<Node<'a>>,
}

impl<'a> Node<'a> {
    fn new(ty: &'a Ty, val: &Val) -> Self {
        let mut record = vec![];
        put_first_record(val, &mut record);
        let record = record.try_into().expect("a record has 36 bytes");
        let under = types_under(ty, val).into_iter().zip(val.children()).map(|(t, v)| Node::new(t, v)).collect();
        Node { ty, record, under }
    }

    /// The types of all records, in the file's order.
    fn put_types(&self, out: &mut Vec<&'a Ty>) {
        out.push(self.ty);
        self.under.iter().for_each(|node| node.put_types(out));
    }

    fn put_file(&self, out: &mut Vec<u8>) {
        out.extend(self.record);
        self.under.iter().for_each(|node| node.put_file(out));
    }

    /// The node whose record has this place, counted down on the way.
    fn at(&mut self, place: &mut usize) -> Option<&mut Self> {
        if *place == 0 {
            return Some(self);
        }
        *place -= 1;
        self.under.iter_mut().find_map(|node| node.at(place))
    }
}

fn types_under<'a>(ty: &'a Ty, val: &Val) -> Vec<&'a Ty> {
    match (ty, val) {
        (Ty::Either(left, right), Val::Either(is_right, _)) => vec![if *is_right { right } else { left }],
        (Ty::Option(t) | Ty::Array(_, t) | Ty::List(_, t), _) => vec![t; val.children().len()],
        (Ty::Tuple(parts), _) => parts.iter().collect(),
        (Ty::Enum(variants), Val::Enum(index, _)) => variants[*index].iter().collect(),
        _ => vec![],
    }
}

/// Can a record of this type earn 21?
fn is_small_integer(ty: &Ty) -> bool {
    matches!(ty, Ty::UInt(..=128))
}

/// Can a record of this type earn 22?
fn is_list(ty: &Ty) -> bool {
    matches!(ty, Ty::List(..))
}

/// A fault that is put into the record at a place.
#[derive(Clone, Copy)]
enum Put {
    Finer(usize),
    Ordinary(usize),
}

impl Put {
    fn place(self) -> usize {
        match self {
            Put::Finer(place) | Put::Ordinary(place) => place,
        }
    }
}

/// The file of a value with a finer fault alone, beside an ordinary one, before or behind another, before an early end or
/// leftovers. None where no record can have a finer fault.
pub fn spoiled(r: &mut Random, ty: &Ty, val: &Val) -> Option<Vec<u8>> {
    let mut root = Node::new(ty, val);
    let mut types = vec![];
    root.put_types(&mut types);
    let places = |holds: fn(&Ty) -> bool| (0..types.len()).filter(|&place| holds(types[place])).collect::<Vec<_>>();
    let (mut finer, mut others) = (places(is_list), places(is_small_integer));
    if finer.is_empty() || !others.is_empty() && r.percent(50) {
        std::mem::swap(&mut finer, &mut others);
    }
    if finer.is_empty() {
        return None;
    }
    let place = r.pick(&finer);
    let other = r.pick(if others.is_empty() { &finer } else { &others });
    let anywhere = r.below(types.len());
    let mut puts = vec![Put::Finer(place)];
    match r.below(10) {
        0..=3 => {}
        4 | 5 => puts.push(Put::Ordinary(place)),
        6 | 7 => puts.push(Put::Ordinary(anywhere)),
        8 => puts.push(Put::Finer(other)),
        _ => puts.extend([Put::Finer(other), Put::Ordinary(anywhere)]),
    }
    // From the last place to the first: what is put in changes only what stands behind it.
    puts.sort_by_key(|put| std::cmp::Reverse(put.place()));
    for put in &puts {
        match put {
            Put::Finer(place) => put_finer(r, root.at(&mut place.clone())?),
            Put::Ordinary(place) => put_ordinary(r, root.at(&mut place.clone())?),
        }
    }
    let mut file = vec![];
    root.put_file(&mut file);
    let first = puts.last()?.place();
    match r.below(6) {
        0 => file.truncate(36 * (first + 1)),
        1 => file.truncate(36 * r.between(first + 1, file.len() / 36)),
        2 => file.extend([2, 0, 0, 1].into_iter().chain([0; 32])),
        3 => file.extend_from_within(36 * first..36 * (first + 1)),
        _ => {}
    }
    Some(file)
}

/// Makes an integer too large, or a list too long: its elements stay, leave, or are there as far as they are cheap.
fn put_finer<'a>(r: &mut Random, node: &mut Node<'a>) {
    match node.ty {
        Ty::UInt(bits) => put_too_large(r, *bits, &mut node.record[4..]),
        Ty::List(bound, element) => {
            let n = too_long(r, *bound);
            put_n(&mut node.record, n);
            match r.below(3) {
                0 => {}
                1 => node.under.clear(),
                _ => put_elements(r, node, element, n.min(MOST_ELEMENTS)),
            }
        }
        _ => unreachable!("no such type has a finer fault"),
    }
}

fn put_elements<'a>(r: &mut Random, node: &mut Node<'a>, element: &'a Ty, n: usize) {
    let first = node.under.first().cloned();
    let first = first.or_else(|| random_value(r, element, &mut 30).map(|val| Node::new(element, &val)));
    if let Some(first) = first {
        node.under.resize(n.max(node.under.len()), first);
    }
}

fn put_n(record: &mut [u8], n: usize) {
    record[2..4].copy_from_slice(&(n as u16).to_be_bytes());
}

/// Makes an integer of fewer than 256 bits too large: just so, by far, by one bit or by one byte.
fn put_too_large(r: &mut Random, bits: usize, integer: &mut [u8]) {
    match r.below(6) {
        0 | 1 => integer.copy_from_slice(&power_of_two(bits)),
        2 => integer.copy_from_slice(&power_of_two(255)),
        3 => integer.fill(255),
        4 => {
            let bit = r.between(bits, 255);
            integer[31 - bit / 8] |= 1 << (bit % 8);
        }
        _ => integer[r.below(32 - bits.div_ceil(8))] = r.between(1, 255) as u8,
    }
}

/// A length at the bound, one above it, far above, or whose low byte alone would be below it.
fn too_long(r: &mut Random, bound: usize) -> usize {
    let n = match r.below(6) {
        0 | 1 => bound,
        2 => bound + 1,
        3 => 2 * bound,
        4 => 65_535,
        _ => 256 * r.between(1, 255) + r.below(bound.min(256)),
    };
    n.clamp(bound, 65_535)
}

/// Spoils kind, choice, an unused byte, or a width, count or variant.
fn put_ordinary(r: &mut Random, node: &mut Node) {
    let record = &mut node.record;
    let chooses = matches!(node.ty, Ty::Bool | Ty::Either(..) | Ty::Option(_));
    match (r.below(4), node.ty) {
        (0, _) => record[0] = record[0].wrapping_add(r.pick(&[1, 2, 4, 255])),
        (1, Ty::UInt(bits)) => {
            let others: Vec<usize> = BITS.into_iter().filter(|n| n != bits).collect();
            put_n(record, r.pick(&others));
        }
        (1, Ty::Tuple(_) | Ty::Array(..)) => {
            let n = u16::from_be_bytes([record[2], record[3]]);
            put_n(record, n.wrapping_add(r.pick(&[1, 256, 65_535])).into());
        }
        (1, Ty::Enum(variants)) => put_n(record, (variants.len() + r.pick(&[0, 0, 1, 256])).min(65_535)),
        (2, Ty::Tuple(_) | Ty::Array(..) | Ty::List(..) | Ty::Enum(_)) => {
            record[r.pick(&[4, 35, 20])] = r.between(1, 255) as u8
        }
        (2, _) if chooses => record[r.pick(&[2, 3, 4, 35])] = r.between(1, 255) as u8,
        _ => record[1] = r.pick(&[if chooses { 2 } else { 1 }, 2, 3, 255]),
    }
}

/// A menu of faults in one record and in two, each with the file as it is, cut after any record, and with one more record.
pub fn all_spoiled(ty: &Ty, val: &Val) -> Vec<Vec<u8>> {
    let root = Node::new(ty, val);
    let mut types = vec![];
    let mut sound = vec![];
    root.put_types(&mut types);
    root.put_file(&mut sound);
    let all_places: Vec<(usize, usize)> =
        (0..types.len()).flat_map(|a| (a..types.len()).map(move |b| (a, b))).collect();
    let mut all = vec![];
    for (first, second) in all_places {
        for fault in 0..MENU {
            for other in 0..MENU {
                let mut file = sound.clone();
                put_of_menu(types[second], other, &mut file[36 * second..]);
                put_of_menu(types[first], fault, &mut file[36 * first..]);
                all.extend((1..=types.len()).map(|records| file[..36 * records].to_vec()));
                file.extend(sound[..36].to_vec());
                all.push(file);
            }
        }
    }
    all.sort();
    all.dedup();
    all
}

/// The faults of the menu; the first is none.
const MENU: usize = 6;

fn put_of_menu(ty: &Ty, fault: usize, record: &mut [u8]) {
    match (fault, ty) {
        (1, _) => record[0] ^= 8,
        (2, _) => record[1] = 2,
        (3, _) => record[3] ^= 1,
        (4, _) => record[4] ^= 0x80,
        (5, Ty::UInt(bits @ ..=128)) => record[4..36].copy_from_slice(&power_of_two(*bits)),
        (5, Ty::List(bound, _)) => put_n(record, *bound),
        (5, Ty::Enum(variants)) => put_n(record, variants.len()),
        _ => {}
    }
}
