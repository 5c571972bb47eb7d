//! The spots of a shape (02, R-5): where an empty tuple, an array of 0 or a variant without parts is read.
//! The whole shape is walked along its type, past what is not of the type; only then its number is taken, or the shape
//! is cleaned (02, R-6).

use crate::types::{split, Ty};
use crate::values::tree_end;

/// A spot of a shape.
pub struct Spot {
    /// Where it is in the shape.
    pub place: usize,
    /// The kind of the type record that is read there: Tuple, Array or Variant.
    pub kind: u8,
    /// The type records above it, kind and n, the root first.
    pub above: Vec<(u8, usize)>,
    /// Does a unit stand there?
    pub unit: bool,
}

/// Where a shape is not of its type.
#[derive(Clone, Copy)]
pub struct Misfit {
    pub place: usize,
    /// Is it under a none or a bit, where a unit is due as well?
    pub under: bool,
}

/// What the walk meets.
#[derive(Default)]
pub struct Met {
    pub spots: Vec<Spot>,
    pub misfits: Vec<Misfit>,
}

impl Met {
    /// The spots where anything but a unit stands.
    pub fn lacking(&self) -> Vec<&Spot> {
        self.spots.iter().filter(|spot| !spot.unit).collect()
    }

    /// The number that refuses the shape, if one does: 10 wherever it is not of its type, else 20.
    pub fn number(&self) -> Option<u32> {
        if !self.misfits.is_empty() {
            return Some(10);
        }
        (!self.lacking().is_empty()).then_some(20)
    }

    /// The shape that was walked, with a unit at each spot and all else copied.
    pub fn cleaned(&self, shape: &[u8]) -> Vec<u8> {
        with_units(shape, self.spots.iter().map(|spot| spot.place))
    }
}

/// The shape with a unit in place of the tree at each of these places. They ascend, and none is inside another's tree.
pub fn with_units(shape: &[u8], places: impl IntoIterator<Item = usize>) -> Vec<u8> {
    let mut out = vec![];
    let mut at = 0;
    for place in places {
        out.extend(&shape[at..place]);
        out.push(0);
        at = tree_end(shape, place).expect("a tree ends");
    }
    out.extend(&shape[at..]);
    out
}

/// All that is met in a shape, which is one tree.
pub fn met(ty: &Ty, shape: &[u8]) -> Met {
    let mut walk = Walk { shape, at: 0, above: vec![], met: Met::default() };
    walk.read(ty);
    assert_eq!(walk.at, shape.len());
    walk.met
}

struct Walk<'a> {
    shape: &'a [u8],
    at: usize,
    above: Vec<(u8, usize)>,
    met: Met,
}

impl Walk<'_> {
    fn read(&mut self, ty: &Ty) {
        match ty {
            Ty::Never => self.misfit(false),
            Ty::Bool => self.bit(),
            Ty::UInt(bits) => self.product(0, *bits, &|walk, _| walk.bit()),
            Ty::Either(left, right) => self.below((3, 0), &|walk| {
                if let Some(side) = walk.side() {
                    walk.read([left, right][side]);
                }
            }),
            Ty::Option(some) => self.below((4, 0), &|walk| walk.block(1, some)),
            Ty::Tuple(parts) => self.parts((5, parts.len()), &|i| &parts[i]),
            Ty::Array(n, element) => self.parts((6, *n), &|_| element),
            Ty::List(bound, element) => self.below((7, *bound), &|walk| walk.blocks(*bound, element)),
            Ty::Enum(variants) => self.below((8, variants.len()), &|walk| {
                if let Some(index) = walk.variant(0, variants.len()) {
                    let parts = &variants[index];
                    walk.parts((9, parts.len()), &|i| &parts[i]);
                }
            }),
        }
    }

    /// Notes that the shape is not of its type here, and goes past the tree.
    fn misfit(&mut self, under: bool) {
        self.met.misfits.push(Misfit { place: self.at, under });
        self.pass();
    }

    /// Goes past the tree that begins here.
    fn pass(&mut self) {
        self.at = tree_end(self.shape, self.at).expect("a tree ends");
    }

    /// Reads what is below a type record.
    fn below(&mut self, record: (u8, usize), read: &dyn Fn(&mut Self)) {
        self.above.push(record);
        read(self);
        self.above.pop();
    }

    /// The parts of a tuple, an array or a variant. Without any it is a spot.
    fn parts<'a>(&mut self, record: (u8, usize), ty: &dyn Fn(usize) -> &'a Ty) {
        let (kind, n) = record;
        if n > 0 {
            return self.below(record, &|walk| walk.product(0, n, &|walk, i| walk.read(ty(i))));
        }
        let unit = self.shape[self.at] == 0;
        self.met.spots.push(Spot { place: self.at, kind, above: self.above.clone(), unit });
        self.pass();
    }

    /// A balanced product of n parts from number `from` on.
    fn product(&mut self, from: usize, n: usize, part: &dyn Fn(&mut Self, usize)) {
        if n == 1 {
            return part(self, from);
        }
        if self.pair() {
            let left = split(n);
            self.product(from, left, part);
            self.product(from + left, n - left, part);
        }
    }

    /// Goes past a pair's record; is there one?
    fn pair(&mut self) -> bool {
        let holds = self.shape[self.at] == 3;
        match holds {
            true => self.at += 1,
            false => self.misfit(false),
        }
        holds
    }

    /// Goes past a left, which is 0, or a right, which is 1.
    fn side(&mut self) -> Option<usize> {
        match self.shape[self.at] {
            byte @ (1 | 2) => {
                self.at += 1;
                Some(byte as usize - 1)
            }
            _ => {
                self.misfit(false);
                None
            }
        }
    }

    /// The unit that is due under a none or a bit.
    fn unit(&mut self) {
        match self.shape[self.at] {
            0 => self.at += 1,
            _ => self.misfit(true),
        }
    }

    fn bit(&mut self) {
        if self.side().is_some() {
            self.unit();
        }
    }

    /// A none, or n elements.
    fn block(&mut self, n: usize, element: &Ty) {
        match self.side() {
            Some(0) => self.unit(),
            Some(_) => self.product(0, n, &|walk, _| walk.read(element)),
            None => {}
        }
    }

    /// The blocks of a list.
    fn blocks(&mut self, bound: usize, element: &Ty) {
        if bound == 2 {
            return self.block(1, element);
        }
        if self.pair() {
            self.block(bound / 2, element);
            self.blocks(bound / 2, element);
        }
    }

    /// The variant that the lefts and rights lead to, among n from number `from` on.
    fn variant(&mut self, from: usize, n: usize) -> Option<usize> {
        if n == 1 {
            return Some(from);
        }
        let left = split(n);
        match self.side()? {
            0 => self.variant(from, left),
            _ => self.variant(from + left, n - left),
        }
    }
}
