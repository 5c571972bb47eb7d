//! Stands in for the crate `miniscript`: the tree walks of `iter` and the display of bytes in hexadecimal.

pub mod iter {
    use std::sync::Arc;

    /// The children of a node.
    pub enum Tree<T> {
        Nullary,
        Unary(T),
        Binary(T, T),
        Nary(Arc<[T]>),
    }

    impl<T: Clone> Tree<T> {
        fn into_children(self) -> Vec<T> {
            match self {
                Tree::Nullary => vec![],
                Tree::Unary(a) => vec![a],
                Tree::Binary(a, b) => vec![a, b],
                Tree::Nary(all) => all.to_vec(),
            }
        }
    }

    /// Something that knows its children.
    pub trait TreeLike: Clone + Sized {
        fn as_node(&self) -> Tree<Self>;

        fn n_children(&self) -> usize {
            match self.as_node() {
                Tree::Nullary => 0,
                Tree::Unary(..) => 1,
                Tree::Binary(..) => 2,
                Tree::Nary(all) => all.len(),
            }
        }

        fn post_order_iter(self) -> PostOrderIter<Self> {
            PostOrderIter { next: 0, stack: vec![Open::new(self)] }
        }

        fn verbose_pre_order_iter(self) -> VerbosePreOrderIter<Self> {
            VerbosePreOrderIter { stack: vec![Open::new(self)] }
        }
    }

    /// A node whose children are being visited.
    struct Open<T> {
        node: T,
        children: Vec<T>,
        visited: Vec<usize>,
        yielded: usize,
    }

    impl<T: TreeLike> Open<T> {
        fn new(node: T) -> Self {
            let children = node.as_node().into_children();
            Open { node, children, visited: vec![], yielded: 0 }
        }
    }

    /// Children first, then the node; the next child is opened only when it is asked for.
    pub struct PostOrderIter<T> {
        next: usize,
        stack: Vec<Open<T>>,
    }

    pub struct PostOrderIterItem<T> {
        pub node: T,
        pub index: usize,
        pub child_indices: Vec<usize>,
    }

    impl<T: TreeLike> Iterator for PostOrderIter<T> {
        type Item = PostOrderIterItem<T>;

        fn next(&mut self) -> Option<Self::Item> {
            loop {
                let top = self.stack.last_mut()?;
                if top.yielded < top.children.len() {
                    let child = top.children[top.yielded].clone();
                    top.yielded += 1;
                    self.stack.push(Open::new(child));
                    continue;
                }
                let done = self.stack.pop()?;
                let index = self.next;
                self.next += 1;
                if let Some(parent) = self.stack.last_mut() {
                    parent.visited.push(index);
                }
                return Some(PostOrderIterItem { node: done.node, index, child_indices: done.visited });
            }
        }
    }

    /// The node before its first child, between its children and after its last one.
    pub struct VerbosePreOrderIter<T> {
        stack: Vec<Open<T>>,
    }

    pub struct VerbosePreOrderIterItem<T> {
        pub node: T,
        pub n_children_yielded: usize,
        pub is_complete: bool,
    }

    impl<T: TreeLike> Iterator for VerbosePreOrderIter<T> {
        type Item = VerbosePreOrderIterItem<T>;

        fn next(&mut self) -> Option<Self::Item> {
            let mut top = self.stack.pop()?;
            let n_children_yielded = top.yielded;
            let node = top.node.clone();
            let is_complete = top.yielded == top.children.len();
            if !is_complete {
                let child = top.children[top.yielded].clone();
                top.yielded += 1;
                self.stack.push(top);
                self.stack.push(Open::new(child));
            }
            Some(VerbosePreOrderIterItem { node, n_children_yielded, is_complete })
        }
    }
}

pub mod bitcoin {
    pub mod hex {
        use std::fmt;

        /// Bytes that are shown in hexadecimal.
        pub struct Hex(Vec<u8>);

        impl fmt::Display for Hex {
            fn fmt(&self, f: &mut fmt::Formatter<'_>) -> fmt::Result {
                self.0.iter().try_for_each(|byte| write!(f, "{byte:02x}"))
            }
        }

        pub trait DisplayHex {
            fn as_hex(&self) -> Hex;
        }

        impl DisplayHex for [u8] {
            fn as_hex(&self) -> Hex {
                Hex(self.to_vec())
            }
        }
    }
}
