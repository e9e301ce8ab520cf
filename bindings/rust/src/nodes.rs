use crate::error::Error;
use crate::paths::{Paths, Place, names_of};
use std::collections::HashMap;
use std::hash::{BuildHasherDefault, Hasher};
use std::sync::Arc;

/// The nodes of some paths and all above them, by their numbers in preorder. There may be any number of them. Siblings
/// come in the order in which they were named.
pub(crate) struct Nodes {
    pub(crate) paths: Arc<Paths>,
    numbers: Numbers,
    /// The root has itself above it.
    parents: Vec<u32>,
    depths: Vec<u32>,
}

impl Nodes {
    pub(crate) fn new<'p>(paths: impl IntoIterator<Item = &'p str>) -> Result<Nodes, Error> {
        let mut growing = Growing::new();
        for path in paths {
            let names = names_of(path).ok_or_else(|| Error::BadPath(path.to_owned()))?;
            growing.add(path, names);
        }
        Ok(growing.in_preorder())
    }

    pub(crate) fn len(&self) -> usize {
        self.parents.len()
    }

    pub(crate) fn path(&self, number: u32) -> &str {
        self.paths.path(number)
    }

    /// The number of the node of a path.
    #[inline]
    pub(crate) fn find(&self, path: &str) -> Option<u32> {
        let names = if path == "/" { "" } else { path };
        let hash = Rolling::default().over(names).hash();
        self.numbers
            .find(hash, |number| self.paths.path(number) == path)
    }

    pub(crate) fn number(&self, path: &str) -> Result<u32, Error> {
        self.find(path)
            .ok_or_else(|| Error::NoNode(path.to_owned()))
    }

    pub(crate) fn parents(&self) -> &[u32] {
        &self.parents
    }

    pub(crate) fn depth(&self, number: u32) -> u32 {
        self.depths[number as usize]
    }

    pub(crate) fn parent(&self, number: u32) -> u32 {
        self.parents[number as usize]
    }
}

/// A hash of a text that grows: that of a path is a step on the way to those of all below it. So a path of a million
/// names is read once for all its nodes. (It is a polynomial of the bytes, of which eight are added at a time.)
#[derive(Clone, Copy, Default)]
struct Rolling(u64);

impl Rolling {
    const FACTOR: u64 = 0x9e37_79b9_7f4a_7c15;
    /// What each of eight bytes is multiplied by, and what comes before them.
    const POWERS: [u64; 8] = [
        Rolling::power(7),
        Rolling::power(6),
        Rolling::power(5),
        Rolling::power(4),
        Rolling::power(3),
        Rolling::power(2),
        Rolling::power(1),
        1,
    ];
    const EIGHTH: u64 = Rolling::power(8);

    const fn power(exponent: u32) -> u64 {
        Rolling::FACTOR.wrapping_pow(exponent)
    }

    #[inline]
    fn over(self, text: &str) -> Rolling {
        let parts = text.as_bytes().chunks_exact(8);
        let rest = parts.remainder().iter();
        let hash = parts.fold(self.0, |hash, part| {
            let each = part.iter().zip(Rolling::POWERS);
            let each = each.map(|(&byte, power)| power.wrapping_mul(byte.into()));
            each.fold(hash.wrapping_mul(Rolling::EIGHTH), u64::wrapping_add)
        });
        Rolling(rest.fold(hash, |hash, &byte| {
            hash.wrapping_mul(Rolling::FACTOR).wrapping_add(byte.into())
        }))
    }

    /// The hash, of which all bits depend on all.
    fn hash(self) -> u64 {
        let mixed = (self.0 ^ self.0 >> 32).wrapping_mul(0xd6e8_feb8_6659_fd93);
        mixed ^ mixed >> 32
    }
}

/// The numbers of nodes by the hashes of their paths, that of the root by the hash of nothing.
#[derive(Default)]
struct Numbers(HashMap<u64, u32, BuildHasherDefault<Known>>);

impl Numbers {
    /// The number that is kept at a hash and that it is, of several that have the same.
    #[inline]
    fn find(&self, mut hash: u64, is_it: impl Fn(u32) -> bool) -> Option<u32> {
        loop {
            let found = *self.0.get(&hash)?;
            if is_it(found) {
                return Some(found);
            }
            hash = hash.wrapping_add(1);
        }
    }

    fn keep(&mut self, mut hash: u64, number: u32) {
        while self.0.contains_key(&hash) {
            hash = hash.wrapping_add(1);
        }
        self.0.insert(hash, number);
    }
}

/// What is hashed already.
#[derive(Default)]
pub(crate) struct Known(u64);

impl Hasher for Known {
    fn finish(&self) -> u64 {
        self.0
    }

    fn write(&mut self, _: &[u8]) {
        unreachable!("it is a number")
    }

    fn write_u64(&mut self, hash: u64) {
        self.0 = hash;
    }
}

/// Nodes in the order in which they are named, each with its children in theirs.
struct Growing {
    paths: Paths,
    numbers: Numbers,
    nodes: Vec<Grown>,
}

struct Grown {
    parent: u32,
    depth: u32,
    first_child: Option<u32>,
    last_child: Option<u32>,
    next: Option<u32>,
}

const ROOT: u32 = 0;

impl Growing {
    fn new() -> Growing {
        let mut growing = Growing {
            paths: Paths::default(),
            numbers: Numbers::default(),
            nodes: Vec::new(),
        };
        growing.paths.push("/");
        growing.numbers.keep(Rolling::default().hash(), ROOT);
        growing.nodes.push(Grown::below(ROOT, 0));
        growing
    }

    /// Adds the node of a path with these names, and those above it, as far as they aren't there.
    fn add<'p>(&mut self, path: &str, names: impl Iterator<Item = &'p str>) {
        let (mut rolling, mut at) = (Rolling::default(), ROOT);
        let (mut end, mut start) = (0, None);
        for name in names {
            rolling = rolling.over("/").over(name);
            let hash = rolling.hash();
            let from = end + 1;
            end = from + name.len();
            let is_it = |it: u32| {
                self.nodes[it as usize].parent == at && it != ROOT && self.paths.name(it) == name
            };
            at = match self.numbers.find(hash, is_it) {
                Some(found) => found,
                None => {
                    let start = *start.get_or_insert_with(|| self.paths.add(path));
                    let place = Place {
                        start,
                        name: start + from,
                        end: start + end,
                    };
                    self.grow(at, place, hash)
                }
            };
        }
    }

    /// Adds a child of a node.
    fn grow(&mut self, above: u32, place: Place, hash: u64) -> u32 {
        let number = self.nodes.len() as u32;
        let depth = self.nodes[above as usize].depth + 1;
        self.nodes.push(Grown::below(above, depth));
        let parent = &mut self.nodes[above as usize];
        let before = parent.last_child.replace(number);
        match before {
            Some(before) => self.nodes[before as usize].next = Some(number),
            None => parent.first_child = Some(number),
        }
        self.paths.places.push(place);
        self.numbers.keep(hash, number);
        number
    }

    fn in_preorder(mut self) -> Nodes {
        let order = self.order();
        let mut number_of = vec![0; order.len()];
        for (number, &grown) in order.iter().enumerate() {
            number_of[grown as usize] = number as u32;
        }
        for number in self.numbers.0.values_mut() {
            *number = number_of[*number as usize];
        }
        let each = || order.iter().map(|&grown| &self.nodes[grown as usize]);
        let places = order.iter().map(|&it| self.paths.places[it as usize]);
        let places = places.collect();
        Nodes {
            parents: each().map(|it| number_of[it.parent as usize]).collect(),
            depths: each().map(|it| it.depth).collect(),
            numbers: self.numbers,
            paths: Arc::new(Paths {
                text: self.paths.text,
                places,
            }),
        }
    }

    /// The nodes in preorder. (A path may be longer than calls can nest.)
    fn order(&self) -> Vec<u32> {
        let mut order = Vec::with_capacity(self.nodes.len());
        let mut left = vec![ROOT];
        while let Some(number) = left.pop() {
            order.push(number);
            let node = &self.nodes[number as usize];
            left.extend(node.next);
            left.extend(node.first_child);
        }
        order
    }
}

impl Grown {
    fn below(parent: u32, depth: u32) -> Grown {
        Grown {
            parent,
            depth,
            first_child: None,
            last_child: None,
            next: None,
        }
    }
}

#[cfg(test)]
mod tests {
    use super::Nodes;

    fn paths(nodes: &Nodes) -> Vec<&str> {
        nodes.paths.iter().collect()
    }

    #[test]
    fn nodes_stand_in_preorder() {
        let nodes = Nodes::new(["/b/c", "/a", "/b/a/x", "/b", "/a/z"]).unwrap();
        let wanted = ["/", "/b", "/b/c", "/b/a", "/b/a/x", "/a", "/a/z"];
        assert_eq!(paths(&nodes), wanted);
        assert_eq!(nodes.parents(), [0, 0, 1, 1, 3, 0, 5]);
        assert_eq!((0..7).map(|it| nodes.depth(it)).max(), Some(3));
        for (number, path) in wanted.into_iter().enumerate() {
            assert_eq!(nodes.find(path), Some(number as u32), "{path}");
        }
        for path in ["", "a", "//", "/b/", "/a/x", "/c", "/b/a/x/", "b", "/b//c"] {
            assert_eq!(nodes.find(path), None, "{path:?}");
        }
    }

    #[test]
    fn nobody_is_found_in_the_place_of_another() {
        let mut nodes = Nodes::new(["/a", "/b"]).unwrap();
        nodes.numbers.0.clear();
        // All have the same hash.
        for number in 0..3 {
            nodes.numbers.keep(u64::MAX, number);
        }
        for number in 0..3 {
            assert_eq!(
                nodes.numbers.find(u64::MAX, |it| it == number),
                Some(number)
            );
        }
        assert_eq!(nodes.numbers.find(u64::MAX, |_| false), None);
    }
}
