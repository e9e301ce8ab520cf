//! Parts of trees of any size.
//!
//! A list is cut to a part of its tree: the nodes on the ways from the root down to the accessed ones. Plans over such a
//! part are proved to be those over the whole tree. They depend on its nodes, on their weights and on the lengths, but
//! on no name.

use crate::error::Error;
use crate::fault::Fault;
use crate::nodes::Nodes;
use crate::numbers::PartNode;

/// The library takes no tree with more nodes, and none that is deeper.
pub(crate) const MOST_NODES: usize = 4_096;
const MOST_DEPTH: u32 = 32;
const ROOT: u32 = 0;

/// The nodes on the ways from the root down to some, in preorder; or the root, of none.
pub(crate) struct Part {
    /// Their numbers in the tree.
    pub(crate) numbers: Vec<u32>,
    /// The place of each one's parent in the part; the root has none, and 0 stands for it.
    pub(crate) parents: Vec<u32>,
}

impl Part {
    /// The part of nodes that are given in preorder, maybe often.
    fn of_sorted(nodes: &Nodes, ends: &[u32]) -> Part {
        let mut part = Part {
            numbers: vec![ROOT],
            parents: vec![0],
        };
        // The places of the nodes from the root down to the one that came last; and the nodes that are below these.
        let (mut way, mut below) = (vec![0], Vec::new());
        for &end in ends {
            let mut at = end;
            while !part.is_on_way(nodes, &way, at) {
                below.push(at);
                at = nodes.parent(at);
            }
            way.truncate(1 + nodes.depth(at) as usize);
            while let Some(node) = below.pop() {
                let above = way[way.len() - 1];
                way.push(part.numbers.len() as u32);
                part.numbers.push(node);
                part.parents.push(above);
            }
        }
        part
    }

    pub(crate) fn of(nodes: &Nodes, mut ends: Vec<u32>) -> Result<Part, Error> {
        ends.sort_unstable();
        let part = Part::of_sorted(nodes, &ends);
        part.check_limits(nodes)?;
        Ok(part)
    }

    /// Whether a node is on a way down from the root.
    fn is_on_way(&self, nodes: &Nodes, way: &[u32], number: u32) -> bool {
        let place = way.get(nodes.depth(number) as usize);
        place.is_some_and(|&place| self.numbers[place as usize] == number)
    }

    fn check_limits(&self, nodes: &Nodes) -> Result<(), Error> {
        let deep = |&number: &u32| nodes.depth(number) > MOST_DEPTH;
        let fault = match self.numbers.iter().position(deep) {
            _ if self.numbers.len() > MOST_NODES => "tree too-many".to_owned(),
            Some(place) => format!("row {place} too-deep"),
            None => return Ok(()),
        };
        Err(Error::Refused(Fault::of(fault)))
    }

    /// Where a node of the part is.
    pub(crate) fn place(&self, number: u32) -> u32 {
        self.numbers.partition_point(|&it| it < number) as u32
    }

    /// The weights of its nodes, of those of the tree.
    pub(crate) fn weights(&self, weights: &[u32]) -> Vec<u32> {
        let weight = |&number: &u32| weights[number as usize];
        self.numbers.iter().map(weight).collect()
    }

    /// Its nodes, each with a number by its place and its number in the tree.
    pub(crate) fn rows(&self, weights: &[u32], number: impl Fn(u32, u32) -> u32) -> Vec<PartNode> {
        let both = self.numbers.iter().zip(&self.parents);
        let row = |(place, (&node, &parent)): (usize, (&u32, &u32))| PartNode {
            number: number(place as u32, node),
            parent,
            weight: weights[node as usize],
        };
        both.enumerate().map(row).collect()
    }
}

#[cfg(test)]
mod tests {
    use super::Part;
    use crate::nodes::Nodes;

    #[test]
    fn a_part_has_the_ways_down() {
        let nodes = Nodes::new(["/a/b/c", "/a/d", "/a/e/f", "/a/e/g", "/h"]).unwrap();
        for (ends, numbers, parents) in [
            (vec![], vec![0], vec![0]),
            (vec![0], vec![0], vec![0]),
            (vec![5], vec![0, 1, 5], vec![0, 0, 1]),
            (vec![6, 6], vec![0, 1, 5, 6], vec![0, 0, 1, 2]),
            (vec![7, 3], vec![0, 1, 2, 3, 5, 7], vec![0, 0, 1, 2, 1, 4]),
            (vec![6, 7, 5, 6], vec![0, 1, 5, 6, 7], vec![0, 0, 1, 2, 2]),
            (vec![1, 4], vec![0, 1, 4], vec![0, 0, 1]),
            (vec![8, 4], vec![0, 1, 4, 8], vec![0, 0, 1, 0]),
        ] {
            let part = Part::of(&nodes, ends.clone()).unwrap();
            assert_eq!(
                (&part.numbers, &part.parents),
                (&numbers, &parents),
                "{ends:?}"
            );
            for (place, &number) in numbers.iter().enumerate() {
                assert_eq!(part.place(number), place as u32);
            }
        }
    }

    #[test]
    fn a_part_is_at_most_32_deep() {
        let deep = "/a".repeat(40);
        let nodes = Nodes::new([deep.as_str()]).unwrap();
        assert!(Part::of(&nodes, vec![8, 32]).is_ok());
        let refused = Part::of(&nodes, vec![8, 40]).err().unwrap();
        assert_eq!(refused.to_string(), "refused row 33 too-deep");
    }
}
