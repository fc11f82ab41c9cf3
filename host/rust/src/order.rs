//! The order in which the nodes of a graph are registered, and the check of a list of them.

use crate::raw::NODE_ROW;
use crate::refusal::{Fault, Refusal};
use crate::{sys, Edge, Graph};
use std::fmt::{self, Display, Formatter};

/// The nodes of a graph, each behind all that must be registered before it.
#[derive(Clone, Debug, PartialEq, Eq)]
pub struct Order<'a> {
    /// Their numbers in the graph.
    pub nodes: Vec<usize>,
    /// Their names.
    pub names: Vec<&'a str>,
}

/// A number as a word. One that is too great for it becomes the greatest, which is no node either.
fn word(number: usize) -> u32 {
    u32::try_from(number).unwrap_or(u32::MAX)
}

impl<'a> Graph<'a> {
    /// A row for each node, of which only the length is looked at, and one for each edge.
    fn tables(&self) -> [Vec<u32>; 2] {
        let edge = |edge: &Edge| [word(edge.from), word(edge.to)];
        [vec![0; NODE_ROW * self.nodes.len()], self.edges.iter().flat_map(edge).collect()]
    }

    /// Each node behind all that have an edge to it, always the lowest number that is free; or the ring that stands in the way.
    pub fn order(&self) -> Result<Order<'a>, Refusal> {
        let [nodes, edges] = self.tables();
        let mut table = vec![0; self.nodes.len()];
        let [number, length] = sys::order(&nodes, &edges, &mut table);
        let nodes: Vec<usize> = table.iter().take(length as usize).map(|node| *node as usize).collect();
        let names: Vec<&str> = nodes.iter().map(|node| self.nodes[*node]).collect();
        match number {
            0 => Ok(Order { nodes, names }),
            40 => Err(Refusal::Ring(names.into_iter().map(String::from).collect())),
            41 => Err(Refusal::OrderTooShort),
            43 => Err(Refusal::TablesUnfit),
            _ => panic!("the archive answers {number} to an order, which the header does not have"),
        }
    }

    /// Whether a list of node numbers holds each node once and breaks no edge.
    pub fn check(&self, list: &[usize]) -> Result<(), Refusal> {
        let [nodes, edges] = self.tables();
        let words: Vec<u32> = list.iter().map(|number| word(*number)).collect();
        let [number, place] = sys::order_check(&nodes, &edges, &words);
        match number {
            0 => Ok(()),
            42 => Err(Refusal::ListWrong { place: place as usize, fault: self.fault(list, place as usize) }),
            43 => Err(Refusal::TablesUnfit),
            _ => panic!("the archive answers {number} to a list, which the header does not have"),
        }
    }

    /// What is wrong at the first wrong place of a list.
    fn fault(&self, list: &[usize], place: usize) -> Fault {
        let name = |node: usize| self.nodes[node].to_string();
        let earlier = &list[..place];
        let node = match list.get(place) {
            None => return Fault::Missing(name((0..self.nodes.len()).find(|node| !earlier.contains(node)).expect("a node that is missing"))),
            Some(node) if *node >= self.nodes.len() => return Fault::NoNode(*node),
            Some(node) if earlier.contains(node) => return Fault::Again(name(*node)),
            Some(node) => *node,
        };
        let first = self.edges.iter().find(|edge| edge.to == node && !earlier.contains(&edge.from)).expect("an edge that is broken");
        Fault::Early { name: name(node), first: name(first.from) }
    }
}

impl Display for Order<'_> {
    fn fmt(&self, f: &mut Formatter<'_>) -> fmt::Result {
        self.names.iter().try_for_each(|name| writeln!(f, "{name}"))
    }
}
