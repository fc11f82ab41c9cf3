//! A plain reading of request 2026-08 by sets, and graphs and lists to ask it about.

use crate::rng::Rng;
use std::collections::{BTreeSet, HashSet};

/// So many nodes, and edges in any order, some of them more than once.
#[derive(Debug)]
pub struct Given {
    pub nodes: usize,
    pub edges: Vec<[u32; 2]>,
}

// ---- what the request says

/// A graph as sets: for each node those with an edge to it.
pub struct Plain {
    before: Vec<BTreeSet<u32>>,
}

impl Plain {
    pub fn new(given: &Given) -> Plain {
        let mut before = vec![BTreeSet::new(); given.nodes];
        for [from, to] in &given.edges {
            before[*to as usize].insert(*from);
        }
        Plain { before }
    }

    pub fn before(&self, node: u32) -> &BTreeSet<u32> {
        &self.before[node as usize]
    }

    /// "Each node after all that have an edge to it, always taking the lowest number that is free"; and the nodes left over.
    pub fn taken(&self) -> (Vec<u32>, BTreeSet<u32>) {
        let mut left: BTreeSet<u32> = (0..self.before.len() as u32).collect();
        let mut order = Vec::new();
        while let Some(node) = left.iter().find(|v| self.before(**v).is_disjoint(&left)).copied() {
            left.remove(&node);
            order.push(node);
        }
        (order, left)
    }

    /// "From the lowest node left over, go each time to the lowest left-over node with an edge to it, until one comes twice; the nodes of that ring,
    /// lowest first, then along the edges."
    pub fn ring(&self, left: &BTreeSet<u32>) -> Vec<u32> {
        let mut node = *left.iter().next().expect("a node left over");
        let mut way = Vec::new();
        while !way.contains(&node) {
            way.push(node);
            node = *self.before(node).intersection(left).next().expect("a node left over before it");
        }
        let mut ring: Vec<u32> = way.into_iter().skip_while(|v| *v != node).collect();
        ring.reverse(); // the way goes against the edges
        lowest_first(ring)
    }

    /// "At the first place whose number is no node, is there already or has an edge from a node not earlier in the list, itself too, or at the list's
    /// end if it is too short."
    pub fn wrong(&self, list: &[u32]) -> Option<usize> {
        let mut earlier = BTreeSet::new();
        for (place, number) in list.iter().enumerate() {
            let is_node = (*number as usize) < self.before.len();
            if !is_node || earlier.contains(number) || !self.before(*number).is_subset(&earlier) {
                return Some(place);
            }
            earlier.insert(*number);
        }
        (list.len() < self.before.len()).then_some(list.len())
    }

    /// Whether "some chain of edges comes back to its start".
    pub fn comes_back(&self) -> bool {
        (0..self.before.len() as u32).any(|start| self.comes_back_to(start))
    }

    /// Whether one does that starts here.
    pub fn comes_back_to(&self, start: u32) -> bool {
        let mut reached = HashSet::new();
        let mut due: Vec<u32> = self.before(start).iter().copied().collect();
        while let Some(node) = due.pop() {
            if reached.insert(node) {
                due.extend(self.before(node));
            }
        }
        reached.contains(&start)
    }

    /// Whether a list "holds each node once and breaks no edge".
    pub fn accepts(&self, list: &[u32]) -> bool {
        let place = |node: u32| list.iter().position(|v| *v == node);
        let mut sorted = list.to_vec();
        sorted.sort();
        let nodes = 0..self.before.len() as u32;
        sorted.iter().copied().eq(nodes.clone()) && nodes.clone().all(|v| self.before(v).iter().all(|u| place(*u) < place(v)))
    }
}

/// A ring from its lowest node on.
pub fn lowest_first(mut ring: Vec<u32>) -> Vec<u32> {
    let low = (0..ring.len()).min_by_key(|i| ring[*i]).expect("a node");
    ring.rotate_left(low);
    ring
}

/// What is to be answered and written: the order, or the ring.
pub fn due(given: &Given, plain: &Plain) -> ([u32; 2], Vec<u32>) {
    let (taken, left) = plain.taken();
    assert_eq!(left.is_empty(), !plain.comes_back(), "the plain reading: {given:?}");
    let (number, words) = if left.is_empty() { (0, taken) } else { (40, plain.ring(&left)) };
    ([number, words.len() as u32], words)
}

// ---- generated graphs

/// The numbers below n in any order.
pub fn shuffled(r: &mut Rng, n: usize) -> Vec<u32> {
    let mut out: Vec<u32> = (0..n as u32).collect();
    (1..n).for_each(|i| out.swap(i, r.below(i + 1)));
    out
}

/// Mostly small; one in 50 has up to 100 nodes, one in 500 up to 1,024.
fn size(r: &mut Rng) -> (usize, usize) {
    let (nodes, edges) = match r.below(500) {
        0 => (1_024, 8_192),
        1..=10 => (100, 300),
        _ => (12, 40),
    };
    let most = if r.once_in(2) { edges } else { r.below(edges + 1) };
    (r.below(nodes + 1), r.below(most + 1))
}

/// Edges between any two nodes, self-edges too; or only along one order of the nodes; or along it but for one in 30. One in six is there already.
pub fn any(r: &mut Rng) -> Given {
    let (nodes, most) = size(r);
    let rank = shuffled(r, nodes);
    let kind = r.below(3);
    let mut edges: Vec<[u32; 2]> = Vec::new();
    for _ in 0..if nodes == 0 { 0 } else { most } {
        let [a, b] = [r.below(nodes), r.below(nodes)];
        let along = kind == 1 || (kind == 2 && !r.once_in(30));
        if !edges.is_empty() && r.once_in(6) {
            edges.push(r.pick(&edges));
        } else if !along {
            edges.push([rank[a], rank[b]]);
        } else if a != b {
            edges.push([rank[a.min(b)], rank[a.max(b)]]);
        }
    }
    Given { nodes, edges }
}

/// A list that takes any free node each time, and then those left over.
pub fn any_order(r: &mut Rng, plain: &Plain) -> Vec<u32> {
    let mut left: BTreeSet<u32> = (0..plain.before.len() as u32).collect();
    let mut list = Vec::new();
    for node in shuffled(r, left.len()).repeat(3) {
        if left.contains(&node) && plain.before(node).is_disjoint(&left) {
            left.remove(&node);
            list.push(node);
        }
    }
    list.extend(left);
    list
}

/// A list with a swap, a number twice, one that is no node, one less, one more.
pub fn damaged(r: &mut Rng, nodes: usize, list: &[u32]) -> Vec<Vec<u32>> {
    let some = |r: &mut Rng| r.pick(&[0, 1, nodes as u32 / 2, nodes as u32, nodes as u32 + 1, 1_024, u32::MAX]);
    let mut more = list.to_vec();
    more.insert(r.below(list.len() + 1), some(r));
    let mut out = vec![more];
    if !list.is_empty() {
        let [i, j] = [r.below(list.len()), r.below(list.len())];
        let mut change = |f: &mut dyn FnMut(&mut Vec<u32>)| {
            let mut copy = list.to_vec();
            f(&mut copy);
            out.push(copy);
        };
        change(&mut |l| l.swap(i, j));
        change(&mut |l| l[i] = l[j]);
        change(&mut |l| l[i] = some(r));
        change(&mut |l| _ = l.remove(i));
        change(&mut |l| l.truncate(i));
        change(&mut |l| l.push(list[j]));
    }
    out
}
