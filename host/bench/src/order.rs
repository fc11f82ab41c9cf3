//! The order of registration, and the check of a list: the port beside the plain way of a Rust program, which makes its lists anew in each call, and beside
//! the sort of the original.

use crate::port::Tables;
use crate::table::counted;
use crate::timing::Row;
use crate::yanglib::topo_sorted;
use petgraph::graph::{DiGraph, NodeIndex};
use std::cmp::Reverse;
use std::collections::{BinaryHeap, HashSet};
use std::hint::black_box;
use vectors::orders::shuffled;
use vectors::rng::Rng;

/// A graph, and what it is.
pub struct Input {
    what: String,
    nodes: usize,
    edges: Vec<[u32; 2]>,
}

// ---- graphs

/// So many edges, each once, between any two nodes, along an order of the nodes that was drawn before.
fn drawn(nodes: usize, edges: usize) -> Input {
    let mut r = Rng::new(nodes as u64);
    let rank = shuffled(&mut r, nodes);
    let mut seen = HashSet::new();
    let mut out = Vec::new();
    while out.len() < edges {
        let [a, b] = [r.below(nodes), r.below(nodes)];
        let edge = [rank[a.min(b)], rank[a.max(b)]];
        if a != b && seen.insert(edge) {
            out.push(edge);
        }
    }
    Input { what: "drawn evenly, no ring".to_string(), nodes, edges: out }
}

fn line(what: &str, list: impl Iterator<Item = u32>) -> Input {
    let list: Vec<u32> = list.collect();
    let edges = list.windows(2).map(|pair| [pair[0], pair[1]]).collect();
    Input { what: what.to_string(), nodes: list.len(), edges }
}

/// A line with so many edges in all, the others from any node to a later one.
fn filled(mut line: Input, edges: usize) -> Input {
    let mut r = Rng::new(edges as u64);
    line.what = "the same, and edges to later nodes".to_string();
    let list: Vec<u32> = line.edges.iter().map(|edge| edge[0]).collect();
    let mut seen: HashSet<[u32; 2]> = line.edges.iter().copied().collect();
    while line.edges.len() < edges {
        let [a, b] = [r.below(list.len()), r.below(list.len())];
        let edge = [list[a.min(b)], list[a.max(b)]];
        if a != b && seen.insert(edge) {
            line.edges.push(edge);
        }
    }
    line
}

fn ring(nodes: usize) -> Input {
    let list = shuffled(&mut Rng::new(40), nodes);
    let mut ring = line("a ring, which is refused", list.iter().copied());
    ring.edges.push([list[nodes - 1], list[0]]);
    ring
}

/// Across the groups each next node is in the next group, so that each look begins with a group in which there is none. Where each node of the upper
/// half frees one of the lower half, every second look passes half of the groups.
pub fn inputs() -> [Input; 10] {
    let by_place = || (0..32).rev().flat_map(|place| (0..32).map(move |group| 32 * group + place));
    let across = || line("a line across the groups of 32 in which Nuvaleta looks for a free node", by_place());
    [
        drawn(1_024, 8_192),
        drawn(500, 3_000),
        drawn(90, 161),
        line("a line along the numbers", 0..1_024),
        line("a line against the numbers", (0..1_024).rev()),
        across(),
        filled(across(), 8_192),
        Input { what: "512 nodes that each free one of the other 512".to_string(), nodes: 1_024, edges: (0..512).map(|i| [512 + i, i]).collect() },
        Input { what: "no edges".to_string(), nodes: 1_024, edges: Vec::new() },
        ring(1_024),
    ]
}

// ---- the Rust

/// The lowest free node each time, from a heap; or the ring.
pub fn kahn(nodes: usize, edges: &[[u32; 2]]) -> Result<Vec<u32>, Vec<u32>> {
    let mut after: Vec<Vec<u32>> = vec![Vec::new(); nodes];
    let mut waits = vec![0; nodes];
    for [from, to] in edges {
        after[*from as usize].push(*to);
        waits[*to as usize] += 1;
    }
    let mut free: BinaryHeap<Reverse<u32>> = (0..nodes as u32).filter(|v| waits[*v as usize] == 0).map(Reverse).collect();
    let mut order = Vec::with_capacity(nodes);
    while let Some(Reverse(node)) = free.pop() {
        order.push(node);
        for to in &after[node as usize] {
            waits[*to as usize] -= 1;
            if waits[*to as usize] == 0 {
                free.push(Reverse(*to));
            }
        }
    }
    if order.len() == nodes { Ok(order) } else { Err(ring_of(nodes, edges, &order)) }
}

/// Back from the lowest node left over, each time to the lowest one that is left over.
fn ring_of(nodes: usize, edges: &[[u32; 2]], order: &[u32]) -> Vec<u32> {
    let mut left = vec![true; nodes];
    order.iter().for_each(|v| left[*v as usize] = false);
    let mut before = vec![u32::MAX; nodes];
    for [from, to] in edges.iter().filter(|edge| left[edge[0] as usize]) {
        before[*to as usize] = before[*to as usize].min(*from);
    }
    let mut at = left.iter().position(|is| *is).expect("a node left over");
    let mut place = vec![usize::MAX; nodes];
    let mut way = Vec::new();
    while place[at] == usize::MAX {
        place[at] = way.len();
        way.push(at as u32);
        at = before[at] as usize;
    }
    let mut ring = way.split_off(place[at]);
    ring.reverse();
    let low = (0..ring.len()).min_by_key(|i| ring[*i]).expect("a node");
    ring.rotate_left(low);
    ring
}

/// The first wrong place of a list; none if it has each node once, and each edge forwards.
fn first_wrong(nodes: usize, edges: &[[u32; 2]], list: &[u32]) -> Option<usize> {
    let mut places = vec![usize::MAX; nodes];
    let mut good = 0;
    for node in list {
        match places.get_mut(*node as usize) {
            Some(place) if *place == usize::MAX => *place = good,
            _ => break,
        }
        good += 1;
    }
    for [from, to] in edges {
        if places[*from as usize] >= places[*to as usize] {
            good = good.min(places[*to as usize]);
        }
    }
    (good < list.len() || good < nodes).then_some(good)
}

// ---- both

fn tables(input: &Input) -> Tables {
    let (node_count, edge_count) = (input.nodes, input.edges.len());
    Tables { nodes: vec![0; 2 * node_count], node_count, edges: input.edges.as_flattened().to_vec(), edge_count }
}

/// Both sides' order or ring must be the same.
fn agree(input: &Input, tables: &Tables) {
    let mut table = vec![0; input.nodes];
    let [number, length] = tables.order(&mut table);
    let told = if number == 0 { Ok(table.clone()) } else { Err(table[..length as usize].to_vec()) };
    assert!(number == 0 || number == 40, "{}: refused {number}", input.what);
    assert_eq!(told, kahn(input.nodes, &input.edges), "{}: two orders", input.what);
}

/// Both must accept this list, and must find the same place if two of its numbers are swapped.
fn agree_on(input: &Input, tables: &Tables, list: &[u32]) {
    assert!(tables.check(list) == [0, 0] && first_wrong(input.nodes, &input.edges, list).is_none(), "{}: its order is wrong", input.what);
    for i in 1..list.len() {
        let mut wrong = list.to_vec();
        wrong.swap(i, i / 2);
        let place = first_wrong(input.nodes, &input.edges, &wrong);
        assert_eq!(tables.check(&wrong), place.map_or([0, 0], |place| [42, place as u32]), "{}: two places", input.what);
    }
}

pub fn ordering(input: &Input) -> Row<'_> {
    let tables = tables(input);
    agree(input, &tables);
    let rust = || _ = black_box(kahn(input.nodes, black_box(&input.edges)));
    Row::new(counted(&input.what, input.nodes, input.edges.len()), 0, rust, ordered(tables))
}

/// One run of the port into a table that was made once.
fn ordered(tables: Tables) -> impl FnMut() {
    let mut table = vec![0; tables.node_count];
    move || _ = black_box(black_box(&tables).order(&mut table))
}

/// The graph as to_graph leaves it, but for the names.
fn drawn_in_rust(input: &Input) -> DiGraph<&str, ()> {
    let mut graph = DiGraph::new();
    (0..input.nodes).for_each(|_| _ = graph.add_node("a module"));
    input.edges.iter().for_each(|edge| _ = graph.add_edge(NodeIndex::from(edge[0]), NodeIndex::from(edge[1]), ()));
    graph
}

/// The original's order is another one, but it must be one; or both must find a ring.
fn agree_on_sort(input: &Input, graph: &DiGraph<&str, ()>, tables: &Tables) {
    let [number, _] = tables.order(&mut vec![0; input.nodes]);
    match topo_sorted(graph) {
        Ok(order) => {
            let list: Vec<u32> = order.iter().map(|node| node.index() as u32).collect();
            assert!(number == 0 && tables.check(&list) == [0, 0], "{}: the original's order is wrong", input.what);
        }
        Err(_) => assert_eq!(number, 40, "{}: a ring for the original alone", input.what),
    }
}

/// The original's sort of a graph that stands in memory as to_graph leaves it, beside the port's order of the tables that its graph call leaves.
pub fn sorting(input: &Input) -> Row<'_> {
    let (graph, tables) = (drawn_in_rust(input), tables(input));
    agree_on_sort(input, &graph, &tables);
    let rust = move || _ = black_box(topo_sorted(black_box(&graph)));
    Row::new(counted(&input.what, input.nodes, input.edges.len()), 0, rust, ordered(tables))
}

/// The check of its order.
pub fn checking(input: &Input) -> Row<'_> {
    let tables = tables(input);
    let list = kahn(input.nodes, &input.edges).expect("an order");
    agree_on(input, &tables, &list);
    let ours = list.clone();
    let rust = move || _ = black_box(first_wrong(input.nodes, black_box(&input.edges), &list));
    let what = counted("the check of the first one's order", input.nodes, input.edges.len());
    Row::new(what, 0, rust, move || _ = black_box(black_box(&tables).check(&ours)))
}
