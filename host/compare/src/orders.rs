//! Orders, rings and lists of generated graphs, beside a plain reading of request 2026-08 by sets, and beside the original's sort.

use crate::Run;
use crate::port::{Graphed, Tables};
use std::ops::Range;
use vectors::answers::{self, Sorted};
use vectors::orders::{Given, Plain, any, any_order, damaged, due, shuffled};
use vectors::rng::Rng;

/// What every word of a table held before.
pub const FILL: u32 = 0xa5a5_a5a5;

/// How many nodes a graph may have of which there is every one.
const SMALL: Range<u32> = 0..5;

// ---- the port beside it

/// The tables with so many words more than they must have.
pub fn tables(given: &Given, more: usize) -> Tables {
    let rest = || std::iter::repeat_n(FILL, more);
    Tables {
        nodes: vec![FILL; 2 * given.nodes + more],
        node_count: given.nodes,
        edges: given.edges.as_flattened().iter().copied().chain(rest()).collect(),
        edge_count: given.edges.len(),
    }
}

/// Asks for an order in a table of so many words, and expects an answer, these words, and zero in all others.
pub fn expect(run: &mut Run, what: &str, tables: &Tables, order_len: usize, answer: [u32; 2], words: &[u32]) {
    let mut order = vec![FILL; order_len];
    let told = tables.order(&mut order);
    let same = told == answer && order.starts_with(words) && order[words.len()..].iter().all(|w| *w == 0);
    run.count(same, || {
        format!("{what}: {}, into {order_len} words: {told:?} {}, expected {answer:?} {}", shown(tables), short(&order), short(words))
    });
}

/// Asks for the check of a list, and expects an answer.
pub fn expect_list(run: &mut Run, what: &str, tables: &Tables, list: &[u32], answer: [u32; 2]) {
    let told = tables.check(list);
    run.count(told == answer, || format!("{what}: {}, the list {}: {told:?}, expected {answer:?}", shown(tables), short(list)));
}

/// As much of some words as a line should have.
pub fn short(words: &[u32]) -> String {
    let more = if words.len() > 100 { " and more" } else { "" };
    format!("{:?}{more}", &words[..words.len().min(100)])
}

fn shown(tables: &Tables) -> String {
    let Tables { nodes, node_count, edges, edge_count } = tables;
    format!("{node_count} nodes in {} words, {edge_count} edges in {} words {}", nodes.len(), edges.len(), short(edges))
}

/// The check of a list beside the plain reading, which must agree with the sentence on what is accepted.
fn list(run: &mut Run, plain: &Plain, tables: &Tables, list: &[u32]) {
    let wrong = plain.wrong(list);
    assert_eq!(wrong.is_none(), plain.accepts(list), "the plain reading: {list:?}");
    expect_list(run, "a list", tables, list, wrong.map_or([0, 0], |place| [42, place as u32]));
}

fn lists(run: &mut Run, r: &mut Rng, plain: &Plain, tables: &Tables, order: &[u32]) {
    let nodes = tables.node_count;
    let other = any_order(r, plain);
    let mut all = vec![order.to_vec(), shuffled(r, nodes)];
    all.push((0..r.below(nodes + 3)).map(|_| r.below(nodes + 1) as u32).collect());
    all.extend(damaged(r, nodes, order));
    all.extend(damaged(r, nodes, &other));
    all.push(other);
    all.iter().for_each(|l| list(run, plain, tables, l));
}

/// An order into tables that are just long enough and into longer ones; answers what was due.
fn one(run: &mut Run, given: &Given, plain: &Plain, more: usize) -> ([u32; 2], Vec<u32>) {
    let (answer, words) = due(given, plain);
    for more in [0, more] {
        expect(run, "an order", &tables(given, more), given.nodes + more, answer, &words);
    }
    (answer, words)
}

/// Every graph of so many nodes.
fn every_graph(nodes: u32) -> impl Iterator<Item = Given> {
    let pairs: Vec<[u32; 2]> = (0..nodes * nodes).map(|i| [i / nodes, i % nodes]).collect();
    (0..1_u32 << pairs.len()).map(move |set| {
        let edges = (0..pairs.len()).filter(|i| set >> i & 1 == 1).map(|i| pairs[i]).collect();
        Given { nodes: nodes as usize, edges }
    })
}

/// Every graph of up to four nodes; for those of up to three every list of up to one number more than there are nodes, each a node or the first number
/// that is none.
fn small(run: &mut Run) {
    for nodes in SMALL {
        for given in every_graph(nodes) {
            let plain = Plain::new(&given);
            one(run, &given, &plain, 1);
            if nodes < 4 {
                let tables = tables(&given, 0);
                every_list(nodes).iter().for_each(|l| list(run, &plain, &tables, l));
            }
        }
    }
}

fn every_list(nodes: u32) -> Vec<Vec<u32>> {
    let mut all = vec![Vec::new()];
    let mut longest = 0..1;
    for _ in 0..=nodes {
        let longer: Vec<Vec<u32>> = all[longest].iter().flat_map(|l| (0..=nodes).map(|v| [&l[..], &[v]].concat())).collect();
        longest = all.len()..all.len() + longer.len();
        all.extend(longer);
    }
    all
}

pub fn orders(run: &mut Run, seed: u64, count: u64) {
    small(run);
    let mut r = Rng::new(seed);
    let mut rings = 0;
    for _ in 0..count {
        let given = any(&mut r);
        let plain = Plain::new(&given);
        let more = 1 + r.below(4);
        let (answer, words) = one(run, &given, &plain, more);
        rings += usize::from(answer[0] == 40);
        lists(run, &mut r, &plain, &tables(&given, 0), &words);
    }
    println!("compare: {count} generated graphs, {rings} of them with a ring");
}

/// The order of a graph from the tables as they were left; says whether there is one.
pub fn drawn(run: &mut Run, what: &str, g: Graphed) {
    let [.., nodes, edges] = g.answer.map(|w| w as usize);
    let given = Given { nodes, edges: g.edges.chunks(2).take(edges).map(|row| [row[0], row[1]]).collect() };
    let (answer, words) = due(&given, &Plain::new(&given));
    let tables = Tables { nodes: g.nodes, node_count: nodes, edges: g.edges, edge_count: edges };
    expect(run, what, &tables, nodes, answer, &words);
    if answer[0] == 0 {
        println!("compare: {what}: it has an order");
        expect_list(run, what, &tables, &words, [0, 0]);
    } else {
        println!("compare: {what}: it has no order, by a ring of {}", words.len());
    }
}

// ---- beside the original

/// Where the original has an order, which need not be the lowest, the check accepts it and the port has one too. Where it names a node that waits for itself,
/// there is a ring through that node and the port says 40.
pub fn sorted(given: &Given, rust: &Sorted) -> bool {
    let tables = tables(given, 0);
    let [number, _] = tables.order(&mut vec![FILL; given.nodes]);
    match rust {
        Sorted::Order(list) => number == 0 && tables.check(list) == [0, 0],
        Sorted::Cycle(node) => number == 40 && Plain::new(given).comes_back_to(*node),
        Sorted::Silent(_) => false,
    }
}

pub fn sorts(run: &mut Run, seed: u64, count: u64) {
    let mut r = Rng::new(seed);
    let generated = (0..count).map(|_| any(&mut r));
    let mut cycles = 0;
    for given in SMALL.flat_map(every_graph).chain(generated) {
        let rust = answers::sort(run.oracle(), &given);
        cycles += usize::from(matches!(rust, Sorted::Cycle(_)));
        run.count(sorted(&given, &rust), || format!("{given:?}\n  the Rust {rust:?}"));
    }
    println!("compare: {cycles} of the graphs have no order");
}
