//! Orders around their limits, with the answers of request 2026-08 by the way that each graph is made: every boundary of refusals 40 to 43, and rings
//! and lines of every length.

use crate::Run;
use crate::orders::{FILL, expect, expect_list, tables};
use crate::port::Tables;
use vectors::orders::{Given, lowest_first, shuffled};
use vectors::rng::Rng;

/// From each node to the next.
fn along(list: &[u32]) -> Vec<[u32; 2]> {
    list.windows(2).map(|pair| [pair[0], pair[1]]).collect()
}

fn numbers(count: usize) -> Vec<u32> {
    (0..count as u32).collect()
}

pub fn run(run: &mut Run) {
    counts(run);
    lengths(run);
    ends(run);
    first_fault(run);
    wide(run);
    empty(run);
    lists(run);
    lines(run);
    rings(run);
}

/// Refusal 43, whatever the order table is, and for a list too.
fn unfit(run: &mut Run, what: &str, tables: &Tables) {
    for order_len in [0, 1, 2, 1_024, 1_030] {
        expect(run, what, tables, order_len, [43, 0], &[]);
    }
    for list in [numbers(0), numbers(1), numbers(1_024), vec![FILL]] {
        expect_list(run, what, tables, &list, [43, 0]);
    }
}

/// 1,024 nodes and 8,192 edges, and one more.
fn counts(run: &mut Run) {
    let all = numbers(1_024);
    let edges = |count: u32| (0..count).map(|i| [i % 512, 1_023 - i / 512]).collect();
    for more in [0, 2] {
        let most = |nodes, edges| tables(&Given { nodes, edges }, more);
        expect(run, "1,024 nodes", &most(1_024, Vec::new()), 1_024 + more, [0, 1_024], &all);
        expect(run, "8,192 edges", &most(1_024, edges(8_192)), 1_024 + more, [0, 1_024], &all);
        expect(run, "8,192 edges that are one", &most(2, vec![[1, 0]; 8_192]), 2 + more, [0, 2], &[1, 0]);
        expect(run, "8,192 self-edges", &most(3, vec![[1, 1]; 8_192]), 3 + more, [40, 1], &[1]);
        expect_list(run, "1,024 nodes, 8,192 edges", &most(1_024, edges(8_192)), &all, [0, 0]);
        unfit(run, "1,025 nodes", &most(1_025, Vec::new()));
        unfit(run, "8,193 edges", &most(1_024, edges(8_193)));
        unfit(run, "8,193 edges that are one", &most(2, vec![[1, 0]; 8_193]));
        unfit(run, "1,025 nodes, 8,193 edges", &most(1_025, edges(8_193)));
    }
}

/// Tables that are one word short, of small and of the greatest graphs.
fn lengths(run: &mut Run) {
    let backwards: Vec<u32> = (0..1_024).rev().collect();
    let most: Vec<[u32; 2]> = along(&backwards).into_iter().cycle().take(8_192).collect();
    for given in [Given { nodes: 2, edges: vec![[1, 0]] }, Given { nodes: 1_024, edges: most }] {
        let (nodes, good) = (given.nodes, tables(&given, 0));
        let due = &backwards[1_024 - nodes..];
        expect(run, "just enough", &good, nodes, [0, nodes as u32], due);
        expect_list(run, "just enough", &good, due, [0, 0]);
        expect(run, "the order table one short", &good, nodes - 1, [41, 0], &[]);
        expect(run, "no order table", &good, 0, [41, 0], &[]);
        let mut short = good.clone();
        short.nodes.pop();
        unfit(run, "the node table one short", &short);
        short = good.clone();
        short.edges.pop();
        unfit(run, "the edge table one short", &short);
        unfit(run, "no tables", &Tables { nodes: Vec::new(), edges: Vec::new(), ..good.clone() });
        unfit(run, "no node table", &Tables { nodes: Vec::new(), ..good.clone() });
        unfit(run, "no edge table", &Tables { edges: Vec::new(), ..good.clone() });
        expect(run, "no edges told", &Tables { edge_count: 0, ..good.clone() }, nodes, [0, nodes as u32], &numbers(nodes));
        expect(run, "no edges told or lent", &Tables { edge_count: 0, edges: Vec::new(), ..good.clone() }, nodes, [0, nodes as u32], &numbers(nodes));
        unfit(run, "no nodes told", &Tables { node_count: 0, ..good });
    }
}

/// An edge whose number is no node, at each end and at each place of the table; one behind the count is not looked at.
fn ends(run: &mut Run) {
    let line = along(&numbers(6));
    let given = Given { nodes: 6, edges: line.clone() };
    for place in 0..2 * line.len() {
        for number in [6, 7, 1_023, 1_024, 1_025, 65_536, 1 << 31, u32::MAX] {
            let mut tables = tables(&given, 0);
            tables.edges[place] = number;
            unfit(run, "a number that is no node", &tables);
            tables.edge_count = place / 2;
            let what = "a number that is no node, behind the count";
            expect(run, what, &tables, 6, [0, 6], &numbers(6));
            expect_list(run, what, &tables, &numbers(6), [0, 0]);
        }
    }
    let edge = |number| tables(&Given { nodes: 1_024, edges: vec![[number, 0]] }, 0);
    let due: Vec<u32> = (1..1_024).chain([0]).collect();
    expect(run, "an edge from the last node", &edge(1_023), 1_024, [0, 1_024], &due);
    unfit(run, "an edge from node 1,024", &edge(1_024));
}

/// 43 before 41 before 40.
fn first_fault(run: &mut Run) {
    let ring = Given { nodes: 3, edges: vec![[0, 1], [1, 2], [2, 0]] };
    for more in [0, 1] {
        let good = tables(&ring, more);
        expect(run, "40 alone", &good, 3, [40, 3], &[0, 1, 2]);
        for order_len in 0..3 {
            expect(run, "41 before 40", &good, order_len, [41, 0], &[]);
        }
        let mut out = good.clone();
        out.edges[5] = 3;
        unfit(run, "43 before 41 and 40, an edge", &out);
        unfit(run, "43 before 41 and 40, the node table", &Tables { nodes: vec![FILL; 5], ..good.clone() });
        unfit(run, "43 before 41 and 40, the edge table", &Tables { edges: good.edges[..5].to_vec(), ..good.clone() });
        unfit(run, "43 before 41 and 40, all", &Tables { nodes: vec![FILL; 5], edges: out.edges[..5].to_vec(), ..good });
    }
}

/// Counts that twice over are more than a word of the machine holds, or whose low half is a good one.
fn wide(run: &mut Run) {
    let good = tables(&Given { nodes: 2, edges: vec![[1, 0]] }, 0);
    let top = usize::MAX / 2 + 1;
    let wide = [usize::MAX, usize::MAX - 1, top, top + 1, top + 2, top - 1, 1 << 32, (1 << 32) + 1, (1 << 32) + 2, 1 << 31, (1 << 31) + 1, 65_536 + 2];
    for count in wide {
        unfit(run, "a wide node count", &Tables { node_count: count, ..good.clone() });
        unfit(run, "a wide edge count", &Tables { edge_count: count, ..good.clone() });
        unfit(run, "both counts wide", &Tables { node_count: count, edge_count: count, ..good.clone() });
        let nothing = Tables { nodes: Vec::new(), node_count: count, edges: Vec::new(), edge_count: 0 };
        unfit(run, "a wide node count, nothing lent", &nothing);
        unfit(run, "a wide edge count, nothing lent", &Tables { node_count: 0, edge_count: count, ..nothing });
    }
}

/// No nodes; slices of no length have a pointer that is not null.
fn empty(run: &mut Run) {
    for more in [0, 1, 2, 7] {
        let none = tables(&Given { nodes: 0, edges: Vec::new() }, more);
        for order_len in [0, 1, 5] {
            expect(run, "no nodes", &none, order_len, [0, 0], &[]);
        }
        expect_list(run, "no nodes, no list", &none, &[], [0, 0]);
        expect_list(run, "no nodes, a list", &none, &[0], [42, 0]);
        unfit(run, "no nodes, an edge", &tables(&Given { nodes: 0, edges: vec![[0, 0]] }, more));
    }
}

/// Lists of every length for a line, and what is wrong at each of its places.
fn lists(run: &mut Run) {
    for nodes in [1, 2, 31, 32, 33, 1_023, 1_024] {
        let all = numbers(nodes);
        let line = tables(&Given { nodes, edges: along(&all) }, 0);
        let loose = tables(&Given { nodes, edges: Vec::new() }, 0);
        for place in 0..nodes {
            let at = [42, place as u32];
            expect_list(run, "a list that ends too early", &line, &all[..place], at);
            let with = |number: u32| [&all[..place], &[number], &all[place + 1..]].concat();
            for number in [nodes as u32, u32::MAX, FILL] {
                expect_list(run, "a number that is no node", &line, &with(number), at);
            }
            if place > 0 {
                expect_list(run, "a number that is there already", &loose, &with(all[place / 2]), at);
            }
            if place + 1 < nodes {
                let mut list = all.clone();
                list.swap(place, place + 1);
                expect_list(run, "an edge that is broken", &line, &list, at);
                expect_list(run, "no edge that could be", &loose, &list, [0, 0]);
            }
            let mut own = line.clone();
            own.edges.extend([place as u32; 2]);
            own.edge_count += 1;
            expect_list(run, "a self-edge", &own, &all, at);
        }
        expect_list(run, "the list of a line", &line, &all, [0, 0]);
        for more in [1, 1_000, 100_000] {
            let list: Vec<u32> = all.iter().copied().cycle().take(nodes + more).collect();
            expect_list(run, "a list that is too long", &line, &list, [42, nodes as u32]);
        }
    }
}

/// Lines of every length along the numbers, against them and in any order.
fn lines(run: &mut Run) {
    let mut r = Rng::new(8);
    for nodes in 1..=1_024 {
        let backwards: Vec<u32> = (0..nodes as u32).rev().collect();
        for list in [numbers(nodes), backwards, shuffled(&mut r, nodes)] {
            let line = tables(&Given { nodes, edges: along(&list) }, 0);
            expect(run, "a line", &line, nodes + 1, [0, nodes as u32], &list);
            expect_list(run, "a line", &line, &list, [0, 0]);
        }
    }
}

/// Rings of every length: alone, behind nodes that are free, and with nodes that wait behind it, in any numbering.
fn rings(run: &mut Run) {
    let mut r = Rng::new(40);
    for length in 1..=1_024 {
        let room = 1_024 - length;
        let some = |r: &mut Rng| r.below(room.min(30) + 1);
        for (before, behind) in [(0, 0), (some(&mut r), 0), (0, some(&mut r)), (0, room), (room, 0), (room / 2, room - room / 2)] {
            let nodes = before + length + behind;
            let list = shuffled(&mut r, nodes);
            let ring = &list[before..before + length];
            let mut edges = along(&list);
            edges.push([ring[length - 1], ring[0]]);
            let swap = r.below(edges.len());
            edges.swap(swap, 0);
            let given = Given { nodes, edges };
            let due = lowest_first(ring.to_vec());
            for more in [0, 3] {
                expect(run, "a ring", &tables(&given, more), nodes + more, [40, length as u32], &due);
            }
            expect_list(run, "a ring", &tables(&given, 0), &list, [42, before as u32]);
        }
    }
}
