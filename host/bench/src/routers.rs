//! Many routers, on some threads: of each the graph and its order, from the bytes of its image and bundle on.

use crate::graph::{self, Input};
use crate::order::kahn;
use crate::port::{self, GRAPH_WORDS, Graphed, Tables};
use crate::table::counted;
use crate::timing::Row;
use std::hint::black_box;
use std::mem::take;
use std::thread;
use vectors::graphs::Mode;
use vectors::{form, routers};

pub const COUNT: usize = 400;
const MODULES: usize = 500;

pub struct Fleet {
    routers: Vec<Input>,
    nodes: usize,
    edges: usize,
}

/// Routers that differ. Both sides must have the same graph and the same order of each.
pub fn fleet() -> Fleet {
    let routers: Vec<Input> = (0..COUNT).map(|i| Input::of(format!("router {i}"), &routers::router(MODULES, i as u64))).collect();
    let mut lent = lent(&routers);
    let (mut nodes, mut edges) = (0, 0);
    for input in &routers {
        let drawn = graph::agreed(input);
        assert_eq!(rust(input), port(&mut lent, input), "{}: two orders", input.what);
        nodes += drawn.answer[6] as usize;
        edges += drawn.answer[7] as usize;
    }
    Fleet { routers, nodes, edges }
}

fn rust(input: &Input) -> Vec<u32> {
    let (library, schemas) = graph::read(input);
    let graph = library.to_graph(&schemas).expect("a graph");
    kahn(graph.node_count(), &graph::edges_of(&graph)).expect("an order")
}

/// What a thread is lent once, for all of its routers.
struct Lent {
    graph: Graphed,
    order: Vec<u32>,
}

fn lent(routers: &[Input]) -> Lent {
    let store = routers.iter().map(|input| form::longest_text(&input.bundle)).max().unwrap_or(0);
    Lent { graph: port::lent_graph(store, GRAPH_WORDS), order: vec![0; GRAPH_WORDS[0] / 2] }
}

fn port<'a>(lent: &'a mut Lent, input: &Input) -> &'a [u32] {
    let graph = &mut lent.graph;
    assert_eq!(graph.redraw(Mode::Present, &input.image, &input.bundle), 0, "{}: refused", input.what);
    let [.., node_count, edge_count] = graph.answer.map(|word| word as usize);
    let tables = Tables { nodes: take(&mut graph.nodes), node_count, edges: take(&mut graph.edges), edge_count };
    assert_eq!(tables.order(&mut lent.order), [0, node_count as u32], "{}: no order", input.what);
    (graph.nodes, graph.edges) = (tables.nodes, tables.edges);
    &lent.order[..node_count]
}

/// All of them, each thread its part.
pub fn row(fleet: &Fleet, threads: usize) -> Row<'_> {
    let parts = move || fleet.routers.chunks(COUNT.div_ceil(threads));
    let all_rust = move || {
        thread::scope(|scope| {
            parts().for_each(|part| _ = scope.spawn(|| part.iter().for_each(|input| _ = black_box(rust(input)))));
        })
    };
    let mut lents: Vec<Lent> = parts().map(lent).collect();
    let all_port = move || {
        thread::scope(|scope| {
            parts().zip(&mut lents).for_each(|(part, lent)| _ = scope.spawn(|| part.iter().for_each(|input| _ = black_box(port(lent, input)))));
        })
    };
    let on = ["one thread", "two threads"][threads - 1];
    let what = counted(&format!("{COUNT} routers of {MODULES} modules on {on}"), fleet.nodes, fleet.edges);
    Row::new(what, fleet.routers.iter().map(Input::bytes).sum(), all_rust, all_port)
}
