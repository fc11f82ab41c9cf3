//! bench IMAGE BUNDLE FILE..: the port beside the original Rust, on the same inputs in one run, as a table with what is to be known of it. The files
//! are real modules; image and bundle hold the same. With --port before them: the port's times alone, a line each, in nanoseconds (./beside compares them).

#[path = "../../compare/src/port.rs"]
#[allow(dead_code)]
mod port;
#[path = "../../oracle/build/src/house.rs"]
#[allow(dead_code)]
mod house;
#[path = "../../oracle/build/src/yanglib.rs"]
#[allow(dead_code, unused_imports)]
mod yanglib;
#[path = "../../oracle/build/src/yangparser.rs"]
#[allow(dead_code)]
mod yangparser;
mod graph;
mod order;
mod routers;
mod scans;
mod table;
mod timing;

use table::{Group, grouped};
use timing::{Row, measure, measure_port};
use vectors::form; // house.rs looks for it here

const ROUNDS: usize = 20;
const ROUNDS_OF_MANY: usize = 4;
const ROUNDS_OF_PORT: usize = 2;
const ROUNDS_OF_COSTLY: usize = 1;

fn main() {
    let mut args: Vec<String> = std::env::args().skip(1).collect();
    let alone = args.first().is_some_and(|word| word == "--port");
    if alone {
        args.remove(0);
    }
    let [image, bundle, files @ ..] = &args[..] else {
        eprintln!("usage: bench [--port] IMAGE BUNDLE FILE..");
        std::process::exit(2);
    };
    let (dependencies, metadata, accents) = (scans::for_dependencies(files), scans::for_metadata(files), scans::with_accents());
    let (graphs, adverse) = (graph::inputs(image, bundle), graph::adverse());
    let (growing, growing_routers) = (graph::growing(), graph::growing_routers());
    // An archive from before request 2026-10, which ./beside may hand in, would take longer with nine texts than anyone waits.
    let (shared, letters, nine) = (graph::shared(), graph::letters(), graph::remembers().then(graph::nine));
    let drawn = graphs.iter().chain(&adverse).chain(&growing_routers);
    let orders = order::inputs();
    let (costly, deep, fleet);
    let mut groups = vec![
        Group { name: "dependencies of a text", rows: dependencies.iter().map(scans::dependencies).collect() },
        Group { name: "metadata of a text", rows: metadata.iter().map(scans::metadata).collect() },
        Group { name: "dependencies in the whole-text mode (none in the Rust)", rows: dependencies.iter().map(scans::dependencies_whole).collect() },
        Group { name: "metadata in the whole-text mode (none in the Rust)", rows: metadata.iter().map(scans::metadata_whole).collect() },
        Group { name: "graph", rows: graphs.iter().map(graph::whole).collect() },
        Group { name: "graph, beside `to_graph` without reading", rows: graphs.iter().map(graph::drawing).collect() },
        Group { name: "graph, made to be slow", rows: adverse.iter().map(graph::whole).collect() },
        Group { name: "graph, texts that are included again", rows: [graph::whole(&shared)].into_iter().chain(nine.iter().map(graph::alone)).collect() },
        Group { name: "graph, as much text as there can be", rows: vec![graph::alone(&letters)] },
        Group { name: "graph, growing", rows: growing.iter().map(graph::whole).collect() },
        Group { name: "graph of a router, growing", rows: growing_routers.iter().map(graph::whole).collect() },
        Group { name: "graph with complete nodes (none in the Rust)", rows: drawn.map(graph::complete).collect() },
        Group { name: "order of registration", rows: orders.iter().map(order::ordering).chain([order::checking(&orders[0])]).collect() },
        Group { name: "reading alone (none in the Rust)", rows: scans::look_ups().chain(graphs.iter().map(graph::reading)).collect() },
        Group { name: "dependencies of a text with accents", rows: accents.iter().map(scans::dependencies).collect() },
        Group { name: "what is UTF-8, beside `from_utf8`", rows: accents.iter().map(scans::checking).collect() },
    ];
    if alone {
        measure_port(groups.iter_mut().flat_map(|group| &mut group.rows), ROUNDS_OF_PORT);
        return table::print_port(&groups);
    }
    // What the port does here is what it does in the group before.
    groups.insert(13, Group { name: "order of registration, beside `toposort`", rows: orders.iter().map(order::sorting).collect() });
    measure(groups.iter_mut().flat_map(|group| &mut group.rows), ROUNDS);
    // Behind the others, since they take up to seconds; and so they are not timed beside another build.
    (costly, deep) = (graph::one_bucket(), graph::deep_edges());
    for (name, input) in [("graph, names that are slow to find", &costly), ("graph, edges that are slow to find", &deep)] {
        let mut slow = Group { name, rows: vec![graph::whole(input)] };
        measure(slow.rows.iter_mut(), ROUNDS_OF_COSTLY);
        groups.insert(9, slow);
    }
    // Only now, since an allocator may be slower with so much that comes and goes, and with threads; and of the two only the Rust needs one.
    fleet = routers::fleet();
    let mut many = Group { name: "graph and order of many routers", rows: [1, 2].map(|threads| routers::row(&fleet, threads)).into() };
    measure(many.rows.iter_mut(), ROUNDS_OF_MANY);
    groups.push(many);
    println!("Each row ran in {ROUNDS} rounds (many routers: {ROUNDS_OF_MANY}, edges and names that are slow to find: {ROUNDS_OF_COSTLY}), each with");
    println!("{}.\n{TIMES}\n", timing::told());
    table::print(&groups);
    let [_, _, _, _, _, _, _, _, _, _, _, growing, growing_routers, .., many] = &groups[..] else { panic!("too few groups") };
    println!("\n{}", grown("modules", graph::SIZES, &growing.rows));
    println!("{}\n", grown("modules of a router", graph::ROUTERS, &growing_routers.rows));
    println!("{}\n\n{INCLUDED}", many_told(&many.rows));
}

fn grown(of: &str, sizes: [usize; 4], rows: &[Row]) -> String {
    let [first, .., last] = rows else { panic!("two rows") };
    let [bytes, port, rust] =
        [last.bytes as f64 / first.bytes as f64, last.times.port / first.times.port, last.times.rust / first.times.rust].map(|x| format!("{x:.1}"));
    let [low, high] = [sizes[0], sizes[3]].map(grouped);
    format!("From {low} to {high} {of} the input grows {bytes} times, Nuvaleta's time {port} times, the Rust's {rust} times.")
}

fn many_told(rows: &[Row]) -> String {
    let [one, two] = rows else { panic!("two rows") };
    let told = |time: f64| format!("{} ms ({:.2} a router)", grouped((time / 1e6).round() as usize), time / 1e6 / routers::COUNT as f64);
    format!(
        "{} routers: Nuvaleta {} on one thread, {} on two; the Rust {} and {}.",
        routers::COUNT,
        told(one.times.port),
        told(two.times.port),
        told(one.times.rust),
        told(two.times.rust)
    )
}

const TIMES: &str = "\
A time is the best of all runs, in microseconds. The ratio is that of the two times, the least ratio that of the round in which it was least.
MB are 1,000,000 bytes.";

const INCLUDED: &str = "\
- All starts from bytes in memory; no file is read. The Rust makes its strings, lists and maps anew in each run and frees them. Nuvaleta is lent
  buffers that were made once, and clears all that it is lent in each run.
- The dependency scan ends at a module's organization, contact, description or reference, the metadata scan at its first container, list or the
  like: of real and generated modules most bytes are not looked at. MB/s are bytes lent, not bytes read. 1 MiB of something is read to its end.
- Image and bundle are a form that the original does not have: for a graph the oracle's reader stands before its `to_graph`, but for the rows
  without reading, where Nuvaleta reads all the same.
- The original's order is that of petgraph's `toposort`, by which it registers. It is another order than the lowest, and of a ring it tells one node. So beside
  Nuvaleta's order stands also a plain Kahn with a heap, which gives the same list and the same ring. Many routers are put in order by that Kahn.
- Both sides gave the same: the numbers of imports and includes, whether metadata are refused, nodes, edges, order, ring, wrong place. Each list of
  `toposort` was accepted by the check, and it found a ring where Nuvaleta did.";
