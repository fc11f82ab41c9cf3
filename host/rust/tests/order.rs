//! Orders, rings and lists through the crate: names, and every refusal in words.

use nuvaleta::{graph, Edge, Graph, Refusal};
use std::collections::HashSet;
use vectors::libraries::{self, module, of, small, words};
use vectors::rng::Rng;
use vectors::routers;

const NAMES: [&str; 8] = ["a", "b", "c", "d", "e", "f", "g", "h"];

/// The first so many names, and these edges.
fn made(nodes: usize, edges: &[[usize; 2]]) -> Graph<'static> {
    Graph { nodes: NAMES[..nodes].to_vec(), edges: edges.iter().map(|[from, to]| Edge { from: *from, to: *to }).collect() }
}

/// The names in order, one behind the other.
fn ordered(nodes: usize, edges: &[[usize; 2]]) -> String {
    made(nodes, edges).order().expect("an order").names.concat()
}

fn said(nodes: usize, edges: &[[usize; 2]]) -> String {
    made(nodes, edges).order().expect_err("a ring").to_string()
}

const TO_DO: &str = "To do: in each line the second imports, includes, augments or deviates from the first: one of these has to go";

#[test]
fn first_example() {
    let library = small("include s;import b{prefix b;}", "import b{prefix b;}");
    let (image, bundle) = (library.image(), library.bundle());
    let graph = graph(&image, &bundle).expect("a graph");
    let order = graph.order().expect("an order");
    assert_eq!(order.nodes, [2, 1, 0]);
    assert_eq!(order.names, ["b", "s", "m"]);
    assert_eq!(order.to_string(), "b\ns\nm\n");
    assert_eq!(graph.check(&order.nodes), Ok(()));
}

#[test]
fn lowest_first() {
    assert_eq!(ordered(0, &[]), "");
    assert_eq!(ordered(5, &[]), "abcde");
    assert_eq!(ordered(5, &[[4, 0]]), "bcdea");
    assert_eq!(ordered(5, &[[4, 0], [4, 0], [2, 0], [4, 2]]), "bdeca");
    assert_eq!(ordered(6, &[[5, 1], [1, 0], [5, 2], [3, 4]]), "defbac");
}

#[test]
fn rings() {
    let told = "refused 40: no order of registration: 3 schemas wait for each other in a ring\n    a before c\n    c before b\n    b before a\n";
    assert_eq!(said(3, &[[1, 0], [2, 1], [0, 2]]), format!("{told}{TO_DO}"));
    let told = "refused 40: no order of registration: a schema waits for itself\n    b before b\n";
    assert_eq!(said(3, &[[1, 2], [0, 1], [1, 1]]), format!("{told}{TO_DO}"));
    // a waits for the ring of c and d, which is not the one that e begins
    let two = made(6, &[[3, 0], [2, 3], [3, 2], [4, 5], [5, 4]]).order();
    assert_eq!(two, Err(Refusal::Ring(words("c d"))));
    assert_eq!(two.expect_err("a ring").number(), 40);
}

/// Each imports the other, by the command's whole way.
#[test]
fn a_ring_of_imports() {
    let library = of(&[(&[module("m", ""), module("b", "")], &[])], &[("m", "import b{prefix b;}"), ("b", "import m{prefix m;}")]);
    let (image, bundle) = (library.image(), library.bundle());
    let refusal = graph(&image, &bundle).expect("a graph").order().expect_err("a ring");
    assert_eq!(refusal, Refusal::Ring(words("m b")));
}

#[test]
fn lists() {
    let some = made(4, &[[3, 1], [1, 0], [1, 2]]);
    let said = |list: &[usize]| some.check(list).map_err(|refusal| refusal.told());
    let wrong = |place: usize, what: &str| Err(format!("refused 42: the list is wrong at place {place}, counted from 0: {what}"));
    assert_eq!(said(&[3, 1, 0, 2]), Ok(()));
    assert_eq!(said(&[3, 1, 2, 0]), Ok(()));
    assert_eq!(said(&[]), wrong(0, "it ends without a"));
    assert_eq!(said(&[3, 1, 0]), wrong(3, "it ends without c"));
    assert_eq!(said(&[3, 1, 1, 0]), wrong(2, "b is there already"));
    assert_eq!(said(&[3, 1, 2, 0, 0]), wrong(4, "a is there already"));
    assert_eq!(said(&[3, 4, 1, 0]), wrong(1, "4 is no node"));
    assert_eq!(said(&[3, usize::MAX]), wrong(1, &format!("{} is no node", usize::MAX)));
    assert_eq!(said(&[3, 2, 1, 0]), wrong(1, "c must be registered after b"));
    assert_eq!(made(1, &[[0, 0]]).check(&[0]).expect_err("a ring").told(), wrong(0, "a waits for itself").unwrap_err());
    assert_eq!(made(0, &[]).check(&[]), Ok(()));
}

/// Graphs that no image gives.
#[test]
fn unfit() {
    let most = |nodes, edges| Graph { nodes: vec!["x"; nodes], edges: vec![Edge { from: 0, to: 1 }; edges] };
    assert!(most(1_024, 8_192).order().is_ok());
    assert_eq!(most(1_025, 0).order(), Err(Refusal::TablesUnfit));
    assert_eq!(most(2, 8_193).order(), Err(Refusal::TablesUnfit));
    assert_eq!(most(2, 8_193).check(&[]), Err(Refusal::TablesUnfit));
    assert_eq!(made(2, &[[0, 2]]).order(), Err(Refusal::TablesUnfit));
    let told = "refused 43: more than 1,024 nodes or 8,192 edges, or an edge with a number that is no node";
    assert_eq!(made(2, &[[usize::MAX, 0]]).order().expect_err("a refusal").told(), told);
    assert_eq!(Refusal::OrderTooShort.told(), "refused 41: the order table is too short");
}

/// The order of a generated library's graph is accepted; a ring has a node or more, none of them twice, and its edges are edges.
#[test]
fn generated() {
    let mut r = Rng::new(17);
    let mut seen = [0; 2];
    for _ in 0..3_000 {
        let library = libraries::library(&mut r);
        let (image, bundle) = (library.image(), library.bundle());
        let graph = match graph(&image, &bundle) {
            Ok(graph) => graph,
            Err(_) => continue,
        };
        let refused = match graph.order() {
            Ok(order) => {
                assert_eq!(graph.check(&order.nodes), Ok(()));
                seen[0] += 1;
                continue;
            }
            Err(refused) => refused,
        };
        let ring = match &refused {
            Refusal::Ring(ring) => ring,
            other => panic!("{other}"),
        };
        assert!(!ring.is_empty() && ring.iter().collect::<HashSet<_>>().len() == ring.len(), "{refused}");
        let number = |name: &String| graph.nodes.iter().position(|node| node == name).expect("a node");
        let is_edge = |(from, to)| graph.edges.contains(&Edge { from: number(from), to: number(to) });
        assert!(ring.iter().zip(ring.iter().cycle().skip(1)).all(is_edge), "{refused}");
        seen[1] += 1;
    }
    assert!(seen.iter().all(|n| *n > 100), "{seen:?}");
}

/// A generated router has an order, and of each kind what such a library can have.
#[test]
fn generated_routers() {
    for (modules, seed) in [(0, 1), (1, 2), (7, 3), (100, 4), (511, 5), (512, 6), (routers::MODULES_MOST, 7), (routers::MODULES_MOST, 8)] {
        let library = routers::router(modules, seed);
        let (image, bundle) = (library.image(), library.bundle());
        let graph = graph(&image, &bundle).expect("a graph");
        let order = graph.order().expect("an order");
        assert!(order.nodes.len() >= modules && graph.check(&order.nodes) == Ok(()));
        if modules >= 100 {
            let all = || library.sets.iter().flat_map(|set| &set.modules);
            assert!(all().any(|m| !m.submodules.is_empty()) && all().any(|m| !m.augmenting.is_empty()) && all().any(|m| !m.deviations.is_empty()));
            assert!(library.sets.iter().any(|set| !set.import_only.is_empty()) && graph.edges.len() > 5 * modules);
            assert_ne!(order.nodes, (0..order.nodes.len()).collect::<Vec<_>>());
            assert!(bundle != routers::router(modules, seed + 100).bundle());
        }
    }
}
