//! Whatever is lent, every function answers: bytes of all kinds, damaged images and bundles, graphs and lists that no image gives.

use nuvaleta::{check, dependencies, dependencies_whole, find_import_module, find_module, find_submodule, graph, graph_complete};
use nuvaleta::{metadata, metadata_whole, text, Edge, Graph, Line, Refusal};
use vectors::libraries;
use vectors::rng::Rng;
use vectors::texts;

fn bytes(r: &mut Rng, most: usize) -> Vec<u8> {
    (0..r.below(most)).map(|_| r.below(256) as u8).collect()
}

/// The graph, its order and a list, each in words too; answers the number of what was refused, or 0.
fn through(graph: Result<Graph, Refusal>, list: &[usize]) -> u32 {
    let told = graph.and_then(|graph| {
        assert!(graph.to_string().starts_with(&format!("Nodes ({}):\n", graph.nodes.len())));
        let checked = graph.check(list);
        assert!(checked.map_or_else(|refusal| [42, 43].contains(&refusal.number()) && !refusal.words().is_empty(), |()| list.len() == graph.nodes.len()));
        graph.order().map(|order| assert_eq!(order.to_string().lines().count(), graph.nodes.len()))
    });
    match told {
        Ok(()) => 0,
        Err(refusal) => {
            assert!(refusal.to_string().starts_with(&format!("refused {}: ", refusal.number())));
            refusal.number()
        }
    }
}

#[test]
fn damaged_libraries() {
    let mut r = Rng::new(53);
    let mut seen = [0; 44];
    for _ in 0..3_000 {
        let library = libraries::library(&mut r);
        let (mut image, mut bundle) = (library.image(), library.bundle());
        match r.below(3) {
            0 => image = libraries::damaged(&mut r, &image),
            1 => bundle = libraries::damaged(&mut r, &bundle),
            _ => {}
        }
        let list: Vec<usize> = (0..r.below(9)).map(|_| r.below(9)).collect();
        seen[through(graph(&image, &bundle), &list) as usize] += 1;
        assert_ne!(through(graph_complete(&image, &bundle), &list), 28);
        assert!(check(&image, &bundle).to_string().lines().last().map_or(false, |line| line.contains(" fault")));
    }
    assert!([0, 20, 21, 23, 24, 25, 26, 27, 40].iter().all(|number| seen[*number] > 0), "{seen:?}");
}

#[test]
fn graphs_of_any_numbers() {
    let mut r = Rng::new(59);
    for _ in 0..3_000 {
        let nodes = vec!["x"; r.below(6)];
        let number = |r: &mut Rng| if r.once_in(20) { usize::MAX } else { r.below(7) };
        let edges = (0..r.below(9)).map(|_| Edge { from: number(&mut r), to: number(&mut r) }).collect();
        let list: Vec<usize> = (0..r.below(9)).map(|_| number(&mut r)).collect();
        assert!([0, 40, 43].contains(&through(Ok(Graph { nodes, edges }), &list)));
    }
}

#[test]
fn any_bytes() {
    let mut r = Rng::new(61);
    for _ in 0..3_000 {
        let (some, name) = (bytes(&mut r, 60), bytes(&mut r, 4));
        through(graph(&some, &name), &[]);
        through(graph(b"\0", &some), &[]);
        through(graph_complete(&some, &name), &[]);
        assert!(check(&some, &name).to_string().contains(" fault"));
        let mut one = [b"\x01\x01t", &[some.len() as u8][..]].concat();
        one.extend(&some);
        let about = nuvaleta::texts(&one).expect("a bundle");
        assert!(about.len() == 1 && about[0].to_string().starts_with(&format!("t, {} byte", some.len())));
        let finds = [find_module(&some, &name).err(), find_submodule(&some, &name).err(), find_import_module(&some, &name).err()];
        assert!(finds.iter().flatten().all(|refusal| refusal.number() == 20));
        assert!(text(&some, &name).map_or_else(|refusal| refusal.number() == 21, |found| found.map_or(true, |found| found.len() < some.len())));
        let line = Line::at(&some, r.below(99));
        assert!(line.number > 0 && line.column > line.at && line.to_string().ends_with('^'));
        let mut text = texts::any(&mut r).into_bytes();
        let of_text = libraries::of(&[], &[("t", std::str::from_utf8(&text).expect("a string"))]).bundle();
        let lines = text.split(|byte| *byte == b'\n').count();
        let warnings = &nuvaleta::texts(&of_text).expect("a bundle")[0].warnings;
        assert!(warnings.iter().all(|warning| warning.line <= lines && warning.column > 0 && !warning.words.is_empty()));
        let place = r.below(text.len() + 1);
        text.insert(place, 128 + r.below(128) as u8);
        let deps = [dependencies, dependencies_whole].map(|scan| scan(&text).expect_err("no UTF-8"));
        let meta = [metadata, metadata_whole].map(|scan| scan(&text).expect_err("no UTF-8"));
        assert!(deps.iter().chain(&meta).all(|refusal| (refusal.number(), refusal.position) == (12, Some(place))));
    }
}
