//! Texts that are included again, with request 2026-10's answers in both modes: each text is read once, and nothing else changes. The walk remembers how many
//! includes lie below a text, so that 29 comes as if it were walked again.

use crate::Run;
use crate::limits::{Expected, almost, almost_edges, apart, ask, built, enough, import, include, library, name, refused, scan};
use crate::port::{GRAPH_WORDS, lent_graph};
use vectors::form;
use vectors::graphs::Mode;
use vectors::libraries::{Library, Module, module, of, words};

pub fn run(run: &mut Run) {
    lengths(run);
    wide(run);
    depths(run);
    circles(run);
    full(run);
    entries(run);
    both(run);
    many(run);
}

/// So many words there must be, and what they held changes nothing.
fn lengths(run: &mut Run) {
    let shared = rows(&[("a", "s t"), ("b", "s")], &[("s", "t"), ("t", "")]);
    let told = built(&words("a s t b"), vec![[1, 0], [2, 1], [2, 0], [1, 3]]);
    let (image, bundle) = (shared.image(), shared.bundle());
    let store = form::longest_text(&bundle);
    for (levels, expected) in [(4_352, &told), (4_351, &refused(22, 0)), (2_304, &refused(22, 0))] {
        let [nodes, edges, imports, includes, _] = GRAPH_WORDS;
        ask(run, &format!("{levels} words of levels"), &image, &bundle, (store, [nodes, edges, imports, includes, levels]), expected);
    }
    let plain = Mode::BOTH.map(|mode| crate::port::graph(mode, &image, &bundle, store, 0));
    // the memory has two words for each node: whether its text was read, and how many includes lie below it
    for [read, below] in [[0, 0], [1, 1], [2, 2], [2, 0], [2, 9], [0, 9], [u32::MAX, u32::MAX]] {
        for (mode, plain) in Mode::BOTH.into_iter().zip(&plain) {
            let mut g = lent_graph(store, GRAPH_WORDS);
            g.levels.fill(below);
            for pair in g.levels[..2_048].chunks_exact_mut(2) {
                pair.copy_from_slice(&[read, below]);
            }
            g.redraw(mode, &image, &bundle);
            run.count(g == *plain, || format!("levels that held {read} and {below}, {mode:?}: {:?}, expected {:?}", g.answer, plain.answer));
        }
    }
}

/// Modules with the names that their texts include, and submodules likewise, all of which the first module lists.
fn rows(modules: &[(&str, &str)], submodules: &[(&str, &str)]) -> Library {
    let text = |names: &str| words(names).iter().map(|name| include(name)).collect::<String>();
    let mut all: Vec<Module> = modules.iter().map(|(name, _)| module(name, "")).collect();
    all[0].submodules = submodules.iter().map(|(name, _)| name.to_string()).collect();
    let mut out = of(&[(&all, &[])], &[]);
    out.texts = modules.iter().chain(submodules).map(|(name, names)| (name.to_string(), text(names))).collect();
    out
}

/// Many includes side by side are not deep.
fn wide(run: &mut Run) {
    let subs: Vec<String> = (1..=9).map(|i| format!("s{i}")).collect();
    let all = subs.join(" ");
    let texts: Vec<(&str, &str)> = subs.iter().map(|name| (name.as_str(), "")).collect();
    let edges: Vec<[u32; 2]> = (1..10).map(|i| [i, 0]).collect();
    let nodes = [words("m"), subs.clone()].concat();
    library(run, "nine includes in one text", &rows(&[("m", &all)], &texts), &built(&nodes, edges.clone()));
    let twice = format!("{all} {all}");
    library(run, "nine includes twice", &rows(&[("m", &twice)], &texts), &built(&nodes, edges));
}

/// a includes t, below which lies a chain of so many; b comes to t at this depth.
fn shared(below: usize, depth: usize) -> (Library, Vec<String>, Vec<[u32; 2]>) {
    let t: Vec<String> = (0..=below).map(|i| format!("t{i}")).collect();
    let c: Vec<String> = (1..depth).map(|i| format!("c{i}")).collect();
    let to_t = [c.clone(), words("t0")].concat();
    let mut out = of(&[(&[module("a", &t.join(" ")), module("b", &c.join(" "))], &[])], &[("a", &include("t0")), ("b", &include(&to_t[0]))]);
    for row in [&t[..], &to_t[..]] {
        out.texts.extend(row.windows(2).map(|pair| (pair[0].clone(), include(&pair[1]))));
    }
    out.texts.entry(t[below].clone()).or_default();
    let nodes = [words("a"), t, words("b"), c].concat();
    let number = |name: &str| nodes.iter().position(|other| other == name).expect("a node") as u32;
    // each is included by the one before it, first in the walk of a and then in that of b
    let rows = |from: &str, row: &[String]| -> Vec<[u32; 2]> {
        [from.to_string()].iter().chain(row).zip(row).map(|(by, name)| [number(name), number(by)]).collect()
    };
    let edges = [rows("a", &nodes[1..=below + 1]), rows("b", &to_t)].concat();
    (out, nodes.clone(), edges)
}

/// 29 exactly where the text that lies deepest is due at depth 9, be it read before or not.
fn depths(run: &mut Run) {
    for below in 0..=9 {
        for depth in 1..=9 {
            let (mut both, nodes, edges) = shared(below, depth);
            let due = |first: usize, second: usize| match [first, second].iter().position(|depth| depth + below > 8) {
                None => built(&nodes, edges.clone()),
                Some(entry) => refused(29, entry as u32 + 1),
            };
            let what = format!("{below} includes below a text that was read, at depth {depth}");
            library(run, &what, &both, &due(1, depth));
            // the other way round it is read there first
            both.sets[0].modules.reverse();
            let due = match due(depth, 1) {
                Expected { answer: [0, ..], .. } => turned(below, depth, &nodes, &edges),
                refused => refused,
            };
            library(run, &format!("{what}, first"), &both, &due);
        }
    }
    // the deepest way to a text counts, and not the first or the last
    let short_and_long = rows(&[("a", "t c1 t")], &[("t", "t1"), ("t1", "t2"), ("t2", ""), ("c1", "c2"), ("c2", "c3"), ("c3", "c4"), ("c4", "t")]);
    let nodes = words("a t t1 t2 c1 c2 c3 c4");
    let edges = vec![[1, 0], [2, 1], [3, 2], [4, 0], [5, 4], [6, 5], [7, 6], [1, 7]];
    library(run, "two ways to a text", &short_and_long, &built(&nodes, edges));
    // t comes again at depth 6: two includes below it are as deep as may be, and by w and y it has three
    let chains = |w: &str| {
        let way = [("b", "c"), ("c", "d"), ("d", "e"), ("e", "f"), ("f", "t")];
        rows(&[("a", "t b")], &[&[("t", "u"), ("u", "v w"), ("v", ""), ("w", w), ("y", "")], &way[..]].concat())
    };
    let nodes = words("a t u v w y b c d e f");
    let edges = vec![[1, 0], [2, 1], [3, 2], [4, 2], [6, 0], [7, 6], [8, 7], [9, 8], [10, 9], [1, 10]];
    library(run, "two chains of two below a text", &chains(""), &built(&nodes, edges));
    library(run, "the longer chain below a text counts", &chains("y"), &refused(29, 1));
}

/// The same with the modules the other way round: b and its submodules come first.
fn turned(below: usize, depth: usize, nodes: &[String], edges: &[[u32; 2]]) -> Expected {
    let (one, other) = nodes.split_at(below + 2);
    let node = |v: u32| if (v as usize) < one.len() { v + other.len() as u32 } else { v - one.len() as u32 };
    let edge = |e: &[u32; 2]| [node(e[0]), node(e[1])];
    let (of_a, of_b) = edges.split_at(below + 1);
    // t is read in the walk of b: what lies below it comes there
    let rows = of_b.iter().chain(&of_a[1..]).chain(&of_a[..1]).map(edge).collect();
    assert_eq!(of_b.len(), depth);
    built(&[other, one].concat(), rows)
}

fn circles(run: &mut Run) {
    let itself = of(&[(&[module("b", "b")], &[])], &[("b", &include("b"))]);
    library(run, "a module that includes itself", &itself, &refused(29, 1));
    library(run, "a submodule that includes itself", &rows(&[("a", ""), ("b", "s")], &[("s", "s")]), &refused(29, 2));
    for length in 2..=12 {
        let names: Vec<String> = (0..length).map(|i| format!("s{i}")).collect();
        let next: Vec<(&str, &str)> = (0..length).map(|i| (names[i].as_str(), names[(i + 1) % length].as_str())).collect();
        library(run, &format!("a circle of {length}"), &rows(&[("a", ""), ("b", "s0")], &next), &refused(29, 2));
    }
    for depth in 1..=8 {
        let names: Vec<String> = (0..depth).map(|i| format!("s{i}")).collect();
        let last = names[depth - 1].clone();
        let next: Vec<(&str, &str)> = (0..depth).map(|i| (names[i].as_str(), names.get(i + 1).unwrap_or(&last).as_str())).collect();
        library(run, &format!("a circle met at depth {depth}"), &rows(&[("a", "s0")], &next), &refused(29, 1));
    }
    // what comes before the circle is told first
    library(run, "a circle behind what is no submodule", &rows(&[("a", "s")], &[("s", "zz s")]), &refused(27, 1));
    library(run, "what is no submodule behind a circle", &rows(&[("a", "s")], &[("s", "s zz")]), &refused(29, 1));
    let mut gone = rows(&[("a", "s")], &[("s", "t s"), ("t", "")]);
    gone.texts.remove("t");
    library(run, "a circle behind a text that is missing", &gone, &refused(24, 1));
    // a text that is included twice is no circle
    let twice = rows(&[("a", "s s t"), ("b", "t s")], &[("s", "t t"), ("t", "")]);
    library(run, "texts that are included twice", &twice, &built(&words("a s t b"), vec![[1, 0], [2, 1], [2, 0], [2, 3], [1, 3]]));
}

/// Where the edges are used up: the edge comes before what is remembered.
fn full(run: &mut Run) {
    let with = |edges: usize, text: &str, s: &str, t: &str| {
        let mut out = almost(edges, text, Some(s));
        out.texts.insert("t".to_string(), t.to_string());
        out
    };
    let [s, t] = ["s", "t"].map(include);
    library(run, "a circle of two closed by the 8,193rd edge", &with(8_190, &s, &t, &s), &refused(31, 1_000));
    library(run, "a circle of two closed by the 8,192nd edge", &with(8_189, &s, &t, &s), &refused(29, 1_000));
    library(run, "a circle of one closed by the 8,193rd edge", &with(8_191, &s, &s, ""), &refused(31, 1_000));
    library(run, "a circle of one closed by the 8,192nd edge", &with(8_190, &s, &s, ""), &refused(29, 1_000));
    let nodes = [(0..1_000).map(name).collect(), words("s t")].concat();
    let told = |more: &[[u32; 2]]| built(&nodes, [&almost_edges(8_192 - more.len())[..], more].concat());
    library(run, "no room, a text that was read, by an edge that is there", &with(8_191, &s.repeat(2), "", ""), &told(&[[1_000, 999]]));
    library(run, "room for two, texts that were read", &with(8_190, &(t.clone() + &s + &t), "", ""), &told(&[[1_001, 999], [1_000, 999]]));
    library(run, "no room, a text that was read, by another edge", &with(8_190, &(t.clone() + &s), &t, ""), &refused(31, 1_000));
}

/// Refusals come at the first entry that reads the text; lists come with each entry.
fn entries(run: &mut Run) {
    let twice = |text: &[(&str, &str)]| of(&[(&[module("m", "s")], &[]), (&[module("m", "s")], &[])], text);
    library(run, "m in two sets, its text refused", &twice(&[("m", "import")]), &scan(1, [4, 8, 6]));
    library(run, "m in two sets, without a text", &twice(&[("s", "")]), &refused(23, 1));
    library(run, "m in two sets, its include refused", &twice(&[("m", "include s;"), ("s", "import")]), &scan(1, [4, 8, 6]));
    library(run, "m in two sets, its include without a text", &twice(&[("m", "include s;")]), &refused(24, 1));
    library(run, "m in two sets, an import that is no module", &twice(&[("m", "import s{prefix s;}")]), &refused(26, 1));
    let mut lists = twice(&[("m", "include s;"), ("s", "")]);
    library(run, "m in two sets", &lists, &built(&words("m s"), vec![[1, 0]]));
    lists.sets[1].modules[0].augmenting = words("m");
    library(run, "m in two sets, with a list in the second", &lists, &built(&words("m s"), vec![[1, 0], [0, 0]]));
    lists.sets[1].modules[0].augmenting = words("zz");
    library(run, "m in two sets, with a wrong list in the second", &lists, &refused(26, 2));
    // an include of what stands in the second set alone
    let second = of(&[(&[module("m", "")], &[]), (&[module("m", "s")], &[])], &[("m", &(include("s") + &include("s"))), ("s", "")]);
    apart(run, "m in two sets, its submodule in the second", &second, [&refused(28, 1), &built(&words("m s"), vec![[1, 0]])]);
    // two texts without a text: the second one is never asked for
    let mut none = rows(&[("a", "s"), ("b", "s t")], &[("s", ""), ("t", "")]);
    none.texts.remove("t");
    library(run, "an include without a text behind one that was read", &none, &refused(24, 2));
}

/// A module that is a submodule too, as an entry before and behind the include.
fn both(run: &mut Run) {
    let texts = [("m", "include b;".to_string()), ("b", import("m") + &include("s")), ("s", String::new())];
    let texts: Vec<(&str, &str)> = texts.iter().map(|(name, text)| (*name, text.as_str())).collect();
    let mut behind = of(&[(&[module("m", "b s"), module("b", "")], &[])], &texts);
    library(run, "an entry that was included", &behind, &built(&words("m b s"), vec![[1, 0], [0, 1], [2, 1]]));
    behind.sets[0].modules[1].deviations = words("b m");
    library(run, "an entry that was included, with a list", &behind, &built(&words("m b s"), vec![[1, 0], [0, 1], [2, 1], [1, 1], [1, 0]][..4].to_vec()));
    let before = of(&[(&[module("b", ""), module("m", "b s")], &[])], &texts);
    library(run, "an entry that is included afterwards", &before, &built(&words("b m s"), vec![[1, 0], [2, 0], [0, 1]]));
    // eight includes below it are good for an entry and one too deep for an include
    let names: Vec<String> = (1..=8).map(|i| format!("s{i}")).collect();
    let mut deep = of(&[(&[module("b", ""), module("m", &format!("b {}", names.join(" ")))], &[])], &[("b", "include s1;"), ("m", ""), ("s8", "")]);
    deep.texts.extend(names.windows(2).map(|pair| (pair[0].clone(), include(&pair[1]))));
    let edges: Vec<[u32; 2]> = [[2, 0]].into_iter().chain((2..9).map(|i| [i + 1, i])).collect();
    library(run, "an entry with eight includes below it", &deep, &built(&[words("b m"), names].concat(), edges));
    deep.texts.insert("m".to_string(), include("b"));
    library(run, "the same, included afterwards", &deep, &refused(29, 2));
    deep.sets[0].modules.reverse();
    library(run, "the same, included before", &deep, &refused(29, 1));
}

/// So often the next text is included where that is to be more than anyone can wait for.
const MANY: usize = 256;

/// Nine texts, each of which includes the next one 256 times: the plain walk reads 256^8 texts, and neither the original nor the plain reading is asked.
fn many(run: &mut Run) {
    let nine = |last: &str| {
        let names = words("m s1 s2 s3 s4 s5 s6 s7 s8");
        let mut out = of(&[(&[module("m", &names[1..].join(" "))], &[])], &[("s8", last)]);
        out.texts.extend(names.windows(2).map(|pair| (pair[0].clone(), include(&pair[1]).repeat(MANY))));
        (out, names)
    };
    let (texts, names) = nine("");
    library(run, "nine texts that include the next one 256 times", &texts, &built(&names, (0..8).map(|i| [i + 1, i]).collect()));
    library(run, "nine texts, the last one includes itself", &nine("include s8;").0, &refused(29, 1));
    library(run, "nine texts, the last one includes the first", &nine("include s1;").0, &refused(29, 1));
    let (mut again, names) = nine("");
    again.sets.push(again.sets[0].clone());
    library(run, "nine texts in two sets", &again, &built(&names, (0..8).map(|i| [i + 1, i]).collect()));
    let (store, [nodes, edges, imports, includes, levels]) = enough(&texts.bundle(), 0);
    let short = (store, [nodes, edges, imports, includes, levels - 1]);
    ask(run, "nine texts, the levels one short", &texts.image(), &texts.bundle(), short, &refused(22, 0));
}
