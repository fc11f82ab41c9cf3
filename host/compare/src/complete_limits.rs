//! Complete nodes around their limit, with request 2026-02's answers and those of the present mode: its telling inputs, and 30, which goes by the larger list.

use crate::Run;
use crate::limits::{apart, ask, built, flat, library, name, refused};
use crate::port::GRAPH_WORDS;
use vectors::libraries::{ImportOnly, Library, nearly_full, of, only, telling, words};

pub fn run(run: &mut Run) {
    readings(run);
    names_again(run);
    revisions(run);
}

/// 1,023 names.
fn almost_all() -> Vec<String> {
    (0..1_023).map(|i| format!("n{i}")).collect()
}

/// What each telling input tells, in the present mode and in the new one.
fn readings(run: &mut Run) {
    let none = Vec::new;
    let many = |more: &str| built(&[almost_all(), words(more)].concat(), none());
    let told = [
        [refused(28, 1), built(&words("m s"), vec![[1, 0]])],
        [built(&words("m b"), none()), built(&words("m b s"), none())],
        [built(&words("m b c s t"), vec![[4, 0]]), built(&words("m b c s t"), vec![[4, 0]])],
        [built(&words("m b s"), none()), built(&words("m b s t"), none())],
        [refused(27, 1), refused(27, 1)],
        [built(&words("m b t"), vec![[2, 0]]), built(&words("m b t s"), vec![[2, 0]])],
        [many(""), many("x")],
        [many(""), refused(30, 0)],
    ];
    let all = telling();
    assert_eq!(all.len(), told.len());
    for (i, (library, [present, complete])) in all.iter().zip(&told).enumerate() {
        apart(run, &format!("telling input {i}"), library, [present, complete]);
    }
}

/// A module that comes again: 30 comes before the walk, and behind 22.
fn names_again(run: &mut Run) {
    let present = built(&almost_all(), Vec::new());
    library(run, "1,023 names", &nearly_full(""), &present);
    library(run, "1,023 names, some again", &nearly_full("n1 n1000 n0"), &present);
    let mut none = nearly_full("x y");
    none.texts.clear();
    apart(run, "a name too many, no texts", &none, [&refused(23, 1), &refused(30, 0)]);
    let mut unread = nearly_full("x y");
    unread.texts.insert("draft".to_string(), "  ".to_string());
    ask(run, "a name too many, the store one short", &unread.image(), &unread.bundle(), (1, GRAPH_WORDS), &refused(22, 0));
}

/// Two import-only modules of eight revisions, each with 64 submodules, but the last one has so many. The nodes: of the first revisions, and of all.
fn revised(last: usize) -> (Library, [Vec<String>; 2]) {
    let list = |k: usize| (0..if k == 15 { last } else { 64 }).map(|i| format!("r{k}-{i}")).collect::<Vec<_>>();
    let both = [("i", 0), ("j", 8)].map(|(name, from)| ImportOnly { name: name.to_string(), revisions: (from..from + 8).map(list).collect() });
    let nodes = [1, 8].map(|count| both.iter().flat_map(|m| [vec![m.name.clone()], m.revisions[..count].concat()].concat()).collect());
    (of(&[(&[], &both)], &[("i", ""), ("j", "")]), nodes)
}

/// 1,023, 1,024 and 1,025 names by later revisions.
fn revisions(run: &mut Run) {
    for last in [61, 62, 63] {
        let (library, [first, all]) = revised(last);
        let complete = if last == 63 { refused(30, 0) } else { built(&all, Vec::new()) };
        apart(run, &format!("{} names by revisions", all.len()), &library, [&built(&first, Vec::new()), &complete]);
    }
    for (revisions, all) in [(&["", ""][..], ""), (&["", "x"], "x"), (&["x", "x y"], "x y")] {
        let mut one = flat(1_022, |_| String::new());
        one.sets[1].import_only.push(only("i", revisions));
        one.texts.insert("i".to_string(), String::new());
        let nodes = |more: &str| built(&[(0..1_022).map(name).collect(), words("i"), words(more)].concat(), Vec::new());
        let complete = if all == "x y" { refused(30, 0) } else { nodes(all) };
        apart(run, &format!("revisions with {all:?} behind 1,023 names"), &one, [&nodes(revisions[0]), &complete]);
    }
}
