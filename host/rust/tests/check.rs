//! All faults of a library at once: beside the graph's own refusal, and mended one by one and together.

use nuvaleta::{check, check_complete, graph, graph_complete, By, Listed, Looks, Refusal, Why};
use std::collections::HashSet;
use vectors::libraries::{self, module, of, only, small, words, ImportOnly, Library, Set};
use vectors::rng::Rng;
use vectors::routers;

fn faults(library: &Library) -> Vec<Refusal> {
    check(&library.image(), &library.bundle()).faults
}

/// Number, who has it, and name of a fault in the walk. Each may come once.
fn key(fault: &Refusal) -> (u32, String, String) {
    let (entry, why) = match fault {
        Refusal::Walk { entry, why } => (&entry.name, why),
        other => return (other.number(), String::new(), String::new()),
    };
    let (who, name) = match why {
        Why::NoIncludedText(Some(Listed { name, .. })) => (String::new(), name),
        Why::Scan { spot, .. } => (String::new(), &spot.as_ref().expect("a text").text),
        Why::UnknownModule(Some(Listed { by: by @ (By::Augmenting | By::Deviation), name })) => (format!("{entry} {by}"), name),
        Why::UnknownModule(Some(Listed { by, name })) | Why::UnknownSubmodule(Some(Listed { by, name })) => (by.to_string(), name),
        _ => (String::new(), entry),
    };
    (fault.number(), who, name.clone())
}

fn is_name(name: &str) -> bool {
    (1..=128).contains(&name.len()) && name.bytes().all(|byte| (33..=126).contains(&byte))
}

/// Takes a fault away: a text that is missing or refused becomes an empty one, a name that is unknown gets what it lacks.
fn mend(library: &mut Library, fault: &Refusal) {
    let why = match fault {
        Refusal::Walk { why, .. } => why,
        other => panic!("{other}"),
    };
    let empty = key(fault).2;
    match why {
        Why::UnknownModule(Some(Listed { by: By::ImportIn(text), name })) if !is_name(name) => drop(library.texts.insert(text.clone(), String::new())),
        Why::UnknownSubmodule(Some(Listed { by: By::IncludeIn(text), name })) if !is_name(name) => drop(library.texts.insert(text.clone(), String::new())),
        Why::UnknownModule(Some(Listed { name, .. })) => {
            library.sets.push(Set { modules: Vec::new(), import_only: vec![only(name, &[""])] });
            library.texts.insert(empty, String::new());
        }
        Why::UnknownSubmodule(Some(Listed { name, .. })) => {
            library.sets.push(Set { modules: vec![module("of-it", name)], import_only: Vec::<ImportOnly>::new() });
            library.texts.insert("of-it".to_string(), String::new());
            library.texts.insert(empty, String::new());
        }
        _ => drop(library.texts.insert(empty, String::new())),
    }
}

fn is_mended(library: &Library) -> bool {
    !faults(library).iter().any(|fault| (20..=27).contains(&fault.number()))
}

// ---- by hand

#[test]
fn each_once() {
    let texts = [
        ("m", "import x{prefix x;}import x{prefix y;}include s;include s;include y;include y;"),
        ("s", "import x{prefix x;}import m{prefix m;"),
        ("b", "include s;include t;include t;"),
        ("o", "include t;import z{prefix z;}"),
    ];
    let sets: [(&[_], &[_]); 2] = [(&[module("m", "s t"), module("b", "")], &[only("o", &[""])]), (&[module("b", ""), module("c", ""), module("c2", "")], &[])];
    let mut library = of(&sets, &texts);
    library.sets.push(Set { modules: vec![module("c", "")], import_only: vec![only("c2", &[""])] });
    for set in 0..2 {
        let m = library.sets[set].modules.iter_mut().find(|m| m.name == "b").expect("b");
        m.augmenting = words("m q q");
        m.deviations = words("q");
    }
    let short = |words: String| words.replace("which is neither a module nor an import-only module", "no module");
    let said: Vec<String> = faults(&library).iter().map(|fault| format!("{} {}", fault.number(), short(fault.words()))).collect();
    assert_eq!(said, [
        "26 module m (set 1, entry 1): the text of m imports \"x\", no module",
        "25 module m (set 1, entry 1): the text of s, line 1, column 38: the text ends inside the block of an import (scan refusal 8, byte 37)",
        "27 module m (set 1, entry 1): the text of m includes \"y\", which is no submodule of a module",
        "24 module b (set 1, entry 2): the text of b includes \"t\", of which the bundle has no text",
        "26 module b (set 1, entry 2): its list of augmenting modules has q, no module",
        "26 module b (set 1, entry 2): its list of deviations has q, no module",
        "26 import-only module o (set 1, entry 3): the text of o imports \"z\", no module",
        "23 module c (set 2, entry 5): the bundle has no text under its name",
        "23 module c2 (set 2, entry 6): the bundle has no text under its name",
    ]);
}

/// Behind faults of the walk stands what the graph is refused for; with none, the ring.
#[test]
fn others() {
    let numbers = |library: &Library| faults(library).iter().map(Refusal::number).collect::<Vec<_>>();
    assert_eq!(numbers(&small("include s;", "include s;")), [29]);
    assert_eq!(numbers(&small("include s;import x{prefix x;}", "include s;")), [26]);
    assert_eq!(numbers(&small("include s;", "include s;import x{prefix x;}")), [26]);
    assert_eq!(numbers(&small("include s;", "include s;include x;")), [27, 29]);
    assert_eq!(numbers(&of(&[(&[module("m", "")], &[]), (&[module("m", "s")], &[])], &[("m", "include s;"), ("s", "")])), [28]);
    assert_eq!(numbers(&of(&[(&[module("m", ""), module("b", "")], &[])], &[("m", "import b{prefix b;}"), ("b", "import m{prefix m;}")])), [40]);
    let many = |from: usize| Set { modules: (from..from + 500).map(|i| module(&format!("m{i}"), "")).collect(), import_only: Vec::new() };
    let mut library = Library { sets: vec![many(0), many(500), many(1_000)], ..Library::default() };
    assert_eq!(numbers(&library), [vec![23; 1_500], vec![30]].concat());
    library.texts = (0..1_500).map(|i| (format!("m{i}"), String::new())).collect();
    assert_eq!(numbers(&library), [30]);
    assert_eq!(numbers(&Library::default()), []);
}

/// With complete nodes: 28 is no fault, and all others are the same but for 30, which goes by the complete list.
#[test]
fn complete() {
    let told = |library: &Library| check_complete(&library.image(), &library.bundle()).faults;
    let sets: [(&[_], &[_]); 2] = [(&[module("m", "")], &[]), (&[module("m", "s")], &[])];
    assert_eq!(told(&of(&sets, &[("m", "include s;"), ("s", "")])), []);
    assert_eq!(told(&of(&sets, &[("m", "include s;include x;")])).iter().map(Refusal::number).collect::<Vec<_>>(), [24, 27]);
    let mut r = Rng::new(83);
    for _ in 0..2_000 {
        let library = libraries::library(&mut r);
        let (image, bundle) = (library.image(), library.bundle());
        let refused = graph_complete(&image, &bundle).and_then(|graph| graph.order().map(drop)).err();
        let others = faults(&library).into_iter().filter(|fault| fault.number() <= 27);
        let due: Vec<Refusal> = others.chain(refused.filter(|refusal| refusal.number() > 27)).collect();
        assert_eq!(told(&library), due);
    }
}

/// Includes that go through two thousand texts, one behind the other: the walk needs no stack for them.
#[test]
fn a_long_chain() {
    let name = |i: usize| format!("s{i}");
    let subs: Vec<String> = (0..2_000).map(name).collect();
    let modules = subs.chunks(64).enumerate().map(|(i, part)| module(&format!("m{i}"), &part.join(" "))).collect::<Vec<_>>();
    let mut library = of(&[(&modules, &[])], &[]);
    library.texts = (0..2_000).map(|i| (name(i), format!("include {};", name(i + 1)))).collect();
    library.texts.extend(modules.iter().map(|m| (m.name.clone(), String::new())));
    library.texts.insert("m0".to_string(), "include s0;".to_string());
    let run = || faults(&library).iter().map(|fault| (fault.number(), key(fault).2)).collect::<Vec<_>>();
    let thread = std::thread::Builder::new().stack_size(512 << 10);
    let told = std::thread::scope(|scope| thread.spawn_scoped(scope, run).expect("a thread").join().expect("an end"));
    assert_eq!(told, [(27, "s2000".to_string()), (30, String::new())]);
}

#[test]
fn broken_forms() {
    let library = small("", "");
    let (image, bundle) = (library.image(), library.bundle());
    for (one, other) in [(&image[..9], &bundle[..]), (&image[..], &bundle[..4]), (&bundle[..], &image[..]), (b"<a/>", &bundle[..])] {
        let checked = check(one, other);
        assert_eq!((checked.faults, checked.warnings.len()), (vec![graph(one, other).expect_err("a refusal")], 0));
    }
}

// ---- what a wrong file looks like

#[test]
fn looks() {
    let library = small("include s;", "");
    let (image, bundle) = (library.image(), library.bundle());
    let looks = |image: &[u8], bundle: &[u8]| match graph(image, bundle).expect_err("a refusal") {
        Refusal::ImageBroken { looks, .. } | Refusal::BundleBroken { looks, .. } => looks,
        other => panic!("{other}"),
    };
    assert_eq!(looks(&bundle, &image), Some(Looks::Swapped));
    assert_eq!(looks(&bundle, &bundle), Some(Looks::Bundle));
    assert_eq!(looks(&image, &image), Some(Looks::Image));
    assert_eq!([looks(b"", &bundle), looks(&image, b"")], [Some(Looks::Empty); 2]);
    for (text, due) in [
        ("<yang-library xmlns='u'/>", Some(Looks::Xml)),
        ("\u{feff} \r\n<?xml version='1.0'?><a/>", Some(Looks::Xml)),
        ("\n#25\n<rpc-reply><data/>", Some(Looks::Xml)),
        ("<!DOCTYPE html><title>404</title>", Some(Looks::Xml)),
        ("{ \"ietf-yang-library:yang-library\": {} }", Some(Looks::Json)),
        ("[\n {}]", Some(Looks::Json)),
        ("module m { }", Some(Looks::Yang)),
        ("/* a */ // b\nsubmodule s { description \"\u{e9}\"; }", Some(Looks::Yang)),
        ("modules", None),
        ("/* module m { }", None),
        ("<", None),
        ("< 5", None),
        ("\u{1}\u{1}m\u{30}module m { }", None),
    ] {
        assert_eq!([looks(text.as_bytes(), &bundle), looks(&image, text.as_bytes())], [due; 2], "{text:?}");
    }
    // a bundle with one byte too many is still none of these, though it holds texts
    for text in ["module m { }", "<a/>", "{\"a\":1}"] {
        let mut long = small(text, "").bundle();
        long.push(0);
        assert_eq!([looks(&long, &bundle), looks(&image, &long)], [None; 2]);
    }
    // nor is one whose first bytes are those of a JSON document: 123 texts, a name of 34 bytes
    let mut many = Library { texts: (0..122).map(|i| (format!("n{i}"), String::new())).collect(), ..Library::default() };
    many.texts.insert("a".repeat(34), "module m { }".to_string());
    let long = [many.bundle(), vec![0]].concat();
    assert_eq!((&long[..2], looks(&image, &long)), (&b"{\""[..], None));
    let swapped = graph(&bundle, &image).expect_err("a refusal").to_string();
    assert!(swapped.ends_with("\nexpected an image, found a bundle\nTo do: the two are swapped: give the image first, then the bundle"), "{swapped}");
}

// ---- generated libraries

/// There is a fault exactly where there is no order; the first is the graph's refusal where that is one of 20 to 27; each comes once, goes away if it is
/// mended, and if all are mended none of 20 to 27 is left.
#[test]
fn generated() {
    let mut r = Rng::new(71);
    let mut seen = [0; 44];
    for _ in 0..4_000 {
        let library = libraries::library(&mut r);
        let (image, bundle) = (library.image(), library.bundle());
        let told = check(&image, &bundle).faults;
        let refused = graph(&image, &bundle).and_then(|graph| graph.order().map(drop)).err();
        assert_eq!(told.is_empty(), refused.is_none());
        if let Some(refused) = refused {
            let place = told.iter().position(|fault| *fault == refused).expect("the graph's refusal");
            assert!(place == 0 || refused.number() > 27, "{refused}");
            assert!(place + 1 == told.len() || refused.number() <= 27, "{refused}");
        }
        assert_eq!(told.iter().map(key).collect::<HashSet<_>>().len(), told.len(), "{told:?}");
        told.iter().for_each(|fault| seen[fault.number() as usize] += 1);
        let in_walk = || told.iter().filter(|fault| fault.number() <= 27);
        let mut whole = library.clone();
        for fault in in_walk() {
            let mut one = library.clone();
            mend(&mut one, fault);
            mend(&mut whole, fault);
            assert!(!faults(&one).iter().map(key).any(|other| other == key(fault)), "{fault}");
        }
        assert!(whole.sets.len() > 16 || is_mended(&whole), "{told:?}, then {:?}", faults(&whole));
    }
    assert!([23, 24, 25, 26, 27, 29, 40].iter().all(|number| seen[*number] > 20), "{seen:?}");
}

/// Damaged ones: a broken form is the one fault.
#[test]
fn damaged() {
    let mut r = Rng::new(73);
    let mut seen = [0; 2];
    for _ in 0..2_000 {
        let library = libraries::library(&mut r);
        let (mut image, mut bundle) = (library.image(), library.bundle());
        let half = if r.once_in(2) { &mut image } else { &mut bundle };
        *half = libraries::damaged(&mut r, half);
        let told = check(&image, &bundle).faults;
        let refused = graph(&image, &bundle).and_then(|graph| graph.order().map(drop)).err();
        match refused {
            Some(refused) if refused.number() <= 21 => {
                seen[refused.number() as usize - 20] += 1;
                assert_eq!(told, [refused]);
            }
            other => assert_eq!(told.is_empty(), other.is_none()),
        }
    }
    assert!(seen.iter().all(|n| *n > 100), "{seen:?}");
}

/// Of a router of the field's size every text that is taken away is missed, and none else.
#[test]
fn a_router_with_holes() {
    let mut r = Rng::new(79);
    for modules in [7, 100, 400] {
        let mut library = routers::router(modules, modules as u64);
        assert_eq!(faults(&library), []);
        let names: Vec<String> = library.texts.keys().cloned().collect();
        let gone: HashSet<String> = (0..5).map(|_| names[r.below(names.len())].clone()).collect();
        gone.iter().for_each(|name| drop(library.texts.remove(name)));
        let told: Vec<_> = faults(&library).iter().map(|fault| (fault.number(), key(fault).2)).collect();
        assert!(told.iter().all(|(number, name)| [23, 24].contains(number) && gone.contains(name)), "{told:?}");
        let has = |set: &Set, name: &str| set.modules.iter().any(|m| m.name == name) || set.import_only.iter().any(|m| m.name == name);
        assert!(gone.iter().filter(|name| library.sets.iter().any(|set| has(set, name))).all(|name| told.contains(&(23, name.clone()))), "{told:?}");
    }
}
