//! Library images with bundles, in the house form: several sets, names that come again, import-only modules with several revisions,
//! submodules, includes that circle, texts that are missing.

use crate::rng::Rng;
use crate::texts;
use std::collections::BTreeMap;

#[derive(Clone, Default)]
pub struct Module {
    pub name: String,
    pub submodules: Vec<String>,
    pub augmenting: Vec<String>,
    pub deviations: Vec<String>,
}

#[derive(Clone, Default)]
pub struct ImportOnly {
    pub name: String,
    pub revisions: Vec<Vec<String>>,
}

#[derive(Clone, Default)]
pub struct Set {
    pub modules: Vec<Module>,
    pub import_only: Vec<ImportOnly>,
}

#[derive(Clone, Default)]
pub struct Library {
    pub sets: Vec<Set>,
    pub texts: BTreeMap<String, String>,
}

// ---- written down by hand

pub fn words(names: &str) -> Vec<String> {
    names.split_whitespace().map(|n| n.to_string()).collect()
}

pub fn module(name: &str, submodules: &str) -> Module {
    Module { name: name.to_string(), submodules: words(submodules), ..Module::default() }
}

/// An import-only module; each revision is its submodules.
pub fn only(name: &str, revisions: &[&str]) -> ImportOnly {
    ImportOnly { name: name.to_string(), revisions: revisions.iter().map(|r| words(r)).collect() }
}

pub fn of(sets: &[(&[Module], &[ImportOnly])], texts: &[(&str, &str)]) -> Library {
    let sets = sets.iter().map(|(m, i)| Set { modules: m.to_vec(), import_only: i.to_vec() }).collect();
    Library { sets, texts: texts.iter().map(|(n, t)| (n.to_string(), t.to_string())).collect() }
}

/// Modules m, with submodule s and these two texts, and b, whose text is empty.
pub fn small(m: &str, s: &str) -> Library {
    of(&[(&[module("m", "s"), module("b", "")], &[])], &[("m", m), ("s", s), ("b", "")])
}

/// 1,023 names, 31 modules with 32 submodules each, and in a second set the first module with these.
pub fn nearly_full(again: &str) -> Library {
    let name = |i: usize| format!("n{i}");
    let group = |k: usize| Module { name: name(33 * k), submodules: (33 * k + 1..33 * k + 33).map(name).collect(), ..Module::default() };
    let mut out = of(&[(&[], &[]), (&[module("n0", again)], &[])], &[]);
    out.sets[0].modules = (0..31).map(group).collect();
    out.texts = (0..31).map(|k| (name(33 * k), String::new())).collect();
    out
}

/// The telling inputs of the readings of request 2026-02.
pub fn telling() -> Vec<Library> {
    let [m, b] = ["m", "b"].map(|name| move |submodules: &str| module(name, submodules));
    let with = |sets: &[(&[Module], &[ImportOnly])], text: &str| of(sets, &[("m", text), ("b", ""), ("c", ""), ("s", ""), ("t", "")]);
    let revisions = || [only("b", &["s", "t"])];
    vec![
        with(&[(&[m("")], &[]), (&[m("s")], &[])], "include s;"), // 28 but for complete nodes
        with(&[(&[m(""), b("")], &[]), (&[m("s")], &[])], ""), // the nodes m, b, s
        with(&[(&[m(""), b("")], &[]), (&[module("c", "s t"), m("t s"), b("m")], &[])], "include t;"), // each at its first place
        with(&[(&[m("")], &revisions())], ""), // every revision counts
        with(&[(&[m("")], &revisions())], "include t;"), // but no include finds what it has
        with(&[(&[m("")], &[]), (&[b("t")], &revisions())], "include t;"),
        nearly_full("x"), // 1,024 nodes
        nearly_full("x y"), // one more
    ]
}

/// The telling inputs of the readings of request 2026-10, but for those that go deeper than eight includes, which the original builds.
pub fn included() -> Vec<Library> {
    let rows = |texts: &[(&str, &str)]| {
        let subs: Vec<&str> = texts.iter().map(|(name, _)| *name).filter(|name| !["a", "b"].contains(name)).collect();
        of(&[(&[module("a", &subs.join(" ")), module("b", "")], &[])], texts)
    };
    let listed = |b: &str, texts: &[(&str, &str)]| of(&[(&[module("a", "s"), module("b", b)], &[])], texts);
    vec![
        // nine includes in one text
        rows(&[
            ("a", "include s1;include s2;include s3;include s4;include s5;include s6;include s7;include s8;include s9;"), ("b", "include s5;"), ("s1", ""),
            ("s2", ""), ("s3", ""), ("s4", ""), ("s5", ""), ("s6", ""), ("s7", ""), ("s8", ""), ("s9", ""),
        ]),
        // two includes below one that is met at depth 6 again: as deep as may be
        rows(&[
            ("a", "include t;"), ("b", "include c1;"), ("c1", "include c2;"), ("c2", "include c3;"), ("c3", "include c4;"), ("c4", "include c5;"),
            ("c5", "include t;"), ("t", "include t1;"), ("t1", "include t2;"), ("t2", ""),
        ]),
        listed("b", &[("a", ""), ("b", "include b;")]), // a module that includes itself
        rows(&[("a", "include s;"), ("b", ""), ("s", "include t;"), ("t", "include s;")]), // a circle of two
        rows(&[("a", ""), ("b", "include s;"), ("s", "include t;include t;"), ("t", "")]), // a text that is included twice is none
        of(&[(&[module("a", "")], &[]), (&[module("a", "")], &[])], &[("a", "import")]), // refused at its first entry
        of(&[(&[module("a", "")], &[]), (&[module("a", "")], &[])], &[("b", "")]), // or without a text there
        rows(&[("a", "include s;include t;"), ("b", "include t;"), ("s", ""), ("t", "import b{prefix b;}include s;")]), // both texts that include t
        of(&[(&[module("a", "b s"), module("b", "")], &[])], &[("a", "include b;"), ("b", "import a{prefix a;}include s;"), ("s", "")]), // b is both
        of(&[(&[module("b", ""), module("a", "b s")], &[])], &[("a", "include b;"), ("b", "import a{prefix a;}include s;"), ("s", "")]),
        listed("t", &[("a", "include s;"), ("b", "include s;"), ("s", "include t;")]), // no text below one that is included
    ]
}

// ---- written in the house form

fn number(n: usize, out: &mut Vec<u8>) {
    let mut n = n;
    while n > 127 {
        out.push((n % 128 + 128) as u8);
        n /= 128;
    }
    out.push(n as u8);
}

fn bytes(s: &str, out: &mut Vec<u8>) {
    number(s.len(), out);
    out.extend_from_slice(s.as_bytes());
}

fn names(all: &[String], out: &mut Vec<u8>) {
    number(all.len(), out);
    all.iter().for_each(|n| bytes(n, out));
}

impl Library {
    pub fn image(&self) -> Vec<u8> {
        let mut out = Vec::new();
        number(self.sets.len(), &mut out);
        for set in &self.sets {
            number(set.modules.len(), &mut out);
            for m in &set.modules {
                bytes(&m.name, &mut out);
                names(&m.submodules, &mut out);
                names(&m.augmenting, &mut out);
                names(&m.deviations, &mut out);
            }
            number(set.import_only.len(), &mut out);
            for i in &set.import_only {
                bytes(&i.name, &mut out);
                number(i.revisions.len(), &mut out);
                i.revisions.iter().for_each(|r| names(r, &mut out));
            }
        }
        out
    }

    pub fn bundle(&self) -> Vec<u8> {
        let mut out = Vec::new();
        number(self.texts.len(), &mut out);
        for (name, text) in &self.texts {
            bytes(name, &mut out);
            bytes(text, &mut out);
        }
        out
    }
}

// ---- made

/// Which names a library is made of, and how many of them stand in one list.
struct Shape {
    modules: &'static [&'static str],
    import_only: &'static [&'static str],
    submodules: &'static [&'static str],
    /// Included once in a while, found or not.
    others: &'static [&'static str],
    listed_most: usize,
    revisions_most: usize,
    revision_most: usize,
}

const MODULES: [&str; 8] = ["m", "n", "base", "if", "m-ext", "a.b", "dev", "x"];
const ONLY: [&str; 5] = ["types", "inet", "m", "crypt", "yang"];
const SUBS: [&str; 7] = ["s", "t", "u", "m-sub", "x", "v", "w"];

const ANY: Shape =
    Shape { modules: &MODULES, import_only: &ONLY, submodules: &SUBS, others: &MODULES, listed_most: 2, revisions_most: 3, revision_most: 1 };

/// Few names, so that most come again: as a module of another set, as an import-only module, as a submodule of several.
const REPEATED: Shape = Shape {
    modules: &["m", "n", "base", "x"],
    import_only: &["types", "inet", "m"],
    submodules: &["s", "t", "u", "m-sub", "x", "v", "w", "types"],
    others: &SUBS,
    listed_most: 3,
    revisions_most: 4,
    revision_most: 3,
};

/// Up to `most` different names.
fn some(r: &mut Rng, from: &[&str], most: usize) -> Vec<String> {
    let mut out: Vec<String> = Vec::new();
    for _ in 0..r.below(most + 1) {
        let name = r.pick(from).to_string();
        if !out.contains(&name) {
            out.push(name);
        }
    }
    out
}

fn set(r: &mut Rng, shape: &Shape) -> Set {
    let mut out = Set::default();
    for name in some(r, shape.modules, 4) {
        let submodules = some(r, shape.submodules, shape.listed_most);
        let rare = r.once_in(12);
        let others = if rare { shape.submodules } else { shape.modules };
        let augmenting = if r.once_in(4) { some(r, others, 2) } else { Vec::new() };
        let deviations = if r.once_in(4) { some(r, others, 2) } else { Vec::new() };
        out.modules.push(Module { name, submodules, augmenting, deviations });
    }
    for name in some(r, shape.import_only, 2) {
        let revisions = (0..1 + r.below(shape.revisions_most)).map(|_| some(r, shape.submodules, shape.revision_most)).collect();
        out.import_only.push(ImportOnly { name, revisions });
    }
    out
}

impl Library {
    fn importable(&self) -> Vec<&str> {
        let modules = self.sets.iter().flat_map(|s| s.modules.iter().map(|m| m.name.as_str()));
        let only = self.sets.iter().flat_map(|s| s.import_only.iter().map(|i| i.name.as_str()));
        modules.chain(only).collect()
    }

    fn includable(&self) -> Vec<&str> {
        self.sets.iter().flat_map(|s| &s.modules).flat_map(|m| &m.submodules).map(|n| n.as_str()).collect()
    }
}

/// A text that imports and includes what is there, and once in a while what is not, or what the scan refuses.
fn text(r: &mut Rng, shape: &Shape, library: &Library, place: usize, rank: &[&str]) -> String {
    if r.once_in(150) {
        return texts::any(r);
    }
    let importable = library.importable();
    let mut out = String::new();
    for _ in 0..r.below(3) {
        let name = if r.once_in(60) { r.pick(shape.submodules) } else { r.pick(&importable) };
        out += &format!("import {name} {{ prefix p; }}\n");
    }
    // A submodule includes only later ones, but now and then an earlier one, which may close a circle.
    let later: Vec<&str> = rank[place..].to_vec();
    for _ in 0..r.below(3) {
        let circle = r.once_in(80);
        let from = if circle { rank } else { later.as_slice() };
        if r.once_in(80) {
            out += &format!("include {};\n", r.pick(shape.others));
        } else if !from.is_empty() {
            let name = r.pick(from);
            out += &texts::include(r, name);
        }
    }
    if r.once_in(100) { texts::damaged(r, &out) } else { out }
}

pub fn library(r: &mut Rng) -> Library {
    shaped(r, &ANY)
}

/// A library in which most names come again.
pub fn repeated(r: &mut Rng) -> Library {
    shaped(r, &REPEATED)
}

fn shaped(r: &mut Rng, shape: &Shape) -> Library {
    let mut out = Library { sets: (0..1 + r.below(4)).map(|_| set(r, shape)).collect(), ..Library::default() };
    if out.importable().is_empty() {
        out.sets[0].modules.push(Module { name: "m".to_string(), ..Module::default() });
    }
    // Augmenting modules and deviations that are no module give a refusal: most libraries have none such.
    if !r.once_in(6) {
        let known: Vec<String> = out.importable().iter().map(|n| n.to_string()).collect();
        for m in out.sets.iter_mut().flat_map(|s| &mut s.modules) {
            m.augmenting.retain(|n| known.contains(n));
            m.deviations.retain(|n| known.contains(n));
        }
    }
    let mut rank = out.includable();
    rank.sort();
    rank.dedup();
    let mut texts = BTreeMap::new();
    let entries = out.importable().into_iter().map(|n| (n, 0));
    let subs = rank.iter().enumerate().map(|(i, n)| (*n, i + 1));
    for (name, place) in entries.chain(subs) {
        if !texts.contains_key(name) && !r.once_in(60) {
            texts.insert(name.to_string(), text(r, shape, &out, place, &rank));
        }
    }
    if r.once_in(5) {
        texts.insert("draft".to_string(), texts::any(r));
    }
    out.texts = texts;
    out
}

/// Texts that include each other, up to so many submodules: many are included by several, chains of them are long, some come back to themselves. Some names
/// are a module and a submodule, some modules stand in two sets with other submodules, some texts are missing or refused.
pub fn nested(r: &mut Rng, most: usize) -> Library {
    let subs: Vec<String> = (0..3 + r.below(most - 2)).map(|i| format!("s{i}")).collect();
    let all: Vec<&str> = subs.iter().map(|name| name.as_str()).collect();
    let mut names: Vec<String> = (0..1 + r.below(4)).map(|i| format!("m{i}")).collect();
    if r.once_in(4) {
        names.insert(r.below(names.len() + 1), r.pick(&all).to_string());
    }
    let mut out = Library { sets: vec![Set::default(); 1 + r.below(2)], ..Library::default() };
    let last = out.sets.len() - 1;
    for name in &names {
        let submodules = some(r, &all, 3);
        out.sets[r.below(last + 1)].modules.push(Module { name: name.clone(), submodules, ..Module::default() });
    }
    // Mostly all of them are found, the last ones once in a while in a second listing alone.
    let (found, first) = (if r.once_in(10) { r.below(subs.len()) } else { subs.len() }, if r.once_in(5) { r.below(subs.len()) } else { subs.len() });
    let again = |from: usize, to: usize| Module { name: "m".to_string(), submodules: subs[from.min(to)..to].to_vec(), ..Module::default() };
    out.sets[0].modules.insert(0, again(0, first.min(found)));
    if last == 1 {
        out.sets[1].modules.push(again(first, found));
    }
    if r.once_in(4) {
        out.sets[last].import_only.push(ImportOnly { name: "i".to_string(), revisions: vec![some(r, &all, 2)] });
    }
    let [far, circles] = [1 + r.below(3), if r.once_in(3) { 12 } else { 400 }];
    let known: Vec<String> = out.importable().iter().map(|name| name.to_string()).collect();
    for (name, next) in known.iter().map(|name| (name, 0)).chain(subs.iter().zip(1..)) {
        if r.once_in(80) || out.texts.contains_key(name) {
            continue;
        }
        let next = subs.iter().position(|sub| sub == name).map_or(next, |place| place + 1);
        let mut text = if r.once_in(4) { format!("import {} {{ prefix p; }}\n", known[r.below(known.len())]) } else { String::new() };
        for _ in 0..r.below(4) {
            let reach = if next == 0 { subs.len() } else { (next + far).min(subs.len()) };
            let place = if r.once_in(circles) { r.below(subs.len()) } else if next < reach { next + r.below(reach - next) } else { continue };
            text += &texts::include(r, &subs[place]);
        }
        out.texts.insert(name.clone(), if r.once_in(120) { texts::damaged(r, &text) } else { text });
    }
    out
}

/// Hundreds of names that come again, around the most nodes that there may be. Every name has a text, few texts include.
pub fn crowded(r: &mut Rng) -> Library {
    let names: Vec<String> = (0..700 + r.below(800)).map(|i| format!("n{i}")).collect();
    let all: Vec<&str> = names.iter().map(|n| n.as_str()).collect();
    let (entries, subs) = all.split_at(200 + r.below(300));
    let mut out = Library { texts: names.iter().map(|n| (n.clone(), String::new())).collect(), ..Library::default() };
    for _ in 0..1 + r.below(16) {
        let mut set = Set::default();
        for name in some(r, entries, 80) {
            set.modules.push(Module { name, submodules: some(r, subs, 6), ..Module::default() });
        }
        let only = if r.once_in(4) { &all } else { entries };
        for name in some(r, only, 30) {
            set.import_only.push(ImportOnly { name, revisions: (0..1 + r.below(8)).map(|_| some(r, subs, 2)).collect() });
        }
        out.sets.push(set);
    }
    let (known, found) = (out.importable(), out.includable());
    let mut text = || {
        let imports: String = (0..r.below(12)).map(|_| format!("import {}{{prefix p;}}", r.pick(&known))).collect();
        let include = if r.once_in(100) && !found.is_empty() { format!("include {};", r.pick(&found)) } else { String::new() };
        imports + &include
    };
    let texts: Vec<(String, String)> = known.iter().map(|n| (n.to_string(), text())).collect();
    out.texts.extend(texts);
    out
}

/// A chain of seven to ten includes, around the deepest. Half of the time some of them are submodules in a second set only; of some the last has no text.
pub fn deep(r: &mut Rng) -> Library {
    let chain: Vec<String> = (0..7 + r.below(4)).map(|i| format!("s{i}")).collect();
    let (first, second) = chain.split_at(if r.once_in(2) { r.below(chain.len()) } else { chain.len() });
    let [first, second] = [first, second].map(|names| [Module { submodules: names.to_vec(), ..module("m", "") }]);
    let mut out = of(&[(&first, &[]), (&second, &[])], &[("m", "include s0;")]);
    out.texts.extend(chain.windows(2).map(|pair| (pair[0].clone(), format!("include {};", pair[1]))));
    if !r.once_in(4) {
        out.texts.insert(chain[chain.len() - 1].clone(), String::new());
    }
    out
}

/// A copy of an image or bundle with one fault.
pub fn damaged(r: &mut Rng, form: &[u8]) -> Vec<u8> {
    let mut out = form.to_vec();
    let at = r.below(form.len().max(1));
    match r.below(4) {
        0 => out.truncate(at),
        1 if !form.is_empty() => out[at] = r.pick(&[0, 1, 2, 32, 65, 127, 128, 129, 255]),
        2 => out.insert(at, r.pick(&[0, 1, 3, 65, 128])),
        _ => out.push(r.below(256) as u8),
    }
    out
}
