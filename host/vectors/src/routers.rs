//! Libraries of modules that look written by hand.

use crate::libraries::{ImportOnly, Library, Module, Set};
use crate::rng::Rng;
use std::collections::BTreeMap;

fn name(i: usize) -> String {
    format!("example-module-{i:04}")
}

/// A small text as they are written: its head, what it imports and includes, the data of a part with this number, and more.
fn written(head: &str, imports: &[usize], includes: &[String], part: &str, more: &str) -> String {
    let mut out = head.to_string();
    for other in imports {
        out += &format!("  import {} {{\n    prefix m{other};\n    reference\n      \"RFC 0000: Module {other}\";\n  }}\n", name(*other));
    }
    includes.iter().for_each(|include| out += &format!("  include {include};\n"));
    out += "\n  organization\n    \"Example working group\";\n  contact\n    \"WG list: <mailto:list@example.org>\";\n";
    out += "  description\n    \"What a router tells of one of its parts.\";\n\n  revision 2024-05-01 {\n    description\n      \"First version.\";\n  }\n\n";
    out += &format!("  container part-{part} {{\n    config false;\n");
    for leaf in 0..8 {
        out += &format!("    leaf counter-{leaf} {{\n      type uint64;\n      description\n        \"Packets that were counted.\";\n    }}\n");
    }
    out + "  }\n" + more + "}\n"
}

fn module_head(i: usize) -> String {
    let own = name(i);
    format!("module {own} {{\n  yang-version 1.1;\n  namespace \"urn:example:yang:{own}\";\n  prefix m{i};\n\n")
}

/// So many different ones of the modules, chosen evenly, and not the one that imports them.
fn imports(r: &mut Rng, own: usize, modules: usize, count: usize) -> Vec<usize> {
    let mut out = Vec::new();
    while out.len() < count {
        let other = r.below(modules);
        if other != own && !out.contains(&other) {
            out.push(other);
        }
    }
    out
}

/// So many modules with so many imports each, spread evenly over so many sets. The imports may make rings.
pub fn made(modules: usize, each: usize, sets: usize, seed: u64) -> Library {
    let mut r = Rng::new(seed);
    let mut library = Library { sets: vec![Set::default(); sets], ..Library::default() };
    for i in 0..modules {
        let module = Module { name: name(i), ..Module::default() };
        library.sets[i * sets / modules].modules.push(module);
        library.texts.insert(name(i), written(&module_head(i), &imports(&mut r, i, modules, each), &[], &i.to_string(), ""));
    }
    library
}

/// So many modules that all list and include the same submodules, so many; each text has so many imports, a module's of modules before it.
pub fn sharing(modules: usize, submodules: usize, each: usize, seed: u64) -> Library {
    let mut r = Rng::new(seed);
    let shared: Vec<String> = (0..submodules).map(|k| format!("example-shared-part{k:02}")).collect();
    let mut library = Library { sets: vec![Set::default()], ..Library::default() };
    for i in 0..modules {
        library.sets[0].modules.push(Module { name: name(i), submodules: shared.clone(), ..Module::default() });
        let others = imports(&mut r, i, i, each.min(i));
        library.texts.insert(name(i), written(&module_head(i), &others, &shared, &i.to_string(), ""));
    }
    for (k, own) in shared.iter().enumerate() {
        let head = format!("submodule {own} {{\n  yang-version 1.1;\n  belongs-to {} {{\n    prefix m0;\n  }}\n\n", name(0));
        let others = imports(&mut r, modules, modules, each);
        library.texts.insert(own.clone(), written(&head, &others, &[], &format!("shared-{k}"), ""));
    }
    library
}

// ---- a router, whose library has an order of registration

/// The most modules of a router: a library has room for them and their submodules.
pub const MODULES_MOST: usize = 800;
const NODES_MOST: usize = 1_024;
/// The most imports of a text.
const IMPORTS: usize = 12;

/// Up to so many of the modules before this one.
fn earlier(r: &mut Rng, i: usize) -> Vec<usize> {
    let count = r.below(IMPORTS + 1).min(i);
    imports(r, i, i, count)
}

/// Once in a while a text augments or deviates from what it imports: the statements, and the modules on whose lists its own is then put.
struct Changes {
    statements: String,
    augmented: Vec<usize>,
    deviated: Vec<usize>,
}

fn changes(r: &mut Rng, imports: &[usize], part: &str) -> Changes {
    let mut out = Changes { statements: String::new(), augmented: Vec::new(), deviated: Vec::new() };
    for i in imports {
        let path = format!("/m{i}:part-{i}");
        match r.below(40) {
            0..=4 => {
                out.statements += &format!("\n  augment \"{path}\" {{\n    leaf more-{part} {{\n      type uint64;\n    }}\n  }}\n");
                out.augmented.push(*i);
            }
            5 => {
                out.statements += &format!("\n  deviation \"{path}/m{i}:counter-7\" {{\n    deviate replace {{\n      type uint32;\n    }}\n  }}\n");
                out.deviated.push(*i);
            }
            _ => {}
        }
    }
    out
}

struct Router {
    modules: Vec<Module>,
    texts: BTreeMap<String, String>,
    /// How many submodules there is room for.
    room: usize,
}

impl Router {
    /// The text of a module or one of its submodules; what it augments or deviates from hears of the module, once.
    fn text(&mut self, r: &mut Rng, i: usize, part: &str, head: &str, includes: &[String]) -> String {
        let imports = earlier(r, i);
        let changes = changes(r, &imports, part);
        for (others, deviates) in [(&changes.augmented, false), (&changes.deviated, true)] {
            for other in others {
                let module = &mut self.modules[*other];
                let list = if deviates { &mut module.deviations } else { &mut module.augmenting };
                if list.len() < 64 && list.last() != Some(&name(i)) {
                    list.push(name(i));
                }
            }
        }
        written(head, &imports, includes, part, &changes.statements)
    }

    /// Module i, once in ten times with one to four submodules, of which each may include the next.
    fn add(&mut self, r: &mut Rng, i: usize) {
        let count = if r.once_in(10) { (1 + r.below(4)).min(self.room) } else { 0 };
        self.room -= count;
        let submodules: Vec<String> = (0..count).map(|k| format!("{}-part{k}", name(i))).collect();
        self.modules.push(Module { name: name(i), submodules: submodules.clone(), ..Module::default() });
        let text = self.text(r, i, &i.to_string(), &module_head(i), &submodules);
        self.texts.insert(name(i), text);
        for (k, own) in submodules.iter().enumerate() {
            let head = format!("submodule {own} {{\n  yang-version 1.1;\n  belongs-to {} {{\n    prefix m{i};\n  }}\n\n", name(i));
            let next = if r.once_in(2) { &submodules[k + 1..(k + 2).min(count)] } else { &[] };
            let text = self.text(r, i, &format!("{i}-{k}"), &head, next);
            self.texts.insert(own.to_string(), text);
        }
    }
}

/// A library of so many modules, up to `MODULES_MOST`, in 1 to 16 sets, with submodules, import-only modules, augmentations and deviations. Each imports
/// only what has a lower number, so there is no ring; where they stand in the library is drawn.
pub fn router(modules: usize, seed: u64) -> Library {
    assert!(modules <= MODULES_MOST);
    let mut r = Rng::new(seed);
    let mut router = Router { modules: Vec::new(), texts: BTreeMap::new(), room: NODES_MOST - modules };
    (0..modules).for_each(|i| router.add(&mut r, i));
    let least = 1 + modules / 512;
    let mut sets = vec![Set::default(); least + r.below(17 - least)];
    let mut left = router.modules;
    while !left.is_empty() {
        let module = left.swap_remove(r.below(left.len()));
        let set = (modules - left.len() - 1) * sets.len() / modules;
        // what is import-only has no lists, and its submodules are not found by an include
        let plain = module.submodules.is_empty() && module.augmenting.is_empty() && module.deviations.is_empty();
        if plain && r.once_in(8) {
            sets[set].import_only.push(ImportOnly { name: module.name, revisions: vec![Vec::new(); 1 + r.below(2)] });
        } else {
            sets[set].modules.push(module);
        }
    }
    Library { sets, texts: router.texts }
}
