//! What the walk of a library refuses by names and texts alone: 23 to 27, all of it, in the order of the graph's walk. The graph's answer has a number and
//! an entry; the first of one entry's faults is what that entry's walk ended at. The faults of all entries are what `check` tells.
//!
//! A text is gone through once. That keeps the order of first faults, and ends where includes go in a circle.

use crate::form::{self, Name, Set};
use crate::raw::{IMPORT_ROW, INCLUDE_ROW};
use crate::refusal::{By, Entry, Full, Listed, Refusal, Spot, Why};
use crate::{sys, Buffers, ScanRefusal};
use std::collections::{HashMap, HashSet, VecDeque};

/// What is still to be gone through, the next one last.
enum Step<'a> {
    Entry(Full<'a>),
    /// A name of the entry's list, which must be a module.
    Listed(By, &'a str),
    /// A name that the text under the first name includes.
    Include(String, String),
}

/// The faults of some entries, each found as it is asked for, and told once.
pub(crate) struct Walk<'a> {
    /// The names of modules and import-only modules.
    modules: HashSet<&'a str>,
    /// The names of modules' submodules.
    submodules: HashSet<&'a str>,
    texts: HashMap<&'a str, &'a [u8]>,
    buffers: &'a mut Buffers,
    steps: Vec<Step<'a>>,
    /// The entry that is walked.
    entry: Option<Entry>,
    /// The names of the texts that were gone through.
    seen: HashSet<String>,
    found: VecDeque<Refusal>,
    /// Number, who has it, and name of each fault that was found.
    told: HashSet<(u32, String, String)>,
}

/// Names of imports and of includes.
type Dependencies = [Vec<String>; 2];

impl<'a> Walk<'a> {
    /// These entries of the library, one after the other.
    pub fn new(sets: &'a [Set<'a>], bundle: &'a [u8], buffers: &'a mut Buffers, entries: Vec<Full<'a>>) -> Walk<'a> {
        let modules = sets.iter().flat_map(|s| &s.modules);
        let only = sets.iter().flat_map(|s| &s.import_only).map(|m| m.name.text);
        let texts = form::read_bundle(bundle).unwrap_or_default();
        Walk {
            modules: modules.clone().map(|m| m.name.text).chain(only).collect(),
            submodules: modules.flat_map(|m| &m.submodules).map(|n| n.text).collect(),
            texts: texts.iter().map(|t| (t.name.text, t.bytes)).collect(),
            buffers,
            steps: entries.into_iter().rev().map(Step::Entry).collect(),
            entry: None,
            seen: HashSet::new(),
            found: VecDeque::new(),
            told: HashSet::new(),
        }
    }

    fn scan(&mut self, text: &[u8]) -> Result<Dependencies, ScanRefusal> {
        let Buffers { store, imports, includes, .. } = &mut *self.buffers;
        let answer = sys::dependencies(text, store, imports, includes);
        ScanRefusal::of([answer[0], answer[1], answer[2]]).map_or(Ok(()), Err)?;
        let name = |row: &[u32]| String::from_utf8_lossy(&store[row[0] as usize..][..row[1] as usize]).into_owned();
        Ok([
            imports.chunks(IMPORT_ROW).take(answer[3] as usize).map(name).collect(),
            includes.chunks(INCLUDE_ROW).take(answer[4] as usize).map(name).collect(),
        ])
    }

    /// Notes a fault under the name of who has it and the name that it is about, unless it was told.
    fn fault(&mut self, who: &str, name: &str, why: Why) {
        if self.told.insert((why.number(), who.to_string(), name.to_string())) {
            let entry = self.entry.clone().expect("an entry that is walked");
            self.found.push_back(Refusal::Walk { entry, why });
        }
    }

    fn step(&mut self, step: Step<'a>) {
        match step {
            Step::Entry(full) => self.entry(full),
            Step::Listed(by, name) => {
                let entry = self.entry.as_ref().map_or_else(String::new, |entry| entry.name.clone());
                self.module(&format!("{entry} {by}"), by, name);
            }
            Step::Include(text, name) => self.include(&text, &name),
        }
    }

    /// The entry's text, then its augmenting modules, then its deviations.
    fn entry(&mut self, full: Full<'a>) {
        let lists = [(By::Deviation, full.deviations), (By::Augmenting, full.augmenting)];
        let listed = |(by, names): (By, &'a [Name<'a>])| names.iter().rev().map(move |name| Step::Listed(by.clone(), name.text)).collect::<Vec<_>>();
        self.steps.extend(lists.into_iter().flat_map(listed));
        let name = full.entry.name.clone();
        self.entry = Some(full.entry);
        match self.texts.get(name.as_str()).copied() {
            Some(text) => self.text(&name, text),
            None => self.fault("", &name, Why::NoText),
        }
    }

    /// A name that must be a module or an import-only module.
    fn module(&mut self, who: &str, by: By, name: &str) {
        if !self.modules.contains(name) {
            self.fault(who, name, Why::UnknownModule(Some(Listed { by, name: name.to_string() })));
        }
    }

    /// The text under a name: its imports, then what it includes.
    fn text(&mut self, name: &str, text: &[u8]) {
        if !self.seen.insert(name.to_string()) {
            return;
        }
        match self.scan(text) {
            Ok([imports, includes]) => {
                imports.iter().for_each(|other| self.module(name, By::ImportIn(name.to_string()), other));
                self.steps.extend(includes.into_iter().rev().map(|other| Step::Include(name.to_string(), other)));
            }
            Err(scan) => {
                let spot = Some(Spot::of(name, &scan, text));
                self.fault("", name, Why::Scan { scan, spot });
            }
        }
    }

    fn include(&mut self, text: &str, name: &str) {
        let listed = || Some(Listed { by: By::IncludeIn(text.to_string()), name: name.to_string() });
        if !self.submodules.contains(name) {
            return self.fault(text, name, Why::UnknownSubmodule(listed()));
        }
        match self.texts.get(name).copied() {
            Some(bytes) => self.text(name, bytes),
            None => self.fault("", name, Why::NoIncludedText(listed())),
        }
    }

    /// The names of the texts that were gone through so far.
    pub fn seen(self) -> HashSet<String> {
        self.seen
    }
}

impl Iterator for Walk<'_> {
    type Item = Refusal;

    fn next(&mut self) -> Option<Refusal> {
        while self.found.is_empty() {
            let step = self.steps.pop()?;
            self.step(step);
        }
        self.found.pop_front()
    }
}
