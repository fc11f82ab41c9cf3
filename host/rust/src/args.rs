//! The words of the command line.

use std::ffi::{OsStr, OsString};

/// Options that stand alone, and those with a word behind them.
const FLAGS: [&str; 7] = ["--json", "--help", "-h", "--version", "--all", "--complete", "--whole"];
const VALUED: [&str; 4] = ["--into", "--keyword", "--at", "--seconds"];

/// Words in their order, and the options among them, which may stand anywhere before `--`.
#[derive(Debug, Default)]
pub struct Args {
    pub words: Vec<OsString>,
    options: Vec<(&'static str, Option<OsString>)>,
}

impl Args {
    /// `Err` says what is not understood.
    pub fn read(all: impl Iterator<Item = OsString>) -> Result<Args, String> {
        let (mut args, mut all) = (Args::default(), all);
        while let Some(word) = all.next() {
            let known = |names: &[&'static str]| names.iter().copied().find(|name| word == *name);
            if word == "--" {
                args.words.extend(all.by_ref());
            } else if let Some(flag) = known(&FLAGS) {
                args.options.push((flag, None));
            } else if let Some(option) = known(&VALUED) {
                let value = all.next().ok_or(format!("{option} needs a word behind it"))?;
                args.options.push((option, Some(value)));
            } else if word.to_string_lossy().starts_with('-') && word != "-" {
                return Err(format!("{} is no option", word.to_string_lossy()));
            } else {
                args.words.push(word);
            }
        }
        Ok(args)
    }

    pub fn has(&self, flag: &str) -> bool {
        self.options.iter().any(|(name, _)| *name == flag)
    }

    pub fn asks_help(&self) -> bool {
        self.has("--help") || self.has("-h")
    }

    /// The word behind an option; the last one counts.
    pub fn value(&self, option: &str) -> Option<&OsStr> {
        self.options.iter().rev().find(|(name, _)| *name == option).and_then(|(_, value)| value.as_deref())
    }

    /// The first option that is none of these.
    pub fn beside(&self, known: &[&str]) -> Option<&'static str> {
        self.options.iter().map(|(name, _)| *name).find(|name| !known.contains(name))
    }
}
