//! `nuvaleta pack`, where the command was installed: the Python program that stands below libexec, beside the folder of this one.

use crate::io::say;
use std::ffi::OsString;
use std::os::unix::process::CommandExt;
use std::path::PathBuf;
use std::process::{Command, ExitCode};

/// The words for it, if packing is asked for.
fn words(mut given: Vec<OsString>) -> Option<Vec<OsString>> {
    let at = |place: usize, word: &str| given.get(place).map_or(false, |one| one == word);
    if at(0, "pack") {
        given.remove(0);
    } else if at(0, "--json") && at(1, "pack") {
        given.drain(..2);
        given.push("--json".into());
    } else {
        return None;
    }
    Some(given)
}

/// This program, and the one that packs.
fn programs() -> Option<(PathBuf, PathBuf)> {
    let own = std::env::current_exe().ok()?;
    let other = own.parent()?.parent()?.join("libexec/nuvaleta/pack");
    other.is_file().then(|| (own, other))
}

/// Becomes the program that packs, if that is asked for and it is there.
pub fn run(given: Vec<OsString>) -> Option<ExitCode> {
    let words = words(given)?;
    let (own, other) = programs()?;
    let why = Command::new(&other).args(words).env("NUVALETA", own).exec();
    Some(say(2, format!("nuvaleta: {}: {why}", other.display())))
}
