//! nuvaleta, the command over the crate: src/help says what each of its commands does.
//! Exit status 0, or 1 for a refusal, or 2 for words that are not understood and files that cannot be read.

#![deny(unsafe_code)]

mod all;
mod args;
mod explain;
mod io;
mod json;
mod pack;
mod router;

use args::Args;
use io::{print, read, say};
use nuvaleta::{Refusal, ScanRefusal, Spot};
use std::ffi::OsStr;
use std::fmt::Display;
use std::path::Path;
use std::process::ExitCode;

/// What keeps a command from its work.
pub enum Wrong {
    /// Words that are not understood, and why, if that is not plain from the usage line.
    Usage(String),
    /// A file that cannot be read.
    File(String),
}

type Ended = Result<ExitCode, Wrong>;

struct Command {
    name: &'static str,
    /// The lines before the first empty one are the usage.
    help: &'static str,
    options: &'static [&'static str],
    run: fn(&Args) -> Ended,
}

const HELP: &str = include_str!("help/nuvaleta.txt");

const COMMANDS: [Command; 8] = [
    Command { name: "deps", help: include_str!("help/deps.txt"), options: &["--json", "--whole"], run: deps },
    Command { name: "meta", help: include_str!("help/meta.txt"), options: &["--json", "--whole"], run: meta },
    Command { name: "graph", help: include_str!("help/graph.txt"), options: &["--json", "--complete"], run: graph },
    Command {
        name: "order",
        help: include_str!("help/order.txt"),
        options: &["--json", "--complete", "--all", "--into", "--seconds"],
        run: order,
    },
    Command { name: "check", help: include_str!("help/check.txt"), options: &["--json", "--complete"], run: check },
    Command { name: "texts", help: include_str!("help/texts.txt"), options: &["--json"], run: texts },
    Command { name: "pack", help: include_str!("help/pack.txt"), options: &["--json"], run: pack },
    Command { name: "explain", help: include_str!("help/explain.txt"), options: &["--json", "--keyword", "--at"], run: explain::run },
];

fn usage<T>() -> Result<T, Wrong> {
    Err(Wrong::Usage(String::new()))
}

// ---- answers

/// Prints an answer, or says its refusal; with --json both are printed.
fn end<R: Display>(args: &Args, told: Result<String, R>, refusal: impl Fn(&R) -> String) -> ExitCode {
    match told {
        Ok(text) => print(0, &text),
        Err(why) if args.has("--json") => print(1, &format!("{{\"refused\":{}}}\n", refusal(&why))),
        Err(why) => say(1, why),
    }
}

/// An answer as it is printed, for a person or as JSON.
fn shaped<T: Display>(args: &Args, answer: &T, json: impl Fn(&T) -> String) -> String {
    if args.has("--json") { json(answer) + "\n" } else { answer.to_string() }
}

/// The refusal of a single text, said as a graph says that of one of its texts.
struct Refused {
    scan: ScanRefusal,
    spot: Spot,
}

impl Display for Refused {
    fn fmt(&self, f: &mut std::fmt::Formatter<'_>) -> std::fmt::Result {
        let Refused { scan, spot } = self;
        write!(f, "refused {}: {spot}: {}{}\nTo do: {}", scan.number(), scan.words(), spot.shown(), scan.advice())
    }
}

fn scanned<T: Display>(args: &Args, scan: fn(&[u8]) -> Result<T, ScanRefusal>, json: fn(&T) -> String) -> Ended {
    let file = match args.words.as_slice() {
        [file] => file,
        _ => return usage(),
    };
    let text = read(file, nuvaleta::TEXT_MOST).map_err(Wrong::File)?;
    let refused = |scan: ScanRefusal| Refused { scan, spot: Spot::of(io::called(file), &scan, &text) };
    let told = scan(&text).map(|found| shaped(args, &found, json)).map_err(refused);
    Ok(end(args, told, |refused| json::scan_refusal(&refused.scan, &refused.spot)))
}

fn deps(args: &Args) -> Ended {
    scanned(args, if args.has("--whole") { nuvaleta::dependencies_whole } else { nuvaleta::dependencies }, json::dependencies)
}

fn meta(args: &Args) -> Ended {
    scanned(args, if args.has("--whole") { nuvaleta::metadata_whole } else { nuvaleta::metadata }, json::metadata)
}

/// The image and the bundle of two files, of which one may be `-`, standard input.
fn both(args: &Args) -> Result<[Vec<u8>; 2], Wrong> {
    let (image, bundle) = match args.words.as_slice() {
        [image, bundle] if image == "-" && bundle == "-" => return Err(Wrong::Usage("one of the two alone can be standard input".to_string())),
        [image, bundle] => (image, bundle),
        _ => return usage(),
    };
    Ok([half(image)?, half(bundle)?])
}

/// An image or a bundle, which may be the wrong one of the two; of a folder it is said how one is made.
fn half(file: &OsStr) -> Result<Vec<u8>, Wrong> {
    let folder = |why: String| if Path::new(file).is_dir() { why + ": run `nuvaleta pack folder FOLDER IMAGE BUNDLE`" } else { why };
    read(file, nuvaleta::BUNDLE_MOST).map_err(|why| Wrong::File(folder(why)))
}

/// What is made of the graph of two files.
fn drawn(args: &Args, made: fn(&Args, nuvaleta::Graph) -> Result<String, Refusal>) -> Ended {
    let [image, bundle] = both(args)?;
    let draw = if args.has("--complete") { nuvaleta::graph_complete } else { nuvaleta::graph };
    let told = draw(&image, &bundle).and_then(|graph| made(args, graph));
    Ok(end(args, told, json::refusal))
}

fn check(args: &Args) -> Ended {
    let [image, bundle] = both(args)?;
    let check = if args.has("--complete") { nuvaleta::check_complete } else { nuvaleta::check };
    let checked = check(&image, &bundle);
    Ok(print(u8::from(!checked.faults.is_empty()), &shaped(args, &checked, json::checked)))
}

fn texts(args: &Args) -> Ended {
    let file = match args.words.as_slice() {
        [file] => file,
        _ => return usage(),
    };
    let bundle = half(file)?;
    let plainly = |texts: &[nuvaleta::About]| texts.iter().map(nuvaleta::About::to_string).collect::<String>();
    let told = nuvaleta::texts(&bundle).map(|texts| if args.has("--json") { json::texts(&texts) + "\n" } else { plainly(&texts) });
    Ok(end(args, told, json::refusal))
}

fn graph(args: &Args) -> Ended {
    drawn(args, |args, graph| Ok(shaped(args, &graph, json::graph)))
}

fn order(args: &Args) -> Ended {
    match (args.has("--all"), args.words.as_slice()) {
        (true, [folder]) => Ok(all::run(folder, args, seconds(args)?)),
        (false, _) if !args.has("--into") && !args.has("--seconds") => drawn(args, |args, graph| Ok(shaped(args, &graph.order()?, json::order))),
        _ => usage(),
    }
}

/// What stands behind --seconds.
fn seconds(args: &Args) -> Result<Option<u32>, Wrong> {
    let number = |word: &OsStr| word.to_str().and_then(|word| word.parse().ok()).filter(|seconds| (1..=86_400).contains(seconds));
    let wrong = |word: &OsStr| Wrong::Usage(format!("--seconds takes a number from 1 to 86400, not {}", word.to_string_lossy()));
    args.value("--seconds").map(|word| number(word).ok_or_else(|| wrong(word))).transpose()
}

fn pack(_: &Args) -> Ended {
    Err(Wrong::Usage("packing is done by host/pack/pack, which the script nuvaleta of the repository calls".to_string()))
}

// ---- words

/// The help of a command, or of all.
fn help(words: &[std::ffi::OsString]) -> Ended {
    match words {
        [] => Ok(print(0, HELP)),
        [name] => match COMMANDS.iter().find(|command| name == command.name) {
            Some(command) => Ok(print(0, command.help)),
            None => Err(Wrong::Usage(format!("{} is no command", name.to_string_lossy()))),
        },
        _ => usage(),
    }
}

fn run(command: &Command, args: &Args) -> Ended {
    match args.beside(command.options) {
        _ if args.asks_help() => Ok(print(0, command.help)),
        Some(option) => Err(Wrong::Usage(format!("{} has no {option}", command.name))),
        None => (command.run)(args),
    }
}

/// Says what is wrong, with the usage if it is the words.
fn wrong(why: Wrong, help: &str) -> ExitCode {
    match why {
        Wrong::File(why) => say(2, format!("nuvaleta: {why}")),
        Wrong::Usage(why) => {
            let why = if why.is_empty() { why } else { format!("nuvaleta: {why}\n") };
            say(2, format!("{why}{}", help.split("\n\n").next().unwrap_or_default()))
        }
    }
}

fn main() -> ExitCode {
    if let Some(ended) = pack::run(std::env::args_os().skip(1).collect()) {
        return ended;
    }
    let mut args = match Args::read(std::env::args_os().skip(1)) {
        Ok(args) => args,
        Err(why) => return wrong(Wrong::Usage(why), HELP),
    };
    if args.words.is_empty() {
        return match () {
            _ if args.asks_help() => print(0, HELP),
            _ if args.has("--version") => print(0, concat!("nuvaleta ", env!("CARGO_PKG_VERSION"), "\n")),
            _ => wrong(Wrong::Usage(String::new()), HELP),
        };
    }
    let word = args.words.remove(0);
    if word == "help" {
        return help(&args.words).unwrap_or_else(|why| wrong(why, HELP));
    }
    if word == router::ALONE {
        return router::alone(&args);
    }
    match COMMANDS.iter().find(|command| word == command.name) {
        Some(command) => run(command, &args).unwrap_or_else(|why| wrong(why, command.help)),
        None => wrong(Wrong::Usage(format!("{} is no command", word.to_string_lossy())), HELP),
    }
}
