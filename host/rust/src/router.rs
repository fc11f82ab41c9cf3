//! One router of a folder: its order of registration, worked out here or in a process of its own, which ends itself when its time is up. (A call of the
//! library cannot be interrupted inside a thread.)

use crate::args::Args;
use crate::io::{print, read_into};
use crate::json;
use nuvaleta::{Buffers, BUNDLE_MOST, IMAGE_MOST};
use std::ffi::OsStr;
use std::fs::{self, File};
use std::io;
use std::os::unix::ffi::OsStrExt;
use std::path::Path;
use std::process::{exit, Command, ExitCode, Stdio};
use std::thread;
use std::time::Duration;

/// The files of a router are its name with one of these behind it.
pub const ENDINGS: [&str; 2] = [".image", ".bundle"];
/// The word by which this program calls itself for one router.
pub const ALONE: &str = "(one router)";
/// With this exit status such a process ends when its time is up.
const TIME_UP: u8 = 3;

/// A router of a folder, and whether there is an image, and a bundle.
pub struct Router<'a> {
    pub folder: &'a Path,
    pub name: &'a OsStr,
    pub halves: [bool; 2],
    /// Whether its graph is drawn with complete nodes.
    pub complete: bool,
}

/// How one ends.
pub enum Outcome {
    /// The names, one a line.
    InOrder { names: String, edges: usize },
    /// In words and as JSON.
    Refused { said: String, json: String },
    NotReadable(String),
    /// `after ..` or `since ..`.
    GivenUp(String),
}

/// A name on a line: control characters, backslashes and bytes that are not UTF-8 are escaped, so that no two names look the same.
pub fn shown(name: &OsStr) -> String {
    let escape = |c: char| if c.is_control() || c == '\\' { c.escape_default().to_string() } else { c.to_string() };
    let (mut out, mut rest) = (String::new(), name.as_bytes());
    loop {
        let good = std::str::from_utf8(rest).map_or_else(|e| e.valid_up_to(), str::len);
        out.extend(String::from_utf8_lossy(&rest[..good]).chars().map(escape));
        match rest.get(good) {
            Some(byte) => out += &format!("\\x{byte:02x}"),
            None => return out,
        }
        rest = &rest[good + 1..];
    }
}

/// A file, or so much of it that it is seen to be too long. What is no plain file, and might never end, is not opened.
fn read(path: &Path, most: usize, out: &mut Vec<u8>) -> io::Result<()> {
    out.clear();
    let about = fs::metadata(path)?;
    if !about.is_file() {
        return Err(io::Error::new(io::ErrorKind::Other, "no plain file"));
    }
    out.reserve((about.len() as usize).min(most) + 1);
    read_into(File::open(path)?, most, out)
}

// ---- here

/// What is used for one router after the other.
pub struct Bench {
    buffers: Buffers,
    image: Vec<u8>,
    bundle: Vec<u8>,
}

impl Bench {
    pub fn new() -> Bench {
        Bench { buffers: Buffers::new(), image: Vec::new(), bundle: Vec::new() }
    }

    pub fn order(&mut self, router: &Router) -> Outcome {
        if let Err(why) = self.read(router) {
            return Outcome::NotReadable(why);
        }
        let draw = if router.complete { Buffers::graph_complete } else { Buffers::graph };
        match draw(&mut self.buffers, &self.image, &self.bundle).and_then(|graph| Ok((graph.order()?, graph.edges.len()))) {
            Ok((order, edges)) => Outcome::InOrder { names: order.to_string(), edges },
            Err(refusal) => Outcome::Refused { said: refusal.to_string(), json: json::refusal(&refusal) },
        }
    }

    fn read(&mut self, router: &Router) -> Result<(), String> {
        let into = [(&mut self.image, IMAGE_MOST), (&mut self.bundle, BUNDLE_MOST)];
        for (((out, most), there), ending) in into.into_iter().zip(router.halves).zip(ENDINGS) {
            let mut file = router.name.to_os_string();
            file.push(ending);
            let told = |e: &dyn std::fmt::Display| format!("{}: {e}", shown(&file));
            if !there {
                return Err(told(&"no such file beside the other half"));
            }
            read(&router.folder.join(&file), most, out).map_err(|e| told(&e))?;
        }
        Ok(())
    }
}

// ---- in a process of its own

impl Outcome {
    /// As such a process prints it: a line with the kind and a number, then the rest. Of a refusal the number says how long the JSON is.
    fn written(&self) -> String {
        match self {
            Outcome::InOrder { names, edges } => format!("in_order {edges}\n{names}"),
            Outcome::Refused { said, json } => format!("refused {}\n{json}{said}", json.len()),
            Outcome::NotReadable(why) | Outcome::GivenUp(why) => format!("not_readable 0\n{why}"),
        }
    }

    fn read(written: &str) -> Option<Outcome> {
        let (line, rest) = written.split_once('\n')?;
        let (kind, number) = line.split_once(' ')?;
        let number: usize = number.parse().ok()?;
        Some(match kind {
            "in_order" => Outcome::InOrder { names: rest.to_string(), edges: number },
            "refused" => Outcome::Refused { said: rest.get(number..)?.to_string(), json: rest[..number].to_string() },
            _ => Outcome::NotReadable(rest.to_string()),
        })
    }
}

/// The same as `Bench::order`, given up after so many seconds.
pub fn order_within(router: &Router, seconds: u32) -> Outcome {
    let this = match std::env::current_exe() {
        Ok(this) => this,
        Err(e) => return Outcome::GivenUp(format!("since this program is not found: {e}")),
    };
    let words = [OsStr::new(&seconds.to_string()), router.folder.as_os_str(), router.name].map(OsStr::to_os_string);
    let option = router.complete.then_some("--complete");
    let ran = Command::new(this).arg(ALONE).args(option).arg("--").args(words).stdin(Stdio::null()).stderr(Stdio::null()).output();
    match ran {
        Ok(ran) if ran.status.code() == Some(i32::from(TIME_UP)) => Outcome::GivenUp(format!("after {seconds} s")),
        Ok(ran) => {
            let read = if ran.status.success() { Outcome::read(&String::from_utf8_lossy(&ran.stdout)) } else { None };
            read.unwrap_or_else(|| Outcome::GivenUp(format!("since its process has failed, {}", ran.status)))
        }
        Err(e) => Outcome::GivenUp(format!("since no process can be started: {e}")),
    }
}

/// Such a process: the seconds, the folder and the name, of which both files are there.
pub fn alone(args: &Args) -> ExitCode {
    let (seconds, folder, name) = match args.words.as_slice() {
        [seconds, folder, name] => (seconds.to_str().and_then(|seconds| seconds.parse().ok()), folder, name),
        _ => return ExitCode::from(2),
    };
    let seconds = match seconds {
        Some(seconds) => Duration::from_secs(seconds),
        None => return ExitCode::from(2),
    };
    let clock = thread::Builder::new().spawn(move || {
        thread::sleep(seconds);
        exit(i32::from(TIME_UP))
    });
    let router = Router { folder: Path::new(folder), name, halves: [true; 2], complete: args.has("--complete") };
    match clock {
        Ok(_) => print(0, &Bench::new().order(&router).written()),
        Err(_) => ExitCode::from(2),
    }
}
