//! nuvaleta order --all FOLDER: the orders of registration of all routers of a folder, on all processors at hand. A router is a pair of files,
//! NAME.image and NAME.bundle.

use crate::args::Args;
use crate::io::{printed, put, say};
use crate::json;
use crate::router::{order_within, shown, Bench, Outcome, Router, ENDINGS};
use std::collections::BTreeMap;
use std::ffi::{OsStr, OsString};
use std::fs::{self, File};
use std::io::{self, Write};
use std::os::unix::ffi::OsStrExt;
use std::path::Path;
use std::process::ExitCode;
use std::sync::atomic::{AtomicUsize, Ordering};
use std::sync::mpsc::{self, Receiver, RecvTimeoutError, Sender};
use std::sync::{Condvar, Mutex};
use std::thread;
use std::time::{Duration, Instant};

const ROUTERS_MOST: usize = 400;
/// More than nuvaleta::raw::STACK_MOST.
const STACK: usize = 2 << 20;

/// What is asked for.
struct Job<'a> {
    folder: &'a Path,
    into: Option<&'a Path>,
    json: bool,
    /// Whether graphs are drawn with complete nodes.
    complete: bool,
    /// After so many seconds a router is given up.
    seconds: Option<u32>,
    /// By name: whether there is an image, and a bundle.
    routers: Vec<(OsString, [bool; 2])>,
}

pub fn run(folder: &OsStr, args: &Args, seconds: Option<u32>) -> ExitCode {
    let (folder, into) = (Path::new(folder), args.value("--into").map(Path::new));
    let routers = match routers(folder) {
        Ok(routers) => routers,
        Err(why) => return say(2, format!("nuvaleta: {}: {why}", folder.display())),
    };
    match into {
        Some(into) if !into.is_dir() => {
            say(2, format!("nuvaleta: {}: {}", into.display(), if into.exists() { "no folder" } else { "no such folder" }))
        }
        _ => all(&Job { folder, into, json: args.has("--json"), complete: args.has("--complete"), seconds, routers }),
    }
}

/// The routers of a folder in the order of their names.
fn routers(folder: &Path) -> Result<Vec<(OsString, [bool; 2])>, String> {
    let mut found = BTreeMap::<OsString, [bool; 2]>::new();
    for entry in fs::read_dir(folder).map_err(|e| e.to_string())? {
        let file = entry.map_err(|e| e.to_string())?.file_name();
        for (half, ending) in ENDINGS.iter().enumerate() {
            match file.as_bytes().strip_suffix(ending.as_bytes()) {
                Some(name) if !name.is_empty() => found.entry(OsStr::from_bytes(name).to_os_string()).or_default()[half] = true,
                _ => {}
            }
        }
        if found.len() > ROUTERS_MOST {
            return Err(format!("more than {ROUTERS_MOST} routers; at most {ROUTERS_MOST} are done at once"));
        }
    }
    match found.is_empty() {
        true => Err("no router; one is a pair of files, NAME.image and NAME.bundle".to_string()),
        false => Ok(found.into_iter().collect()),
    }
}

// ---- one router

/// How many routers ended how, and what those in order have.
#[derive(Clone, Copy, Default)]
struct Tally {
    in_order: usize,
    refused: usize,
    not_readable: usize,
    not_written: usize,
    given_up: usize,
    schemas: usize,
    edges: usize,
}

/// What is to be said of a router, on standard output and on standard error.
#[derive(Default)]
struct Done {
    out: String,
    err: String,
    tally: Tally,
}

/// Written beside its place and put there by renaming; `Err` says which file is not written.
fn write(into: &Path, router: &OsStr, text: &str, place: usize) -> Result<(), String> {
    let new = into.join(format!(".{}-{place}.new", std::process::id()));
    let mut name = router.to_os_string();
    name.push(".order");
    let file = into.join(name);
    let told = |e: io::Error| format!("{}: {e}", shown(file.as_os_str()));
    let open = File::options().write(true).create_new(true).open(&new).map_err(told)?;
    (&open).write_all(text.as_bytes()).and_then(|()| fs::rename(&new, &file)).map_err(|e| {
        let _ = fs::remove_file(&new);
        told(e)
    })
}

/// One of the threads, with what it uses for one router after the other.
struct Worker<'a> {
    job: &'a Job<'a>,
    told: &'a Told,
    bench: Bench,
}

impl Worker<'_> {
    fn run(mut self, next: &AtomicUsize, done: Sender<(usize, Done)>) {
        loop {
            let place = next.fetch_add(1, Ordering::Relaxed);
            if place >= self.job.routers.len() {
                return;
            }
            self.told.wait(place);
            let one = self.one(place);
            if done.send((place, one)).is_err() {
                return;
            }
        }
    }

    fn one(&mut self, place: usize) -> Done {
        let (name, halves) = &self.job.routers[place];
        let router = Router { folder: self.job.folder, name, halves: *halves, complete: self.job.complete };
        let outcome = match self.job.seconds {
            Some(seconds) if *halves == [true; 2] => order_within(&router, seconds),
            _ => self.bench.order(&router),
        };
        match outcome {
            Outcome::InOrder { names, edges } => self.in_order(place, &names, edges),
            Outcome::Refused { said, json } => self.refused(name, &said, json),
            Outcome::NotReadable(why) => self.fault(name, "not_readable", &why, Tally { not_readable: 1, ..Tally::default() }),
            Outcome::GivenUp(why) => self.fault(name, "given_up", &why, Tally { given_up: 1, ..Tally::default() }),
        }
    }

    fn in_order(&self, place: usize, names: &str, edges: usize) -> Done {
        let name = &self.job.routers[place].0;
        let written = self.job.into.map_or(Ok(()), |into| write(into, name, names, place));
        if let Err(why) = written {
            return self.fault(name, "not_written", &why, Tally { not_written: 1, ..Tally::default() });
        }
        let out = match (self.job.json, self.job.into) {
            (true, _) => self.object(name, "order", json::list(names.lines().map(json::quoted))),
            (false, Some(_)) => String::new(),
            (false, None) => {
                let name = shown(name);
                names.lines().flat_map(|schema| [&name, "\t", schema, "\n"]).collect()
            }
        };
        let tally = Tally { in_order: 1, schemas: names.lines().count(), edges, ..Tally::default() };
        Done { out, err: String::new(), tally }
    }

    fn refused(&self, name: &OsStr, said: &str, json: String) -> Done {
        let tally = Tally { refused: 1, ..Tally::default() };
        match self.job.json {
            true => Done { out: self.object(name, "refused", json), err: String::new(), tally },
            false => Done { out: String::new(), err: format!("{}: {said}\n", shown(name)), tally },
        }
    }

    /// What the machine, not the library, stood in the way of.
    fn fault(&self, name: &OsStr, what: &'static str, why: &str, tally: Tally) -> Done {
        let colon = if what == "given_up" { "" } else { ":" }; // "after 2 s" stands behind it
        match self.job.json {
            true => Done { out: self.object(name, what, json::quoted(why)), err: String::new(), tally },
            false => Done { out: String::new(), err: format!("{}: {}{colon} {why}\n", shown(name), what.replace('_', " ")), tally },
        }
    }

    fn object(&self, name: &OsStr, what: &'static str, value: String) -> String {
        json::object(vec![("router", json::quoted(&shown(name))), (what, value)]) + "\n"
    }
}

// ---- all of them, told in order

/// How many routers have been told of. No worker runs too far ahead of it, so that few answers lie waiting.
struct Told {
    count: Mutex<usize>,
    more: Condvar,
    ahead: usize,
}

impl Told {
    fn wait(&self, place: usize) {
        let count = self.count.lock().expect("a count");
        drop(self.more.wait_while(count, |count| place >= count.saturating_add(self.ahead)).expect("a count"));
    }

    fn raise(&self, count: usize) {
        *self.count.lock().expect("a count") = count;
        self.more.notify_all();
    }
}

impl Drop for Worker<'_> {
    /// The others are not to wait for one that panicked.
    fn drop(&mut self) {
        if thread::panicking() {
            self.told.raise(usize::MAX);
        }
    }
}

fn all(job: &Job) -> ExitCode {
    let begun = Instant::now();
    let processors = thread::available_parallelism().map_or(1, |n| n.get()).min(job.routers.len());
    let told = Told { count: Mutex::new(0), more: Condvar::new(), ahead: 4 * processors };
    let next = AtomicUsize::new(0);
    let (send, results) = mpsc::channel();
    thread::scope(|scope| {
        let mut workers = 0;
        for _ in 0..processors {
            let worker = Worker { job, told: &told, bench: Bench::new() };
            let (send, next) = (send.clone(), &next);
            workers += usize::from(thread::Builder::new().stack_size(STACK).spawn_scoped(scope, move || worker.run(next, send)).is_ok());
        }
        drop(send);
        if workers == 0 {
            return say(2, "nuvaleta: no thread can be started");
        }
        let mut output = Output { job, tally: Tally::default(), progress: Progress::new(job) };
        let heard = output.hear(results, &told);
        told.raise(usize::MAX);
        output.progress.clear();
        output.end(heard, begun.elapsed(), workers)
    })
}

struct Output<'a> {
    job: &'a Job<'a>,
    tally: Tally,
    progress: Progress,
}

impl Output<'_> {
    /// Each router is told as soon as all before it have been. Ends early where standard output takes no more.
    fn hear(&mut self, results: Receiver<(usize, Done)>, told: &Told) -> io::Result<()> {
        let mut waiting = BTreeMap::new();
        let mut count = 0;
        loop {
            self.progress.show(count, &self.job.routers);
            match results.recv_timeout(self.progress.tick()) {
                Ok((place, done)) => drop(waiting.insert(place, done)),
                Err(RecvTimeoutError::Timeout) => {}
                Err(RecvTimeoutError::Disconnected) => return Ok(()),
            }
            while let Some(done) = waiting.remove(&count) {
                self.tell(&done)?;
                count += 1;
                told.raise(count);
            }
        }
    }

    fn tell(&mut self, done: &Done) -> io::Result<()> {
        self.tally.add(&done.tally);
        if !done.err.is_empty() {
            self.progress.clear();
            let _ = io::stderr().write_all(done.err.as_bytes());
        }
        self.put(&done.out)
    }

    /// Prints. Where files are written, they are the work, and a reader that has seen enough does not end it.
    fn put(&self, text: &str) -> io::Result<()> {
        put(text).or_else(|e| if self.job.into.is_some() && e.kind() == io::ErrorKind::BrokenPipe { Ok(()) } else { Err(e) })
    }

    /// The summary and the exit status; a reader that has seen enough hears neither.
    fn end(&self, heard: io::Result<()>, took: Duration, processors: usize) -> ExitCode {
        let heard = heard.and_then(|()| match self.job.json {
            true => self.put(&self.tally.object(self.job.routers.len(), took, processors)),
            false => {
                let _ = writeln!(io::stderr(), "{}", self.tally.line(self.job.routers.len(), took, processors));
                Ok(())
            }
        });
        printed(self.tally.status(), heard)
    }
}

impl Tally {
    fn add(&mut self, other: &Tally) {
        self.in_order += other.in_order;
        self.refused += other.refused;
        self.not_readable += other.not_readable;
        self.not_written += other.not_written;
        self.given_up += other.given_up;
        self.schemas += other.schemas;
        self.edges += other.edges;
    }

    fn status(&self) -> u8 {
        match (self.not_readable + self.not_written + self.given_up, self.refused) {
            (0, 0) => 0,
            (0, _) => 1,
            _ => 2,
        }
    }

    fn line(&self, routers: usize, took: Duration, processors: usize) -> String {
        let rare = |count: usize, what: &str| if count == 0 { String::new() } else { format!(", {count} {what}") };
        let more = rare(self.not_written, "not written") + &rare(self.given_up, "given up");
        format!(
            "{}: {} in order, {} refused, {} not readable{more}; {}, {}; {:.2} s on {}",
            counted(routers, "router"), self.in_order, self.refused, self.not_readable, counted(self.schemas, "schema"),
            counted(self.edges, "edge"), took.as_secs_f64(), counted(processors, "processor"),
        )
    }

    fn object(&self, routers: usize, took: Duration, processors: usize) -> String {
        let counts = [
            ("routers", routers), ("in_order", self.in_order), ("refused", self.refused), ("not_readable", self.not_readable),
            ("not_written", self.not_written), ("given_up", self.given_up), ("schemas", self.schemas), ("edges", self.edges), ("processors", processors),
        ];
        let mut fields: Vec<_> = counts.iter().map(|(name, count)| (*name, count.to_string())).collect();
        fields.push(("seconds", format!("{:.3}", took.as_secs_f64())));
        json::object(vec![("summary", json::object(fields))]) + "\n"
    }
}

/// A number with its thousands apart, and of what.
fn counted(n: usize, of: &str) -> String {
    let mut out = String::new();
    let digits = n.to_string();
    for (i, digit) in digits.chars().enumerate() {
        if i > 0 && (digits.len() - i) % 3 == 0 {
            out.push(',');
        }
        out.push(digit);
    }
    format!("{out} {of}{}", if n == 1 { "" } else { "s" })
}

/// A line on a terminal that is written over, up to ten times a second. There is none if standard error is no terminal, or if what is printed runs
/// over a terminal itself.
struct Progress {
    on: bool,
    last: Option<Instant>,
    /// How many were told of, and since when.
    since: (usize, Instant),
    width: usize,
}

/// How often the line is written, and so much of a router's name stands in it.
const TICK: Duration = Duration::from_millis(100);
const NAME_PART: usize = 32;

impl Progress {
    fn new(job: &Job) -> Progress {
        let prints = job.json || job.into.is_none();
        let on = nuvaleta::is_terminal(2) && !(prints && nuvaleta::is_terminal(1));
        Progress { on, last: None, since: (0, Instant::now()), width: 0 }
    }

    /// So long a result is waited for before the line is written again.
    fn tick(&self) -> Duration {
        if self.on { TICK } else { Duration::from_secs(86_400) }
    }

    /// How many were told of, and the first one that was not: it is the oldest that is still worked on.
    fn show(&mut self, count: usize, routers: &[(OsString, [bool; 2])]) {
        if !self.on || self.last.map_or(false, |last| last.elapsed() < TICK) {
            return;
        }
        if self.since.0 != count {
            self.since = (count, Instant::now());
        }
        let seconds = self.since.1.elapsed().as_secs();
        let at = routers.get(count).map_or_else(String::new, |(name, _)| format!(", at {}", part(&shown(name))));
        let long = if seconds > 0 { format!(" for {seconds} s") } else { String::new() };
        let line = format!("{count} of {} routers{at}{long}", routers.len());
        self.last = Some(Instant::now());
        self.width = self.width.max(line.chars().count());
        let _ = write!(io::stderr(), "\r{line:0$}", self.width);
    }

    fn clear(&mut self) {
        if self.width > 0 {
            let _ = write!(io::stderr(), "\r{:1$}\r", "", self.width);
            self.width = 0;
        }
    }
}

/// The beginning of a name that is too long for the line.
fn part(name: &str) -> String {
    let begin: String = name.chars().take(NAME_PART).collect();
    if begin.len() < name.len() { begin + ".." } else { begin }
}
