//! The original Rust as a program that answers requests: one line in, one line out.
//!
//! Bytes are hexadecimal. In an answer a value is `=` and its bytes, a missing one is `-`.
//! README.md beside this folder's scripts lists requests and answers.
//!
//! The Rust may loop for ever, overflow its stack or panic. So a second process does the work, under a limit of processor time, and is
//! started again after each of these.

use std::io::{BufRead, BufReader, BufWriter, Write};
use std::os::unix::process::ExitStatusExt;
use std::process::{Child, ChildStdin, ChildStdout, Command, Stdio};

#[allow(dead_code)] // where a text stands is asked by the comparison alone
mod form;
mod house;
#[allow(dead_code)]
mod kept;
#[path = "yangparser.rs"]
mod original;
#[allow(dead_code)]
mod read;
#[allow(dead_code, unused_imports)]
mod yanglib;
#[path = "scans.rs"]
mod yangparser;

use house::{Image, read_image, read_schemas};
use petgraph::graph::{DiGraph, NodeIndex};

fn main() {
    if std::env::args().nth(1).as_deref() == Some("worker") {
        // a spawned thread's usual stack, in which a long chain of includes fits and a circle overflows soon
        let worker = std::thread::Builder::new().stack_size(2 << 20);
        worker.spawn(work).expect("a thread").join().expect("the worker");
        return;
    }
    let mut worker = Worker::start();
    let mut out = std::io::stdout().lock();
    for line in std::io::stdin().lock().lines() {
        let answer = worker.ask(&line.expect("a line"));
        writeln!(out, "{answer}").expect("standard output");
        out.flush().expect("standard output");
    }
}

// ---- the process that survives

struct Worker {
    child: Child,
    requests: ChildStdin,
    answers: BufReader<ChildStdout>,
}

const ABORTED: i32 = 6;
const TOO_LONG: i32 = 124;
/// The last answer of a worker that is sent away.
const HANG: &str = "hang";

impl Worker {
    fn start() -> Worker {
        let mut child = Command::new(std::env::current_exe().expect("this program"))
            .arg("worker")
            .stdin(Stdio::piped())
            .stdout(Stdio::piped())
            .stderr(Stdio::null())
            .spawn()
            .expect("a worker");
        let requests = child.stdin.take().expect("its input");
        let answers = BufReader::new(child.stdout.take().expect("its output"));
        Worker { child, requests, answers }
    }

    fn ask(&mut self, request: &str) -> String {
        let mut answer = String::new();
        let sent = self.requests.write_all(request.as_bytes()).is_ok() && self.requests.write_all(b"\n").is_ok();
        let whole = sent && self.answers.read_line(&mut answer).is_ok() && answer.ends_with('\n');
        answer.truncate(answer.trim_end().len());
        if whole && !answer.starts_with(HANG) {
            return answer;
        }
        let status = self.child.wait().expect("its status");
        *self = Worker::start();
        if status.code() == Some(TOO_LONG) {
            return answer;
        }
        if status.signal() == Some(ABORTED) {
            return "overflow".to_string();
        }
        format!("died {status}")
    }
}

// ---- the process that works

const ITIMER_VIRTUAL: i32 = 1;
const SIGVTALRM: i32 = 26;

#[repr(C)]
struct Time {
    seconds: i64,
    microseconds: i64,
}

#[repr(C)]
struct Timer {
    again: Time,
    first: Time,
}

unsafe extern "C" {
    fn setitimer(which: i32, new: *const Timer, old: *mut Timer) -> i32;
    fn signal(number: i32, handler: extern "C" fn(i32)) -> usize;
    fn write(file: i32, bytes: *const u8, count: usize) -> isize;
    fn _exit(status: i32) -> !;
}

/// Says where the parser goes round, with no memory but its own: the signal may come anywhere.
extern "C" fn too_long(_: i32) {
    let mut line = [0; 64];
    let mut rest = &mut line[..];
    let (keyword, position) = kept::stopped().unwrap_or_default();
    _ = writeln!(rest, "{HANG} {keyword} {position}");
    let length = 64 - rest.len();
    unsafe {
        write(1, line.as_ptr(), length);
        _exit(TOO_LONG)
    }
}

/// Sends the process away after so much processor time; 0 takes that back.
fn limit(microseconds: i64) {
    let zero = Time { seconds: 0, microseconds: 0 };
    let first = Time { seconds: microseconds / 1_000_000, microseconds: microseconds % 1_000_000 };
    let timer = Timer { again: zero, first };
    unsafe { setitimer(ITIMER_VIRTUAL, &timer, std::ptr::null_mut()) };
}

fn work() {
    std::panic::set_hook(Box::new(|_| {}));
    unsafe { signal(SIGVTALRM, too_long) };
    let mut out = BufWriter::new(std::io::stdout());
    for line in std::io::stdin().lock().lines() {
        let line = line.expect("a line");
        let words: Vec<&str> = line.split(' ').collect();
        let answer = std::panic::catch_unwind(|| answer(&words)).unwrap_or("panic".to_string());
        limit(0);
        writeln!(out, "{answer}").expect("standard output");
        out.flush().expect("standard output");
    }
}

/// Each text is read twice, a mebibyte in 0.4 seconds at worst, so two microseconds a byte are several times what it may take.
fn scan_limit(text: &str) {
    limit(10_000 + 2 * text.len() as i64);
}

/// A circle of includes scans its texts some thousand times before the stack is full.
fn graph_limit(bundle: &[u8]) {
    limit(300_000 + 60_000_000.min(1_000 * bundle.len() as i64));
}

fn answer(words: &[&str]) -> String {
    let bytes: Option<Vec<Vec<u8>>> = words[1..].iter().map(|w| unhex(w)).collect();
    let Some(bytes) = bytes else {
        return "what".to_string();
    };
    kept::forget();
    match (words[0], bytes.as_slice()) {
        ("deps", [text]) => scanned(text, |t| {
            yangparser::extract_yang_dependencies(t).map(|d| dependencies(&d))
        }),
        ("print", [text]) => scanned(text, |t| {
            yangparser::extract_yang_dependencies(t).map(|d| format!("ok {}", value(&d.to_string())))
        }),
        ("meta", [text]) => scanned(text, |t| yangparser::extract_yang_metadata(t).map(|m| metadata(&m))),
        ("read", [text]) => scanned(text, |t| Ok(read::values(t).map_or("refused".to_string(), |v| read_values(&v)))),
        ("module", [image, name]) => found(image, name, |i, n| {
            i.library.find_module(n).map(|m| i.places[&m.name().as_ptr()].to_string())
        }),
        ("submodule", [image, name]) => found(image, name, |i, n| {
            i.library.find_submodule(n).map(|m| i.places[&m.name().as_ptr()].to_string())
        }),
        ("import-only", [image, name]) => found(image, name, |i, n| {
            i.library.find_import_module(n).map(|v| format!("{} {}", i.places[&v[0].name().as_ptr()], v.len()))
        }),
        ("graph", [image, bundle]) => graph(image, bundle),
        ("sort", [graph]) => sorted_numbers(graph),
        _ => "what".to_string(),
    }
}

fn scanned(text: &[u8], scan: impl Fn(&str) -> Result<String, String>) -> String {
    let Ok(text) = std::str::from_utf8(text) else {
        return "utf8".to_string();
    };
    scan_limit(text);
    scan(text).unwrap_or_else(|e| refused(&e))
}

/// The Rust's words, and where a scan said them its last keyword and its position.
fn refused(message: &str) -> String {
    let stopped = kept::stopped().map_or(String::new(), |(keyword, position)| format!(" {keyword} {position}"));
    format!("err {}{stopped}", value(message))
}

fn dependencies(d: &yangparser::YangDependencies) -> String {
    let mut out = format!("ok {} {}", d.imports.len(), d.includes.len());
    for i in &d.imports {
        out += &format!(" {} {} {}", value(&i.module_name), value(&i.prefix), maybe(&i.revision_date));
    }
    for i in &d.includes {
        out += &format!(" {} {}", value(&i.submodule_name), maybe(&i.revision_date));
    }
    out
}

fn metadata(m: &yangparser::YangModuleMetadata) -> String {
    format!(
        "ok {} {} {} {} {}",
        value(&m.name),
        maybe(&m.namespace),
        maybe(&m.prefix),
        maybe(&m.revision),
        maybe(&m.is_submodule_of)
    )
}

fn read_values(values: &[(u32, String)]) -> String {
    let mut out = "ok".to_string();
    for (keyword, text) in values {
        out += &format!(" {keyword} {}", value(text));
    }
    out
}

fn found(image: &[u8], name: &[u8], find: impl Fn(&Image, &str) -> Option<String>) -> String {
    let image = match read_image(image) {
        Ok(image) => image,
        Err(place) => return format!("image {place}"),
    };
    let Ok(name) = std::str::from_utf8(name) else {
        return "utf8".to_string();
    };
    find(&image, name).map_or("none".to_string(), |hit| format!("ok {hit}"))
}

fn graph(image: &[u8], bundle: &[u8]) -> String {
    let image = match read_image(image) {
        Ok(image) => image,
        Err(place) => return format!("image {place}"),
    };
    let schemas = match read_schemas(bundle) {
        Ok(Some(schemas)) => schemas,
        Ok(None) => return "utf8".to_string(),
        Err(place) => return format!("bundle {place}"),
    };
    graph_limit(bundle);
    let graph = match image.library.to_graph(&schemas) {
        Ok(graph) => graph,
        Err(e) => return refused(&e),
    };
    let mut out = format!("ok {} {}", graph.node_count(), graph.edge_count());
    for n in graph.node_indices() {
        out += &format!(" {}:{}", image.places[&graph[n].as_ptr()], graph[n]);
    }
    for e in graph.edge_indices() {
        let (from, to) = graph.edge_endpoints(e).expect("an edge");
        out += &format!(" {}-{}", from.index(), to.index());
    }
    out + " " + &sorted(&graph)
}

/// The order in which register_schema would take the nodes, or the node that its error names.
fn sorted(graph: &DiGraph<&str, ()>) -> String {
    let number = |n: NodeIndex| format!(" {}", n.index());
    match yanglib::topo_sorted(graph) {
        Ok(order) => "sorted".to_string() + &order.into_iter().map(number).collect::<String>(),
        Err(yanglib::SchemaConstructionError::CycleDetected(name)) => {
            let node = graph.node_indices().find(|n| graph[*n] == &*name).expect("a node");
            "cycle".to_string() + &number(node)
        }
        Err(other) => format!("err {}", value(&format!("{other:?}"))),
    }
}

/// The same for a graph of numbers: how many nodes, then from and to of each edge, four bytes each, low byte first.
fn sorted_numbers(graph: &[u8]) -> String {
    let words: Vec<usize> = graph.chunks(4).map(|b| b.iter().rev().fold(0, |n, b| 256 * n + *b as usize)).collect();
    let [nodes, edges @ ..] = &words[..] else {
        return "what".to_string();
    };
    let names: Vec<String> = (0..*nodes).map(|n| n.to_string()).collect();
    let mut drawn = DiGraph::new();
    names.iter().for_each(|name| _ = drawn.add_node(name.as_str()));
    edges.chunks(2).for_each(|e| _ = drawn.add_edge(NodeIndex::new(e[0]), NodeIndex::new(e[1]), ()));
    graph_limit(graph);
    sorted(&drawn)
}

// ---- bytes

fn value(s: &str) -> String {
    let mut out = String::with_capacity(1 + 2 * s.len());
    out.push('=');
    for b in s.bytes() {
        out.push_str(&format!("{b:02x}"));
    }
    out
}

fn maybe(s: &Option<String>) -> String {
    s.as_deref().map_or("-".to_string(), value)
}

fn unhex(w: &str) -> Option<Vec<u8>> {
    let digits = w.strip_prefix('=')?.as_bytes();
    if digits.len() % 2 != 0 {
        return None;
    }
    let digit = |b: u8| (b as char).to_digit(16);
    digits.chunks(2).map(|p| Some((digit(p[0])? * 16 + digit(p[1])?) as u8)).collect()
}
