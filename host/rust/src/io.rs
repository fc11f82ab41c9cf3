//! Files that are read, and what is printed and said.

use std::ffi::OsStr;
use std::fmt::Display;
use std::io::{self, Read, Write};
use std::process::ExitCode;

/// Says a line on standard error, which may be closed, and ends with this status.
pub fn say(status: u8, line: impl Display) -> ExitCode {
    let _ = writeln!(io::stderr(), "{line}");
    ExitCode::from(status)
}

/// Prints and ends with this status.
pub fn print(status: u8, text: &str) -> ExitCode {
    printed(status, put(text))
}

pub fn put(text: &str) -> io::Result<()> {
    let mut out = io::stdout().lock();
    out.write_all(text.as_bytes()).and_then(|()| out.flush())
}

/// The status, now that all was printed; a reader that has seen enough is no fault.
pub fn printed(status: u8, ended: io::Result<()>) -> ExitCode {
    match ended {
        Err(e) if e.kind() != io::ErrorKind::BrokenPipe => say(2, format!("nuvaleta: standard output: {e}")),
        _ => ExitCode::from(status),
    }
}

/// A file, or for `-` standard input, or so much of it that it is seen to be too long; `Err` says which one cannot be read.
pub fn read(file: &OsStr, most: usize) -> Result<Vec<u8>, String> {
    let read = match file == "-" {
        true => read_some(io::stdin().lock(), most),
        false => std::fs::File::open(file).and_then(|open| read_some(open, most)),
    };
    read.map_err(|e| format!("{}: {e}", called(file)))
}

/// What a file that `read` takes is called.
pub fn called(file: &OsStr) -> String {
    if file == "-" { "standard input".to_string() } else { file.to_string_lossy().into_owned() }
}

fn read_some(from: impl Read, most: usize) -> io::Result<Vec<u8>> {
    let mut out = Vec::new();
    read_into(from, most, &mut out)?;
    Ok(out)
}

/// Adds all, or so much that it is seen to be too long.
pub fn read_into(from: impl Read, most: usize, out: &mut Vec<u8>) -> io::Result<()> {
    from.take(most as u64 + 1).read_to_end(out).map(|_| ())
}
