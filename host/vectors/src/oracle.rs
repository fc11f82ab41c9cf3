//! The oracle as a process beside this one.

use std::io::{BufRead, BufReader, Write};
use std::path::Path;
use std::process::{Child, ChildStdin, ChildStdout, Command, Stdio};

pub struct Oracle {
    _child: Child,
    requests: ChildStdin,
    answers: BufReader<ChildStdout>,
}

const DIGITS: &[u8; 16] = b"0123456789abcdef";

impl Oracle {
    pub fn start(program: &Path) -> Oracle {
        let mut child = Command::new(program)
            .stdin(Stdio::piped())
            .stdout(Stdio::piped())
            .spawn()
            .unwrap_or_else(|e| panic!("{}: {e}; build it by host/oracle/build.sh", program.display()));
        let requests = child.stdin.take().expect("its input");
        let answers = BufReader::new(child.stdout.take().expect("its output"));
        Oracle { _child: child, requests, answers }
    }

    /// The oracle's line for a request and its bytes.
    pub fn ask(&mut self, request: &str, with: &[&[u8]]) -> String {
        let mut line = request.to_string();
        for bytes in with {
            line.push_str(" =");
            line.extend(bytes.iter().flat_map(|b| [b / 16, b % 16]).map(|digit| DIGITS[digit as usize] as char));
        }
        line.push('\n');
        self.requests.write_all(line.as_bytes()).expect("the oracle");
        let mut answer = String::new();
        self.answers.read_line(&mut answer).expect("the oracle");
        answer.trim_end().to_string()
    }
}

/// A value in an answer: `=` and its bytes, or none.
pub fn value(word: &str) -> Option<Vec<u8>> {
    let digits = word.strip_prefix('=')?;
    let byte = |i: usize| u8::from_str_radix(&digits[i..i + 2], 16).expect("hexadecimal");
    Some((0..digits.len()).step_by(2).map(byte).collect())
}
