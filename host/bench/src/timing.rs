//! The one way of timing: all rows take turns, round by round, so that a machine that is busy for a while slows no row and no side alone.

use std::time::Instant;

/// What one side does with an input in one run.
type Run<'a> = Box<dyn FnMut() + 'a>;

/// An input, what both sides do with it, and how long that took.
pub struct Row<'a> {
    pub what: String,
    /// 0 where the input is no bytes.
    pub bytes: usize,
    rust: Option<Run<'a>>,
    port: Run<'a>,
    /// In each turn, of the Rust as of the port.
    runs: usize,
    /// The best of all runs, in nanoseconds.
    pub times: Sides,
    /// The least ratio of a round.
    pub least: f64,
}

/// Two times.
#[derive(Clone, Copy)]
pub struct Sides {
    pub rust: f64,
    pub port: f64,
}

impl Sides {
    pub fn ratio(&self) -> f64 {
        self.rust / self.port
    }
}

impl<'a> Row<'a> {
    pub fn new(what: impl Into<String>, bytes: usize, rust: impl FnMut() + 'a, port: impl FnMut() + 'a) -> Row<'a> {
        Row { rust: Some(Box::new(rust)), ..Row::alone(what, bytes, port) }
    }

    /// What the Rust does not have.
    pub fn alone(what: impl Into<String>, bytes: usize, port: impl FnMut() + 'a) -> Row<'a> {
        let times = Sides { rust: f64::MAX, port: f64::MAX };
        Row { what: what.into(), bytes, rust: None, port: Box::new(port), runs: 0, times, least: f64::MAX }
    }

    pub fn has_rust(&self) -> bool {
        self.rust.is_some()
    }

    fn plan(&mut self) {
        let first = best(LEAST_RUNS, self.rust.as_mut().unwrap_or(&mut self.port));
        self.runs = ((TURN / first) as usize).clamp(LEAST_RUNS, MOST_RUNS);
    }

    fn plan_port(&mut self) {
        self.runs = ((TURN / best(LEAST_RUNS, &mut self.port)) as usize).clamp(LEAST_RUNS, MOST_RUNS);
    }

    fn time_port(&mut self) {
        self.times.port = self.times.port.min(best(self.runs, &mut self.port));
    }

    fn take_turns(&mut self) {
        let rust = self.rust.as_mut().map(|run| best(self.runs, run));
        let port = best(self.runs, &mut self.port);
        self.times.port = self.times.port.min(port);
        if let Some(rust) = rust {
            self.times.rust = self.times.rust.min(rust);
            self.least = self.least.min(rust / port);
        }
    }
}

/// How long the Rust's turn is to be, in nanoseconds, within these numbers of runs.
const TURN: f64 = 50e6;
const LEAST_RUNS: usize = 2;
const MOST_RUNS: usize = 200;

/// The best of some runs, in nanoseconds.
fn best(runs: usize, run: &mut Run) -> f64 {
    let mut least = f64::MAX;
    for _ in 0..runs {
        let start = Instant::now();
        run();
        least = least.min(start.elapsed().as_nanos() as f64);
    }
    least
}

pub fn measure<'r, 'a: 'r>(rows: impl Iterator<Item = &'r mut Row<'a>>, rounds: usize) {
    let mut rows: Vec<&mut Row> = rows.collect();
    rows.iter_mut().for_each(|row| row.plan());
    for _ in 0..rounds {
        rows.iter_mut().for_each(|row| row.take_turns());
    }
}

/// The port alone, for a time beside that of another build.
pub fn measure_port<'r, 'a: 'r>(rows: impl Iterator<Item = &'r mut Row<'a>>, rounds: usize) {
    let mut rows: Vec<&mut Row> = rows.collect();
    rows.iter_mut().for_each(|row| row.plan_port());
    for _ in 0..rounds {
        rows.iter_mut().for_each(|row| row.time_port());
    }
}

/// What happens in a round, for a reader of the table.
pub fn told() -> String {
    format!("as many runs of the Rust as it does in {} ms, {LEAST_RUNS} to {MOST_RUNS}, and right behind them as many of Nuvaleta", TURN / 1e6)
}
