//! The table as it is printed.

use crate::timing::Row;

/// Rows under one heading.
pub struct Group<'a> {
    pub name: &'static str,
    pub rows: Vec<Row<'a>>,
}

/// With a comma before each three digits.
pub fn grouped(n: usize) -> String {
    let digits = n.to_string();
    let mut out = String::new();
    for (i, digit) in digits.chars().enumerate() {
        if i > 0 && (digits.len() - i) % 3 == 0 {
            out.push(',');
        }
        out.push(digit);
    }
    out
}

/// What a graph is, with its counts.
pub fn counted(what: &str, nodes: usize, edges: usize) -> String {
    format!("{what}: {} nodes, {} edges", grouped(nodes), grouped(edges))
}

/// Whole from 1,000 on.
fn rounded(x: f64) -> String {
    if x < 999.95 { format!("{x:.1}") } else { grouped(x.round() as usize) }
}

/// With two digits below 0.1.
fn ratio(x: f64) -> String {
    if x < 0.1 { format!("{x:.2}") } else { rounded(x) }
}

fn line(row: &Row) -> String {
    let or_none = |is: bool, cell: String| if is { cell } else { "-".to_string() };
    let [bytes, speed] = [grouped(row.bytes), rounded(row.bytes as f64 * 1e3 / row.times.port)].map(|cell| or_none(row.bytes > 0, cell));
    let [rust, ratio, least] =
        [rounded(row.times.rust / 1e3), ratio(row.times.ratio()), ratio(row.least)].map(|cell| or_none(row.has_rust(), cell));
    format!("| {} | {bytes} | {rust} | {} | {ratio} | {least} | {speed} |", row.what, rounded(row.times.port / 1e3))
}

pub fn print(groups: &[Group]) {
    println!("| input | bytes | Rust, us | Nuvaleta, us | ratio | least ratio | Nuvaleta, MB/s |");
    println!("|---|--:|--:|--:|--:|--:|--:|");
    for group in groups {
        println!("| **{}** | | | | | | |", group.name);
        group.rows.iter().for_each(|row| println!("{}", line(row)));
    }
}

/// The port's times, in nanoseconds, a line each: group, row, time.
pub fn print_port(groups: &[Group]) {
    for group in groups {
        group.rows.iter().for_each(|row| println!("{}\t{}\t{}", group.name, row.what, row.times.port));
    }
}
