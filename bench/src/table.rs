//! Tables in Markdown.

use crate::compare::Times;
use crate::sheets::Sheet;

/// What a table tells of one call on one sheet.
pub struct Line {
    pub sheet: String,
    pub call: &'static str,
    pub states: Option<usize>,
    pub entries: Option<usize>,
    pub times: Times,
}

impl Line {
    pub fn of(sheet: &Sheet, call: &'static str, states: Option<usize>, entries: Option<usize>, times: Times) -> Line {
        Line { sheet: sheet.name.clone(), call, states, entries, times }
    }
}

/// A line for each call; a sheet's name only where it is another than above, and columns only where a line has something for them.
pub fn timed(lines: &[Line]) -> String {
    let mut columns =
        vec![column("sheet", lines, |line| Some(line.sheet.clone())), column("call", lines, |line| Some(line.call.into()))];
    for at in (1..lines.len()).rev() {
        if lines[at].sheet == lines[at - 1].sheet {
            columns[0][at + 1].clear();
        }
    }
    columns.push(column("states", lines, |line| line.states.map(grouped)));
    columns.push(column("entries", lines, |line| line.entries.map(grouped)));
    columns.push(column("port", lines, |line| Some(time(line.times.port))));
    columns.push(column("Rust", lines, |line| Some(time(line.times.rust))));
    columns.push(column("times as fast", lines, |line| Some(digits(line.times.rust / line.times.port))));
    columns.push(column("limit", lines, |line| line.times.limit.map(time)));
    columns.push(column("port / limit", lines, |line| line.times.limit.map(|limit| digits(line.times.port / limit))));
    columns.retain(|column| column[1..].iter().any(|cell| !cell.is_empty()));
    let rows: Vec<Vec<String>> = (0..=lines.len()).map(|at| columns.iter().map(|column| column[at].clone()).collect()).collect();
    markdown(2, &rows)
}

fn column(head: &str, lines: &[Line], cell: impl Fn(&Line) -> Option<String>) -> Vec<String> {
    std::iter::once(head.into()).chain(lines.iter().map(|line| cell(line).unwrap_or_default())).collect()
}

/// Rows of cells, the head first. So many columns are words, the others numbers.
pub fn markdown(words: usize, rows: &[Vec<String>]) -> String {
    let row = |cells: &[String]| format!("| {} |\n", cells.join(" | "));
    let rule: Vec<String> = (0..rows[0].len()).map(|at| if at < words { "---".into() } else { "---:".into() }).collect();
    let body: String = rows[1..].iter().map(|cells| row(cells)).collect();
    row(&rows[0]) + &row(&rule) + &body
}

/// 1,048,576
pub fn grouped(number: usize) -> String {
    match number {
        0..1000 => number.to_string(),
        _ => format!("{},{:03}", grouped(number / 1000), number % 1000),
    }
}

/// Three digits, or all before the point.
pub fn digits(number: f64) -> String {
    match number {
        ..0.01 => format!("{number:.4}"),
        ..0.1 => format!("{number:.3}"),
        ..10.0 => format!("{number:.2}"),
        ..100.0 => format!("{number:.1}"),
        _ => grouped(number.round() as usize),
    }
}

/// In the unit in which the number is at least 1.
pub fn time(nanoseconds: f64) -> String {
    let (size, unit) = match nanoseconds {
        ..1e3 => (1.0, "ns"),
        ..1e6 => (1e3, "µs"),
        ..1e9 => (1e6, "ms"),
        _ => (1e9, "s"),
    };
    format!("{} {unit}", digits(nanoseconds / size))
}
