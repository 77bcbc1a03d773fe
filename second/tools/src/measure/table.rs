//! The table of what was measured, as Markdown whose columns are aligned.

use std::ops::Range;
use std::{array, fmt};

use super::time::Times;
use crate::traffic::measured::Limit;

const COLUMNS: usize = 5;
const HEADS: [&str; COLUMNS] = [
    "what",
    "measured",
    "limit",
    "microseconds a message",
    "from",
];
/// The columns of numbers.
const NUMBERS: Range<usize> = 1..4;

/// What was measured, and what it may be at most, if there is a limit.
#[derive(Clone, Copy, Debug, PartialEq)]
pub enum Figure {
    /// Nothing: the row says something else.
    None,
    /// A ratio; none if it could not be measured.
    Ratio(Option<f64>, f64),
    /// Octets.
    Octets(i64, Option<i64>),
}

impl Figure {
    /// Whether it is over its limit. A ratio is held to its limit as it is shown, in hundredths.
    pub fn is_over(self) -> bool {
        let hundredths = |ratio: f64| (ratio * 100.0).round();
        match self {
            Figure::Ratio(Some(ratio), limit) => hundredths(ratio) > hundredths(limit),
            Figure::Octets(octets, Some(limit)) => octets > limit,
            _ => false,
        }
    }

    /// What was measured, marked if it is over the limit, and the limit.
    fn cells(self) -> [String; 2] {
        let [measured, limit] = match self {
            Figure::None => [String::new(), String::new()],
            Figure::Ratio(ratio, limit) => {
                let ratio = ratio.map_or("-".into(), |ratio| format!("{ratio:.2}"));
                [ratio, format!("{limit:.2}")]
            }
            Figure::Octets(octets, limit) => {
                let shown = |octets: i64| format!("{octets} octets");
                [shown(octets), limit.map_or(String::new(), shown)]
            }
        };
        let mark = if self.is_over() { OVER } else { "" };
        [measured + mark, limit]
    }
}

/// What stands behind a figure that is over its limit.
const OVER: &str = " over";

/// A row of the table.
#[derive(Debug, PartialEq)]
pub struct Row {
    /// What is measured, and to what.
    pub what: String,
    /// The figure.
    pub figure: Figure,
    /// Microseconds that the program and the second one take for a message, if messages were timed.
    pub each: Option<[f64; 2]>,
    /// What it was had from, or why it is missing.
    pub from: String,
}

impl Row {
    /// The times of so many messages.
    pub fn timed(what: String, limit: Limit, messages: u64, times: &Times) -> Row {
        Row {
            what,
            figure: Figure::Ratio(Some(times.ratio()), limit.ratio()),
            each: Some(times.each(messages)),
            from: format!("{messages} messages, {times}"),
        }
    }

    /// Times that could not be measured.
    pub fn untimed(what: String, limit: Limit, why: &str) -> Row {
        let figure = Figure::Ratio(None, limit.ratio());
        Row::plain(&what, figure, format!("not measured: {why}"))
    }

    /// A row that has nothing to do with messages.
    pub fn plain(what: &str, figure: Figure, from: String) -> Row {
        Row {
            what: what.into(),
            figure,
            each: None,
            from,
        }
    }

    fn cells(&self) -> [String; COLUMNS] {
        let [measured, limit] = self.figure.cells();
        let each = |[bridge, second]: [f64; 2]| format!("{bridge:.2} (second {second:.2})");
        let each = self.each.map_or(String::new(), each);
        [self.what.clone(), measured, limit, each, self.from.clone()]
    }
}

/// Rows below a head.
pub struct Table(pub Vec<Row>);

impl Table {
    /// How many figures are over their limits.
    pub fn over(&self) -> usize {
        self.0.iter().filter(|row| row.figure.is_over()).count()
    }
}

impl fmt::Display for Table {
    fn fmt(&self, f: &mut fmt::Formatter) -> fmt::Result {
        let mut lines = vec![HEADS.map(String::from)];
        lines.extend(self.0.iter().map(Row::cells));
        let width = |column: usize| {
            let cells = lines.iter().map(|cells| cells[column].chars().count());
            cells.max().unwrap_or(0)
        };
        let widths: [usize; COLUMNS] = array::from_fn(width);
        // A colon sets a column to the right.
        let rule = |column: usize| match NUMBERS.contains(&column) {
            true => "-".repeat(widths[column] - 1) + ":",
            false => "-".repeat(widths[column]),
        };
        lines.insert(1, array::from_fn(rule));
        let [a, b, c, d, e] = widths;
        for [what, measured, limit, each, from] in lines {
            writeln!(
                f,
                "| {what:a$} | {measured:>b$} | {limit:>c$} | {each:>d$} | {from:e$} |"
            )?;
        }
        Ok(())
    }
}
