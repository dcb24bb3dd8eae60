//! What was measured, as rows: for programs, and for readers.

use super::case::{Case, Size, Unit, Who};
use super::clock::Times;

/// The columns of a row for programs.
const COLUMNS: [&str; 11] = [
    "name",
    "library ns",
    "crate ns",
    "ratio",
    "target",
    "library instructions",
    "crate instructions",
    "ratio of instructions",
    "target of instructions",
    "limit ns",
    "limit instructions",
];

/// The columns of the table for readers.
const READABLE: [&str; 13] = [
    "case",
    "library ns",
    "median",
    "crate ns",
    "median",
    "C ns",
    "ratio",
    "target",
    "library instructions",
    "crate instructions",
    "C instructions",
    "ratio of instructions",
    "target",
];

/// The columns of the table of how the cost grows; all but the last two are the library's.
const GROWTH: [&str; 9] = [
    "area",
    "unit",
    "ns a unit",
    "instructions a unit",
    "ratio",
    "ratio of instructions",
    "target of both",
    "crate ns a unit",
    "crate instructions a unit",
];

/// The columns of the table of what was before.
const BEFORE: [&str; 6] =
    ["case", "instructions before", "now", "now by before", "ratio of times to the crate, before", "now"];

/// What was measured of a case.
pub struct Row {
    pub name: String,
    pub target: Option<f64>,
    pub count_target: Option<f64>,
    size: Size,
    base: Option<(&'static str, Unit)>,
    pub times: [Option<Times>; 3],
    pub counts: [Option<f64>; 3],
}

impl Row {
    pub fn new(case: &Case, times: [Option<Times>; 3], counts: [Option<f64>; 3]) -> Row {
        let Case { target, count_target, size, base, .. } = *case;
        Row { name: case.name.clone(), target, count_target, size, base, times, counts }
    }

    pub fn without_targets(self) -> Row {
        Row { target: None, count_target: None, ..self }
    }

    fn best(&self, who: Who) -> Option<f64> {
        self.times[who as usize].map(|times| times.best)
    }

    fn median(&self, who: Who) -> Option<f64> {
        self.times[who as usize].map(|times| times.median)
    }

    fn count(&self, who: Who) -> Option<f64> {
        self.counts[who as usize]
    }

    /// What this row's costs are shared by.
    fn unit(&self) -> Unit {
        self.base.map_or(Unit::Byte, |(_, unit)| unit)
    }

    /// A cost, shared by the bytes that were gone over, or by the options or parts that were found.
    fn shared(&self, cost: Option<f64>, unit: Unit) -> Option<f64> {
        let by = match unit {
            Unit::Byte => self.size.bytes,
            Unit::Option => self.size.options,
        };
        cost.map(|cost| cost / by as f64)
    }
}

/// The ratio of a row by one of its costs: the library's against the crate's, or for a case that has a base, the library's a unit against
/// the base's.
fn ratio(row: &Row, rows: &[Row], cost: impl Fn(&Row, Who) -> Option<f64>) -> Option<f64> {
    let Some((base, unit)) = row.base else {
        return Some(cost(row, Who::Library)? / cost(row, Who::Crate)?);
    };
    let base = rows.iter().find(|other| other.name == base)?;
    Some(row.shared(cost(row, Who::Library), unit)? / base.shared(cost(base, Who::Library), unit)?)
}

/// The ratio by the best times.
pub fn ratio_of_times(row: &Row, rows: &[Row]) -> Option<f64> {
    ratio(row, rows, Row::best)
}

/// The ratio by the instructions.
pub fn ratio_of_counts(row: &Row, rows: &[Row]) -> Option<f64> {
    ratio(row, rows, Row::count)
}

/// What an earlier table for programs says of a case.
pub struct Earlier {
    name: String,
    ratio: Option<f64>,
    count: Option<f64>,
}

/// The rows of an earlier table for programs. Columns go by their names, so that one with fewer of them is read too.
pub fn earlier(text: &str) -> Result<Vec<Earlier>, String> {
    let mut lines = text.lines();
    let head: Vec<&str> = lines.next().unwrap_or("").split('\t').collect();
    let column = |name: &str| head.iter().position(|&other| other == name).ok_or(format!("it has no column `{name}`"));
    let (name, ratio, count) = (column(COLUMNS[0])?, column(COLUMNS[3])?, column(COLUMNS[5])?);
    let row = |line: &str| {
        let cells: Vec<&str> = line.split('\t').collect();
        let number = |at: usize| cells.get(at).and_then(|cell| cell.parse().ok());
        Earlier { name: cells.get(name).copied().unwrap_or("").into(), ratio: number(ratio), count: number(count) }
    };
    Ok(lines.map(row).collect())
}

/// A number with so many digits behind the point, or nothing.
fn cell(number: Option<f64>, digits: usize) -> String {
    number.map_or(String::new(), |number| format!("{number:.digits$}"))
}

/// A header line and a line a row, cells behind tabs.
pub fn tsv(rows: &[Row]) -> String {
    let line = |row: &Row| {
        let cells = [
            row.name.clone(),
            cell(row.best(Who::Library), 1),
            cell(row.best(Who::Crate), 1),
            cell(ratio_of_times(row, rows), 2),
            cell(row.target, 2),
            cell(row.count(Who::Library), 1),
            cell(row.count(Who::Crate), 1),
            cell(ratio_of_counts(row, rows), 2),
            cell(row.count_target, 2),
            cell(row.best(Who::Limit), 1),
            cell(row.count(Who::Limit), 1),
        ];
        cells.join("\t") + "\n"
    };
    COLUMNS.join("\t") + "\n" + &rows.iter().map(line).collect::<String>()
}

/// The table for readers.
pub fn readable(rows: &[Row]) -> String {
    let line = |row: &Row| {
        vec![
            row.name.clone(),
            cell(row.best(Who::Library), 1),
            cell(row.median(Who::Library), 1),
            cell(row.best(Who::Crate), 1),
            cell(row.median(Who::Crate), 1),
            cell(row.best(Who::Limit), 1),
            cell(ratio_of_times(row, rows), 2),
            cell(row.target, 2),
            cell(row.count(Who::Library), 0),
            cell(row.count(Who::Crate), 0),
            cell(row.count(Who::Limit), 0),
            cell(ratio_of_counts(row, rows), 2),
            cell(row.count_target, 2),
        ]
    };
    laid_out(&READABLE, &rows.iter().map(line).collect::<Vec<_>>())
}

/// The table of how the cost grows.
pub fn growth(rows: &[Row]) -> String {
    let line = |row: &Row| {
        let unit = row.unit();
        vec![
            row.name.clone(),
            unit.name().into(),
            cell(row.shared(row.best(Who::Library), unit), 3),
            cell(row.shared(row.count(Who::Library), unit), 2),
            cell(ratio_of_times(row, rows), 2),
            cell(ratio_of_counts(row, rows), 2),
            cell(row.target, 2),
            cell(row.shared(row.best(Who::Crate), unit), 3),
            cell(row.shared(row.count(Who::Crate), unit), 2),
        ]
    };
    laid_out(&GROWTH, &rows.iter().map(line).collect::<Vec<_>>())
}

/// The rows beside what an earlier table says of them.
pub fn before(rows: &[Row], earlier: &[Earlier]) -> String {
    let line = |row: &Row| {
        let then = earlier.iter().find(|then| then.name == row.name)?;
        let count = row.count(Who::Library);
        Some(vec![
            row.name.clone(),
            cell(then.count, 0),
            cell(count, 0),
            cell(count.zip(then.count).map(|(now, then)| now / then), 2),
            cell(then.ratio, 2),
            cell(ratio_of_times(row, rows), 2),
        ])
    };
    laid_out(&BEFORE, &rows.iter().filter_map(line).collect::<Vec<_>>())
}

/// A table of Markdown whose columns are as wide as they have to be: names to the left, numbers to the right.
fn laid_out(head: &[&str], rows: &[Vec<String>]) -> String {
    let width = |at: usize| rows.iter().map(|row| row[at].chars().count()).chain([head[at].len()]).max().unwrap_or(0);
    let widths: Vec<usize> = (0..head.len()).map(width).collect();
    let line = |cells: &[String]| {
        let padded = cells.iter().zip(&widths).enumerate();
        let padded = padded.map(|(at, (cell, width))| match at {
            0 => format!(" {cell:width$} |"),
            _ => format!(" {cell:>width$} |"),
        });
        format!("|{}\n", padded.collect::<String>())
    };
    let rule = widths.iter().enumerate().map(|(at, width)| match at {
        0 => "-".repeat(width + 2) + "|",
        _ => "-".repeat(width + 1) + ":|",
    });
    let head: Vec<String> = head.iter().map(|&name| name.into()).collect();
    line(&head) + "|" + &rule.collect::<String>() + "\n" + &rows.iter().map(|row| line(row)).collect::<String>()
}

#[cfg(test)]
mod tests {
    use super::*;

    fn row(name: &str, base: Option<(&'static str, Unit)>, counts: [Option<f64>; 3]) -> Row {
        let times = |best: f64| Times { best, median: 2.0 * best };
        let times = counts.map(|count| count.map(|count| times(count / 10.0)));
        let size = Size { bytes: 100, options: 20 };
        Row { name: name.into(), target: None, count_target: None, size, base, times, counts }
    }

    fn rows() -> [Row; 4] {
        let one = row("one", None, [Some(30.0), Some(120.0), Some(20.0)]);
        let two = row("two", Some(("one", Unit::Byte)), [Some(60.0), Some(5.0), None]);
        let mut three = row("three", Some(("one", Unit::Option)), [Some(60.0), Some(5.0), None]);
        three.size.options = 40;
        [
            Row { target: Some(0.5), count_target: Some(0.25), ..one },
            Row { target: Some(3.0), ..two },
            three,
            row("four", None, [None; 3]),
        ]
    }

    #[test]
    fn rows_for_programs_have_the_columns() {
        let text = tsv(&rows());
        let lines: Vec<Vec<&str>> = text.lines().map(|line| line.split('\t').collect()).collect();
        assert!(lines.iter().all(|cells| cells.len() == COLUMNS.len()));
        assert_eq!(lines[0], COLUMNS);
        assert_eq!(lines[1], ["one", "3.0", "12.0", "0.25", "0.50", "30.0", "120.0", "0.25", "0.25", "2.0", "20.0"]);
        assert_eq!(lines[2], ["two", "6.0", "0.5", "2.00", "3.00", "60.0", "5.0", "2.00", "", "", ""]);
        assert_eq!(lines[3][3..8], ["1.00", "", "60.0", "5.0", "1.00"]);
        assert_eq!(lines[4], ["four", "", "", "", "", "", "", "", "", "", ""]);
    }

    #[test]
    fn tables_for_readers_have_the_columns() {
        let then = earlier(&tsv(&rows())).unwrap_or_default();
        let tables = [
            (readable(&rows()), READABLE.len()),
            (growth(&rows()), GROWTH.len()),
            (before(&rows(), &then), BEFORE.len()),
        ];
        for (text, columns) in tables {
            assert_eq!(text.lines().count(), 6);
            assert!(text.lines().all(|line| line.matches('|').count() == columns + 1));
            assert!(text.lines().all(|line| line.len() == text.lines().next().unwrap_or("").len()));
        }
        let text = readable(&rows());
        let first: Vec<&str> = text.lines().nth(2).unwrap_or("").split('|').map(str::trim).collect();
        let cells = ["one", "3.0", "6.0", "12.0", "24.0", "2.0", "0.25", "0.50", "30", "120", "20", "0.25", "0.25"];
        assert_eq!(first[1..14], cells);
    }

    #[test]
    fn an_earlier_table_is_read_by_its_columns() {
        let text = "name\tlibrary ns\tratio\tlibrary instructions\none\t9\t0.75\t60\ngone\t1\t\t2\n";
        let then = earlier(text).unwrap_or_default();
        let text = before(&rows(), &then);
        let lines: Vec<&str> = text.lines().collect();
        assert_eq!(lines.len(), 3);
        let cells: Vec<&str> = lines[2].split('|').map(str::trim).collect();
        assert_eq!(cells[1..7], ["one", "60", "30", "0.50", "0.75", "0.25"]);
        assert!(earlier("name\tratio\n").is_err_and(|why| why == "it has no column `library instructions`"));
    }
}
