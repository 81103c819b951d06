//! Rows of words in columns, set to the right.
//! The first one may be of names, and set to the left.

/// A table as the pages print it: columns two blanks apart, nothing behind the last word of a line.
pub fn of(heading: &[&str], rows: &[Vec<String>]) -> String {
    drawn(heading, rows, false)
}

/// The same, and its first column has names.
pub fn of_names(heading: &[&str], rows: &[Vec<String>]) -> String {
    drawn(heading, rows, true)
}

fn drawn(heading: &[&str], rows: &[Vec<String>], names: bool) -> String {
    let heading = heading.iter().map(|word| (*word).to_owned()).collect::<Vec<_>>();
    let all: Vec<&Vec<String>> = std::iter::once(&heading).chain(rows).collect();
    let width = |column: usize| all.iter().map(|row| row[column].chars().count()).max().unwrap_or(0);
    let widths: Vec<_> = (0..heading.len()).map(width).collect();
    let line = |row: &Vec<String>| {
        let aligned = |(at, (cell, width)): (usize, (&String, &usize))| {
            if names && at == 0 {
                format!("{cell:<width$}")
            } else {
                format!("{cell:>width$}")
            }
        };
        let cells: Vec<_> = row.iter().zip(&widths).enumerate().map(aligned).collect();
        format!("{}\n", cells.join("  ").trim_end())
    };
    all.into_iter().map(line).collect()
}
