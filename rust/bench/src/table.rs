//! Markdown tables with aligned columns.

use std::fmt;

/// A table; the first row is the heading.
pub struct Table {
    rows: Vec<Vec<String>>,
    /// Columns of text, which are aligned to the left; numbers follow.
    text: usize,
}

impl Table {
    /// A table whose first `text` columns hold text.
    pub fn new(text: usize, heading: Vec<String>) -> Self {
        let rows = vec![heading];
        Self { rows, text }
    }

    /// Adds a row.
    pub fn row(&mut self, cells: Vec<String>) {
        assert_eq!(cells.len(), self.rows[0].len());
        self.rows.push(cells);
    }
}

impl fmt::Display for Table {
    fn fmt(&self, f: &mut fmt::Formatter<'_>) -> fmt::Result {
        let columns = self.rows[0].len();
        let width = |c: usize| self.rows.iter().map(|row| row[c].chars().count()).max();
        let widths: Vec<usize> = (0..columns).map(|c| width(c).unwrap_or(0).max(3)).collect();
        for (r, row) in self.rows.iter().enumerate() {
            for (c, cell) in row.iter().enumerate() {
                let width = widths[c];
                if c < self.text {
                    write!(f, "| {cell:<width$} ")?;
                } else {
                    write!(f, "| {cell:>width$} ")?;
                }
            }
            writeln!(f, "|")?;
            if r == 0 {
                for (c, width) in widths.iter().enumerate() {
                    let line = "-".repeat(width - 1);
                    let (left, right) = if c < self.text { ("-", "") } else { ("", ":") };
                    write!(f, "| {left}{line}{right} ")?;
                }
                writeln!(f, "|")?;
            }
        }
        Ok(())
    }
}

/// A number with commas between groups of three digits.
pub fn grouped(n: usize) -> String {
    let digits = n.to_string();
    let mut text = String::new();
    for (i, digit) in digits.chars().enumerate() {
        if i > 0 && (digits.len() - i) % 3 == 0 {
            text.push(',');
        }
        text.push(digit);
    }
    text
}
