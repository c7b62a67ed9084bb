//! Columns side by side.

/// So many blanks stand between two cells at least.
const BETWEEN: usize = 3;
/// A cell that is wider does not widen its column: what follows stands right after it.
const WIDEST: usize = 60;

/// The rows as lines. An empty cell takes no room: the one before it may reach over its column. A column of empty cells is left out.
pub fn lines(indent: usize, rows: &[Vec<String>]) -> String {
    let columns = rows.iter().map(Vec::len).max().unwrap_or(0);
    let used: Vec<usize> = (0..columns).filter(|column| rows.iter().any(|row| !cell(row, *column).is_empty())).collect();
    let rows: Vec<Vec<&str>> = rows.iter().map(|row| used.iter().map(|column| cell(row, *column)).collect()).collect();
    let mut starts = vec![0; used.len()];
    for column in 1..used.len() {
        starts[column] = starts[column - 1] + width(&rows, column - 1) + BETWEEN;
    }
    rows.iter().map(|row| format!("{}{}\n", " ".repeat(indent), line(row, &starts))).collect()
}

fn cell(row: &[String], column: usize) -> &str {
    row.get(column).map_or("", String::as_str)
}

/// The width of a column that is not the last: that of its widest cell with another one next to it.
fn width(rows: &[Vec<&str>], column: usize) -> usize {
    let widths = rows.iter().filter(|row| !row[column + 1].is_empty()).map(|row| row[column].chars().count());
    widths.filter(|width| *width <= WIDEST).max().unwrap_or(0)
}

fn line(row: &[&str], starts: &[usize]) -> String {
    let mut line = String::new();
    for (cell, start) in row.iter().zip(starts).filter(|(cell, _)| !cell.is_empty()) {
        if !line.is_empty() {
            let gap = start.saturating_sub(line.chars().count()).max(BETWEEN);
            line += &" ".repeat(gap);
        }
        line += cell;
    }
    line
}
