//! Columns of text, numbers aligned at their points.

pub enum Align {
    Left,
    /// at the decimal point
    Point,
}

/// Rows of cells under heads, two blanks between columns, `indent` before them.
pub fn columns(heads: &[(&str, Align)], rows: &[Vec<String>], indent: &str) -> String {
    let mut lines = vec![String::from(indent); rows.len() + 1];
    for (i, (head, align)) in heads.iter().enumerate() {
        let cells: Vec<&str> = rows.iter().map(|row| row.get(i).map_or("", String::as_str)).collect();
        let cells = match align {
            Align::Left => cells.iter().map(|cell| cell.to_string()).collect(),
            Align::Point => pointed(&cells),
        };
        let width = cells.iter().map(|cell| cell.chars().count()).chain([head.chars().count()]).max().unwrap_or(0);
        for (line, cell) in lines.iter_mut().zip([head.to_string()].iter().chain(&cells)) {
            let pad = width - cell.chars().count();
            line.push_str(&format!("{cell}{}  ", " ".repeat(pad)));
        }
    }
    lines.iter().map(|line| format!("{}\n", line.trim_end())).collect()
}

/// The cells with blanks before them, so that the points of numbers, or their ends where they have none, stand under each other. Words stay as they are.
fn pointed(cells: &[&str]) -> Vec<String> {
    let most = cells.iter().map(|cell| whole(cell)).max().unwrap_or(0);
    cells.iter().map(|cell| if whole(cell) == 0 { cell.to_string() } else { format!("{}{cell}", " ".repeat(most - whole(cell))) }).collect()
}

/// The letters before a number's point; none of a word.
fn whole(cell: &str) -> usize {
    let digits = cell.trim_start_matches('-');
    let sign = cell.len() - digits.len();
    let many = digits.find(|c: char| !c.is_ascii_digit()).unwrap_or(digits.len());
    if many == 0 {
        0
    } else {
        sign + many
    }
}
