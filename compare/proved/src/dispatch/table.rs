//! Tables of words in columns.

/// Which side a column's words are set to.
#[derive(Clone, Copy, Debug, PartialEq, Eq)]
pub enum Side {
    Left,
    Right,
}

/// Lines of words in columns, two blanks apart; every row has as many words as there are sides.
pub fn table(sides: &[Side], rows: &[Vec<String>]) -> String {
    let width = |column: usize| {
        rows.iter()
            .map(|row| row[column].chars().count())
            .max()
            .unwrap_or(0)
    };
    let widths: Vec<usize> = (0..sides.len()).map(width).collect();
    let mut text = String::new();
    for row in rows {
        let cells = row.iter().zip(sides.iter().zip(&widths));
        let cells: Vec<String> = cells
            .map(|(word, (side, width))| cell(word, *side, *width))
            .collect();
        text.push_str(cells.join("  ").trim_end());
        text.push('\n');
    }
    text
}

/// A word with blanks on its other side.
fn cell(word: &str, side: Side, width: usize) -> String {
    match side {
        Side::Left => format!("{word:<width$}"),
        Side::Right => format!("{word:>width$}"),
    }
}
