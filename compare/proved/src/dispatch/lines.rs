//! A file's lines: their words, without comments.

/// What is wrong with a line, and the line's number, counted from 1.
#[derive(Clone, Debug, PartialEq, Eq)]
pub struct BadLine {
    pub line: usize,
    pub message: String,
}

/// A line that has words.
#[derive(Clone, Debug, PartialEq, Eq)]
pub struct Line<'a> {
    pub number: usize,
    pub words: Vec<&'a str>,
}

impl Line<'_> {
    /// A fault of this line.
    pub fn bad(&self, message: impl Into<String>) -> BadLine {
        bad(self.number, message)
    }
}

/// A fault of the line with this number.
pub fn bad(line: usize, message: impl Into<String>) -> BadLine {
    BadLine {
        line,
        message: message.into(),
    }
}

/// The lines that have words. A byte order mark at the start and carriage returns at ends of lines are passed over.
pub fn lines(bytes: &[u8]) -> Result<Vec<Line<'_>>, BadLine> {
    let bytes = bytes.strip_prefix(b"\xef\xbb\xbf").unwrap_or(bytes);
    let mut lines = Vec::new();
    for (place, bytes) in bytes.split(|&byte| byte == b'\n').enumerate() {
        let words = words(bytes).map_err(|message| bad(place + 1, message))?;
        if !words.is_empty() {
            lines.push(Line {
                number: place + 1,
                words,
            });
        }
    }
    Ok(lines)
}

/// The words of one line, up to a comment.
fn words(line: &[u8]) -> Result<Vec<&str>, String> {
    let line = line.strip_suffix(b"\r").unwrap_or(line);
    let text = std::str::from_utf8(line).map_err(|_| "expected text in UTF-8")?;
    if let Some(control) = text.chars().find(|c| c.is_control() && *c != '\t') {
        let code = u32::from(control);
        return Err(format!(
            "expected text, not the control character U+{code:04X}"
        ));
    }
    let before_comment = text.split('#').next().unwrap_or_default();
    Ok(before_comment.split_whitespace().collect())
}

/// A word as messages show it: in backquotes, a long one cut off.
pub fn shown(word: &str) -> String {
    const MOST: usize = 40;
    match word.char_indices().nth(MOST) {
        Some((end, _)) => format!("`{}...`", &word[..end]),
        None => format!("`{word}`"),
    }
}

/// At least one word.
pub fn some<'a, 'b>(
    words: &'b [&'a str],
    line: &Line,
    form: &str,
) -> Result<&'b [&'a str], BadLine> {
    match words.is_empty() {
        true => Err(line.bad(format!("expected `{form}`"))),
        false => Ok(words),
    }
}
