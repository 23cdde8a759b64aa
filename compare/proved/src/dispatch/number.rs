//! Decimal numbers in a range.

use std::ops::RangeInclusive;

use super::lines::{shown, BadLine, Line};

/// What a number is called, and the numbers that it may be.
pub struct Kind {
    pub name: &'static str,
    pub range: RangeInclusive<u32>,
}

impl Kind {
    /// The number that a word writes.
    pub fn read(&self, word: &str, line: &Line) -> Result<u32, BadLine> {
        let number = if is_number(word) {
            word.parse().ok()
        } else {
            None
        };
        let inside = number.filter(|number| self.range.contains(number));
        inside.ok_or_else(|| {
            let (least, most) = (self.range.start(), self.range.end());
            let (name, word) = (self.name, shown(word));
            line.bad(format!(
                "expected {name} from {least} to {most}, not {word}"
            ))
        })
    }
}

/// Whether a word is of digits only.
pub fn is_number(word: &str) -> bool {
    !word.is_empty() && word.bytes().all(|byte| byte.is_ascii_digit())
}
