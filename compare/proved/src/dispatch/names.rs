//! Names that are easily taken for each other.

/// How few letters tell two names apart.
#[derive(Clone, Copy, Debug, PartialEq, Eq)]
pub enum Near {
    /// Only capitals do.
    Capitals,
    /// One or two letters do.
    Letters,
}

impl Near {
    /// What tells the names apart, with its verb.
    pub fn told(self) -> &'static str {
        match self {
            Near::Capitals => "only capitals tell",
            Near::Letters => "one or two letters tell",
        }
    }
}

/// Whether a slip of the pen could make one name of the other: another, a missing, an added letter or two that are
/// exchanged, one slip in a name of 4 or 5 letters and two in a longer one. Digits are no letters: names that they tell
/// apart are not near, nor are names of fewer letters that capitals do not tell apart.
pub fn near(one: &str, other: &str) -> Option<Near> {
    let [one, other] = [one, other].map(folded);
    if one == other {
        return Some(Near::Capitals);
    }
    let slips = match letters(&one).max(letters(&other)) {
        0..=3 => return None,
        4 | 5 => 1,
        _ => 2,
    };
    (digits(&one).eq(digits(&other)) && differ_by(&one, &other, slips)).then_some(Near::Letters)
}

/// Whether two names first differ where a part of a name begins, as `east-gate` and `west-gate` or `pier-a` and
/// `pier-b` do: people tell things apart so, and slips are seldom there.
pub fn parts_differ(one: &str, other: &str) -> bool {
    let [one, other] = [one, other].map(folded);
    let same = alike(&one, &other);
    same == 0 || !one[same - 1].is_alphabetic()
}

/// A name's characters without capitals.
fn folded(name: &str) -> Vec<char> {
    name.chars().flat_map(char::to_lowercase).collect()
}

/// How many letters a name has.
fn letters(name: &[char]) -> usize {
    name.iter().filter(|c| c.is_alphabetic()).count()
}

/// A name's digits.
fn digits(name: &[char]) -> impl Iterator<Item = &char> {
    name.iter().filter(|c| c.is_numeric())
}

/// How many characters two names begin with alike.
fn alike(one: &[char], other: &[char]) -> usize {
    one.iter().zip(other).take_while(|(a, b)| a == b).count()
}

/// Whether so many slips at most make one name of the other.
fn differ_by(one: &[char], other: &[char], slips: usize) -> bool {
    let same = alike(one, other);
    let (one, other) = (&one[same..], &other[same..]);
    let Some(left) = slips.checked_sub(1) else {
        return one.is_empty() && other.is_empty();
    };
    let exchanged = |one: &[char], other: &[char]| match (one, other) {
        ([a, b, one @ ..], [c, d, other @ ..]) => (a, b) == (d, c) && differ_by(one, other, left),
        _ => false,
    };
    match (one, other) {
        ([], []) => true,
        ([], [_, rest @ ..]) | ([_, rest @ ..], []) => differ_by(rest, &[], left),
        ([_, shorter @ ..], [_, other_shorter @ ..]) => {
            differ_by(shorter, other_shorter, left)
                || differ_by(shorter, other, left)
                || differ_by(one, other_shorter, left)
                || exchanged(one, other)
        }
    }
}

#[cfg(test)]
mod tests {
    use super::{near, parts_differ, Near};

    #[test]
    fn slips_are_near() {
        for (one, other) in [
            ("harbuor", "harbour"),
            ("habour", "harbour"),
            ("hrabuor", "harbour"),
            ("harbours", "harbour"),
            ("gaet", "gate"),
            ("mil", "mill"),
            ("St.Mary", "St-Mary"),
            ("hill", "mill"),
        ] {
            assert_eq!(near(one, other), Some(Near::Letters), "{one} {other}");
            assert_eq!(near(other, one), Some(Near::Letters), "{other} {one}");
        }
        assert_eq!(near("Gate", "gate"), Some(Near::Capitals));
        assert_eq!(near("A", "a"), Some(Near::Capitals));
    }

    #[test]
    fn other_names_are_not() {
        for (one, other) in [
            ("yard1", "yard2"),
            ("j10", "j11"),
            ("junction-9", "junction-10"),
            ("bay", "bar"),
            ("a", "b"),
            ("gate", "lane"),
            ("farm", "barn"),
            ("harbour", "station"),
            ("chapel", "church"),
        ] {
            assert_eq!(near(one, other), None, "{one} {other}");
        }
    }

    #[test]
    fn parts_of_names() {
        assert!(parts_differ("east-gate", "west-gate"));
        assert!(parts_differ("pier-a", "pier-b"));
        assert!(parts_differ("hill", "mill"));
        assert!(!parts_differ("harbuor", "harbour"));
        assert!(!parts_differ("marker", "market"));
    }
}
