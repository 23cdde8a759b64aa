//! Areas lent to a call, with a guard before and after each that no call may change.

/// How many elements a guard has.
const GUARD: usize = 64;

/// Bytes between guards.
pub fn lent_bytes(bytes: &[u8]) -> Lent<u8> {
    Lent::new(bytes, |i| i as u8 ^ 0xa5)
}

/// Words between guards.
pub fn lent_words(words: &[u32]) -> Lent<u32> {
    Lent::new(words, |i| i as u32 ^ 0xa5a5_a5a5)
}

/// An area between two guards.
pub struct Lent<T> {
    all: Vec<T>,
    guard: [T; GUARD],
}

impl<T: Copy + PartialEq> Lent<T> {
    /// An area with these contents; `fill` gives the guards' elements.
    pub fn new(contents: &[T], fill: impl Fn(usize) -> T) -> Self {
        let guard = std::array::from_fn(fill);
        let all = [&guard, contents, &guard].concat();
        Lent { all, guard }
    }

    /// The area, to be lent.
    pub fn area(&mut self) -> &mut [T] {
        let end = self.all.len() - GUARD;
        &mut self.all[GUARD..end]
    }

    /// Whether the area has these contents and both guards stand.
    pub fn is(&self, contents: &[T]) -> bool {
        let end = self.all.len() - GUARD;
        self.all[GUARD..end] == *contents
            && self.all[..GUARD] == self.guard
            && self.all[end..] == self.guard
    }
}
