//! The same call through the proved finder and the plain one, a search also through the plain one as it was before it
//! walked from yards: the answers and every byte and word of the lent areas, the books and the guards around them have
//! to be alike afterwards.

use compare::{ask_by, Asked, Built, Found, Measuring};

use crate::lent::{lent_bytes, lent_words, Lent};

/// Makes the check through both finders; the answer is the refusal.
pub fn check(books: [&[u8]; 3], work: &[u32]) -> u32 {
    let mut held = books.map(lent_bytes);
    let mut words = lent_words(work);
    let [road, yard, tree] = held.each_mut().map(|book| &*book.area());
    let ours = crate::check(road, yard, tree, words.area());

    let mut after = work.to_vec();
    let theirs = compare::check(books[0], books[1], books[2], &mut after);
    let call = || format!("a check of {}", told(&books, work.len()));
    assert_eq!(ours, theirs, "{}", call());
    assert!(words.is(&after), "work area of {}", call());
    assert_kept(&held, &books);
    theirs
}

/// Makes the build through both finders.
pub fn build(books: [&[u8]; 2], [m, leaf_limit]: [u32; 2], work: &[u32], area: &[u8]) -> Built {
    let mut held = books.map(lent_bytes);
    let (mut words, mut tree) = (lent_words(work), lent_bytes(area));
    let [road, yard] = held.each_mut().map(|book| &*book.area());
    let ours = crate::build(road, yard, m, leaf_limit, words.area(), tree.area());

    let (mut after, mut written) = (work.to_vec(), area.to_vec());
    let theirs = compare::build(books[0], books[1], m, leaf_limit, &mut after, &mut written);
    let call = || {
        format!(
            "a build with m {m}, leaf limit {leaf_limit}, {} bytes of {}",
            area.len(),
            told(&books, work.len())
        )
    };
    assert_eq!(ours, theirs, "{}", call());
    assert!(words.is(&after), "work area of {}", call());
    assert!(tree.is(&written), "tree area of {}", call());
    assert_kept(&held, &books);
    theirs
}

/// The plain finders that search, by how they measure yards.
const PLAIN: [Measuring; 3] = [Measuring::Ways, Measuring::WholeWalks, Measuring::Rows];

/// The work and the result area of searches, as the proved finder and each plain one has left them.
pub struct Areas {
    ours: [Lent<u32>; 2],
    theirs: [[Vec<u32>; 2]; PLAIN.len()],
}

impl Areas {
    /// Areas with these contents for all finders.
    pub fn new(work: &[u32], results: &[u32]) -> Self {
        Areas {
            ours: [lent_words(work), lent_words(results)],
            theirs: PLAIN.map(|_| [work.to_vec(), results.to_vec()]),
        }
    }

    /// Makes the search through all finders, each on its areas as its search before left them.
    pub fn ask(&mut self, asked: Asked, wanted: u8, books: [&[u8]; 3]) -> Found {
        let mut held = books.map(lent_bytes);
        let lent = held.each_mut().map(|book| &*book.area());
        let [work, results] = self.ours.each_mut().map(|area| area.area());
        let ours = crate::ask(asked, wanted, lent, work, results);
        assert_kept(&held, &books);

        for (measuring, [work, results]) in PLAIN.into_iter().zip(&mut self.theirs) {
            let theirs = ask_by(measuring, asked, wanted, books, work, results);
            let call = || {
                format!(
                    "a search, {asked:?}, of kinds {wanted}, beside {measuring:?}, with {} result words, {}",
                    results.len(),
                    told(&books, work.len())
                )
            };
            assert_eq!(ours, theirs, "{}", call());
            assert!(self.ours[0].is(work), "work area of {}", call());
            assert!(self.ours[1].is(results), "result area of {}", call());
        }
        ours
    }

    /// The result area.
    pub fn results(&self) -> &[u32] {
        let [_, results] = &self.theirs[0];
        results
    }
}

/// No book has changed, nor a guard around it.
fn assert_kept(held: &[Lent<u8>], books: &[&[u8]]) {
    let kept = held.iter().zip(books).all(|(held, book)| held.is(book));
    assert!(kept, "a book changed: {}", told(books, 0));
}

/// A call's books in hexadecimal and its number of work words, to make it again.
fn told(books: &[&[u8]], work: usize) -> String {
    let hexadecimal = |book: &&[u8]| book.iter().map(|byte| format!("{byte:02x}")).collect();
    let books: Vec<String> = books.iter().map(hexadecimal).collect();
    format!("{work} work words and {}", books.join(" "))
}
