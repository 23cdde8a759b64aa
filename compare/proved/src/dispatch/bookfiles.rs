//! What `dispatch books` writes: each book as a file of a folder.

use std::path::Path;

use compare::book::u16_at;

use super::books::{query_book, road_book, yard_and_tree};
use super::district::{counted, told_seconds, District, Wanted};
use super::fault::Fault;
use super::output::Output;
use super::table::{table, Side};

/// The files' names.
const NAMES: [&str; 4] = ["road.book", "yard.book", "tree.book", "query.book"];

/// The books that a district gives: without a yard there is no yard and no tree book, without a crew no query book.
pub fn books(district: &District, folder: &Path) -> Result<Output, Fault> {
    if folder.as_os_str().is_empty() {
        return Err(Fault::bad_input(
            "expected a FOLDER, not an empty argument; . is the current one",
        ));
    }
    let road = road_book(district)?;
    let (yard, tree) = yard_and_tree(district, &road)?.unzip();
    let made = [Some(road), yard, tree, query_book(district)];
    let mut output = Output::default();
    let mut rows = Vec::new();
    for (name, book) in NAMES.iter().zip(made) {
        let path = folder.join(name);
        match book {
            Some(book) => {
                rows.push(vec![
                    name.to_string(),
                    counted(book.len(), "byte"),
                    told(district, name, &book),
                ]);
                output.files.push((path, book));
            }
            None if path.exists() => return Err(stale(&path)),
            None => (),
        }
    }
    output.text = table(&[Side::Left, Side::Right, Side::Left], &rows) + &numbers(district);
    Ok(output)
}

/// A book of another district would be left beside the new ones.
fn stale(path: &Path) -> Fault {
    let path = path.display();
    Fault::bad_input(format!(
        "expected no {path}, which the district does not give: remove it, or choose another folder"
    ))
}

/// What a book holds, in a few words.
fn told(district: &District, name: &str, book: &[u8]) -> String {
    let settings = &district.settings;
    match name {
        "road.book" => {
            let junctions = counted(usize::from(district.junctions.count()), "junction");
            format!("{junctions}, {}", counted(district.roads.len(), "road"))
        }
        "yard.book" => {
            let yards = counted(district.yards.len(), "yard");
            match district.kinds.are_told() {
                true => format!("{yards}, kinds {}", district.kinds.numbered()),
                false => yards,
            }
        }
        "tree.book" => {
            let regions = counted(usize::from(u16_at(book, 7)), "region");
            format!(
                "{regions}, {} each, leaves of at most {}",
                counted(settings.landmarks as usize, "landmark"),
                settings.leaf
            )
        }
        _ => told_query(district),
    }
}

/// What the query book holds; a drive's seconds and the wanted kinds are not in it.
fn told_query(district: &District) -> String {
    let limit = counted(district.settings.limit as usize, "step");
    let wanted = match district.kinds.wanted_names() {
        Some(_) => format!(
            "; without the wanted kinds, {}, which the calls take",
            district.kinds.wanted()
        ),
        None => String::new(),
    };
    match district.settings.wanted {
        Wanted::First(_) => format!("{}, at most {limit}{wanted}", district.asked()),
        Wanted::Within(seconds) => format!(
            "{}, at most {limit}; without the {}, which finder_within takes{wanted}",
            district.over(),
            told_seconds(seconds)
        ),
    }
}

/// The number of each name: books have numbers only.
fn numbers(district: &District) -> String {
    let names = district.junctions.names().iter().enumerate();
    let lines: String = names
        .map(|(number, name)| format!("{number} {name}\n"))
        .collect();
    match lines.is_empty() {
        true => lines,
        false => format!("junctions by number:\n{lines}"),
    }
}
