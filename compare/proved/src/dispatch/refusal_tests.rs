//! Every damage of a road and a yard book is told with its book and its record.

use compare::generate::damage::{roads, sound_road, sound_yard, yards, Damage, JUNCTIONS};
use compare::{kinds, road, yard};

use super::calls;
use super::text::text;

/// The message of a refusal that a damaged book gets.
fn told(damage: &Damage, road: &[u8], yard: Option<&[u8]>) -> String {
    let fault = text(road, yard).expect_err(&damage.cause);
    let start = format!("refused {}: ", damage.refusal);
    assert!(
        fault.status == 2 && fault.message.starts_with(&start),
        "{}: {}",
        damage.cause,
        fault.message
    );
    fault.message
}

#[test]
fn road_books() {
    for damage in roads() {
        let message = told(&damage, &damage.book, None);
        let specific = [
            "refused 1: road book: ",
            "refused 2: road book: the version is ",
        ];
        let recorded = [
            "header",
            "after the header, expected",
            ", road ",
            "can't be reached from junction 0",
        ];
        let fits = specific.iter().any(|start| message.starts_with(start))
            || recorded.iter().any(|part| message.contains(part));
        assert!(fits, "{}: {message}", damage.cause);
    }
}

#[test]
fn yard_books() {
    for damage in yards() {
        let message = told(&damage, &sound_road(), Some(&damage.book));
        let fits =
            message.contains("yard book") && (message.contains(", yard ") || damage.refusal < 5);
        assert!(fits, "{}: {message}", damage.cause);
    }
}

#[test]
fn sound_books_are_told() {
    let yards = yard::write(&[1, 14]);
    let output = text(&sound_road(), Some(&yards)).expect("sound books");
    assert!(
        output
            .text
            .starts_with("# 15 roads, 2 yards\njunctions 16\nroad 0 1 10\n"),
        "{}",
        output.text
    );
    assert!(output.text.ends_with("\nyard 1\nyard 14\n"));
    let output = text(&sound_road(), Some(&sound_yard(kinds::VERSION))).expect("sound books");
    let lines = "\nyard 1 kinds k1\nyard 2 kinds k2\nyard 5 kinds k1 k3\nyard 6 kinds k2\nyard 14 kinds k3\n";
    assert!(output.text.ends_with(lines), "{}", output.text);
    assert_eq!(calls::road_passes(&sound_road()), Ok(()));
    assert_eq!(
        road::read(&sound_road()).map(|book| book.junctions),
        Ok(JUNCTIONS)
    );
}
