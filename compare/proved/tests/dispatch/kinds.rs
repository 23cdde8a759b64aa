//! Kinds of yard in the text form.

use std::fs;

use compare::kinds::VERSION;
use compare::yard;

use crate::command::{example, folder, printed, refused, told};

/// Net N with kinds: the nearest yard has chain, the next one slings, the last one both.
const ROADS: &str = "road 0 1 2\nroad 1 2 3\nroad 2 3 4\nroad 3 4 1\ncrew 0 2\n";
const KINDS: &str =
    "kind chain sling\nyard 1 kinds chain\nyard 3 kinds sling\nyard 4 kinds chain sling\n";

/// What is printed of net N with these lines.
fn listed(command: &str, lines: &str) -> String {
    let file = folder("kinds").join(format!("{command}.district"));
    fs::write(&file, format!("{ROADS}{lines}")).unwrap();
    printed(&[command, told(&file)], 0)
}

#[test]
fn yards_of_wanted_kinds_are_listed() {
    let sling = listed("list", &format!("{KINDS}want sling\nfirst 2\n"));
    assert!(
        sling.starts_with("sum over 2 crews, first 2 of 2 yards with sling\n"),
        "{sling}"
    );
    assert!(
        sling.contains("\n    1  3          13 ") && sling.contains("\n    2  4          15 "),
        "{sling}"
    );
    assert!(sling.contains("\nmeasured 2 of 2 yards in "), "{sling}");
    let any = listed("list", &format!("{KINDS}want sling chain\n"));
    assert!(
        any.starts_with("sum over 2 crews, first 1 of 3 yards with chain or sling\n"),
        "{any}"
    );
    assert!(any.contains("\n    1  1           5 "), "{any}");
    let all = listed("list", KINDS);
    assert!(
        all.starts_with("sum over 2 crews, first 1 of 3 yards\n"),
        "{all}"
    );
    let none = listed("list", "kind chain hook\nyard 1 3 kinds chain\nwant hook\n");
    assert_eq!(
        none,
        "sum over 2 crews, first 1 of 0 yards with hook\nno yard has hook\nmeasured 0 of 0 yards in 0 steps\n"
    );
    let every = listed(
        "list",
        "kind chain hook\nyard 1 kinds chain\nyard 3\nwant hook\n",
    );
    assert!(every.contains("\n    1  3          13 "), "{every}");
}

#[test]
fn kinds_are_explained() {
    let text = listed("why", &format!("{KINDS}want sling\nfirst 2\n"));
    let left_out = "\nleft out:\n  yard 1, 5 seconds (2 from 0, 3 from 2): it has no sling\n";
    assert!(text.ends_with(left_out), "{text}");
    assert!(
        text.contains("\nevery yard of a wanted kind was measured\n"),
        "{text}"
    );
    let text = listed("draw", &format!("{KINDS}want sling\n"));
    assert!(
        text.contains("yard: 5 s\", shape=box, style=dotted]"),
        "{text}"
    );
}

#[test]
fn kinds_stand_in_the_yard_book() {
    let folder = folder("kinds-book");
    let file = folder.join("kinds.district");
    fs::write(&file, format!("{ROADS}want sling\n{KINDS}")).unwrap();
    let text = printed(&["books", told(&file), told(&folder)], 0);
    assert!(text.contains("3 yards, kinds chain 1, sling 2\n"), "{text}");
    assert!(
        text.ends_with("; without the wanted kinds, 2, which the calls take\n"),
        "{text}"
    );
    let book = yard::read(&fs::read(folder.join("yard.book")).unwrap(), 5).unwrap();
    let kinds: Vec<(u16, u8)> = book
        .yards
        .iter()
        .map(|yard| (yard.junction, yard.kinds))
        .collect();
    assert_eq!(
        (book.version, kinds),
        (VERSION, vec![(1, 1), (3, 2), (4, 3)])
    );
    printed(&["books", told(&example("net-n")), told(&folder)], 0);
    assert_eq!(
        yard::read(&fs::read(folder.join("yard.book")).unwrap(), 5)
            .unwrap()
            .version,
        1
    );
}

#[test]
fn kinds_that_are_not_as_they_have_to_be() {
    let file = folder("bad-kinds").join("bad.district");
    for (lines, message) in [
        (
            "yard 1 kinds slings\nkind sling\n",
            "6: expected a kind that a `kind` line names, not `slings`\n",
        ),
        (
            "yard 1\nwant sling\n",
            "7: expected a kind that a `kind` line names, not `sling`\n",
        ),
        (
            "yard 1\nkind sling\nwant\n",
            "8: expected `want KIND ...`\n",
        ),
        (
            "yard 1\nkind sling\nkind sling\n",
            "8: expected each kind once: `sling` was named\n",
        ),
        (
            "yard 1 kinds\n",
            "6: expected `yard JUNCTION ... kinds KIND ...`\n",
        ),
        ("yard kinds sling\n", "6: expected `yard JUNCTION ...`\n"),
        ("kind a b c d e f g h i\n", "6: expected at most 8 kinds\n"),
        ("kind 7\n", "6: expected a kind: a letter and then"),
        (
            "kind a\nwant a\nwant a\n",
            "8: expected want once: line 7 says it too\n",
        ),
    ] {
        fs::write(&file, format!("{ROADS}{lines}")).unwrap();
        let fault = refused(&["list", told(&file)], 2);
        assert!(
            fault.starts_with(&format!("dispatch: {}:{message}", told(&file))),
            "{fault}"
        );
    }
}
