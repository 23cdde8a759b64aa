//! The examples: what `list` and `why` are expected to print.

use std::fs;

use crate::command::{example, examples, expected, folder, printed, refused, run, told};

/// The status of an example's commands: 3 if it is spent.
fn status(text: &str) -> i32 {
    if text.contains("spent: no list") {
        3
    } else {
        0
    }
}

#[test]
fn examples_list_what_is_expected() {
    for file in examples() {
        match (expected(&file, "list"), expected(&file, "refused")) {
            (Some(text), None) => {
                let output = run(&["list", told(&file)]);
                assert_eq!(output.status.code(), Some(status(&text)), "{file:?}");
                assert_eq!(String::from_utf8(output.stdout).unwrap(), text, "{file:?}");
                let warned = expected(&file, "warned").map_or(String::new(), |text| {
                    format!("dispatch: {}:{text}", told(&file))
                });
                assert_eq!(
                    String::from_utf8(output.stderr).unwrap(),
                    warned,
                    "{file:?}"
                );
            }
            (None, Some(text)) => {
                for command in ["list", "why", "draw"] {
                    let fault = format!("dispatch: {}: {text}", told(&file));
                    assert_eq!(refused(&[command, told(&file)], 2), fault);
                }
            }
            _ => panic!("{file:?} has to have what is listed or why it is refused"),
        }
    }
}

#[test]
fn examples_are_explained_as_expected() {
    let mut seen = 0;
    for file in examples() {
        if let Some(text) = expected(&file, "why") {
            assert_eq!(printed(&["why", told(&file)], 0), text, "{file:?}");
            seen += 1;
        }
    }
    assert!(seen >= 4);
}

/// What is said last of an example's yard.
fn last(name: &str, yard: &str) -> String {
    let text = printed(&["why", told(&example(name)), yard], 0);
    text.lines().last().unwrap().to_string()
}

#[test]
fn one_yard_is_explained() {
    assert_eq!(
        last("net-n", "3"),
        "yard 3, 13 seconds (9 from 0, 4 from 2): place 2; measured in step 4"
    );
    assert_eq!(
        last("net-n", "4"),
        "yard 4, 15 seconds (10 from 0, 5 from 2): beaten by yard 3 with 13, 2 less; never measured"
    );
    assert_eq!(
        last("not-halfway", "farm"),
        "yard farm, 470 seconds (190 from harbour, 280 from station): beaten by yard gate with 270, 200 less; \
         measured in step 6"
    );
    assert_eq!(
        last("within", "gate"),
        "yard gate, 270 seconds (90 from harbour, 180 from station): place 2; measured in step 7"
    );
    assert_eq!(
        last("within", "farm"),
        "yard farm, 470 seconds (190 from harbour, 280 from station): 200 above the 270 seconds; measured in step 8"
    );
    assert_eq!(
        last("none-within", "1"),
        "yard 1, 5 seconds (2 from 0, 3 from 2): 1 above the 4 seconds; never measured"
    );
    let file = example("net-n");
    for yard in ["2", "5", "depot", "-1", "+3", ""] {
        let fault = refused(&["why", told(&file), yard], 2);
        assert!(
            fault.contains("expected a yard of the file, not `"),
            "{fault}"
        );
    }
}

#[test]
fn a_tie_is_explained() {
    assert_eq!(
        last("fairer-yard", "mill"),
        "yard mill, 10 seconds (2 from depot, 8 from quarry): beaten by yard bridge with the same 10 and the furthest \
         crew at 5, 3 less; measured in step 4"
    );
    assert_eq!(
        last("fairer-yard", "farm"),
        "yard farm, 10 seconds (5 from depot, 5 from quarry): beaten by yard bridge with the same 10, the furthest \
         crew at the same 5, and the lower number; measured in step 6"
    );
}

/// Yard 0 is 8 and 8 seconds from the crews, yard 2 is 8 and 2: by the maximum the number decides.
#[test]
fn a_tie_by_the_maximum_is_explained() {
    let file = folder("tie-by-maximum").join("tie.district");
    let roads = "road 0 1 8\nroad 1 2 8\nroad 0 3 8\nroad 2 3 2\n";
    fs::write(&file, format!("{roads}yard 0 2\ncrew 1 3\nmaximum\n")).unwrap();
    let text = printed(&["why", told(&file)], 0);
    let left_out = "yard 2, 8 seconds (8 from 1, 2 from 3): beaten by yard 0 with the same 8 and the lower number";
    assert!(
        text.ends_with(&format!("\nleft out:\n  {left_out}\n")),
        "{text}"
    );
}

#[test]
fn a_spent_search_is_explained() {
    let text = printed(&["why", told(&example("spent"))], 3);
    assert!(
        text.contains("\nspent: no list, the limit is 3 steps; measured 1 of 3 yards in 3 steps\n"),
        "{text}"
    );
    assert!(
        text.contains("\nnever measured:\n  yard 3: at least 13 seconds, its own key\n"),
        "{text}"
    );
    let text = printed(&["why", told(&example("spent")), "4"], 3);
    assert!(
        text.ends_with("yard 4, 15 seconds (10 from 0, 5 from 2): no list; never measured\n"),
        "{text}"
    );
}

#[test]
fn a_spent_drive_is_explained() {
    let file = folder("spent-drive").join("spent.district");
    let text = fs::read_to_string(example("within")).unwrap();
    fs::write(&file, text + "limit 7\n").unwrap();
    assert_eq!(
        printed(&["list", told(&file)], 3),
        "sum over 2 crews, within 270 seconds, of 6 yards\nspent: no list, measured 2 of 6 yards in 7 steps\n"
    );
    let text = printed(&["why", told(&file)], 3);
    assert!(
        text.contains("\nspent: no list, the limit is 7 steps; measured 2 of 6 yards in 7 steps\n"),
        "{text}"
    );
    assert!(text.ends_with("\nspent: no yard is on a list\n"), "{text}");
    let text = printed(&["why", told(&file), "gate"], 3);
    assert!(text.ends_with(": no list; measured in step 7\n"), "{text}");
}

#[test]
fn every_drive_is_told() {
    let file = folder("every-drive").join("one.district");
    let told_of = |seconds: &str| {
        fs::write(
            &file,
            format!("road 0 1 1\nyard 1\ncrew 0\nwithin {seconds}"),
        )
        .unwrap();
        printed(&["list", told(&file)], 0)
    };
    assert_eq!(
        told_of("0"),
        "sum over 1 crew, within 0 seconds, of 1 yard\nno yard is within 0 seconds\nmeasured 0 of 1 yard in 0 steps\n"
    );
    let listed = "place  yard  seconds  from 0\n    1  1           1       1\nmeasured 1 of 1 yard in 2 steps\n";
    for (seconds, told) in [("1", "1 second"), ("4294967295", "4294967295 seconds")] {
        let asked = format!("sum over 1 crew, within {told}, of 1 yard\n");
        assert_eq!(told_of(seconds), asked + listed);
    }
}
