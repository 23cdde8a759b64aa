//! The text form: what is read, and what each fault is told as.

use compare::generate::Numbers;
use compare::query::Aggregate;
use compare::road::{self, Road};
use compare::yard;

use super::district::{District, Settings, Wanted};
use super::parse::parse;

/// The district of a text that is as it has to be.
fn read(text: &str) -> District {
    parse(text.as_bytes()).unwrap_or_else(|bad| panic!("line {}: {}", bad.line, bad.message))
}

/// The line and the message of a text's fault.
fn fault(text: impl AsRef<[u8]>) -> (usize, String) {
    let bad = parse(text.as_ref()).expect_err("a fault");
    (bad.line, bad.message)
}

/// The fault is of this line and its message begins so.
fn assert_fault(text: impl AsRef<[u8]>, line: usize, message: &str) {
    let (at, told) = fault(text);
    assert!(at == line && told.starts_with(message), "line {at}: {told}");
}

/// A road of these numbers.
fn road(low: u16, high: u16, seconds: u16) -> Road {
    Road { low, high, seconds }
}

#[test]
fn numbers() {
    let district = read("road 2 1 30\nroad 0 1 65535 # a comment\n\n\tyard 2\ncrew 0\ncrew 0");
    assert_eq!(district.roads, [road(0, 1, 65_535), road(1, 2, 30)]);
    assert_eq!(district.junctions.count(), 3);
    assert_eq!(district.yards, [2]);
    assert_eq!(district.crews, [0, 0]);
    assert_eq!(district.settings, Settings::default());
    assert!(district.junctions.names().is_empty());
}

#[test]
fn names_are_numbered_in_order_of_first_appearance() {
    let district = read("crew Übergang\nroad mill depot 5\nroad Übergang mill 7\nyard depot mill");
    assert_eq!(district.junctions.names(), ["Übergang", "mill", "depot"]);
    assert_eq!(district.roads, [road(0, 1, 7), road(1, 2, 5)]);
    assert_eq!(district.yards, [1, 2]);
    assert_eq!(district.crews, [0]);
    assert_eq!(district.junctions.find("depot"), Some(2));
    assert_eq!(district.junctions.find("2"), None);
}

#[test]
fn settings() {
    let district =
        read("maximum\nfirst 64\nlimit 4294967295\nlandmarks 1\nleaf 256\njunctions 5\nyard 0");
    let wanted = Settings {
        aggregate: Aggregate::Maximum,
        wanted: Wanted::First(64),
        limit: u32::MAX,
        landmarks: 1,
        leaf: 256,
    };
    assert_eq!(district.settings, wanted);
    assert_eq!(district.junctions.count(), 5);
    assert_eq!(read("limit 0\nyard 3\njunctions 2").junctions.count(), 4);
}

#[test]
fn a_drive() {
    for seconds in [0, 300, u32::MAX] {
        let district = read(&format!("yard 0\nwithin {seconds}"));
        assert_eq!(district.settings.wanted, Wanted::Within(seconds));
    }
    for word in ["4294967296", "-1", "300s", "1.5"] {
        assert_fault(
            format!("within {word}"),
            1,
            &format!("expected seconds from 0 to 4294967295, not `{word}`"),
        );
    }
    assert_fault(
        "within 5 minutes",
        1,
        "expected `within SECONDS`, not 2 words after `within`",
    );
}

#[test]
fn first_or_within() {
    for one in ["first 2", "within 300"] {
        for other in ["first 2", "within 300"] {
            assert_fault(
                format!("{one}\n\n{other}"),
                3,
                "expected first or within once: line 1 says it too",
            );
        }
    }
}

#[test]
fn words_that_name_commands_are_names_too() {
    let district = read("road road yard 5\nyard yard\ncrew road");
    assert_eq!(district.junctions.names(), ["road", "yard"]);
    assert_eq!(district.crews, [0]);
}

#[test]
fn ends_of_lines_and_marks() {
    let plain = read("road 0 1 5\nyard 1\ncrew 0\n");
    let others = [
        "\u{feff}road 0 1 5\r\nyard 1\r\ncrew 0\r\n",
        "road 0 1 5\nyard 1\ncrew 0",
        "road\u{a0}0 1  5#x\n yard 1\ncrew 0\n#",
    ];
    for text in others {
        let district = read(text);
        assert_eq!(
            (&district.roads, &district.yards, &district.crews),
            (&plain.roads, &plain.yards, &plain.crews)
        );
    }
}

#[test]
fn nothing_to_read() {
    assert_fault("", 1, "expected a road, a yard or a crew");
    assert_fault(
        "# only\n# comments\n",
        3,
        "expected a road, a yard or a crew",
    );
    assert_fault("sum\nfirst 3", 2, "expected a road, a yard or a crew");
}

#[test]
fn bytes_that_are_no_text() {
    assert_fault(
        "road 0 1 5\nyard \0",
        2,
        "expected text, not the control character U+0000",
    );
    assert_fault(
        "road 0 1 5 # \x1b[2J",
        1,
        "expected text, not the control character U+001B",
    );
    assert_fault(
        "road 0 1 5\ryard 1",
        1,
        "expected text, not the control character U+000D",
    );
    assert_fault(b"\xff\xfer\0o\0a\0d\0", 1, "expected text in UTF-8");
    assert_fault(b"yard 0\ncrew \xc3", 2, "expected text in UTF-8");
}

#[test]
fn long_lines() {
    let long = "x".repeat(1_000_000);
    let (line, told) = fault(format!("yard 0\n{long} 0 1 5"));
    assert!(line == 2 && told.len() < 300, "{told}");
    let (_, told) = fault(format!("yard {long}"));
    assert!(told.len() < 300, "{told}");
    let (_, told) = fault(format!("yard {}", "9".repeat(1_000_000)));
    assert!(told.len() < 300, "{told}");
    assert_fault(
        format!("road 0 1 5 {long}"),
        1,
        "expected `road END END SECONDS`, not 4 words after `road`",
    );
    assert_eq!(read(&format!("yard 0 # {long}")).yards, [0]);
}

#[test]
fn numbers_out_of_range() {
    for word in ["1024", "65536", "4294967296", "99999999999999999999999"] {
        assert_fault(
            format!("yard {word}"),
            1,
            "expected a junction from 0 to 1023",
        );
    }
    for word in ["0", "65536", "-1", "+5", "5.5", "5s", "1e3", "٣"] {
        assert_fault(
            format!("road 0 1 {word}"),
            1,
            "expected seconds from 1 to 65535",
        );
    }
    assert_fault("first 0", 1, "expected a number of yards from 1 to 64");
    assert_fault("first 65", 1, "expected a number of yards from 1 to 64");
    assert_fault(
        "limit 4294967296",
        1,
        "expected a number of steps from 0 to 4294967295",
    );
    assert_fault("landmarks 5", 1, "expected landmarks from 1 to 4");
    assert_fault("leaf 257", 1, "expected a leaf limit from 1 to 256");
    assert_fault(
        "junctions 1025",
        1,
        "expected a number of junctions from 1 to 1024",
    );
    assert_fault(
        "junctions 0",
        1,
        "expected a number of junctions from 1 to 1024",
    );
}

#[test]
fn more_than_a_book_holds() {
    let chain = |junctions: u16| {
        (1..junctions)
            .map(|high| format!("road a{} a{high} 1\n", high - 1))
            .collect::<String>()
    };
    assert_eq!(read(&chain(1_024)).junctions.count(), 1_024);
    assert_fault(
        chain(1_025),
        1_024,
        "expected at most 1024 junctions: `a1024` is one more",
    );
    let yards = |count: u16| {
        (0..count)
            .map(|yard| format!("yard {yard}\n"))
            .collect::<String>()
    };
    assert_eq!(read(&yards(256)).yards.len(), 256);
    assert_fault(yards(257), 257, "expected at most 256 yards");
    assert_eq!(read(&"crew 0\n".repeat(16)).crews.len(), 16);
    assert_fault("crew 0\n".repeat(17), 17, "expected at most 16 crews");
}

#[test]
fn more_roads_than_a_book_holds() {
    let pairs = || (0..1_024_u16).flat_map(|low| (low + 1..1_024).map(move |high| (low, high)));
    let roads = |count: usize| {
        pairs()
            .take(count)
            .map(|(low, high)| format!("road {high} {low} 9\n"))
            .collect::<String>()
    };
    assert_eq!(read(&roads(4_096)).roads.len(), 4_096);
    assert_fault(roads(4_097), 4_097, "expected at most 4096 roads");
}

#[test]
fn the_same_twice() {
    assert_fault(
        "road 0 1 5\n\nroad 1 0 5",
        3,
        "expected each road once: line 1 has `1` and `0` too",
    );
    assert_fault(
        "road a b 5\nroad a b 6",
        2,
        "expected each road once: line 1 has `a` and `b` too",
    );
    assert_fault(
        "yard 3\nyard 1 3",
        2,
        "expected each yard once: line 1 has `3` too",
    );
    assert_fault(
        "sum\nmaximum",
        2,
        "expected sum or maximum once: line 1 says it too",
    );
    assert_fault("sum\nsum", 2, "expected sum or maximum once");
    for setting in ["limit", "landmarks", "leaf", "junctions"] {
        let text = format!("{setting} 2\n{setting} 2");
        assert_fault(
            text,
            2,
            &format!("expected {setting} once: line 1 says it too"),
        );
    }
    assert_fault("road 4 4 5", 1, "expected two different ends");
}

#[test]
fn lines_of_another_form() {
    assert_fault(
        "road 0 1",
        1,
        "expected `road END END SECONDS`, not 2 words after `road`",
    );
    assert_fault(
        "road",
        1,
        "expected `road END END SECONDS`, not 0 words after `road`",
    );
    assert_fault("yard", 1, "expected `yard JUNCTION ...`");
    assert_fault("crew # none", 1, "expected `crew JUNCTION ...`");
    assert_fault("sum 3", 1, "expected `sum`, not 1 word after `sum`");
    assert_fault("first", 1, "expected `first NUMBER`");
    assert_fault("yards 3", 1, "expected road, yard, crew, junctions");
    assert_fault("Road 0 1 5", 1, "expected road, yard, crew, junctions");
}

#[test]
fn names_and_numbers_are_not_mixed() {
    assert_fault(
        "road 0 1 5\nyard depot",
        2,
        "expected junctions as numbers, as in line 1",
    );
    assert_fault(
        "road a b 5\nyard 1",
        2,
        "expected junctions as names, as in line 1",
    );
    assert_fault("road a 1 5", 1, "expected junctions as names, as in line 1");
    assert_fault(
        "junctions 3\nyard depot",
        2,
        "expected junctions as numbers, as in line 1",
    );
    assert_fault(
        "yard depot\njunctions 3",
        2,
        "expected junctions as names, as in line 1",
    );
}

#[test]
fn names_of_another_form() {
    for name in [
        "12th",
        "-1",
        "a/b",
        "a\"b",
        "$(x)",
        "a\\n",
        "\u{202e}ab",
        "_a",
        &"n".repeat(65),
    ] {
        assert_fault(
            format!("yard {name}"),
            1,
            "expected a junction: a number, or a letter",
        );
    }
    let longest = "n".repeat(64);
    assert_eq!(
        read(&format!("yard {longest} o'neill.st-2_b"))
            .junctions
            .names()
            .len(),
        2
    );
}

/// Whatever is read makes books that only the test of what can be reached may refuse.
#[test]
fn changed_texts() {
    const TEXT: &str =
        "road 0 1 120\nroad 1 2 60 # lane\nyard 2\ncrew 0 1\nsum\nfirst 3\nlimit 9\njunctions 4\n";
    const BYTES: &[u8] = b"0123459 \n\n#rdaycewumx-\t\r\0\xff\xc3\xa4";
    let mut numbers = Numbers::new(1);
    let mut read = 0;
    for _ in 0..20_000 {
        let mut text = TEXT.as_bytes().to_vec();
        for _ in 0..numbers.between(1, 4) {
            let place = numbers.between(0, text.len() as u64 - 1) as usize;
            let byte = BYTES[numbers.between(0, BYTES.len() as u64 - 1) as usize];
            match numbers.between(0, 2) {
                0 => text[place] = byte,
                1 => text.insert(place, byte),
                _ => drop(text.remove(place)),
            }
        }
        if let Ok(district) = parse(&text) {
            let junctions = district.junctions.count();
            assert!(road::read_layout(&road::write(junctions, &district.roads)).is_ok());
            let yards = yard::write(&district.yards);
            assert!(district.yards.is_empty() || yard::read(&yards, junctions).is_ok());
            assert!(district.crews.iter().all(|&crew| crew < junctions));
            read += 1;
        }
    }
    assert!(read > 1_000, "{read}");
}
