//! What `draw` marks, and that Graphviz renders it.

use std::fs;
use std::io::Write;
use std::path::PathBuf;
use std::process::{Command, Stdio};

use crate::command::{example, examples, expected, folder, printed, run, told};

#[test]
fn the_drawing_tells_yards_apart() {
    let text = printed(&["draw", told(&example("not-halfway"))], 0);
    let has = |part: &str| assert!(text.contains(part), "no {part} in {text}");
    has("j4 [label=\"gate\\n1. yard: 270 s\", shape=box, style=filled, fillcolor=\"#9bdc9b\"];");
    has("j5 [label=\"farm\\nyard: 470 s\", shape=box, style=filled, fillcolor=\"#ffe79a\"];");
    has("j1 [label=\"chapel\\nyard: 800 s\", shape=box, style=dashed];");
    has("j0 [label=\"harbour\\n1 crew\", peripheries=2, penwidth=2, color=\"#d62728\"];");
    has(">90</td></tr></table>>, len=2.24, penwidth=3, color=\"#d62728\"];");
    has(">120</td></tr></table>>, len=2.42, penwidth=3, color=\"#1f77b4\"];");
    has(">400</td></tr></table>>, len=4.10];");
}

#[test]
fn a_drive_is_drawn() {
    let text = printed(&["draw", told(&example("within"))], 0);
    let has = |part: &str| assert!(text.contains(part), "no {part} in {text}");
    has("label=\"sum over 2 crews, within 270 seconds, of 6 yards\\nmeasured 3 of 6 yards in 8 steps\\n");
    has("j3 [label=\"ring\\n1. yard: 270 s\", shape=box, style=filled, fillcolor=\"#9bdc9b\"];");
    has("j4 [label=\"gate\\n2. yard: 270 s\", shape=box, style=filled, fillcolor=\"#9bdc9b\"];");
    has("j5 [label=\"farm\\nyard: 470 s\", shape=box, style=filled, fillcolor=\"#ffe79a\"];");
    let text = printed(&["draw", told(&example("none-within"))], 0);
    assert!(!text.contains("penwidth=3"), "{text}");
}

/// Names of any length: every junction has one size, no line is too long for it, and more seconds are a longer road.
#[test]
fn junctions_have_one_size() {
    let file = folder("one-size").join("long.district");
    let long = "the-harbour-master's-office-at-the-old-pier";
    let roads = format!("road {long} gate 200\nroad gate mill 200\nroad {long} mill 900\n");
    fs::write(&file, format!("{roads}yard gate {long}\ncrew mill gate\n")).unwrap();
    let text = printed(&["draw", told(&file)], 0);
    assert_eq!(text.matches("shape=ellipse, fixedsize=true").count(), 1);
    assert_eq!(text.matches(", height=").count(), 1);
    let label = "label=\"the-harbour-\\nmaster's-\\noffice-at-the-\\nold-pier\\nyard: 600 s\"";
    assert!(text.contains(label), "{text}");
    let lengths = [("200", "len=2.23"), ("900", "len=4.10")];
    for (seconds, length) in lengths {
        assert!(
            text.contains(&format!(">{seconds}</td></tr></table>>, {length}")),
            "{text}"
        );
    }
}

/// The legend has what is drawn, and nothing else.
#[test]
fn the_legend_has_what_is_drawn() {
    let all = [
        ("green: listed", "fillcolor=\"#9bdc9b\""),
        ("yellow: measured", "fillcolor=\"#ffe79a\""),
        ("dashed: never measured", "style=dashed"),
        ("dotted: not of a wanted kind", "style=dotted"),
        ("double line: crews", "peripheries=2"),
        ("coloured roads: each crew's way", "penwidth=3"),
    ];
    let mut seen = [0; 6];
    for file in drawn() {
        let text = String::from_utf8(run(&["draw", told(&file)]).stdout).unwrap();
        for (place, (legend, mark)) in all.iter().enumerate() {
            assert_eq!(
                text.contains(legend),
                text.contains(mark),
                "{file:?} {legend}"
            );
            seen[place] += usize::from(text.contains(mark));
        }
    }
    assert!(
        seen.iter()
            .all(|&count| count > 0 && count < drawn().len() + 1),
        "{seen:?}"
    );
}

/// The examples that are not refused.
fn drawn() -> Vec<PathBuf> {
    let sound = |file: &PathBuf| expected(file, "refused").is_none();
    examples().into_iter().filter(sound).collect()
}

/// Whether Graphviz is there; what is not tried without it is said.
fn is_graphviz_there() -> bool {
    let there = Command::new("dot").arg("-V").output().is_ok();
    if !there {
        // Straight to standard error, since the output of a test that passes is not shown.
        let _ = writeln!(
            std::io::stderr(),
            "drawings are not rendered: Graphviz (dot) is not installed"
        );
    }
    there
}

/// A road of 900 seconds between junctions with long names looks longer than one of 200 between short ones, and every
/// junction is drawn in one size.
#[test]
fn longer_roads_look_longer() {
    if !is_graphviz_there() {
        return;
    }
    let file = folder("longer").join("longer.district");
    let (one, other) = ("the-harbour-master's-office", "the-old-station-forecourt");
    let roads = format!("road {one} {other} 900\nroad {other} gate 200\nroad gate mill 200\n");
    fs::write(&file, format!("{roads}yard {one} gate\ncrew mill\n")).unwrap();
    let plain = rendered(&run(&["draw", told(&file)]).stdout, "-Tplain");
    let nodes: Vec<Vec<&str>> = plain
        .lines()
        .filter(|line| line.starts_with("node "))
        .map(|line| line.split(' ').collect())
        .collect();
    let number = |node: usize, field: usize| nodes[node][field].parse::<f64>().unwrap();
    let apart = |a, b| (number(a, 2) - number(b, 2)).hypot(number(a, 3) - number(b, 3));
    // A double line stands around the junction: it is wider by that and no more.
    let widest = (0..4).map(|node| number(node, 4)).fold(0.0, f64::max);
    assert!((0..4).all(|node| number(node, 4) > widest - 0.2), "{plain}");
    // The shorter roads may be seen whole, of the longer one as little as a junction's width leaves.
    let seen = apart(0, 1) - number(0, 4).max(number(0, 5));
    for (a, b) in [(1, 2), (2, 3)] {
        let least = number(a, 4).min(number(a, 5));
        assert!(seen > apart(a, b) - least, "{plain}");
    }
}

#[test]
fn drawings_are_rendered() {
    if !is_graphviz_there() {
        return;
    }
    for file in drawn() {
        let text = run(&["draw", told(&file)]).stdout;
        let svg = rendered(&text, "-Tsvg");
        assert!(svg.contains("</svg>"), "{file:?}");
    }
}

/// What Graphviz makes of a drawing.
fn rendered(text: &[u8], format: &str) -> String {
    let mut dot = Command::new("dot");
    let dot = dot
        .arg(format)
        .stdin(Stdio::piped())
        .stdout(Stdio::piped())
        .stderr(Stdio::piped());
    let mut dot = dot.spawn().unwrap();
    dot.stdin.take().unwrap().write_all(text).unwrap();
    let output = dot.wait_with_output().unwrap();
    assert!(
        output.status.success() && output.stderr.is_empty(),
        "{}",
        String::from_utf8_lossy(&output.stderr)
    );
    String::from_utf8(output.stdout).unwrap()
}
