//! What `dispatch list` prints.

use super::answer::Answer;
use super::district::{counted, District};
use super::fault::{Fault, SPENT};
use super::lines::BadLine;
use super::output::Output;
use super::table::{table, Side};

/// The list with each crew's seconds, or that the limit was spent.
pub fn list(district: &District) -> Result<Output, Fault> {
    let answer = Answer::new(district)?;
    let start = format!("{}{}\n", warned(district), district.asked());
    let counts = counts(district, &answer);
    if answer.searched.found.settled == 0 {
        let text = format!("{start}spent: no list, {counts}\n");
        return Ok(Output::text(text).with_status(SPENT));
    }
    let rows = match answer.searched.list.is_empty() {
        true => none(district),
        false => rows(district, &answer)?,
    };
    Ok(Output::text(format!("{start}{rows}{counts}\n")))
}

/// The warnings, each with its line: who keeps the list keeps them too.
fn warned(district: &District) -> String {
    let told = |bad: &BadLine| format!("warning: line {}: {}\n", bad.line, bad.message);
    district.warnings.iter().map(told).collect()
}

/// Why no yard is listed.
fn none(district: &District) -> String {
    let wanted = district.yards.iter().any(|&yard| district.is_wanted(yard));
    match district.kinds.wanted_names() {
        Some(names) if !wanted => format!("no yard has {names}\n"),
        _ => format!("no yard is {}\n", district.settings.wanted.told()),
    }
}

/// How many yards were measured in how many steps.
pub fn counts(district: &District, answer: &Answer) -> String {
    let found = &answer.searched.found;
    let yards = district.wanted_yards();
    let steps = counted(found.taken as usize, "step");
    format!("measured {} of {yards} in {steps}", found.measured)
}

/// A row for each listed yard: place, yard, seconds, and the seconds of each crew from where it stands.
fn rows(district: &District, answer: &Answer) -> Result<String, Fault> {
    let seconds = answer.seconds(district)?;
    let from = |label: String| format!("from {label}");
    let mut rows = vec![["place", "yard", "seconds"].map(String::from).to_vec()];
    rows[0].extend(district.labels(&district.crews).into_iter().map(from));
    for (place, &(yard, total)) in answer.searched.list.iter().enumerate() {
        let mut row = vec![
            (place + 1).to_string(),
            district.junctions.label(yard),
            total.to_string(),
        ];
        row.extend(seconds[&yard].iter().map(u32::to_string));
        rows.push(row);
    }
    let mut sides = vec![Side::Right; rows[0].len()];
    sides[1] = Side::Left;
    Ok(table(&sides, &rows))
}
