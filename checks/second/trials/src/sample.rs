//! Chooses, of journals that are stored, few whose statements show much.

use crate::answer::{Answer, Line};
use crate::book::ROOM;
use crate::choose::play;
use crate::crew::work_through;
use crate::records::read;
use crate::run::find;
use crate::selection::{Features, Selection, Shows};
use crate::sheet::sums;
use std::collections::{BTreeMap, BTreeSet};
use std::fs;
use std::path::Path;

/// How many are chosen.
pub const CHOSEN: usize = 40;
/// The most bytes that those chosen have together.
pub const BYTES: usize = 300_000;

/// What at least one of those chosen shows, if any journal does.
const NEEDED: [&str; 13] = [
    "a whole settled year",
    "lines that cancel out",
    "0 cents from above",
    "0 cents from below",
    "half a cent above 0",
    "half a cent below 0",
    "half a cent more than an even cent",
    "a month without lines among others",
    "a full account",
    "a journal that is too long",
    "an unknown kind",
    "a record that is cut short",
    "nothing is opened",
];

/// Plays the journals of the folder into `lines`, and answers the names of
/// those that are chosen, in their order.
pub fn sample(lines: &Path, folder: &Path, jobs: usize) -> Result<Vec<String>, String> {
    let lines = &find(lines)?;
    let names = names(folder)?;
    let shown = work_through(
        jobs,
        0,
        names.len() as u64,
        |desk, turn| {
            let name = &names[turn as usize];
            let journal =
                fs::read(folder.join(name)).map_err(|error| format!("{name}: {error}"))?;
            let (answer, _) = play(desk, lines, name, &journal)?;
            Ok((journal.len(), features(&journal, &answer)))
        },
        |_, _| {},
    )?;
    let mut known = Features::new();
    let mut candidates = Vec::new();
    for (number, (size, features)) in (0..).zip(shown) {
        let features = features
            .into_iter()
            .map(|(feature, worth)| known.number(feature, worth));
        candidates.push(Shows {
            number,
            size,
            features: features.collect(),
        });
    }
    let numbers = select(&candidates, &known);
    Ok(numbers
        .into_iter()
        .map(|number| names[number as usize].clone())
        .collect())
}

/// The journals of the folder that have numbers for names, in their order.
fn names(folder: &Path) -> Result<Vec<String>, String> {
    let told = |error| format!("{}: {error}", folder.display());
    let mut names = BTreeSet::new();
    for entry in fs::read_dir(folder).map_err(told)? {
        let name = entry.map_err(told)?.file_name();
        let name = name.to_string_lossy();
        if name.starts_with(|first: char| first.is_ascii_digit()) {
            names.insert(name.into_owned());
        }
    }
    Ok(names.into_iter().collect())
}

/// Of what is needed the smallest that shows it, and then those that show most
/// for their size.
fn select(candidates: &[Shows], known: &Features<String>) -> BTreeSet<u64> {
    let mut selection = Selection::new(known.worth());
    let mut left: Vec<&Shows> = candidates.iter().collect();
    for needed in NEEDED {
        let Some(feature) = known.known().get(needed) else {
            eprintln!("no journal shows {needed}");
            continue;
        };
        if selection.shown().contains(feature) {
            continue;
        }
        let showing = |at: &usize| left[*at].features.contains(feature);
        let smallest = (0..left.len())
            .filter(showing)
            .min_by_key(|&at| left[at].size);
        if let Some(at) = smallest {
            selection.take(left.remove(at));
        }
    }
    selection.fill(left, CHOSEN, BYTES);
    let (shown, known) = (selection.shown(), known.known());
    eprintln!(
        "{} of {} features of statements are shown",
        shown.len(),
        known.len()
    );
    for (feature, at) in known {
        if !shown.contains(at) {
            eprintln!("not shown: {feature}");
        }
    }
    selection.into_numbers()
}

/// What the statements of a journal show, with what each feature counts for.
fn features(journal: &[u8], answer: &Answer) -> BTreeMap<String, f64> {
    let mut features = BTreeMap::new();
    let mut add = |feature: String, worth: f64| _ = features.insert(feature, worth);
    if *answer == Answer::TooLong {
        add("a journal that is too long".to_string(), 1.0);
        return features;
    }
    let refused = answer.refused();
    for &number in refused.keys() {
        match number {
            1 => add("an unknown kind".to_string(), 1.0),
            2 => add("a record that is cut short".to_string(), 1.0),
            number => add(format!("refused {number}"), 0.5),
        }
    }
    if answer.refusals().len() >= read(journal).len() && refused.contains_key(&20) {
        add("nothing is opened".to_string(), 1.0);
    }
    let lines = answer.lines();
    if lines.len() == ROOM {
        add("a full account".to_string(), 1.0);
    }
    let months: BTreeMap<u8, BTreeMap<u8, i128>> =
        (0..=12).map(|month| (month, sums(lines, month))).collect();
    let empty = months.values().filter(|sums| sums.is_empty()).count();
    add(format!("{empty} months without lines"), 1.0);
    let settled = months[&12].keys().any(|&item| item == 11 || item == 12);
    if empty == 0 && settled {
        add("a whole settled year".to_string(), 1.0);
    }
    for (&month, sums) in &months {
        if sums.is_empty() {
            if empty < 13 {
                add("a month without lines among others".to_string(), 1.0);
                add(format!("month {month} has no line, but another"), 0.5);
            }
            continue;
        }
        add(format!("month {month} has lines"), 1.0);
        let whole = if month == 12 { "the year" } else { "a month" };
        let total: i128 = sums.values().sum();
        add(format!("{whole} with a total {}", sign(total)), 1.0);
        add(format!("{whole} with the items {:?}", sums.keys()), 0.3);
        if are_apart(lines, month) {
            add(format!("{whole} with lines that stand apart"), 1.0);
        }
        for (&item, &sum) in sums {
            for feature in of_item(item, sum) {
                add(feature, 1.0);
            }
            let lines = lines
                .iter()
                .filter(|line| (line.month, line.item) == (month, item));
            match (sum, lines.count()) {
                (0, 1) => add(format!("item {item} of therms alone"), 1.0),
                (0, _) => {
                    add("lines that cancel out".to_string(), 1.0);
                    add(format!("item {item} cancels out"), 1.0);
                }
                (_, 1) => add(format!("item {item} in one line"), 0.5),
                (_, _) => add(format!("item {item} in more lines"), 0.5),
            }
        }
    }
    features
}

fn sign(sum: i128) -> &'static str {
    match sum.signum() {
        0 => "of 0",
        1 => "above 0",
        _ => "below 0",
    }
}

/// How the sum of an item is rounded.
fn of_item(item: u8, sum: i128) -> Vec<String> {
    let sign = sign(sum);
    let past = sum.abs() % 1_000;
    let way = match past {
        0 => "whole",
        1..=499 => "less in cents",
        500 => "half a cent more",
        _ => "more in cents",
    };
    let mut features = vec![format!("item {item} {sign}, {way}")];
    if past == 500 {
        features.push(format!("half a cent {sign}"));
        // To round to an even cent would show here, and not behind an odd one.
        let even = sum.abs() / 1_000 % 2 == 0;
        let cent = if even { "an even" } else { "an odd" };
        features.push(format!("half a cent more than {cent} cent"));
    }
    match sum {
        1..=499 => features.push("0 cents from above".to_string()),
        -499..=-1 => features.push("0 cents from below".to_string()),
        _ => {}
    }
    features
}

/// Whether lines of other months stand between those of the month.
fn are_apart(lines: &[Line], month: u8) -> bool {
    let own = |line: &Line| line.month == month;
    let first = lines.iter().position(own);
    let last = lines.iter().rposition(own);
    match (first, last) {
        (Some(first), Some(last)) => !lines[first..=last].iter().all(own),
        _ => false,
    }
}

#[cfg(test)]
mod tests {
    use super::*;

    #[test]
    fn an_account_shows_its_halves_and_its_nothings() {
        let output = b"no month item therms millicents\n1 0 2 0 2500\n2 1 4 0 700\n\
            3 0 4 0 -499\n4 1 4 0 -700\n5 1 5 3 0\n6 12 13 0 -1500\nsum 501\n";
        let answer = Answer::read(output).unwrap();
        let features = features(&[], &answer);
        for name in [
            "10 months without lines",
            "a month without lines among others",
            "month 2 has no line, but another",
            "a month with lines that stand apart",
            "half a cent above 0",
            "half a cent below 0",
            "half a cent more than an even cent",
            "half a cent more than an odd cent",
            "0 cents from below",
            "lines that cancel out",
            "item 4 cancels out",
            "item 5 of therms alone",
            "a month with a total of 0",
            "the year with a total below 0",
        ] {
            assert!(features.contains_key(name), "{name}");
        }
        for name in [
            "0 cents from above",
            "the year with lines that stand apart",
            "nothing is opened",
            "a whole settled year",
        ] {
            assert!(!features.contains_key(name), "{name}");
        }
    }

    #[test]
    fn what_is_needed_is_among_those_chosen() {
        let mut known = Features::new();
        let mut shows = |number, size, names: &[&str]| Shows {
            number,
            size,
            features: names
                .iter()
                .map(|name| known.number(name.to_string(), 1.0))
                .collect(),
        };
        let mut candidates = vec![
            shows(0, 70_000, &["a full account"]),
            shows(1, 60_000, &["a full account", "0 cents from above"]),
            shows(2, 50_000, &["0 cents from above"]),
        ];
        let more = (3..100).map(|number| shows(number, 10, &[&format!("more {number}")]));
        candidates.extend(more);
        let numbers = select(&candidates, &known);
        assert_eq!(numbers.len(), CHOSEN);
        for (number, chosen) in [(0, false), (1, true), (2, true)] {
            assert_eq!(numbers.contains(&number), chosen, "{number}");
        }
    }
}
