//! Chooses few and small journals that show much of what there is.

use crate::answer::{Answer, Line};
use crate::book::PAYMENT;
use crate::crew::work_through;
use crate::journal::{journal, kind_of, Kind};
use crate::records::places;
use crate::run::{find, Call, Desk, End};
use crate::selection::{Features, Selection, Shows};
use crate::telling::telling;
use std::collections::BTreeSet;
use std::path::Path;

/// How many journals are chosen from.
pub const CANDIDATES: u64 = 20_000;
/// How many are chosen.
pub const CHOSEN: usize = 150;
/// The most bytes that those chosen have together.
pub const BYTES: usize = 600_000;

pub struct Chosen {
    pub journal: Vec<u8>,
    pub output: Vec<u8>,
}

struct Candidate {
    kind: Kind,
    shows: Shows,
}

/// Plays the candidates of the seed into the program, and answers those that
/// are chosen, in the order of their numbers.
pub fn choose(program: &Path, seed: u64, jobs: usize) -> Result<Vec<Chosen>, String> {
    let program = &find(program)?;
    let shown = work_through(
        jobs,
        0,
        CANDIDATES,
        |desk, number| {
            let journal = journal(seed, number);
            let (answer, _) = play(desk, program, &named(seed, number), &journal)?;
            Ok((
                journal.len(),
                features(&journal, kind_of(seed, number), &answer),
            ))
        },
        |done, seconds| {
            eprintln!(
                "{done} of {CANDIDATES} run, {:.0} a second",
                done as f64 / seconds
            );
        },
    )?;
    let mut features = Features::new();
    let mut candidates = Vec::new();
    for (number, (size, shown)) in (0..).zip(shown) {
        let shown = shown.into_iter().map(|feature| {
            let worth = feature.worth();
            features.number(feature, worth)
        });
        candidates.push(Candidate {
            kind: kind_of(seed, number),
            shows: Shows {
                number,
                size,
                features: shown.collect(),
            },
        });
    }
    let selection = select(&candidates, features.worth());
    let (shown, known) = (selection.shown(), features.known());
    eprintln!("{} of {} features are shown", shown.len(), known.len());
    for (feature, at) in known {
        if !shown.contains(at) && matches!(feature, Feature::Plain(_)) {
            eprintln!("not shown: {feature:?}");
        }
    }
    // They are few: one hand is enough, and its order is theirs.
    let numbers: Vec<u64> = selection.into_numbers().into_iter().collect();
    work_through(
        1,
        0,
        numbers.len() as u64,
        |desk, turn| {
            let number = numbers[turn as usize];
            let journal = journal(seed, number);
            let (_, output) = play(desk, program, &named(seed, number), &journal)?;
            Ok(Chosen { journal, output })
        },
        |_, _| {},
    )
}

fn named(seed: u64, number: u64) -> String {
    format!("journal {number} of seed {seed}")
}

/// What `lines` prints of a journal. The name is told where it is no answer.
pub(crate) fn play(
    desk: &Desk,
    program: &Path,
    name: &str,
    journal: &[u8],
) -> Result<(Answer, Vec<u8>), String> {
    let laid = "journal";
    desk.lay(laid, journal)
        .map_err(|error| format!("{name}: {error}"))?;
    let run = desk.run(Call {
        program,
        arguments: &[],
        input: Some(laid),
    })?;
    if run.end != End::Status(0) {
        return Err(format!("{name}: {} {}", run.end, run.complaint()));
    }
    let answer =
        Answer::read(&run.output).map_err(|reason| format!("{name}: the output {reason}"))?;
    Ok((answer, run.output))
}

/// Takes those that show most for their size, behind a few that are taken
/// anyway.
fn select(candidates: &[Candidate], worth: Vec<f64>) -> Selection {
    let mut selection = Selection::new(worth);
    // The longest that are played, those of just one byte less, and what is
    // too long by one byte: each once, whatever else they show.
    for size in [65_535, 65_536, 65_537] {
        let mut candidates = candidates.iter().map(|candidate| &candidate.shows);
        if let Some(candidate) = candidates.find(|candidate| candidate.size == size) {
            selection.take(candidate);
        }
    }
    let left = candidates
        .iter()
        .filter(|candidate| !matches!(candidate.kind, Kind::Full | Kind::TooLong))
        .map(|candidate| &candidate.shows);
    selection.fill(left.collect(), CHOSEN, BYTES);
    selection
}

/// What a journal and its answer show, by itself or with the journal's kind.
#[derive(Clone, Debug, PartialEq, Eq, PartialOrd, Ord)]
enum Feature {
    Plain(String),
    OfKind(Kind, String),
}

impl Feature {
    fn worth(&self) -> f64 {
        match self {
            Feature::Plain(_) => 1.0,
            Feature::OfKind(..) => 0.2,
        }
    }
}

fn features(journal: &[u8], kind: Kind, answer: &Answer) -> Vec<Feature> {
    let mut both = BTreeSet::new();
    let places = places(journal);
    let mut full = false;
    for refusal in answer.refusals() {
        let record = refusal.record.checked_sub(1).and_then(|at| places.get(at));
        let record = record.map_or(0, |place| place.kind.min(7));
        both.insert(format!("refused {} {record}", refusal.number));
        // Where a payment finds no room, no later one does.
        full |= (refusal.number, record) == (29, 5);
        if full {
            both.insert(format!("full, refused {} {record}", refusal.number));
        }
    }
    let lines = answer.lines();
    both.insert(match lines.len() {
        count @ 1_020.. => format!("lines {count}"),
        count => format!("lines below {}", (count + 1).next_power_of_two()),
    });
    if moves_first(lines) {
        both.insert("the first unauthorized day moves".to_string());
    }
    let mut plain = settled(lines);
    plain.extend(telling(journal));
    plain.insert(format!("kind {}", kind.name()));
    for line in lines {
        plain.insert(shown_by(line));
        if line.item <= 10 && line.millicents.unsigned_abs() == u128::from(PAYMENT) {
            // A price may go as far as a payment.
            plain.insert(format!("item {} at its limit", line.item));
        }
        plain.insert(format!("item {} in month {}", line.item, line.month));
    }
    let of_kind = both.iter().map(|name| Feature::OfKind(kind, name.clone()));
    let of_kind: Vec<Feature> = of_kind.collect();
    let plain = plain.into_iter().chain(both).map(Feature::Plain);
    plain.chain(of_kind).collect()
}

fn shown_by(line: &Line) -> String {
    let sign = |negative: bool, zero: bool| match (negative, zero) {
        (_, true) => "no",
        (true, _) => "below",
        _ => "above",
    };
    format!(
        "item {} {} therms {} millicents",
        line.item,
        sign(line.therms < 0, line.therms == 0),
        sign(line.millicents < 0, line.millicents == 0)
    )
}

/// Whether lines of unauthorized use follow each other in two months, as
/// where a correction makes a day of another month the first.
fn moves_first(lines: &[Line]) -> bool {
    lines.windows(2).any(|pair| {
        let unauthorized = |line: &Line| line.item == 6;
        unauthorized(&pair[0]) && unauthorized(&pair[1]) && pair[0].month != pair[1].month
    }) || lines.windows(3).any(|three| {
        three[0].item == 6
            && three[1].item == 10
            && three[2].item == 6
            && three[0].month != three[2].month
    })
}

/// How an account went on after its first refund.
fn settled(lines: &[Line]) -> BTreeSet<String> {
    let mut names = BTreeSet::new();
    let Some(first) = lines.iter().position(|line| line.item == 11) else {
        return names;
    };
    let months: BTreeSet<u8> = lines[..first].iter().map(|line| line.month).collect();
    names.insert(format!("refund after {} months", months.len()));
    for line in &lines[first + 1..] {
        names.insert(format!("after a refund: {}", shown_by(line)));
    }
    names
}

#[cfg(test)]
mod tests {
    use super::*;

    fn candidate(number: u64, size: usize, features: &[usize]) -> Candidate {
        Candidate {
            kind: Kind::Small,
            shows: Shows {
                number,
                size,
                features: features.to_vec(),
            },
        }
    }

    #[test]
    fn the_small_ones_that_show_more_are_chosen() {
        let mut candidates = vec![
            candidate(0, BYTES + 1, &[0, 1, 2]),
            candidate(1, 65_536, &[]),
            candidate(2, 300_000, &[0]),
            candidate(3, 200, &[0]),
            candidate(4, 300, &[1, 2]),
        ];
        candidates.extend((5..300).map(|number| candidate(number, 1_000, &[0])));
        let numbers = select(&candidates, vec![1.0; 3]).into_numbers();
        assert_eq!(numbers.len(), CHOSEN);
        for (number, chosen) in [(0, false), (1, true), (2, false), (3, true), (4, true)] {
            assert_eq!(numbers.contains(&number), chosen, "{number}");
        }
    }

    #[test]
    fn a_refusal_is_shown_with_the_record_that_it_is_of() {
        let mut journal = crate::records::Record::Pay(0).bytes();
        journal.push(9);
        let answer = Answer::Played {
            refusals: vec![
                crate::answer::Refusal {
                    record: 1,
                    number: 20,
                },
                crate::answer::Refusal {
                    record: 2,
                    number: 1,
                },
            ],
            lines: Vec::new(),
            sum: 0,
        };
        let features = features(&journal, Kind::Noise, &answer);
        for name in ["refused 20 5", "refused 1 7", "lines below 1", "kind noise"] {
            assert!(
                features.contains(&Feature::Plain(name.to_string())),
                "{name}"
            );
        }
    }
}
