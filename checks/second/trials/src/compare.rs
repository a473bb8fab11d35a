//! Plays journals into the programs of two makers and compares what they print.

use crate::answer::Answer;
use crate::asking::Asked;
use crate::crew::work_through;
use crate::journal::{journal, kind_of, Kind};
use crate::late::{Charges, Late, Payments};
use crate::records::read;
use crate::run::{find, Call, Desk, End, Run};
use crate::sheet::{Form, Sheet};
use std::collections::BTreeMap;
use std::fmt::Write as _;
use std::fs;
use std::io;
use std::path::{Path, PathBuf};
use std::slice;
use std::sync::atomic::{AtomicU64, Ordering};
use std::sync::{Mutex, PoisonError};

/// How many journals are named in a call of `statements`.
const BATCH: u64 = 25;

/// What comes of two runs of one call.
#[derive(Debug, PartialEq, Eq)]
pub enum Verdict<T> {
    Agree(T),
    Differ,
    /// Neither has done what it should, so that they cannot agree.
    Trouble(String),
}

/// What is asked of two runs besides that their ends and outputs are alike.
struct Rule {
    /// The statuses with which a run ends well.
    well: &'static [i32],
    /// Whether standard error is compared as well.
    errors: bool,
}

/// That of `lines` and of `statements`.
const PRINTS: Rule = Rule {
    well: &[0],
    errors: false,
};

/// That of `gasaccount`.
const ANSWERS: Rule = Rule {
    well: &[0, 1],
    errors: true,
};

/// Where the runs are alike, `read` makes of the one what they agree on, or
/// says what is wrong with both.
fn judge<T>(
    rule: &Rule,
    one: &Run,
    two: &Run,
    read: impl FnOnce(&Run) -> Result<T, String>,
) -> Verdict<T> {
    let well = |run: &Run| matches!(run.end, End::Status(status) if rule.well.contains(&status));
    if !well(one) && !well(two) {
        return Verdict::Trouble(format!(
            "neither ends well: one {}, two {}; one says: {}",
            one.end,
            two.end,
            one.complaint()
        ));
    }
    let errors = rule.errors && one.errors != two.errors;
    if one.end != two.end || one.output != two.output || errors {
        return Verdict::Differ;
    }
    match read(one) {
        Ok(read) => Verdict::Agree(read),
        Err(reason) => Verdict::Trouble(format!("the output of both {reason}")),
    }
}

/// The programs of one maker.
#[derive(Clone, Debug)]
pub struct Programs {
    pub lines: PathBuf,
    pub statements: PathBuf,
    pub gasaccount: PathBuf,
}

impl Programs {
    fn find(&self) -> Result<Programs, String> {
        Ok(Programs {
            lines: find(&self.lines)?,
            statements: find(&self.statements)?,
            gasaccount: find(&self.gasaccount)?,
        })
    }
}

/// The programs of both makers, with their whole paths.
struct Makers {
    one: Programs,
    two: Programs,
}

/// A call of a program of both makers, and both runs of it.
struct Runs {
    /// The program and its arguments, in words.
    call: String,
    paths: [PathBuf; 2],
    /// The journal on standard input, where there was one.
    input: Option<Vec<u8>>,
    one: Run,
    two: Run,
}

impl Makers {
    fn run(
        &self,
        desk: &Desk,
        program: fn(&Programs) -> &Path,
        arguments: &[String],
        input: Option<&Laid>,
    ) -> Result<Runs, String> {
        let paths = [program(&self.one), program(&self.two)];
        let run = |program: &Path| {
            desk.run(Call {
                program,
                arguments,
                input: input.map(|laid| laid.name.as_str()),
            })
        };
        let name = paths[1].file_name().unwrap_or_default().to_string_lossy();
        let words = arguments.iter().map(|argument| format!(" {argument:?}"));
        Ok(Runs {
            call: format!("{name}{}", words.collect::<String>()),
            paths: paths.map(Path::to_path_buf),
            input: input.map(|laid| laid.journal.clone()),
            one: run(paths[0])?,
            two: run(paths[1])?,
        })
    }
}

pub struct Comparison {
    pub one: Programs,
    pub two: Programs,
    pub seed: u64,
    pub from: u64,
    pub count: u64,
    pub jobs: usize,
    /// Where the first journal goes that makes a difference.
    pub save: PathBuf,
}

/// What is kept of a journal's runs.
struct Trial {
    number: u64,
    kind: Kind,
    verdict: Kept,
}

enum Kept {
    Agreed(Shown),
    Differed,
    Trouble(String),
}

/// What the programs agree on, in numbers.
struct Shown {
    refused: BTreeMap<u8, u64>,
    lines: usize,
    too_long: bool,
    refund: bool,
    statements: usize,
    /// The rows of all statements.
    rows: usize,
    call: Answered,
    late: LateCall,
}

/// How a call of `gasaccount` for a statement was answered.
enum Answered {
    WithLines,
    WithoutLines,
    RefusedMonth,
    RefusedTooLong,
}

/// A call of `gasaccount` for late charges.
struct LateCall {
    /// Whether payments were put behind the journal.
    paid: bool,
    too_long: bool,
    charges: Charges,
}

impl Shown {
    fn by(answer: &Answer, sheet: &Sheet, asked: &Asked, late: LateCall) -> Shown {
        let too_long = *answer == Answer::TooLong;
        Shown {
            refused: answer.refused(),
            lines: answer.lines().len(),
            too_long,
            refund: answer.lines().iter().any(|line| line.item == 11),
            statements: sheet.forms().len(),
            rows: sheet.forms().iter().map(Form::rows).sum(),
            call: match asked.month() {
                None => Answered::RefusedMonth,
                Some(_) if too_long => Answered::RefusedTooLong,
                Some(_) if asked.has_lines() => Answered::WithLines,
                Some(_) => Answered::WithoutLines,
            },
            late,
        }
    }
}

/// Why there is no agreement.
enum Discord {
    Differ(Box<Runs>),
    Trouble(String),
    /// A program cannot be run at all.
    Broken(String),
}

impl From<String> for Discord {
    fn from(reason: String) -> Discord {
        Discord::Broken(reason)
    }
}

/// What both runs of a call agree on.
fn agreed<T>(
    rule: &Rule,
    runs: Runs,
    read: impl FnOnce(&Run) -> Result<T, String>,
) -> Result<T, Discord> {
    match judge(rule, &runs.one, &runs.two, read) {
        Verdict::Agree(agreed) => Ok(agreed),
        Verdict::Differ => Err(Discord::Differ(Box::new(runs))),
        Verdict::Trouble(reason) => Err(Discord::Trouble(format!("{}: {reason}", runs.call))),
    }
}

/// A journal as it lies on a desk.
struct Laid {
    number: u64,
    name: String,
    journal: Vec<u8>,
}

impl Laid {
    fn lay(&self, desk: &Desk) -> Result<(), String> {
        let Laid { name, journal, .. } = self;
        desk.lay(name, journal)
            .map_err(|error| format!("{name}: {error}"))
    }

    fn take(&self, desk: &Desk) -> Result<(), String> {
        let name = &self.name;
        desk.take(name).map_err(|error| format!("{name}: {error}"))
    }
}

/// What `lines` prints of a journal.
fn lines(desk: &Desk, makers: &Makers, laid: &Laid) -> Result<Answer, Discord> {
    let runs = makers.run(desk, |programs| &programs.lines, &[], Some(laid))?;
    agreed(&PRINTS, runs, |run| Answer::read(&run.output))
}

/// What both answer to the same words about a journal, as `read` has it.
fn gasaccount<T>(
    desk: &Desk,
    makers: &Makers,
    laid: &Laid,
    words: &[String],
    read: impl FnOnce(&Run) -> Result<T, String>,
) -> Result<T, Discord> {
    let runs = makers.run(desk, |programs| &programs.gasaccount, words, Some(laid))?;
    agreed(&ANSWERS, runs, read)
}

/// What `statements` makes of the journals in one call. Where there is no
/// agreement on that, it is what it makes of each in a call of its own.
fn sheets(
    desk: &Desk,
    makers: &Makers,
    laid: &[Laid],
) -> Result<Vec<Result<Sheet, Discord>>, String> {
    let sheets = |names: &[String]| {
        let runs = makers.run(desk, |programs| &programs.statements, names, None)?;
        agreed(&PRINTS, runs, |run| Sheet::read_all(&run.output, names))
    };
    let names: Vec<String> = laid.iter().map(|laid| laid.name.clone()).collect();
    let whole = match sheets(&names) {
        Ok(sheets) => return Ok(sheets.into_iter().map(Ok).collect()),
        Err(Discord::Broken(reason)) => return Err(reason),
        Err(discord) => discord,
    };
    let mut each: Vec<Result<Sheet, Discord>> = names
        .iter()
        .map(|name| sheets(slice::from_ref(name)).map(|mut sheets| sheets.swap_remove(0)))
        .collect();
    if each.iter().all(Result::is_ok) {
        // It takes all of them, and is told of the first.
        each[0] = Err(whole);
    }
    Ok(each)
}

#[derive(Clone, Copy, Debug, PartialEq, Eq)]
pub enum Outcome {
    Agreed,
    Differed,
    Trouble,
}

impl Comparison {
    pub fn run(&self) -> Result<(Outcome, String), String> {
        let makers = Makers {
            one: self.one.find()?,
            two: self.two.find()?,
        };
        if self.count == 0 {
            return Err("no journal is to be compared".to_string());
        }
        let differ = AtomicU64::new(0);
        let trouble = AtomicU64::new(0);
        let lowest = Mutex::new(None);
        let trials = work_through(
            self.jobs,
            0,
            self.count.div_ceil(BATCH),
            |desk, batch| {
                let trials = self.try_batch(desk, batch, &makers, &lowest)?;
                for trial in &trials {
                    match trial.verdict {
                        Kept::Agreed(_) => {}
                        Kept::Differed => _ = differ.fetch_add(1, Ordering::Relaxed),
                        Kept::Trouble(_) => _ = trouble.fetch_add(1, Ordering::Relaxed),
                    }
                }
                Ok(trials)
            },
            |batches, seconds| {
                let done = (batches * BATCH).min(self.count);
                let differ = differ.load(Ordering::Relaxed);
                let trouble = trouble.load(Ordering::Relaxed);
                eprintln!(
                    "{done} of {} run, {} agreed, {differ} differ, {trouble} in trouble, {:.0} a second",
                    self.count,
                    done.saturating_sub(differ + trouble),
                    done as f64 / seconds,
                );
            },
        )?;
        let trials: Vec<Trial> = trials.into_iter().flatten().collect();
        Ok(self.sum_up(&trials))
    }

    /// The journals of a batch: `statements` on all of them together, and the
    /// other programs on each.
    fn try_batch(
        &self,
        desk: &Desk,
        batch: u64,
        makers: &Makers,
        lowest: &Mutex<Option<u64>>,
    ) -> Result<Vec<Trial>, String> {
        let turns = batch * BATCH..self.count.min((batch + 1) * BATCH);
        let laid: Vec<Laid> = turns
            .map(|turn| {
                let number = self.from + turn;
                Laid {
                    number,
                    name: format!("{number}.journal"),
                    journal: journal(self.seed, number),
                }
            })
            .collect();
        for laid in &laid {
            laid.lay(desk)?;
        }
        let mut trials = Vec::new();
        for (laid, sheet) in laid.iter().zip(sheets(desk, makers, &laid)?) {
            let verdict = match self.try_one(desk, makers, laid, sheet) {
                Ok(shown) => Kept::Agreed(shown),
                Err(Discord::Trouble(reason)) => Kept::Trouble(reason),
                Err(Discord::Broken(reason)) => return Err(reason),
                Err(Discord::Differ(runs)) => {
                    self.save_lowest(laid, &runs, lowest)
                        .map_err(|error| format!("{}: {error}", self.save.display()))?;
                    Kept::Differed
                }
            };
            trials.push(Trial {
                number: laid.number,
                kind: kind_of(self.seed, laid.number),
                verdict,
            });
        }
        for laid in &laid {
            laid.take(desk)?;
        }
        Ok(trials)
    }

    /// `lines` on a journal, what `statements` made of it, and two calls of
    /// `gasaccount`, for a statement and for late charges. The first of them
    /// that makes a difference is told.
    fn try_one(
        &self,
        desk: &Desk,
        makers: &Makers,
        laid: &Laid,
        sheet: Result<Sheet, Discord>,
    ) -> Result<Shown, Discord> {
        let answer = lines(desk, makers, laid)?;
        let sheet = sheet?;
        sheet.check(&answer).map_err(|reason| {
            Discord::Trouble(format!("statements: the output of both {reason}"))
        })?;
        let asked = Asked::of(self.seed, laid.number);
        gasaccount(desk, makers, laid, &asked.arguments(), |run| {
            asked.check(run, &answer, &sheet)
        })?;
        let late = self.try_late(desk, makers, laid, &answer)?;
        Ok(Shown::by(&answer, &sheet, &asked, late))
    }

    /// A call for late charges, behind payments where the question has some.
    /// These are of the journal as `lines` prints it with the payments.
    fn try_late(
        &self,
        desk: &Desk,
        makers: &Makers,
        laid: &Laid,
        answer: &Answer,
    ) -> Result<LateCall, Discord> {
        let Some(payments) = Payments::of(self.seed, laid.number, answer) else {
            return self.charge(desk, makers, laid, answer, None);
        };
        let paid = Laid {
            number: laid.number,
            name: format!("{}.paid", laid.name),
            journal: payments.behind(&laid.journal),
        };
        paid.lay(desk)?;
        let answer = lines(desk, makers, &paid)?;
        let late = self.charge(desk, makers, &paid, &answer, Some(&payments))?;
        paid.take(desk)?;
        Ok(late)
    }

    fn charge(
        &self,
        desk: &Desk,
        makers: &Makers,
        laid: &Laid,
        answer: &Answer,
        payments: Option<&Payments>,
    ) -> Result<LateCall, Discord> {
        let late = Late::of(self.seed, laid.number, answer, payments);
        let charges = gasaccount(desk, makers, laid, &late.arguments(), |run| {
            late.check(run, answer)
        })?;
        Ok(LateCall {
            paid: payments.is_some(),
            too_long: *answer == Answer::TooLong,
            charges,
        })
    }

    fn save_lowest(&self, laid: &Laid, runs: &Runs, lowest: &Mutex<Option<u64>>) -> io::Result<()> {
        let mut lowest = lowest.lock().unwrap_or_else(PoisonError::into_inner);
        if lowest.is_none_or(|lowest| laid.number < lowest) {
            *lowest = Some(laid.number);
            self.save(laid, runs)?;
        }
        Ok(())
    }

    fn save(&self, laid: &Laid, runs: &Runs) -> io::Result<()> {
        let number = laid.number;
        let Runs {
            call,
            paths,
            input,
            one,
            two,
        } = runs;
        let input = input.as_ref().unwrap_or(&laid.journal);
        fs::create_dir_all(&self.save)?;
        fs::write(self.save.join("journal"), input)?;
        for (name, run) in [("one", one), ("two", two)] {
            fs::write(self.save.join(name), &run.output)?;
            fs::write(self.save.join(format!("{name}.stderr")), &run.errors)?;
        }
        let about = format!(
            "seed {}, number {number}, kind {}\nmade again by: {}{}\ncall: {call}\n\
             one: {} ({}) {}\ntwo: {} ({}) {}\n{}\n",
            self.seed,
            kind_of(self.seed, number).name(),
            self.recipe(number),
            behind(&laid.journal, input),
            paths[0].display(),
            one.end,
            one.complaint(),
            paths[1].display(),
            two.end,
            two.complaint(),
            parting(one, two),
        );
        fs::write(self.save.join("about"), about)
    }

    fn recipe(&self, number: u64) -> String {
        format!(
            "checks/second/target/release/generate {} {number}",
            self.seed
        )
    }

    fn sum_up(&self, trials: &[Trial]) -> (Outcome, String) {
        let mut tally = Tally::default();
        for trial in trials {
            tally.count(trial);
        }
        let mut text = tally.table();
        if let Some(number) = tally.first_differing {
            let _ = writeln!(
                text,
                "the first that differs is {number}; it and both outputs are in {}; \
                 made again by: {}",
                self.save.display(),
                self.recipe(number)
            );
        }
        if let Some((number, reason)) = &tally.first_trouble {
            let _ = writeln!(
                text,
                "trouble, first with {number} ({}): {reason}",
                self.recipe(*number)
            );
        }
        let outcome = if tally.first_trouble.is_some() {
            Outcome::Trouble
        } else if tally.first_differing.is_some() {
            Outcome::Differed
        } else {
            Outcome::Agreed
        };
        (outcome, text)
    }
}

/// The payments that an input has behind the journal, in words.
fn behind(journal: &[u8], input: &[u8]) -> String {
    match input.strip_prefix(journal).map(read) {
        Some(payments) if !payments.is_empty() => format!(", and behind it {payments:?}"),
        _ => String::new(),
    }
}

/// Where two runs part: in their outputs, or else on standard error.
fn parting(one: &Run, two: &Run) -> String {
    match first_difference(&one.output, &two.output) {
        Some(rows) => rows,
        None => match first_difference(&one.errors, &two.errors) {
            Some(rows) => format!("the outputs are alike; on standard error {rows}"),
            None => "the outputs are alike".to_string(),
        },
    }
}

/// Where two outputs part, row by row.
fn first_difference(one: &[u8], two: &[u8]) -> Option<String> {
    let rows = |output: &[u8]| -> Vec<String> {
        String::from_utf8_lossy(output)
            .split('\n')
            .map(str::to_string)
            .collect()
    };
    let (one, two) = (rows(one), rows(two));
    let none = "(no row)".to_string();
    (0..one.len().max(two.len())).find_map(|at| {
        let (first, second) = (one.get(at), two.get(at));
        (first != second).then(|| {
            format!(
                "they part at row {}:\none: {}\ntwo: {}",
                at + 1,
                first.unwrap_or(&none),
                second.unwrap_or(&none)
            )
        })
    })
}

/// Of each refusal number how often it came, and in how many answers.
#[derive(Default)]
struct Refused(BTreeMap<u8, (u64, u64)>);

impl Refused {
    fn count(&mut self, refused: &BTreeMap<u8, u64>) {
        for (&refusal, &rows) in refused {
            let entry = self.0.entry(refusal).or_insert((0, 0));
            entry.0 += rows;
            entry.1 += 1;
        }
    }

    /// The rows of a table, for answers by this name.
    fn table(&self, answers: &str) -> String {
        let rows = self.0.iter();
        let rows =
            rows.map(|(number, (rows, some))| format!("  {number:>7} {rows:>8} {some:>9}\n"));
        [format!("  refused     rows {answers:>9}\n")]
            .into_iter()
            .chain(rows)
            .collect()
    }
}

/// The calls of `gasaccount` for late charges.
#[derive(Default)]
struct LateCalls {
    calls: u64,
    paid: u64,
    too_long: u64,
    accepted: u64,
    least: u64,
    refused: Refused,
}

impl LateCalls {
    fn count(&mut self, late: &LateCall) {
        self.calls += 1;
        self.paid += u64::from(late.paid);
        self.too_long += u64::from(late.too_long);
        self.accepted += late.charges.accepted;
        self.least += late.charges.least;
        self.refused.count(&late.charges.refused);
    }

    fn table(&self) -> String {
        format!(
            "  late calls {}, behind payments {}, too long {}\n  \
             late charges accepted {}, of which the least one {}\n{}",
            self.calls,
            self.paid,
            self.too_long,
            self.accepted,
            self.least,
            self.refused.table("calls")
        )
    }
}

#[derive(Default)]
struct Tally {
    agreed: u64,
    differed: u64,
    trouble: u64,
    kinds: BTreeMap<Kind, u64>,
    refused: Refused,
    lines: u64,
    refunds: u64,
    too_long: u64,
    statements: u64,
    rows: u64,
    /// Of the calls of `gasaccount` for statements, those that were answered, without lines
    /// and with, and those that were refused, for the month and as too long.
    plain: u64,
    with_lines: u64,
    refused_months: u64,
    refused_too_long: u64,
    late: LateCalls,
    /// The journals with the most lines: how many, and the journal's number.
    longest: Vec<(usize, u64)>,
    first_differing: Option<u64>,
    first_trouble: Option<(u64, String)>,
}

impl Tally {
    /// Trials come in the order of their numbers.
    fn count(&mut self, trial: &Trial) {
        *self.kinds.entry(trial.kind).or_insert(0) += 1;
        match &trial.verdict {
            Kept::Agreed(shown) => self.count_shown(trial.number, shown),
            Kept::Differed => {
                self.differed += 1;
                self.first_differing.get_or_insert(trial.number);
            }
            Kept::Trouble(reason) => {
                self.trouble += 1;
                self.first_trouble
                    .get_or_insert_with(|| (trial.number, reason.clone()));
            }
        }
    }

    fn count_shown(&mut self, number: u64, shown: &Shown) {
        self.agreed += 1;
        self.refused.count(&shown.refused);
        self.lines += shown.lines as u64;
        self.too_long += u64::from(shown.too_long);
        self.refunds += u64::from(shown.refund);
        self.longest.push((shown.lines, number));
        self.statements += shown.statements as u64;
        self.rows += shown.rows as u64;
        let calls = match shown.call {
            Answered::WithoutLines => &mut self.plain,
            Answered::WithLines => &mut self.with_lines,
            Answered::RefusedMonth => &mut self.refused_months,
            Answered::RefusedTooLong => &mut self.refused_too_long,
        };
        *calls += 1;
        self.late.count(&shown.late);
    }

    fn table(&mut self) -> String {
        let mut text = String::new();
        // Writing into a string does not fail.
        let _ = writeln!(text, "agreed {}", self.agreed);
        let _ = writeln!(text, "differed {}", self.differed);
        let _ = writeln!(text, "trouble {}", self.trouble);
        let _ = writeln!(text, "journals of each kind:");
        for kind in Kind::ALL {
            let count = self.kinds.get(&kind).copied().unwrap_or(0);
            let _ = writeln!(text, "  {:<12} {count:>8}", kind.name());
        }
        let _ = writeln!(text, "of those that agreed:");
        text.push_str(&self.refused.table("journals"));
        let _ = writeln!(text, "  too long {}", self.too_long);
        let _ = writeln!(text, "  lines in all {}", self.lines);
        let _ = writeln!(text, "  settled with refund lines {}", self.refunds);
        self.longest
            .sort_by_key(|&(lines, number)| (usize::MAX - lines, number));
        let full = self.longest.iter().filter(|most| most.0 == 1_024).count();
        let _ = writeln!(text, "  with all 1024 lines {full}");
        let most: Vec<String> = self
            .longest
            .iter()
            .filter(|most| most.0 != 1_024)
            .take(5)
            .map(|(lines, number)| format!("{lines} (journal {number})"))
            .collect();
        let _ = writeln!(text, "  most lines but for those: {}", most.join(", "));
        let _ = writeln!(text, "  statements (journal and month) {}", self.statements);
        let _ = writeln!(text, "  rows of statements {}", self.rows);
        let answered = self.plain + self.with_lines;
        let refused = self.refused_months + self.refused_too_long;
        let _ = writeln!(
            text,
            "  gasaccount calls for statements {}",
            answered + refused
        );
        let _ = writeln!(
            text,
            "    answered {answered}, with lines {}",
            self.with_lines
        );
        let _ = writeln!(
            text,
            "    refused {refused}, for the month {}, as too long {}",
            self.refused_months, self.refused_too_long
        );
        text.push_str(&self.late.table());
        text
    }
}

#[cfg(test)]
mod tests {
    use super::*;
    use crate::records::Record;
    use std::os::unix::fs::PermissionsExt;
    use std::process;

    fn run(end: End, output: &str, errors: &str) -> Run {
        Run {
            end,
            output: output.as_bytes().to_vec(),
            errors: errors.as_bytes().to_vec(),
        }
    }

    const NO_LINES: &str = "no month item therms millicents\nsum 0\n";
    const ONE_LINE: &str = "no month item therms millicents\n1 12 13 0 -1\nsum -1\n";

    fn of_lines(one: &Run, two: &Run) -> Verdict<Answer> {
        judge(&PRINTS, one, two, |run| Answer::read(&run.output))
    }

    fn of_gasaccount(one: &Run, two: &Run) -> Verdict<()> {
        judge(&ANSWERS, one, two, |_| Ok(()))
    }

    #[test]
    fn runs_that_are_alike_agree() {
        let well = run(End::Status(0), ONE_LINE, "");
        assert!(matches!(of_lines(&well, &well), Verdict::Agree(_)));
        let refused = run(End::Status(1), "", "refused\n");
        assert_eq!(of_gasaccount(&refused, &refused), Verdict::Agree(()));
    }

    #[test]
    fn other_outputs_and_other_ends_differ() {
        let well = run(End::Status(0), ONE_LINE, "");
        let other = run(End::Status(0), NO_LINES, "");
        let longer = run(End::Status(0), &format!("{ONE_LINE}\n"), "");
        let silent = run(End::Status(0), "", "");
        let failed = run(End::Status(1), ONE_LINE, "");
        let killed = run(End::Signal, ONE_LINE, "");
        for two in [other, longer, silent, failed, killed] {
            assert_eq!(of_lines(&well, &two), Verdict::Differ);
            assert_eq!(of_lines(&two, &well), Verdict::Differ);
            assert_eq!(of_gasaccount(&well, &two), Verdict::Differ);
        }
    }

    #[test]
    fn standard_error_counts_for_gasaccount_alone() {
        let silent = run(End::Status(0), NO_LINES, "");
        let talking = run(End::Status(0), NO_LINES, "refused 1 20\n");
        assert!(matches!(of_lines(&silent, &talking), Verdict::Agree(_)));
        assert_eq!(of_gasaccount(&silent, &talking), Verdict::Differ);
    }

    #[test]
    fn two_that_fail_or_say_nothing_do_not_agree() {
        let failed = run(End::Status(101), ONE_LINE, "");
        let late = run(End::OutOfTime, "", "");
        let silent = run(End::Status(0), "", "");
        let nonsense = run(End::Status(0), "hello\n", "");
        for (one, two) in [
            (&failed, &failed),
            (&failed, &late),
            (&silent, &silent),
            (&nonsense, &nonsense),
        ] {
            assert!(matches!(of_lines(one, two), Verdict::Trouble(_)));
        }
        assert!(matches!(of_gasaccount(&failed, &late), Verdict::Trouble(_)));
    }

    /// A command that prints a text.
    fn printf(text: &str) -> String {
        format!("printf '{}'", text.replace('\n', "\\n"))
    }

    /// A folder with programs that stand in for those that are compared.
    struct StandIns(PathBuf);

    impl StandIns {
        fn new(name: &str) -> StandIns {
            let folder = std::env::temp_dir().join(format!("trials-{name}-{}", process::id()));
            fs::create_dir_all(&folder).unwrap();
            StandIns(folder)
        }

        fn script(&self, name: &str, script: &str) -> PathBuf {
            let path = self.0.join(name);
            fs::write(&path, format!("#!/bin/sh\n{script}\n")).unwrap();
            fs::set_permissions(&path, fs::Permissions::from_mode(0o755)).unwrap();
            path
        }

        /// Those that take each journal for an empty one.
        fn empty(&self) -> Programs {
            let months = (0..=12).map(|month| format!("month {month}\\ntotal 0\\n"));
            let months: String = months.collect();
            let row = "refused 3: a statement is of a month from 0 to 12, not of";
            // Of an account without lines each late charge is refused.
            let numbers = r"sed -n 's/^+*0*\([0-9][0-9]*\)$/refused late \1 20/p'";
            let none = printf(NO_LINES);
            let late = format!("shift; printf '%s\\n' \"$@\" | {numbers}; {none}; exit");
            Programs {
                lines: self.prints("none", NO_LINES),
                statements: self.script(
                    "statements",
                    &format!("for name; do printf \"journal $name\\n{months}\"; done"),
                ),
                gasaccount: self.script(
                    "gasaccount",
                    &format!(
                        "cat > /dev/null\nif [ $1 = late ]; then\n{late}\nfi\n\
                         month=$2; [ \"$month\" = --lines ] && month=$3\n\
                         case \"$month\" in\n[0-9]|1[0-2]|007|012) echo total 0;;\n\
                         *) echo \"{row} $month\" >&2; exit 1;;\nesac"
                    ),
                ),
            }
        }

        /// A script, and behind it another program with the same words.
        fn before(&self, program: &Path, name: &str, script: &str) -> PathBuf {
            self.script(
                name,
                &format!("{script}\nexec {} \"$@\"", program.display()),
            )
        }

        /// A program that takes its journal and prints the same of each.
        fn prints(&self, name: &str, text: &str) -> PathBuf {
            self.script(name, &format!("cat > /dev/null; {}", printf(text)))
        }

        fn compare(&self, one: &Programs, two: &Programs) -> Result<Outcome, String> {
            Comparison {
                one: one.clone(),
                two: two.clone(),
                seed: 1,
                from: 5,
                count: 30,
                jobs: 2,
                save: self.0.join("difference"),
            }
            .run()
            .map(|(outcome, _)| outcome)
        }

        fn saved(&self, name: &str) -> String {
            let file = self.0.join("difference").join(name);
            String::from_utf8_lossy(&fs::read(file).unwrap()).into_owned()
        }
    }

    impl Drop for StandIns {
        fn drop(&mut self) {
            let _ = fs::remove_dir_all(&self.0);
        }
    }

    #[test]
    fn lines_are_compared_as_they_run() {
        let folder = StandIns::new("lines");
        let empty = folder.empty();
        let with = |lines: PathBuf| Programs {
            lines,
            ..empty.clone()
        };
        let some = with(folder.prints("some", ONE_LINE));
        let fails = with(folder.script("fails", "exit 3"));
        let missing = with(folder.0.join("missing"));
        assert_eq!(folder.compare(&empty, &empty), Ok(Outcome::Agreed));
        assert!(!folder.0.join("difference").exists());
        assert_eq!(folder.compare(&empty, &some), Ok(Outcome::Differed));
        let saved = fs::read(folder.0.join("difference/journal")).unwrap();
        assert_eq!(saved, journal(1, 5));
        assert_eq!(folder.saved("one"), NO_LINES);
        assert_eq!(folder.saved("two"), ONE_LINE);
        assert_eq!(folder.compare(&empty, &fails), Ok(Outcome::Differed));
        assert_eq!(folder.compare(&fails, &fails), Ok(Outcome::Trouble));
        // What lines and statements print is of two accounts.
        assert_eq!(folder.compare(&some, &some), Ok(Outcome::Trouble));
        assert!(folder.compare(&empty, &missing).is_err());
    }

    #[test]
    fn the_journal_of_another_statement_is_found() {
        let folder = StandIns::new("statements");
        let empty = folder.empty();
        let with = |name: &str, script: &str| Programs {
            statements: folder.before(&empty.statements, name, script),
            ..empty.clone()
        };
        let other = with("other", "case \"$*\" in *33.journal*) echo;; esac");
        assert_eq!(folder.compare(&empty, &other), Ok(Outcome::Differed));
        let about = folder.saved("about");
        assert!(about.starts_with("seed 1, number 33, "), "{about}");
        assert!(about.contains("call: other \"33.journal\"\n"), "{about}");
        // It is only together that these make a difference.
        let together = with("together", "[ $# = 1 ] || echo");
        assert_eq!(folder.compare(&empty, &together), Ok(Outcome::Differed));
        assert!(folder.saved("about").starts_with("seed 1, number 5, "));
        let fails = with("fails", "exit 1");
        assert_eq!(folder.compare(&fails, &fails), Ok(Outcome::Trouble));
    }

    #[test]
    fn another_word_of_gasaccount_is_found() {
        let folder = StandIns::new("gasaccount");
        let empty = folder.empty();
        let with = |name: &str, script: &str| Programs {
            gasaccount: folder.before(&empty.gasaccount, name, script),
            ..empty.clone()
        };
        let talks = with("talks", "echo hello >&2");
        assert_eq!(folder.compare(&empty, &talks), Ok(Outcome::Differed));
        let about = folder.saved("about");
        assert!(about.starts_with("seed 1, number 5, "), "{about}");
        assert!(about.contains("alike; on standard error they part at row 1"));
        assert!(folder.saved("two.stderr").starts_with("hello\n"));
        // Both alike, but no answer to what was asked.
        assert_eq!(folder.compare(&talks, &talks), Ok(Outcome::Trouble));
    }

    #[test]
    fn another_word_of_late_charges_is_found() {
        let folder = StandIns::new("late");
        let empty = folder.empty();
        let with = |name: &str, script: &str| Programs {
            gasaccount: folder.before(&empty.gasaccount, name, script),
            ..empty.clone()
        };
        for (name, script) in [
            ("talks", "echo hello >&2"),
            ("more", "echo refused late 5 30"),
            ("other", "shift; set -- late 5 \"$@\""),
        ] {
            let other = with(name, &format!("if [ $1 = late ]; then {script}; fi"));
            assert_eq!(folder.compare(&empty, &other), Ok(Outcome::Differed));
            let about = folder.saved("about");
            assert!(
                about.contains(&format!("\ncall: {name} \"late\" ")),
                "{about}"
            );
            assert_eq!(folder.compare(&other, &other), Ok(Outcome::Trouble));
        }
    }

    #[test]
    fn payments_behind_a_journal_are_told() {
        let journal = journal(1, 5);
        assert_eq!(behind(&journal, &journal), "");
        let paid = [journal.clone(), Record::Pay(7).bytes()].concat();
        assert_eq!(behind(&journal, &paid), ", and behind it [Pay(7)]");
    }
}
