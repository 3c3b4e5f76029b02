//! What is true of all answers: all that this interpreter can be held against
//! when it is alone.

use crate::answer::{self, Answer, Lent, MOST_UNITS};
use crate::cases::check_from_run;
use crate::profile::profile;
use crate::promise::{fits, larger, ENDS};
use crate::services::{wanted, Service};
use crate::sizes::BEFORE;
use crate::store;
use crate::stored_laws;
use crate::text::{self, Kind};
use crate::trial::Trial;
use crate::write::{self, Written};

/// Whether it holds, and what to say if it does not.
pub type Law = (bool, &'static str);

pub fn hold(trial: &Trial) -> Result<(), String> {
    let answer = answer::run(&trial.sheet, &trial.lent);
    let mut laws = run_laws(trial, &answer);
    laws.extend(write_laws(trial, &answer));
    laws.extend(pair_laws(trial));
    laws.extend(promises(trial, &answer));
    laws.extend(edition_laws(trial, &answer));
    laws.extend(stored_laws::all(trial, &answer));
    laws.extend(profile_laws(trial, &answer));
    laws.extend(size_laws(trial, &answer));
    match laws.iter().find(|(holds, _)| !holds) {
        Some((_, law)) => Err(law.to_string()),
        None => Ok(()),
    }
}

fn run_laws(trial: &Trial, answer: &Answer) -> Vec<Law> {
    let follows = check_from_run(&wanted(Service::Run, trial));
    let check = wanted(Service::Check, trial);
    let Lent {
        allowance, output, ..
    } = trial.lent;
    let (stops, passes) = (answer.number >= 50, answer.number == 0);
    let places = trial.sheet.len() + usize::from(answer.number == 20);
    vec![
        (follows.is_none_or(|f| f == check), "check and run disagree"),
        (answer.units <= allowance, "more units than allowed"),
        (answer.printed.len() <= output, "more bytes than room"),
        (answer.number != 21, "a number that is out of the table"),
        (
            answer.number != 50 || answer.units == allowance,
            "50 with units left",
        ),
        (answer.value == 0 || passes, "a value with a refusal"),
        (stops || passes || answer.kind == 0, "a type with a refusal"),
        (answer.place < places.max(1) as u64, "a place outside"),
    ]
}

/// R03.3 and R03.4.
fn write_laws(trial: &Trial, answer: &Answer) -> Vec<Law> {
    let told = write::write(&trial.sheet, &trial.lent, trial.room);
    let passes = answer.number == 0 || answer.number >= 50;
    let Written { number, text, .. } = told;
    if number != 0 {
        let same = (number, told.place) == (answer.number, answer.place);
        let due = match number {
            44 => passes || answer.number == 40 || answer.number == 41,
            _ => same || answer.number == 40 || answer.number == 41,
        };
        return vec![(due, "written otherwise than refused")];
    }
    let again = write::write(&text, &trial.lent, trial.room);
    let back = answer::run(&text, &trial.lent);
    let kinds = |source: &[u8]| kinds(source, trial.lent.edition);
    let same_tokens = kinds(&text) == kinds(&trial.sheet);
    let places_aside = |a: &Answer| Answer {
        place: 0,
        ..a.clone()
    };
    vec![
        (again.text == text, "written twice is another text"),
        (same_tokens, "other tokens read back"),
        (
            places_aside(&back) == places_aside(answer),
            "another answer read back",
        ),
    ]
}

/// R11.2 and R11.3.
fn promises(trial: &Trial, answer: &Answer) -> Vec<Law> {
    let passes = answer::check(&trial.sheet, &trial.lent).number == 0;
    if !passes || [40, 41].contains(&answer.number) {
        return vec![];
    }
    let more = Lent {
        allowance: larger(trial.lent.allowance, trial.fill),
        ..trial.lent
    };
    let again = || answer::run(&trial.sheet, &more);
    vec![
        (ENDS.contains(&answer.number), "an end that is not listed"),
        (
            answer.number != 0 || fits(answer.kind, answer.value),
            "a value of another type",
        ),
        (
            answer.number == 50 || again() == *answer,
            "more units, another end",
        ),
    ]
}

/// R10.2, R10.5 and R10.6.
fn profile_laws(trial: &Trial, answer: &Answer) -> Vec<Law> {
    let told = profile(&trial.sheet, &trial.lent);
    let check = answer::check(&trial.sheet, &trial.lent);
    let due = match told.number {
        0 => check.number == 0 && told.kind == check.kind && told.count <= MOST_UNITS,
        43 | 45 => check.number == 0 && (told.kind, told.count) == (0, 0),
        _ => (told.number, told.place) == (check.number, check.place),
    };
    let mut laws = vec![(due, "the profile is not what check says")];
    if told.number == 0 && answer.number != 40 {
        let exact = Lent {
            allowance: told.count,
            ..trial.lent
        };
        let ran = answer::run(&trial.sheet, &exact);
        let enough = ran.number != 50 && ran.units <= told.count;
        laws.push((enough, "more units than the profile counts"));
        let all =
            ran.units == told.count || ran.number != 0 || chooses(&trial.sheet, exact.edition);
        laws.push((all, "fewer units than counted, and nothing was left out"));
    }
    laws
}

/// Whether a run may leave something out: there is an `if`, an `&&` or an `||`.
fn chooses(sheet: &[u8], edition: u32) -> bool {
    let chooses = |kind: &Kind| matches!(kind, Kind::Fixed("if" | "&&" | "||"));
    kinds(sheet, edition).iter().any(chooses)
}

/// R13.4: what a box with the sizes before does not refuse for them it answers as
/// this one does; it says 14 to a stored count that is too large for it.
fn size_laws(trial: &Trial, answer: &Answer) -> Vec<Law> {
    if answer.number == 40 {
        return vec![];
    }
    let before = Lent {
        sizes: BEFORE,
        ..trial.lent
    };
    let kept = |then: &Answer, now: &Answer| [10, 14].contains(&then.number) || then == now;
    let told = answer::run(&trial.sheet, &before);
    let stored = trial.stored().unwrap_or_default();
    let run_stored = |lent: &Lent| answer::run_by(store::prepare, &stored, lent);
    let (then, now) = (run_stored(&before), run_stored(&trial.lent));
    let count = store::lines(&stored).first().cloned().flatten();
    let large = count.is_some_and(|c| c.len() == 2 && c > vec![4, 0]);
    let due = !large || [41, 42].contains(&then.number) || (then.number, then.place) == (14, 1);
    let write = |lent: &Lent| write::write(&trial.sheet, lent, trial.room);
    let text = write(&before);
    // 44 speaks of a source's size too.
    let written = [10, 14, 44].contains(&text.number) || text == write(&trial.lent);
    let pay = profile(&trial.sheet, &before);
    let profiled = [10, 14].contains(&pay.number) || pay == profile(&trial.sheet, &trial.lent);
    vec![
        (kept(&told, answer), "another answer than before"),
        (kept(&then, &now), "another answer of the stored sheet"),
        (due, "a count above 0400 before"),
        (written, "another text than before"),
        (profiled, "another profile than before"),
    ]
}

/// R12.14: a sheet that is the same tokens in both editions has one answer.
fn edition_laws(trial: &Trial, answer: &Answer) -> Vec<Law> {
    let Lent { edition, .. } = trial.lent;
    let sheet = &trial.sheet;
    if ![1, 2].contains(&edition) || text::tokens(sheet, 1) != text::tokens(sheet, 2) {
        return vec![];
    }
    let other = Lent {
        edition: 3 - edition,
        ..trial.lent
    };
    let same = answer::run(sheet, &other) == *answer;
    vec![(same, "another answer in the other edition")]
}

/// R07.2: wherever a sheet is cut, the place is the same byte of the whole, and
/// the line is around it.
fn pair_laws(trial: &Trial) -> Vec<Law> {
    let whole = wanted(Service::Run, trial);
    let mut laws = Vec::new();
    for cut in &trial.cuts() {
        let told = wanted(Service::RunPair, cut);
        let [place, kind, value, units, printed, sheet, begin, end] = told.report[..] else {
            unreachable!("eight words behind the number");
        };
        let (first, second) = cut.parts();
        let before = if sheet == 2 {
            first.len() as u64 + 1
        } else {
            0
        };
        let shown = if sheet == 2 { second } else { first };
        let same = [before + place, kind, value, units, printed] == whole.report[..];
        let around = begin <= place && place <= end && end <= shown.len() as u64;
        let line = around && !shown[begin as usize..end as usize].contains(&b'\n');
        laws.push((
            told.number == whole.number && same,
            "cut in two it is another answer",
        ));
        laws.push((line, "a line that is none"));
    }
    laws
}

fn kinds(source: &[u8], edition: u32) -> Vec<Kind> {
    let tokens = text::tokens(source, edition).unwrap_or_default();
    tokens.into_iter().map(|token| token.kind).collect()
}
