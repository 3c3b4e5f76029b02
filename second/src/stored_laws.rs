//! What is true of all stored sheets.

use crate::answer::{run_by, Answer};
use crate::laws::Law;
use crate::pair::NOWHERE;
use crate::store::{self, form, form_of};
use crate::text::{self, Kind, Token};
use crate::trial::Trial;
use crate::write::Written;

pub fn all(trial: &Trial, answer: &Answer) -> Vec<Law> {
    let mut laws = writer(trial, answer);
    laws.extend(run_again(trial, answer));
    laws.extend(one_form(trial));
    laws
}

fn kinds(tokens: &[Token]) -> Vec<&Kind> {
    tokens.iter().map(|token| &token.kind).collect()
}

/// R09.5: the source's own refusal, then 44, then what reads back as the tokens.
fn writer(trial: &Trial, answer: &Answer) -> Vec<Law> {
    let Trial {
        sheet,
        lent,
        buffer,
        ..
    } = trial;
    let Written {
        number,
        place,
        text,
        ..
    } = store::store(sheet, lent, *buffer);
    let length = store::store(sheet, lent, usize::MAX).text.len();
    let passes = answer.number == 0 || answer.number >= 50;
    let due = match number {
        0 => passes && length <= *buffer,
        44 => passes && length > *buffer && place == 0,
        _ => (number, place) == (answer.number, answer.place),
    };
    let due = due || [40, 41].contains(&answer.number);
    if number != 0 {
        return vec![(due, "stored otherwise than refused")];
    }
    let back = store::tokens(&text, lent).unwrap_or_default();
    let own = text::tokens(sheet, lent.edition).unwrap_or_default();
    vec![
        (due, "stored though refused"),
        (kinds(&back) == kinds(&own), "other tokens out of the store"),
    ]
}

/// R09.9: the same answer from what is stored, but for places.
fn run_again(trial: &Trial, answer: &Answer) -> Vec<Law> {
    let Trial { sheet, lent, .. } = trial;
    let Some(stored) = form_of(sheet, lent.edition) else {
        return vec![];
    };
    let tokens = text::tokens(sheet, lent.edition).unwrap_or_default();
    let line = match NOWHERE.contains(&answer.number) {
        true => 0,
        false => {
            let index = tokens.iter().position(|t| t.place as u64 == answer.place);
            index.unwrap_or(tokens.len()) as u64 + 2
        }
    };
    let due = Answer {
        place: line,
        ..answer.clone()
    };
    let told = run_by(store::prepare, &stored, lent);
    // A source may be too long for its blanks and comments alone.
    let same = told == due || answer.number == 10;
    vec![(same, "another answer out of the store")]
}

/// R09.10: what is read as tokens is the one form of them.
fn one_form(trial: &Trial) -> Vec<Law> {
    let edition = trial.lent.edition;
    let stored = trial.stored().unwrap_or_default();
    let Ok(tokens) = store::tokens(&stored, &trial.lent) else {
        return vec![];
    };
    let spelled: Vec<Vec<u8>> = store::lines(&stored).into_iter().flatten().collect();
    let text = spelled[1..].join(&b' ');
    let apart = text::tokens(&text, edition).unwrap_or_default();
    let again: Vec<&[u8]> = apart.iter().map(|token| token.spelling(&text)).collect();
    vec![
        (kinds(&apart) == kinds(&tokens), "no tokens of a source"),
        (form(&again) == *stored, "two forms of one list"),
    ]
}
