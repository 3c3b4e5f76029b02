//! Files of shifts with their reports, whose names end in `.shift`:
//!
//! ```text
//! * a title, which starts the case
//! edition 2
//! allowance 100
//! output 0
//! table 16384
//! work 16384
//! | the book, one line
//! | and another, with an LF between the two
//! + a line of the input, with its LF
//! - more of the input, without an LF
//! ? number place
//! = number lines bad stop50 ... stop58 sum least largest
//! ```
//!
//! The `?` line is what begin says, and ends the case where that is a refusal;
//! else the `=` line, which is the report, does. Where the place is in what is
//! set under the book, it is `-`, as none is laid down.

use crate::answer::Lent;
use crate::casefile::read_all;
use crate::combine;
use crate::compare::Tell;
use crate::quote;
use crate::services::Service;
use crate::shift::{begin, Shift};
use crate::shift_trial::ShiftTrial;
use crate::Refusal;
use std::path::Path;

#[derive(Clone, Debug)]
pub struct ShiftCase {
    pub title: String,
    pub trial: ShiftTrial,
    pub begin: (u32, Option<usize>),
    /// Number and words, if it begins.
    pub report: Option<(u32, Vec<u64>)>,
}

impl ShiftCase {
    /// Whether this interpreter says the same.
    pub fn try_own(&self) -> Result<(), String> {
        let ShiftTrial { book, lent, .. } = &self.trial;
        let Refusal { number, place } = begin(book, lent).err().unwrap_or(Refusal::new(0, 0));
        if (number, place) != (self.begin.0, self.begin.1.unwrap_or(place)) {
            return Err(format!("{}: gave ? {number} {place}", self.title));
        }
        let Some(due) = &self.report else {
            return Ok(());
        };
        let mut shift = Shift::new(book, lent);
        let number = shift.feed(&self.trial.input).0;
        let words = shift.finish().words();
        match (number, &words) == (due.0, &due.1) {
            true => Ok(()),
            false => Err(format!("{}: gave {}", self.title, shown(number, &words))),
        }
    }
}

/// R14.8, for this interpreter alone: cut or not it is the same report, its lines
/// are all accounted for, and two reports combine to the one of both.
pub fn laws(trial: &ShiftTrial, tell: &mut Tell) -> Result<(), String> {
    let ShiftTrial { book, lent, .. } = trial;
    let begun = begin(book, lent).err().map_or(0, |refusal| refusal.number);
    tell(Service::ShiftBegin, begun);
    if begun != 0 {
        return Ok(());
    }
    let (mut whole, mut cut) = (Shift::new(book, lent), Shift::new(book, lent));
    whole.feed(&trial.input);
    let mut last = 0;
    for piece in trial.pieces() {
        last = cut.feed(piece).0;
        tell(Service::ShiftFeed, last);
    }
    tell(Service::ShiftFinish, last);
    let sums = whole.finish();
    let counted = sums.bad + sums.stops.iter().sum::<u64>() + sums.pays.len() as u64;
    if sums != cut.finish() || counted != sums.lines {
        return Err("another report where it is cut".to_string());
    }
    combine::laws(trial)
}

fn shown(number: u32, words: &[u64]) -> String {
    let words: Vec<String> = words.iter().map(|w| (*w as i64).to_string()).collect();
    format!("= {number} {}", words.join(" "))
}

/// A whole case with this interpreter's answers.
pub fn show(title: &str, trial: &ShiftTrial) -> String {
    let ShiftTrial {
        book, input, lent, ..
    } = trial;
    let Lent {
        edition,
        table,
        work,
        output,
        allowance,
        ..
    } = lent;
    let mut text =
        format!("* {title}\nedition {edition}\nallowance {allowance}\noutput {output}\n");
    text += &format!("table {table}\nwork {work}\n| {}\n", quote::encode(book));
    text += &format!("- {}\n# cut at {:?}\n", quote::encode(input), trial.cuts);
    match begin(book, lent) {
        Err(Refusal { number, place }) => text + &format!("? {number} {place}\n"),
        Ok(()) => {
            let mut shift = Shift::new(book, lent);
            let number = shift.feed(input).0;
            text + &format!("? 0 0\n{}\n", shown(number, &shift.finish().words()))
        }
    }
}

/// All cases of all such files in the folder.
pub fn read_folder(folder: &Path) -> Result<Vec<ShiftCase>, String> {
    read_all(folder, "shift", read_file)
}

fn read_file(name: &str, text: &str) -> Result<Vec<ShiftCase>, String> {
    let mut cases = Vec::new();
    let mut open: Option<ShiftCase> = None;
    for (index, line) in text.lines().enumerate() {
        let at = format!("{name} line {}", index + 1);
        if line.is_empty() || line.starts_with('#') {
            continue;
        }
        if let Some(title) = line.strip_prefix("* ") {
            if let Some(case) = open {
                return Err(format!("{}: no answer", case.title));
            }
            open = Some(ShiftCase {
                title: format!("{at}: {title}"),
                trial: ShiftTrial::of(b"", b"", Lent::default()),
                begin: (0, None),
                report: None,
            });
            continue;
        }
        let mut case = open.take().ok_or(format!("{at}: no case begun"))?;
        match add(&mut case, line).map_err(|e| format!("{at}: {e}"))? {
            true => cases.push(case),
            false => open = Some(case),
        }
    }
    match open {
        Some(case) => Err(format!("{}: no answer", case.title)),
        None => Ok(cases),
    }
}

/// Takes in one line; says if it was the last one of the case.
fn add(case: &mut ShiftCase, line: &str) -> Result<bool, String> {
    let (word, rest) = line.split_once(' ').unwrap_or((line, ""));
    let ShiftTrial {
        book, input, lent, ..
    } = &mut case.trial;
    match word {
        "|" => {
            if !book.is_empty() {
                book.push(b'\n');
            }
            book.extend(quote::decode(rest)?);
        }
        "+" => input.extend([quote::decode(rest)?, b"\n".to_vec()].concat()),
        "-" => input.extend(quote::decode(rest)?),
        "edition" => lent.edition = number(rest)?,
        "allowance" => lent.allowance = number(rest)?,
        "output" => lent.output = number(rest)?,
        "table" => lent.table = number(rest)?,
        "work" => lent.work = number(rest)?,
        "?" => {
            case.begin = begin_line(rest)?;
            return Ok(case.begin.0 != 0);
        }
        "=" => {
            case.report = Some(report_line(rest)?);
            return Ok(true);
        }
        _ => return Err(format!("unknown line: {line}")),
    }
    Ok(false)
}

fn begin_line(text: &str) -> Result<(u32, Option<usize>), String> {
    let (told, place) = text.split_once(' ').ok_or("a number and a place")?;
    let place = match place {
        "-" => None,
        place => Some(number(place)?),
    };
    Ok((number(told)?, place))
}

fn report_line(text: &str) -> Result<(u32, Vec<u64>), String> {
    let words: Result<Vec<i64>, String> = text.split(' ').map(number).collect();
    let words: Vec<u64> = words?.into_iter().map(|w| w as u64).collect();
    match &words[..] {
        [number, words @ ..] if words.len() == 14 => Ok((*number as u32, words.to_vec())),
        _ => Err("fifteen numbers are wanted".to_string()),
    }
}

fn number<T: std::str::FromStr>(text: &str) -> Result<T, String> {
    text.parse().map_err(|_| format!("no number: {text}"))
}
