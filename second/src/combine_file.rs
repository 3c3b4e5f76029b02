//! Files of reports that combine, whose names end in `.combine`:
//!
//! ```text
//! * a title, which starts the case
//! + number lines bad stop50 ... stop58 sum least largest
//! + the second report
//! = what they combine to
//! ```
//!
//! A word is a number of 64 bits, with a sign or without one: `-1` and
//! `18446744073709551615` are the same word.

use crate::casefile::read_all;
use crate::combine::{combine, Report};
use std::path::Path;

#[derive(Clone, Debug)]
pub struct CombineCase {
    pub title: String,
    pub parts: [Report; 2],
    pub due: Report,
}

impl CombineCase {
    /// Whether this interpreter says the same.
    pub fn try_own(&self) -> Result<(), String> {
        let told = combine(&self.parts[0], &self.parts[1]);
        match told == self.due {
            true => Ok(()),
            false => Err(format!("{}: gave {told:?}", self.title)),
        }
    }
}

/// All cases of all such files in the folder.
pub fn read_folder(folder: &Path) -> Result<Vec<CombineCase>, String> {
    read_all(folder, "combine", read_file)
}

fn read_file(name: &str, text: &str) -> Result<Vec<CombineCase>, String> {
    let mut cases = Vec::new();
    let mut title = String::new();
    let mut parts: Vec<Report> = Vec::new();
    for (index, line) in text.lines().enumerate() {
        let at = format!("{name} line {}", index + 1);
        let (mark, rest) = line.split_once(' ').unwrap_or((line, ""));
        match mark {
            "" | "#" => {}
            "*" => title = format!("{at}: {rest}"),
            "+" => parts.push(report(rest).map_err(|e| format!("{at}: {e}"))?),
            "=" => {
                let due = report(rest).map_err(|e| format!("{at}: {e}"))?;
                let parts = std::mem::take(&mut parts);
                let parts = parts.try_into().map_err(|_| format!("{at}: two reports"))?;
                cases.push(CombineCase {
                    title: title.clone(),
                    parts,
                    due,
                });
            }
            _ => return Err(format!("{at}: unknown line")),
        }
    }
    match parts.is_empty() {
        true => Ok(cases),
        false => Err(format!("{title}: no answer")),
    }
}

fn report(text: &str) -> Result<Report, String> {
    let words: Result<Vec<u64>, String> = text.split(' ').map(word).collect();
    words?
        .try_into()
        .map_err(|_| "fifteen numbers are wanted".to_string())
}

fn word(text: &str) -> Result<u64, String> {
    let signed = || text.parse::<i64>().map(|word| word as u64);
    text.parse::<u64>()
        .or_else(|_| signed())
        .map_err(|_| format!("no number of 64 bits: {text}"))
}

/// Three reports, and what they combine to two by two, as cases.
pub fn show(title: &str, three: &[Report; 3]) -> String {
    let [a, b, c] = three;
    let (left, right) = (combine(a, b), combine(b, c));
    let pairs = [[a, b], [&left, c], [b, c], [a, &right]];
    pairs.map(|pair| show_two(title, pair)).concat()
}

fn show_two(title: &str, [first, second]: [&Report; 2]) -> String {
    let words = |report: &Report| report.map(|word| (word as i64).to_string()).join(" ");
    let due = words(&combine(first, second));
    format!(
        "* {title}\n+ {}\n+ {}\n= {due}\n\n",
        words(first),
        words(second)
    )
}
