//! Files of sources whose length alone decides, whose names end in `.length`:
//!
//! ```text
//! * a title, which starts the case
//! edition 2
//! allowance 100
//! table 16384
//! work 16384
//! | a sheet of which all bytes are there
//! nowhere 18446744073709551615
//! % a line at the front of a stored sheet, with its LF
//! behind 18446744073709551615
//! ? number place
//! = number place
//! ```
//!
//! `nowhere` is a sheet with that length and no byte that can be read. There is one
//! sheet or there are two, in their order; or lines of a stored sheet that is told
//! to have the bytes of `behind`. The `?` line is the answer of all that do not run,
//! and the `=` line, which ends the case, of those that do.

use crate::answer::Lent;
use crate::casefile::read_all;
use crate::lengths::{End, LengthCase, Source, Sources};
use crate::quote;
use std::path::Path;

/// All cases of all such files in the folder.
pub fn read_folder(folder: &Path) -> Result<Vec<LengthCase>, String> {
    read_all(folder, "length", read_file)
}

/// A case of which not all lines have been read.
#[derive(Default)]
struct Draft {
    title: String,
    sheets: Vec<Source>,
    stored: Vec<u8>,
    behind: Option<u64>,
    lent: Lent,
    check: Option<End>,
    run: Option<End>,
}

fn read_file(name: &str, text: &str) -> Result<Vec<LengthCase>, String> {
    let mut cases = Vec::new();
    let mut draft = Draft::default();
    for (index, line) in text.lines().enumerate() {
        let at = format!("{name} line {}", index + 1);
        let complaint = |problem: String| format!("{at}: {problem}");
        match line.strip_prefix("* ") {
            Some(_) if !draft.title.is_empty() => {
                return Err(complaint("the case before has no answer".to_string()));
            }
            Some(title) => draft.title = format!("{at}: {title}"),
            None => draft.line(line).map_err(complaint)?,
        }
        if draft.run.is_some() {
            cases.push(std::mem::take(&mut draft).close().map_err(complaint)?);
        }
    }
    match draft.title.is_empty() {
        true => Ok(cases),
        false => Err(format!("{}: no answer", draft.title)),
    }
}

impl Draft {
    fn line(&mut self, line: &str) -> Result<(), String> {
        let (word, rest) = line.split_once(' ').unwrap_or((line, ""));
        match word {
            "" | "#" => {}
            "|" => self.sheets.push(Source::Bytes(quote::decode(rest)?)),
            "nowhere" => self.sheets.push(Source::Nowhere(number(rest)?)),
            "%" => self
                .stored
                .extend([&quote::decode(rest)?[..], b"\n"].concat()),
            "behind" => self.behind = Some(number(rest)?),
            "edition" => self.lent.edition = number(rest)?,
            "allowance" => self.lent.allowance = number(rest)?,
            "table" => self.lent.table = number(rest)?,
            "work" => self.lent.work = number(rest)?,
            "?" => self.check = Some(end(rest)?),
            "=" => self.run = Some(end(rest)?),
            _ => return Err(format!("unknown line: {line}")),
        }
        Ok(())
    }

    fn close(mut self) -> Result<LengthCase, String> {
        let sources = match (self.sheets.len(), self.behind) {
            (1, None) => Sources::One(self.sheets.remove(0)),
            (2, None) => {
                let first = self.sheets.remove(0);
                Sources::Pair(first, self.sheets.remove(0))
            }
            (0, Some(length)) => Sources::Stored(Source::Begins(self.stored, length)),
            _ => return Err("one sheet, two or a stored one".to_string()),
        };
        let (check, run) = self.check.zip(self.run).ok_or("two answers are wanted")?;
        Ok(LengthCase {
            title: self.title,
            sources,
            lent: self.lent,
            check,
            run,
        })
    }
}

fn end(text: &str) -> Result<End, String> {
    let (told, place) = text.split_once(' ').ok_or("a number and a place")?;
    Ok((number(told)?, number(place)?))
}

fn number<T: std::str::FromStr>(text: &str) -> Result<T, String> {
    text.parse().map_err(|_| format!("no number: {text}"))
}
