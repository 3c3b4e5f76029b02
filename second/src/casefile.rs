//! Case files. A case looks like
//!
//! ```text
//! * a title, which starts the case
//! edition 2
//! allowance 10
//! output 0
//! table 16384
//! work 16384
//! room 49152
//! buffer 131072
//! | the sheet, one line
//! | and another, with an LF between the two
//! & the second sheet, of two
//! & and its second line
//! % a line of a stored sheet, in the sheet's stead, with its LF
//! %- more of it, without an LF
//! ? number place type
//! > number place "text"
//! >> number place "stored sheet"
//! ^ number place type count
//! @ sheet place begin end
//! = number place type value units printed "bytes"
//! ```
//!
//! The value of a float is told by its bits, as `0x3FF0000000000000`.
//!
//! The loans may be left out where they are the usual ones, and so may edition
//! 1; `room` is what is lent to Write, `buffer` what is lent to Store. The `?`
//! line is the answer of Check and may be left out where it follows from the `=`
//! line, which is the answer of Run and ends the case. The `>` line is the answer
//! of Write, the `>>` line that of Store and the `^` line that of the pay profile,
//! if they are laid down. Of two sheets these answers are those of the whole, and
//! the `@` line says where the place is among the two, and where the line around
//! it begins and ends. Of a stored sheet they are those of Check and Run for such.
//! Lines that start with `#` and empty lines are nothing. See `quote` for the
//! escapes.

use crate::answer::Lent;
use crate::cases::{check_from_run, in_pair, ran, told, Case};
use crate::pair::whole;
use crate::quote;
use crate::services::{Service, Wanted};
use crate::trial::Trial;
use std::fs;
use std::path::{Path, PathBuf};

/// All cases of all files in the folder, in the order of the files' names.
pub fn read_folder(folder: &Path) -> Result<Vec<Case>, String> {
    read_all(folder, "txt", read_file)
}

/// The same of any kind of case: the files with this ending, each read by its name
/// and text.
pub fn read_all<T>(
    folder: &Path,
    ending: &str,
    read: fn(&str, &str) -> Result<Vec<T>, String>,
) -> Result<Vec<T>, String> {
    let entries = fs::read_dir(folder).map_err(|e| e.to_string())?;
    let mut paths: Vec<PathBuf> = entries.flatten().map(|e| e.path()).collect();
    paths.retain(|p| p.extension().is_some_and(|e| e == ending));
    paths.sort();
    let mut cases = Vec::new();
    for path in paths {
        let name = path.file_name().unwrap_or_default().to_string_lossy();
        let text = fs::read_to_string(&path).map_err(|e| format!("{name}: {e}"))?;
        cases.extend(read(&name, &text)?);
    }
    Ok(cases)
}

pub fn read_file(name: &str, text: &str) -> Result<Vec<Case>, String> {
    let mut cases = Vec::new();
    let mut open: Option<Draft> = None;
    for (index, line) in text.lines().enumerate() {
        let at = format!("{name} line {}", index + 1);
        let complaint = |problem: String| format!("{at}: {problem}");
        if line.is_empty() || line.starts_with('#') {
            continue;
        }
        if let Some(title) = line.strip_prefix("* ") {
            if open.is_some() {
                return Err(complaint("the case before has no answer".to_string()));
            }
            open = Some(Draft::new(format!("{at}: {title}")));
            continue;
        }
        let mut draft = open
            .take()
            .ok_or_else(|| complaint("no case begun".to_string()))?;
        match draft.line(line).map_err(complaint)? {
            true => cases.push(draft.close().map_err(complaint)?),
            false => open = Some(draft),
        }
    }
    match open {
        Some(draft) => Err(format!("{}: no answer", draft.title)),
        None => Ok(cases),
    }
}

/// A case of which not all lines have been read.
struct Draft {
    title: String,
    sheet: Option<Vec<u8>>,
    second: Option<Vec<u8>>,
    trial: Trial,
    wanted: Vec<(Service, Wanted)>,
    /// Sheet, place, begin and end, of two sheets.
    place: Option<[u64; 4]>,
}

impl Draft {
    fn new(title: String) -> Draft {
        Draft {
            title,
            sheet: None,
            second: None,
            trial: Trial::of(b"", Lent::default()),
            wanted: Vec::new(),
            place: None,
        }
    }

    /// Takes in one line; says if it was the last line of a case.
    fn line(&mut self, line: &str) -> Result<bool, String> {
        let (word, rest) = line.split_once(' ').unwrap_or((line, ""));
        let Trial { lent, stored, .. } = &mut self.trial;
        match word {
            "|" => add_line(&mut self.sheet, rest)?,
            "&" => add_line(&mut self.second, rest)?,
            "@" => self.place = Some(four(rest)?),
            "%" => add_stored(stored, rest, b"\n")?,
            "%-" => add_stored(stored, rest, b"")?,
            "edition" => lent.edition = number(rest)?,
            "allowance" => lent.allowance = number(rest)?,
            "output" => lent.output = number(rest)?,
            "table" => lent.table = number(rest)?,
            "work" => lent.work = number(rest)?,
            "room" => self.trial.room = number(rest)?,
            "buffer" => self.trial.buffer = number(rest)?,
            "?" => self.wanted.push((Service::Check, check_line(rest)?)),
            ">" => self.wanted.push((Service::Write, write_line(rest)?)),
            ">>" => self.wanted.push((Service::Store, write_line(rest)?)),
            "^" => self.wanted.push((Service::Profile, profile_line(rest)?)),
            "=" => self.wanted.push((Service::Run, run_line(rest)?)),
            _ => return Err(format!("unknown line: {line}")),
        }
        Ok(word == "=")
    }

    fn close(mut self) -> Result<Case, String> {
        let run = self.answer(Service::Run).ok_or("the case has no answer")?;
        let check = self.answer(Service::Check).or_else(|| check_from_run(&run));
        if let (Some(check), None) = (&check, self.answer(Service::Check)) {
            self.wanted.push((Service::Check, check.clone()));
        }
        match (self.sheet.take(), self.second.take(), self.place) {
            (Some(sheet), None, None) => self.trial.sheet = sheet,
            (Some(sheet), Some(second), Some(place)) => {
                self.trial.cut = Some(sheet.len());
                self.trial.sheet = whole(&sheet, &second);
                let pair = |told: &Wanted| in_pair(told, place);
                self.wanted.push((Service::RunPair, pair(&run)));
                let check = check.iter().map(|told| (Service::CheckPair, pair(told)));
                self.wanted.extend(check);
            }
            (None, None, None) if self.trial.stored.is_some() => {
                for (service, _) in &mut self.wanted {
                    *service = of_stored(*service)?;
                }
            }
            _ => return Err("it is no case of one sheet, of two, or a stored one".to_string()),
        }
        Ok(Case {
            title: self.title,
            trial: self.trial,
            wanted: self.wanted,
        })
    }

    fn answer(&self, service: Service) -> Option<Wanted> {
        let found = self.wanted.iter().find(|(s, _)| *s == service);
        found.map(|(_, wanted)| wanted.clone())
    }
}

fn add_line(sheet: &mut Option<Vec<u8>>, text: &str) -> Result<(), String> {
    let bytes = quote::decode(text)?;
    *sheet = Some(match sheet.take() {
        Some(before) => whole(&before, &bytes),
        None => bytes,
    });
    Ok(())
}

fn add_stored(stored: &mut Option<Vec<u8>>, text: &str, end: &[u8]) -> Result<(), String> {
    let stored = stored.get_or_insert_default();
    stored.extend(quote::decode(text)?);
    stored.extend(end);
    Ok(())
}

/// The service that does the same for a stored sheet.
fn of_stored(service: Service) -> Result<Service, String> {
    match service {
        Service::Check => Ok(Service::CheckStored),
        Service::Run => Ok(Service::RunStored),
        _ => Err("no such answer of a stored sheet".to_string()),
    }
}

fn number<T: std::str::FromStr>(text: &str) -> Result<T, String> {
    text.parse().map_err(|_| format!("no number: {text}"))
}

fn four(text: &str) -> Result<[u64; 4], String> {
    let numbers: Result<Vec<u64>, String> = text.split(' ').map(number).collect();
    numbers?
        .try_into()
        .map_err(|_| "four numbers are wanted".to_string())
}

/// A number, or the bits of a float in hexadecimal.
fn value_of(text: &str) -> Result<i64, String> {
    match text.strip_prefix("0x") {
        Some(bits) => u64::from_str_radix(bits, 16)
            .map(|bits| bits as i64)
            .map_err(|_| format!("no bits: {text}")),
        None => number(text),
    }
}

fn quoted(text: &str) -> Result<Vec<u8>, String> {
    let inside = text.strip_prefix('"').and_then(|b| b.strip_suffix('"'));
    quote::decode(inside.ok_or("the last part is a text in quotes")?)
}

fn check_line(text: &str) -> Result<Wanted, String> {
    let parts: Vec<&str> = text.split(' ').collect();
    let [no, place, kind] = parts[..] else {
        return Err("three numbers are wanted".to_string());
    };
    let report = vec![number(place)?, number(kind)?];
    Ok(told(number(no)?, report, b""))
}

fn profile_line(text: &str) -> Result<Wanted, String> {
    let [no, place, kind, count] = four(text)?;
    Ok(told(no as u32, vec![place, kind, count], b""))
}

fn write_line(text: &str) -> Result<Wanted, String> {
    let parts: Vec<&str> = text.splitn(3, ' ').collect();
    let [no, place, text] = parts[..] else {
        return Err("two numbers and a quoted text are wanted".to_string());
    };
    let text = quoted(text)?;
    let report = vec![number(place)?, text.len() as u64];
    Ok(told(number(no)?, report, &text))
}

fn run_line(text: &str) -> Result<Wanted, String> {
    let parts: Vec<&str> = text.splitn(7, ' ').collect();
    let [no, place, kind, value, units, count, bytes] = parts[..] else {
        return Err("six numbers and a quoted text are wanted".to_string());
    };
    let printed = quoted(bytes)?;
    if printed.len() != number::<usize>(count)? {
        return Err("the count of bytes is not that of the text".to_string());
    }
    let (no, place, kind) = (number(no)?, number(place)?, number(kind)?);
    let (value, units) = (value_of(value)?, number(units)?);
    Ok(ran(no, place, kind, value, units, &printed))
}

/// Where the case files of this package lie.
pub fn folder() -> PathBuf {
    Path::new(env!("CARGO_MANIFEST_DIR")).join("cases")
}
