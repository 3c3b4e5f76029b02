//! Sheets with the answers they must get. See `casefile` for how they are
//! written down.

use crate::answer::{Left, Lent};
use crate::quote;
use crate::services::{wanted, Service, Wanted};
use crate::trial::Trial;

#[derive(Clone, Debug)]
pub struct Case {
    pub title: String,
    pub trial: Trial,
    /// What is laid down, by service.
    pub wanted: Vec<(Service, Wanted)>,
}

/// How the lent memories are left follows from the number alone.
fn left(number: u32) -> Left {
    match number {
        40 => Left::AsBefore,
        _ => Left::RequiredZero,
    }
}

/// An answer of a service that is lent no work memory.
pub fn told(number: u32, report: Vec<u64>, output: &[u8]) -> Wanted {
    Wanted {
        number,
        report,
        output: output.to_vec(),
        table: left(number),
        work: Left::AsBefore,
    }
}

/// An answer of Run.
pub fn ran(number: u32, place: u64, kind: u64, value: i64, units: u64, printed: &[u8]) -> Wanted {
    let report = vec![place, kind, value as u64, units, printed.len() as u64];
    Wanted {
        work: left(number),
        ..told(number, report, printed)
    }
}

/// What Check says where Run says this. Nothing follows from 40 and 41, which
/// may be due to what only Run is lent.
pub fn check_from_run(run: &Wanted) -> Option<Wanted> {
    let [place, kind] = [run.report[0], run.report[1]];
    match run.number {
        40 | 41 => None,
        0 | 50..=59 => Some(told(0, vec![0, kind], b"")),
        number => Some(told(number, vec![place, 0], b"")),
    }
}

/// The same said of two sheets, the place being this one of sheet, place, begin
/// and end, where the number has one.
pub fn in_pair(whole: &Wanted, place: [u64; 4]) -> Wanted {
    let [sheet, place, begin, end] = match whole.number {
        0 | 10 | 40 | 41 | 42 => [1, 0, 0, 0],
        _ => place,
    };
    let mut told = whole.clone();
    told.report[0] = place;
    told.report.extend([sheet, begin, end]);
    told
}

impl Case {
    /// A case that lays down what Run says, and Check where that follows.
    pub fn of_run(title: &str, trial: Trial, run: Wanted) -> Case {
        let check = check_from_run(&run).map(|check| (Service::Check, check));
        let wanted = check.into_iter().chain([(Service::Run, run)]).collect();
        Case {
            title: title.to_string(),
            trial,
            wanted,
        }
    }

    /// Whether this interpreter gives the expected answers.
    pub fn try_own(&self) -> Result<(), String> {
        for (service, due) in &self.wanted {
            let found = wanted(*service, &self.trial);
            if found != *due {
                return Err(format!("{}: gave {}", self.title, show(*service, &found)));
            }
        }
        Ok(())
    }
}

/// The line of a case for this answer.
pub fn show(service: Service, wanted: &Wanted) -> String {
    let Wanted {
        number,
        report,
        output,
        ..
    } = wanted;
    let output = quote::encode(output);
    match (service, &report[..]) {
        (Service::Check | Service::CheckStored, [place, kind]) => {
            format!("? {number} {place} {kind}")
        }
        (Service::Run | Service::RunStored, [place, kind, value, units, printed]) => {
            let value = shown_value(*kind, *value);
            format!("= {number} {place} {kind} {value} {units} {printed} \"{output}\"")
        }
        (Service::Write, [place, _]) => format!("> {number} {place} \"{output}\""),
        (Service::Profile, [place, kind, count]) => format!("^ {number} {place} {kind} {count}"),
        (Service::Store, [place, _]) => format!(">> {number} {place} \"{output}\""),
        (Service::RunPair, [place, .., sheet, begin, end]) => {
            format!("@ {sheet} {place} {begin} {end}")
        }
        (Service::CheckPair, report) => format!("check pair {number} {report:?}"),
        _ => unreachable!("a report of another length"),
    }
}

/// A float's bits are told in hexadecimal, all else as a number.
fn shown_value(kind: u64, value: u64) -> String {
    match kind == FLOAT && value != 0 {
        true => format!("0x{value:016X}"),
        false => (value as i64).to_string(),
    }
}

const FLOAT: u64 = 4;

/// A whole case with this interpreter's answers, ready to be pasted into a file;
/// and another one if it has a stored sheet of its own.
pub fn show_case(title: &str, trial: &Trial) -> String {
    let mut text = format!("* {title}\n{}", show_loans(trial));
    let (first, second) = trial.parts();
    text += &format!("| {}\n", quote::encode(first));
    let mut services = vec![Service::Check, Service::Write];
    services.extend([Service::Store, Service::Profile]);
    if trial.cut.is_some() {
        text += &format!("& {}\n", quote::encode(second));
        services.push(Service::RunPair);
    }
    services.push(Service::Run);
    text += &show_answers(&services, trial);
    if let Some(stored) = &trial.stored {
        text += &format!("\n* {title}, stored\n{}", show_loans(trial));
        for line in stored.split_inclusive(|byte| *byte == b'\n') {
            text += &match line.strip_suffix(b"\n") {
                Some(line) => format!("% {}\n", quote::encode(line)),
                None => format!("%- {}\n", quote::encode(line)),
            };
        }
        text += &show_answers(&[Service::CheckStored, Service::RunStored], trial);
    }
    text
}

fn show_answers(services: &[Service], trial: &Trial) -> String {
    let line = |service: &Service| show(*service, &wanted(*service, trial)) + "\n";
    services.iter().map(line).collect()
}

/// The loans that are not the usual ones.
fn show_loans(trial: &Trial) -> String {
    let (lent, usual) = (&trial.lent, Lent::default());
    let usually = Trial::of(b"", usual);
    let loans = [
        ("edition", lent.edition.into(), usual.edition.into()),
        ("allowance", lent.allowance, usual.allowance),
        ("output", lent.output as u64, usual.output as u64),
        ("table", lent.table as u64, usual.table as u64),
        ("work", lent.work as u64, usual.work as u64),
        ("room", trial.room as u64, usually.room as u64),
        ("buffer", trial.buffer as u64, usually.buffer as u64),
    ];
    let other = loans.iter().filter(|(_, here, usually)| here != usually);
    other
        .map(|(name, here, _)| format!("{name} {here}\n"))
        .collect()
}
