//! The services as they are reached from outside, and what each must come to.

use crate::answer::{self, Answer, Left};
use crate::pair::{placed, Placed};
use crate::profile::{self, Profiled};
use crate::store;
use crate::trial::Trial;
use crate::write::{self, Written};
use std::borrow::Cow;

#[derive(Clone, Copy, Debug, PartialEq, Eq, PartialOrd, Ord)]
pub enum Service {
    Check,
    Run,
    Write,
    CheckPair,
    RunPair,
    ShiftBegin,
    ShiftFeed,
    ShiftFinish,
    Store,
    CheckStored,
    RunStored,
    Profile,
    /// Two reports of shifts made one; the other implementation may lack it.
    Combine,
    /// No service, but how many words of state a shift needs.
    StateWords,
    /// No service, but whether there is Combine.
    HasCombine,
}

use Service::{Check, CheckPair, CheckStored, Profile, Run, RunPair, RunStored, Store, Write};

impl Service {
    /// Those that serve one sheet, or one that is cut in two or stored.
    pub const ALL: [Service; 9] = [
        Check,
        Run,
        Write,
        CheckPair,
        RunPair,
        Store,
        CheckStored,
        RunStored,
        Profile,
    ];

    /// Its number in what is asked of the bridge.
    pub fn code(self) -> u64 {
        self as u64
    }

    /// Whether the trial is one for this service.
    pub fn applies(self, trial: &Trial) -> bool {
        if let Some(turn) = trial.turn {
            let asked = [Check, Run, Service::ALL[turn % Service::ALL.len()]];
            if !asked.contains(&self) {
                return false;
            }
        }
        match self {
            CheckPair | RunPair => trial.cut.is_some(),
            CheckStored | RunStored => trial.stored().is_some(),
            _ => true,
        }
    }

    /// The words of a complete report.
    pub fn words(self) -> usize {
        match self {
            Check | Write | Store | CheckStored => 3,
            Profile => 4,
            Run | CheckPair | RunStored => 6,
            RunPair => 9,
            Service::ShiftBegin => 2,
            Service::ShiftFeed => 1,
            Service::ShiftFinish | Service::Combine => 15,
            Service::StateWords | Service::HasCombine => 0,
        }
    }

    /// The sources that the trial has for this service.
    pub fn sources(self, trial: &Trial) -> (Cow<'_, [u8]>, &[u8]) {
        match self {
            CheckPair | RunPair => {
                let (first, second) = trial.parts();
                (first.into(), second)
            }
            CheckStored | RunStored => (trial.stored().unwrap_or_default(), &[]),
            _ => ((&trial.sheet).into(), &[]),
        }
    }

    /// The words of work memory that the trial lends to this service.
    pub fn work(self, trial: &Trial) -> usize {
        match self {
            Run | RunPair | RunStored => trial.lent.work,
            _ => 0,
        }
    }

    /// The bytes of output that the trial lends to this service.
    pub fn output(self, trial: &Trial) -> usize {
        match self {
            Run | RunPair | RunStored => trial.lent.output,
            Write => trial.room,
            Store => trial.buffer,
            _ => 0,
        }
    }
}

/// What a call must come to, where its report is complete.
#[derive(Clone, Debug, PartialEq, Eq)]
pub struct Wanted {
    pub number: u32,
    /// From its second word on; the first is the number.
    pub report: Vec<u64>,
    /// The first bytes of the output; those after them stay untouched.
    pub output: Vec<u8>,
    pub table: Left,
    pub work: Left,
}

/// What this interpreter says to the trial.
pub fn wanted(service: Service, trial: &Trial) -> Wanted {
    let Trial {
        sheet, lent, room, ..
    } = trial;
    match service {
        Check => checked(answer::check(sheet, lent)),
        Run => ran(answer::run(sheet, lent)),
        Write => written(write::write(sheet, lent, *room)),
        CheckPair => of_pair(wanted(Check, trial), trial),
        RunPair => of_pair(wanted(Run, trial), trial),
        Store => written(store::store(sheet, lent, trial.buffer)),
        CheckStored => checked(answer::check_by(
            store::prepare,
            &service.sources(trial).0,
            lent,
        )),
        RunStored => ran(answer::run_by(
            store::prepare,
            &service.sources(trial).0,
            lent,
        )),
        Profile => profiled(profile::profile(sheet, lent)),
        _ => unreachable!("a shift has trials of its own"),
    }
}

fn checked(told: Answer) -> Wanted {
    Wanted {
        number: told.number,
        report: vec![told.place, told.kind],
        output: vec![],
        table: told.table,
        work: Left::AsBefore,
    }
}

fn ran(told: Answer) -> Wanted {
    let (value, printed) = (told.value as u64, told.printed.len() as u64);
    Wanted {
        number: told.number,
        report: vec![told.place, told.kind, value, told.units, printed],
        output: told.printed,
        table: told.table,
        work: told.work,
    }
}

fn written(told: Written) -> Wanted {
    Wanted {
        number: told.number,
        report: vec![told.place, told.text.len() as u64],
        output: told.text,
        table: told.table,
        work: Left::AsBefore,
    }
}

fn profiled(told: Profiled) -> Wanted {
    Wanted {
        number: told.number,
        report: vec![told.place, told.kind, told.count],
        output: vec![],
        table: told.table,
        work: Left::AsBefore,
    }
}

/// The same told of two sheets: the place in its own, and at the end the sheet
/// and the line.
fn of_pair(mut told: Wanted, trial: &Trial) -> Wanted {
    let (first, second) = trial.parts();
    let Placed {
        sheet,
        place,
        begin,
        end,
    } = placed(told.number, told.report[0], first, second);
    told.report[0] = place;
    told.report.extend([sheet, begin, end]);
    told
}
