//! Holds another implementation against this one: its report, and every word
//! and byte it was lent. Whoever makes the calls for it, as the bridge, looks after
//! a margin around each loan that was not lent.

use crate::answer::{Left, TABLE_WORDS, WORK_WORDS};
use crate::chance::Chance;
use crate::promise;
use crate::quote;
use crate::services::{wanted, Service, Wanted};
use crate::trial::Trial;
use crate::write::write;

/// A call with all that is lent for it: table, work and output by their lengths
/// alone. What they hold beforehand the other side makes up from a seed, and then
/// says how it left them.
#[derive(Clone, Copy)]
pub struct Call<'a> {
    pub service: Service,
    pub edition: u32,
    pub source: &'a [u8],
    /// The second of two sources, if there are two.
    pub second: &'a [u8],
    /// What is told of the lengths of the two, where it is not the truth. Of a
    /// source that has no bytes and is told to have some none can be read.
    pub claimed: [Option<u64>; 2],
    /// Words.
    pub table: usize,
    pub work: usize,
    /// Bytes.
    pub output: usize,
    /// How many of the first bytes of the output are to be told, changed or not.
    pub shown: usize,
    pub allowance: u64,
    /// What a shift keeps from call to call.
    pub state: &'a [u64],
    pub report: &'a [u64],
    pub fill: u64,
}

impl Call<'_> {
    /// A call with nothing lent at all.
    pub fn bare(service: Service, edition: u32) -> Call<'static> {
        Call {
            service,
            edition,
            source: &[],
            second: &[],
            claimed: [None; 2],
            table: 0,
            work: 0,
            output: 0,
            shown: 0,
            allowance: 0,
            state: &[],
            report: &[],
            fill: 0,
        }
    }
}

/// How table or work was left. No word of them was zero before.
#[derive(Clone, Copy, Debug, Default, PartialEq, Eq)]
pub struct After {
    /// How many of the first words are zero.
    pub zeros: usize,
    /// The first word behind them that is not as it was.
    pub odd: Option<usize>,
}

impl After {
    /// From two words, the second of them one more than the odd one, or 0.
    pub fn of(zeros: u64, odd: u64) -> After {
        After {
            zeros: zeros as usize,
            odd: (odd as usize).checked_sub(1),
        }
    }

    /// Whether it is left as it must be, if so many words are required.
    pub fn hold(&self, name: &str, left: Left, required: usize) -> Result<(), String> {
        let zeros = match left {
            Left::AsBefore => 0,
            Left::RequiredZero => required,
        };
        match self.odd {
            None if self.zeros == zeros => Ok(()),
            None => Err(format!(
                "{name}: {} words are zero, not {zeros}",
                self.zeros
            )),
            Some(odd) => Err(format!(
                "{name}: {} words are zero, not {zeros}, and {name}[{odd}] is changed",
                self.zeros
            )),
        }
    }
}

/// What came of a call.
#[derive(Clone, Debug, PartialEq, Eq)]
pub struct Heard {
    pub number: u64,
    pub table: After,
    pub work: After,
    /// The first bytes of the output: all that were to be told, and up to the
    /// last one that changed.
    pub output: Vec<u8>,
    /// How many bytes there are up to that.
    pub changed: usize,
    pub state: Vec<u64>,
    pub report: Vec<u64>,
}

impl Heard {
    /// Whether the output begins with this and the rest of it is as it was.
    pub fn hold_output(&self, due: &[u8]) -> Result<(), String> {
        if self.changed > due.len() {
            return Err(format!("output[{}] is changed", self.changed - 1));
        }
        let told = self.output.get(..due.len()).unwrap_or(&self.output);
        match told == due {
            true => Ok(()),
            false => Err(format!(
                "the output is \"{}\", not \"{}\"",
                quote::encode(told),
                quote::encode(due)
            )),
        }
    }
}

/// What came of a call, or why nothing is to be trusted.
pub type Told = Result<Heard, String>;

pub trait Other {
    fn call(&self, call: &Call) -> Told;
}

/// Takes in one answer.
pub type Tell<'a> = dyn FnMut(Service, u32) + 'a;

/// Holds every service on this trial, and some on the sheet written out again.
pub fn compare(other: &dyn Other, trial: &Trial, tell: &mut Tell) -> Result<(), String> {
    for service in Service::ALL {
        if service.applies(trial) {
            tell(service, hold(other, trial, service)?);
        }
    }
    // A sheet cut in two says the same wherever it is cut (R07.2).
    for cut in trial.cuts() {
        tell(Service::RunPair, hold(other, &cut, Service::RunPair)?);
    }
    if trial.fill.is_multiple_of(2) {
        promise::kept(other, trial).map_err(|e| format!("promise: {e}"))?;
        promise::finishes(other, trial).map_err(|e| format!("profile: {e}"))?;
    }
    let text = write(&trial.sheet, &trial.lent, trial.room).text;
    if text.is_empty() || !trial.fill.is_multiple_of(3) {
        return Ok(());
    }
    let back = Trial {
        sheet: text,
        ..trial.clone()
    };
    for service in [Service::Run, Service::Write] {
        let told = hold(other, &back, service).map_err(|e| format!("written out: {e}"))?;
        tell(service, told);
    }
    Ok(())
}

/// Holds one service on this trial, and gives the number of the answer.
pub fn hold(other: &dyn Other, trial: &Trial, service: Service) -> Result<u32, String> {
    differs(other, trial, service).map_err(|e| format!("{service:?}: {e}"))
}

fn differs(other: &dyn Other, trial: &Trial, service: Service) -> Result<u32, String> {
    let mut chance = Chance::new(trial.fill, service.code());
    let report: Vec<u64> = (0..trial.report(service))
        .map(|_| chance.next_word())
        .collect();
    // A report that is too short is all that matters then.
    let due = match report.len() >= service.words() {
        true => wanted(service, trial),
        false => Wanted {
            number: 40,
            report: vec![],
            output: vec![],
            table: Left::AsBefore,
            work: Left::AsBefore,
        },
    };
    let (source, second) = service.sources(trial);
    let heard = other.call(&Call {
        source: &source,
        second,
        table: trial.lent.table,
        work: service.work(trial),
        output: service.output(trial),
        shown: due.output.len(),
        allowance: trial.lent.allowance,
        report: &report,
        fill: chance.next_word(),
        ..Call::bare(service, trial.lent.edition)
    })?;
    if heard.number != u64::from(due.number) {
        return Err(format!("returned {}, not {}", heard.number, due.number));
    }
    let mut words = report;
    if words.len() >= service.words() {
        let told = [vec![u64::from(due.number)], due.report].concat();
        words[..told.len()].copy_from_slice(&told);
    }
    same_words("report", &heard.report, &words)?;
    heard.hold_output(&due.output)?;
    heard.table.hold("table", due.table, TABLE_WORDS)?;
    heard.work.hold("work", due.work, WORK_WORDS)?;
    Ok(due.number)
}

/// Whether a memory holds just these words.
pub fn same_words(name: &str, told: &[u64], due: &[u64]) -> Result<(), String> {
    match (0..due.len()).find(|at| told.get(*at) != due.get(*at)) {
        None => Ok(()),
        Some(at) => Err(format!("{name}[{at}] is {:?}, not {:?}", told[at], due[at])),
    }
}

#[cfg(test)]
mod tests {
    use super::*;
    use crate::answer::Lent;
    use crate::{on_big_stack, trial};

    /// This interpreter behind the other's interface, with a fault at will.
    struct Mirror(&'static str);

    fn left(left: Left, required: usize) -> After {
        let zeros = match left {
            Left::AsBefore => 0,
            Left::RequiredZero => required,
        };
        After { zeros, odd: None }
    }

    impl Mirror {
        fn edition(&self, named: u32) -> u32 {
            match self.0 {
                "one edition" => 1,
                "any other edition is the second" => named.clamp(1, 2),
                _ => named,
            }
        }

        fn spoil(&self, call: &Call, heard: &mut Heard) {
            let (number, used) = (heard.number, heard.output.len());
            let Heard {
                work,
                output,
                report,
                ..
            } = heard;
            match self.0 {
                "a unit too many" if call.service == Service::Run && number == 0 => report[4] += 1,
                "a word not cleared" if number == 20 && call.work > 0 => {
                    *work = After::of(WORK_WORDS as u64 - 1, 0)
                }
                "a word past the end" if call.work > WORK_WORDS => {
                    work.odd = Some(WORK_WORDS);
                }
                "a byte too many" if call.output > used => heard.changed = used + 1,
                "a unit for each allowed" if call.service == Service::Run && number == 0 => {
                    report[3] = call.allowance
                }
                "the other sheet" if call.service == Service::RunPair => report[6] ^= 3,
                "the other sheet behind four LFs" if call.service == Service::RunPair => {
                    let feeds = call.source.iter().filter(|byte| **byte == b'\n');
                    report[6] ^= if feeds.count() == 4 { 3 } else { 0 };
                }
                "another not-a-number" if report.get(2..4) == Some(&[4, 0x7FF8 << 48]) => {
                    report[3] = 0xFFF8 << 48
                }
                "zero without its sign" if report.get(2..4) == Some(&[4, 1 << 63]) => report[3] = 0,
                "no line feed" if call.service == Service::Write && number == 0 => {
                    output[used - 1] = b' '
                }
                "a count from 0" if call.service == Service::Store && number == 0 => output[3] ^= 1,
                "a count too small" if call.service == Service::Profile && number == 0 => {
                    report[3] -= 1
                }
                "a byte for a line" if call.service == Service::RunStored && number == 20 => {
                    report[1] += 2
                }
                _ => {}
            }
        }
    }

    impl Other for Mirror {
        fn call(&self, call: &Call) -> Told {
            let mut heard = Heard {
                number: 40,
                table: After::default(),
                work: After::default(),
                output: vec![],
                changed: 0,
                state: vec![],
                report: call.report.to_vec(),
            };
            if call.report.len() < call.service.words() {
                return Ok(heard);
            }
            let lent = Lent {
                edition: self.edition(call.edition),
                table: call.table,
                work: call.work,
                output: call.output,
                allowance: call.allowance,
                ..Lent::default()
            };
            let mut trial = match call.service {
                Service::CheckPair | Service::RunPair => {
                    Trial::of_pair(call.source, call.second, lent)
                }
                _ => Trial::of(call.source, lent),
            };
            (trial.room, trial.buffer) = (call.output, call.output);
            if [Service::CheckStored, Service::RunStored].contains(&call.service) {
                trial.stored = Some(call.source.to_vec());
            }
            let told = wanted(call.service, &trial);
            heard.number = u64::from(told.number);
            heard.table = left(told.table, TABLE_WORDS);
            heard.work = left(told.work, WORK_WORDS);
            heard.changed = told.output.len();
            heard.output = told.output;
            heard.report[0] = u64::from(told.number);
            heard.report[1..=told.report.len()].copy_from_slice(&told.report);
            self.spoil(call, &mut heard);
            Ok(heard)
        }
    }

    /// A fault that only shows between two runs: here the first is this
    /// interpreter's too, so nothing else could tell.
    #[test]
    fn a_promise_broken_is_found() {
        let broken = on_big_stack(|| {
            let trials = (0..300).map(|index| trial::make(6, index));
            let mut kept = trials.map(|t| promise::kept(&Mirror("a unit for each allowed"), &t));
            kept.any(|verdict| verdict.is_err())
        });
        assert!(broken);
        let short = on_big_stack(|| {
            let trials = (0..300).map(|index| trial::make(6, index));
            let mut kept = trials.map(|t| promise::finishes(&Mirror("a count too small"), &t));
            kept.any(|verdict| verdict.is_err())
        });
        assert!(short);
    }

    /// Whether some trial, of so many at the most, tells the mirror from this one.
    fn told_apart(fault: &'static str, trials: u64) -> bool {
        on_big_stack(move || {
            let fails = |index: u64| {
                let trial = trial::make(5, index);
                compare(&Mirror(fault), &trial, &mut |_, _| {}).is_err()
            };
            (0..trials).any(fails)
        })
    }

    #[test]
    fn equals_are_found_equal() {
        assert!(!told_apart("none", 300));
    }

    #[test]
    fn faults_are_found() {
        for fault in [
            "one edition",
            "any other edition is the second",
            "a unit too many",
            "a word not cleared",
            "a word past the end",
            "a byte too many",
            "the other sheet",
            "the other sheet behind four LFs",
            "another not-a-number",
            "zero without its sign",
            "no line feed",
            "a count from 0",
            "a byte for a line",
            "a count too small",
        ] {
            assert!(told_apart(fault, 5000), "{fault}");
        }
    }
}
