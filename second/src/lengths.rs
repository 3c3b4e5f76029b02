//! Sources whose length alone decides, as one that is told to have 2^64 - 1 bytes
//! after a read that failed. There need be no such bytes: the answer is in the
//! table's order, and 10 comes before any byte.

use crate::answer::{
    self, is_edition, Left, Lent, MOST_BYTES, MOST_UNITS, TABLE_WORDS, WORK_WORDS,
};
use crate::chance::Chance;
use crate::compare::{same_words, Call, Other, Tell};
use crate::services::Service;
use crate::shift_trial::state_words;
use crate::store;

/// A source with the length that is told of it.
#[derive(Clone, Debug)]
pub enum Source {
    /// All of it can be read.
    Bytes(Vec<u8>),
    /// None of it can be read.
    Nowhere(u64),
    /// Only these first bytes can be read.
    Begins(Vec<u8>, u64),
}

impl Source {
    fn bytes(&self) -> &[u8] {
        match self {
            Source::Bytes(bytes) | Source::Begins(bytes, _) => bytes,
            Source::Nowhere(_) => &[],
        }
    }

    fn length(&self) -> u64 {
        match self {
            Source::Bytes(bytes) => bytes.len() as u64,
            Source::Nowhere(length) | Source::Begins(_, length) => *length,
        }
    }
}

/// What the sources are: one sheet, two of them, or a stored one.
#[derive(Clone, Debug)]
pub enum Sources {
    One(Source),
    Pair(Source, Source),
    Stored(Source),
}

/// A number and its place.
pub type End = (u32, u64);

#[derive(Clone, Debug)]
pub struct LengthCase {
    pub title: String,
    pub sources: Sources,
    pub lent: Lent,
    /// Of the services that do not run.
    pub check: End,
    /// Of those that do.
    pub run: End,
}

/// A book that will do, to begin a shift with.
const BOOK: &[u8] = b"def pay(p:int,r:int):int{p*r}";

/// Lengths above that of every source, about the ends of 16, 31, 32, 63 and 64 bits.
const LENGTHS: [u64; 14] = [
    MOST_BYTES as u64 + 1,
    (1 << 16) + 1,
    (1 << 31) - 1,
    1 << 31,
    (1 << 32) - 1,
    1 << 32,
    (1 << 32) + 1,
    (1 << 32) + 49_152,
    (1 << 63) - 1,
    1 << 63,
    (1 << 63) + 1,
    u64::MAX - 49_152,
    u64::MAX - 1,
    u64::MAX,
];

/// Each of these lengths alone, before and behind a short sheet, and with each
/// other one: 10, whatever the two are together in 64 bits.
pub fn systematic() -> Vec<LengthCase> {
    let mut all = Vec::new();
    for length in LENGTHS {
        let nowhere = || Source::Nowhere(length);
        all.push(too_long(Sources::One(nowhere())));
        for short in ["", "1", "1\n", "#"] {
            let short = || Source::Bytes(short.into());
            all.push(too_long(Sources::Pair(nowhere(), short())));
            all.push(too_long(Sources::Pair(short(), nowhere())));
        }
        for other in LENGTHS {
            all.push(too_long(Sources::Pair(nowhere(), Source::Nowhere(other))));
        }
    }
    all
}

fn too_long(sources: Sources) -> LengthCase {
    LengthCase {
        title: format!("{sources:?}"),
        sources,
        lent: Lent::default(),
        check: (10, 0),
        run: (10, 0),
    }
}

impl LengthCase {
    /// Whether this interpreter says the same.
    pub fn try_own(&self) -> Result<(), String> {
        let told = [self.own(false)?, self.own(true)?];
        match told == [self.check, self.run] {
            true => Ok(()),
            false => Err(format!("gave {told:?}")),
        }
    }

    /// What a service must answer that runs the sheet or does not, in the table's
    /// order: 40, 41, 42, 10.
    fn own(&self, runs: bool) -> Result<End, String> {
        let Lent {
            table,
            work,
            allowance,
            edition,
            ..
        } = self.lent;
        if table < TABLE_WORDS || runs && work < WORK_WORDS {
            return Ok((40, 0));
        }
        if runs && allowance > MOST_UNITS {
            return Ok((41, 0));
        }
        if !is_edition(edition) {
            return Ok((42, 0));
        }
        match &self.sources {
            Sources::Stored(source) => self.own_stored(source),
            sources if sources.bytes_in_all() > MOST_BYTES as u128 => Ok((10, 0)),
            _ => Err("its bytes decide".to_string()),
        }
    }

    /// A stored sheet is decided by its first faulty line, whatever is behind it.
    fn own_stored(&self, source: &Source) -> Result<End, String> {
        let told = answer::check_by(store::prepare, source.bytes(), &self.lent);
        let whole = source.bytes().ends_with(b"\n");
        match whole && [14, 60, 62].contains(&told.number) {
            true => Ok((told.number, told.place)),
            false => Err("what is behind it decides".to_string()),
        }
    }

    /// Holds every service that takes such sources.
    pub fn hold(&self, other: &dyn Other, tell: &mut Tell) -> Result<(), String> {
        use Service::*;
        let (checks, runs): (&[Service], &[Service]) = match self.sources {
            Sources::One(_) => (
                &[Check, Write, Store, Profile],
                &[Run, ShiftBegin, ShiftFeed],
            ),
            Sources::Pair(..) => (&[CheckPair], &[RunPair]),
            Sources::Stored(_) => (&[CheckStored], &[RunStored]),
        };
        for (services, end) in [(checks, self.check), (runs, self.run)] {
            for service in services {
                let told = self.hold_one(other, *service, end);
                told.map_err(|e| format!("{service:?}: {e}"))?;
                tell(*service, end.0);
            }
        }
        Ok(())
    }

    /// Holds those of a shift alone.
    #[cfg(test)]
    pub fn hold_shift(&self, other: &dyn Other) -> Result<(), String> {
        if let Sources::One(_) = self.sources {
            self.hold_one(other, Service::ShiftBegin, self.run)?;
            self.hold_one(other, Service::ShiftFeed, self.run)?;
        }
        Ok(())
    }

    fn hold_one(&self, other: &dyn Other, service: Service, end: End) -> Result<(), String> {
        let is_shift = [Service::ShiftBegin, Service::ShiftFeed].contains(&service);
        // Feed has no allowance of its own.
        if service == Service::ShiftFeed && self.lent.allowance > MOST_UNITS {
            return Ok(());
        }
        let state = match is_shift {
            true => begun(other)?,
            false => vec![],
        };
        let mut chance = Chance::new(1, service.code());
        let report: Vec<u64> = (0..service.words()).map(|_| chance.next_word()).collect();
        let (first, second) = self.sources.both();
        let heard = other.call(&Call {
            source: first.bytes(),
            second: second.bytes(),
            claimed: [Some(first.length()), Some(second.length())],
            table: self.lent.table,
            work: if runs(service) { self.lent.work } else { 0 },
            output: 64,
            allowance: self.lent.allowance,
            state: &state,
            report: &report,
            fill: chance.next_word(),
            ..Call::bare(service, self.lent.edition)
        })?;
        let left = match end.0 {
            40 => Left::AsBefore,
            _ => Left::RequiredZero,
        };
        let work = if runs(service) { left } else { Left::AsBefore };
        same_words("report", &heard.report, &report_of(service, end))?;
        heard.hold_output(&[])?;
        heard.table.hold("table", left, TABLE_WORDS)?;
        heard.work.hold("work", work, WORK_WORDS)?;
        if heard.number != u64::from(end.0) {
            return Err(format!("returned {}, not {}", heard.number, end.0));
        }
        // A shift that has just begun has no lines, and so it is after a refusal.
        match is_shift && self.finished(other, &heard.state)? != [0; 15] {
            true => Err("a shift with lines".to_string()),
            false => Ok(()),
        }
    }

    fn finished(&self, other: &dyn Other, state: &[u64]) -> Result<Vec<u64>, String> {
        let heard = other.call(&Call {
            state,
            report: &[1; 15],
            ..Call::bare(Service::ShiftFinish, 1)
        })?;
        Ok(heard.report)
    }
}

impl Sources {
    /// Two sheets have an LF between them.
    fn bytes_in_all(&self) -> u128 {
        let length = |source: &Source| u128::from(source.length());
        match self {
            Sources::One(source) | Sources::Stored(source) => length(source),
            Sources::Pair(first, second) => length(first) + 1 + length(second),
        }
    }

    fn both(&self) -> (Source, Source) {
        match self {
            Sources::One(source) | Sources::Stored(source) => {
                (source.clone(), Source::Bytes(vec![]))
            }
            Sources::Pair(first, second) => (first.clone(), second.clone()),
        }
    }
}

fn runs(service: Service) -> bool {
    use Service::*;
    [Run, RunPair, RunStored, ShiftBegin, ShiftFeed].contains(&service)
}

/// The whole report of a refusal. Of a pair the place is in the first sheet, for
/// want of one.
fn report_of(service: Service, (number, place): End) -> Vec<u64> {
    let mut report = vec![0; service.words()];
    report[0] = u64::from(number);
    if let Some(word) = report.get_mut(1) {
        *word = place;
    }
    match service {
        Service::CheckPair => report[3] = 1,
        Service::RunPair => report[6] = 1,
        _ => {}
    }
    report
}

/// The state of a shift that has begun.
fn begun(other: &dyn Other) -> Result<Vec<u64>, String> {
    let heard = other.call(&Call {
        source: BOOK,
        table: TABLE_WORDS,
        work: WORK_WORDS,
        allowance: 100,
        state: &vec![1; state_words(other)?],
        report: &[1; 2],
        ..Call::bare(Service::ShiftBegin, 1)
    })?;
    match heard.number {
        0 => Ok(heard.state),
        number => Err(format!("a good book begins with {number}")),
    }
}
