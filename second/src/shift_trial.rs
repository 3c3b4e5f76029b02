//! A shift to be tried: a book, an input and the places where it is cut, and
//! how another implementation's report is held against this one's.

use crate::answer::{is_edition, Left, Lent, TABLE_WORDS, WORK_WORDS};
use crate::chance::Chance;
use crate::combine;
use crate::compare::{same_words, Call, Other, Tell};
use crate::forged;
use crate::pair::NOWHERE;
use crate::services::Service;
use crate::shift::{begin, Shift};
use crate::Refusal;

#[derive(Clone, Debug)]
pub struct ShiftTrial {
    pub book: Vec<u8>,
    pub input: Vec<u8>,
    /// Where the input is cut, rising.
    pub cuts: Vec<usize>,
    pub lent: Lent,
    /// Seeds what the lent memories hold beforehand.
    pub fill: u64,
}

impl ShiftTrial {
    pub fn of(book: &[u8], input: &[u8], lent: Lent) -> ShiftTrial {
        ShiftTrial {
            book: book.to_vec(),
            input: input.to_vec(),
            cuts: vec![],
            lent,
            fill: 1,
        }
    }

    pub fn pieces(&self) -> Vec<&[u8]> {
        let starts = [0].into_iter().chain(self.cuts.iter().copied());
        let ends = self.cuts.iter().copied().chain([self.input.len()]);
        starts.zip(ends).map(|(a, b)| &self.input[a..b]).collect()
    }
}

/// What stays the same from call to call of a shift.
struct Lending<'a> {
    other: &'a dyn Other,
    trial: &'a ShiftTrial,
    chance: Chance,
    state_words: usize,
    state: Vec<u64>,
}

/// What a call must come to.
struct Due {
    number: u32,
    /// The words behind the number, where each is laid down.
    report: Vec<Option<u64>>,
    output: Vec<u8>,
    left: Left,
}

/// Which of the memories of a call is made too short.
#[derive(Clone, Copy, Debug, PartialEq, Eq)]
enum Short {
    Nothing,
    Table,
    State,
    Report,
}

/// Of so many shifts the state that was left is forged once.
const FORGED_ONE_IN: usize = 3;

/// Holds a whole shift.
pub fn hold(other: &dyn Other, trial: &ShiftTrial, tell: &mut Tell) -> Result<(), String> {
    let mut chance = Chance::new(trial.fill, 14);
    let state_words = state_words(other)?;
    let more = chance.pick(&[0, 0, 3]);
    let mut lending = Lending {
        state: (0..state_words + more)
            .map(|_| chance.next_word())
            .collect(),
        other,
        trial,
        chance,
        state_words,
    };
    let refused = lending.begin().map_err(|e| format!("begin: {e}"))?;
    tell(Service::ShiftBegin, refused.unwrap_or(0));
    if let Some(number) = refused {
        // A short memory leaves the state as it was, and nothing to finish; else it
        // is that of a shift without lines.
        if number != 40 {
            let due = if is_edition(trial.lent.edition) {
                0
            } else {
                42
            };
            let told = lending.finish(&Shift::new(b"", &trial.lent), due)?;
            tell(Service::ShiftFinish, told);
        }
        return Ok(());
    }
    let mut shift = Shift::new(&trial.book, &trial.lent);
    let mut last = 0;
    for piece in trial.pieces() {
        let told = lending.feed(&mut shift, piece);
        last = told.map_err(|e| format!("feed: {e}"))?;
        tell(Service::ShiftFeed, last);
        if last != 0 {
            // No further byte changes anything.
            let again = lending.feed(&mut shift, piece);
            again.map_err(|e| format!("fed once more: {e}"))?;
            break;
        }
        // What is fed after a finish goes on from there.
        if lending.chance.one_in(6) {
            lending.finish(&shift, last)?;
        }
    }
    let told = lending.finish(&shift, last)?;
    tell(Service::ShiftFinish, told);
    if lending.chance.one_in(FORGED_ONE_IN) {
        let left = &lending.state[..state_words];
        forged::hold(other, trial, left, tell).map_err(|e| format!("forged: {e}"))?;
    }
    combine::hold(other, trial, tell).map_err(|e| format!("combined: {e}"))
}

/// The words of state that the other implementation asks for.
pub fn state_words(other: &dyn Other) -> Result<usize, String> {
    let heard = other.call(&Call::bare(Service::StateWords, 1))?;
    Ok(heard.number as usize)
}

impl Lending<'_> {
    /// The number of the refusal, if it begins with one.
    fn begin(&mut self) -> Result<Option<u32>, String> {
        let ShiftTrial { book, lent, .. } = self.trial;
        let refusal = begin(book, lent).err().unwrap_or(Refusal::new(0, 0));
        let Refusal { number, place } = refusal;
        // Where the place is in what is set under the book, none is laid down.
        let in_book = NOWHERE.contains(&number) || number == 47 || self.is_in_book();
        let left = match number {
            40 => Left::AsBefore,
            _ => Left::RequiredZero,
        };
        let report = vec![in_book.then_some(place as u64)];
        self.at_times_short(Service::ShiftBegin, b"", 1)?;
        let due = Due {
            number,
            report,
            output: vec![],
            left,
        };
        self.call(Service::ShiftBegin, b"", due, Short::Nothing)?;
        Ok((number != 0).then_some(number))
    }

    /// The same call with a memory too short, which changes nothing at all; of a
    /// state or a report that is too short not even the report tells.
    fn at_times_short(
        &mut self,
        service: Service,
        piece: &[u8],
        words: usize,
    ) -> Result<(), String> {
        let short = match (self.chance.below(12), service) {
            (0, Service::ShiftBegin | Service::ShiftFeed) => Short::Table,
            (1, _) => Short::State,
            (2, _) => Short::Report,
            _ => return Ok(()),
        };
        let report = match short {
            Short::Report | Short::State => vec![],
            _ => vec![Some(0); words],
        };
        let due = Due {
            number: 40,
            report,
            output: vec![],
            left: Left::AsBefore,
        };
        let told = self.call(service, piece, due, short);
        told.map(drop)
            .map_err(|e| format!("{short:?} too short: {e}"))
    }

    /// Table and work for a call: those that are long enough may be longer each
    /// time, and whatever lies in them and in the output is drawn each time too.
    fn at_times_longer(&mut self) -> (usize, usize) {
        let Lent { table, work, .. } = self.trial.lent;
        let mut longer = |length: usize, required: usize| match length >= required {
            true => length + self.chance.pick(&[0, 0, 1, 40, 3000]),
            false => length,
        };
        (longer(table, TABLE_WORDS), longer(work, WORK_WORDS))
    }

    /// Whether the book by itself, with all room, is refused at a place in it.
    fn is_in_book(&self) -> bool {
        let whole = crate::pair::whole(&self.trial.book, b"0");
        let told = crate::answer::prepare(&whole, &self.trial.lent);
        told.is_err_and(|refusal| refusal.place < self.trial.book.len())
    }

    fn feed(&mut self, shift: &mut Shift, piece: &[u8]) -> Result<u32, String> {
        self.at_times_short(Service::ShiftFeed, piece, 0)?;
        let (number, printed) = shift.feed(piece);
        // Each line prints from the front on, over what the one before it left.
        let mut output = vec![];
        for bytes in printed {
            let behind = output.split_off(bytes.len().min(output.len()));
            output = [bytes, behind].concat();
        }
        let due = Due {
            number,
            report: vec![],
            output,
            left: Left::RequiredZero,
        };
        self.call(Service::ShiftFeed, piece, due, Short::Nothing)
    }

    /// The report so far. Its number is that of the last feed.
    fn finish(&mut self, shift: &Shift, last: u32) -> Result<u32, String> {
        let report: Vec<Option<u64>> = shift.finish().words().into_iter().map(Some).collect();
        let due = Due {
            number: last,
            report,
            output: vec![],
            left: Left::AsBefore,
        };
        self.at_times_short(Service::ShiftFinish, b"", due.report.len())?;
        let told = self.call(Service::ShiftFinish, b"", due, Short::Nothing);
        told.map_err(|e| format!("finish: {e}"))
    }

    /// The number told.
    fn call(
        &mut self,
        service: Service,
        piece: &[u8],
        due: Due,
        short: Short,
    ) -> Result<u32, String> {
        let ShiftTrial { lent, book, .. } = self.trial;
        let (table, work) = match (service, short) {
            (Service::ShiftFinish, _) => (0, 0),
            (_, Short::Table) => (TABLE_WORDS - 1, lent.work),
            _ => self.at_times_longer(),
        };
        let words = match short {
            Short::Report => service.words() - 1,
            _ => service.words() + self.chance.pick(&[0, 0, 2]),
        };
        let report: Vec<u64> = (0..words).map(|_| self.chance.next_word()).collect();
        let state = match short {
            Short::State => &self.state[..self.state_words - 1],
            _ => &self.state[..],
        };
        // More is lent than some of the services take.
        let heard = self.other.call(&Call {
            source: book,
            second: piece,
            table,
            work,
            output: lent.output,
            shown: due.output.len(),
            allowance: lent.allowance,
            state,
            report: &report,
            fill: self.chance.next_word(),
            ..Call::bare(service, lent.edition)
        })?;
        if heard.number != u64::from(due.number) {
            return Err(format!("returned {}, not {}", heard.number, due.number));
        }
        let mut all = report;
        if short != Short::Report && short != Short::State {
            all[0] = heard.number;
            for (at, word) in due.report.iter().enumerate() {
                all[at + 1] = word.unwrap_or(heard.report[at + 1]);
            }
        }
        same_words("report", &heard.report, &all)?;
        heard.hold_output(&due.output)?;
        heard.table.hold("table", due.left, TABLE_WORDS)?;
        heard.work.hold("work", due.left, WORK_WORDS)?;
        self.take_state(service, &due, heard.state)?;
        Ok(heard.number as u32)
    }

    /// The state as it was left. What it holds is the other's own matter, but it
    /// has to be as before after 40 and after finish.
    fn take_state(&mut self, service: Service, due: &Due, left: Vec<u64>) -> Result<(), String> {
        let open = match due.number == 40 || service == Service::ShiftFinish {
            true => 0,
            false => self.state_words,
        };
        let due = [&left[..open], &self.state[open..left.len()]].concat();
        same_words("state", &left, &due)?;
        self.state[..left.len()].copy_from_slice(&left);
        Ok(())
    }
}
