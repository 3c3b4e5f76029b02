//! One random trial: a sheet and what is lent for it.

use crate::answer::{self, Lent, MOST_BYTES, MOST_UNITS, TABLE_WORDS, WORK_WORDS};
use crate::chance::Chance;
use crate::pair::whole;
use crate::services::Service;
use crate::store::form_of;
use crate::{damage, rare, sheets, slips, stores, text};
use std::borrow::Cow;

/// A buffer that has room for every stored sheet.
pub const BUFFER: usize = 1 << 17;

#[derive(Clone, Debug)]
pub struct Trial {
    pub sheet: Vec<u8>,
    /// The LF at which the sheet is cut in two for the services of two sheets.
    pub cut: Option<usize>,
    /// The stored sheet, where it is not just what is stored of the sheet.
    pub stored: Option<Vec<u8>>,
    pub lent: Lent,
    /// The bytes lent to Write.
    pub room: usize,
    /// The bytes lent to Store.
    pub buffer: usize,
    /// How many words the reports have, if they are too short.
    pub short: Option<usize>,
    /// How many words more than needed they have otherwise.
    pub more: usize,
    /// Seeds what the lent memories hold beforehand.
    pub fill: u64,
    /// Of very many trials that are much alike, which one this is: besides Check
    /// and Run one service is asked, by turns.
    pub turn: Option<usize>,
}

impl Trial {
    /// A trial with complete reports, for sheets that were not drawn.
    pub fn of(sheet: &[u8], lent: Lent) -> Trial {
        Trial {
            sheet: sheet.to_vec(),
            cut: None,
            stored: None,
            lent,
            room: MOST_BYTES,
            buffer: BUFFER,
            short: None,
            more: 0,
            fill: 1,
            turn: None,
        }
    }

    /// A trial of two sheets, which together are one.
    pub fn of_pair(first: &[u8], second: &[u8], lent: Lent) -> Trial {
        Trial {
            cut: Some(first.len()),
            ..Trial::of(&whole(first, second), lent)
        }
    }

    /// The two sheets, if it is cut.
    pub fn parts(&self) -> (&[u8], &[u8]) {
        let cut = self.cut.unwrap_or(self.sheet.len());
        let second = self.sheet.get(cut + 1..).unwrap_or_default();
        (&self.sheet[..cut], second)
    }

    /// The stored sheet, if there is one.
    pub fn stored(&self) -> Option<Cow<'_, [u8]>> {
        match &self.stored {
            Some(stored) => Some(stored.into()),
            None => form_of(&self.sheet, self.lent.edition).map(Cow::from),
        }
    }

    /// The same sheet, cut at every one of its LFs.
    pub fn cuts(&self) -> Vec<Trial> {
        let feeds = places_of(b'\n', &self.sheet).into_iter();
        let cut = |at: usize| Trial {
            cut: Some(at),
            ..self.clone()
        };
        feeds.map(cut).collect()
    }

    /// The words of the report of this service.
    pub fn report(&self, service: Service) -> usize {
        match self.short {
            Some(words) => words % service.words(),
            None => service.words() + self.more,
        }
    }
}

/// The trial of this number in the series of this seed.
pub fn make(seed: u64, index: u64) -> Trial {
    let mut trial = make_for(&Service::ALL, seed, index);
    // Half of them are not cut.
    if trial.fill.is_multiple_of(5) || trial.fill.is_multiple_of(3) {
        trial.cut = None;
    }
    trial
}

/// A trial for these services; what only the others need is left out.
pub fn make_for(services: &[Service], seed: u64, index: u64) -> Trial {
    let asked = |some: &[Service]| some.iter().any(|service| services.contains(service));
    let mut chance = Chance::new(seed, index);
    let edition = 1 + chance.below(2) as u32;
    let mut sheet = make_sheet(&mut chance, edition);
    let mut trial = Trial::of(b"", Lent::default());
    if asked(&[Service::CheckPair, Service::RunPair]) {
        trial.cut = Some(make_cut(&mut chance, &mut sheet));
    }
    let runs = asked(&[Service::Run, Service::RunPair, Service::RunStored]);
    trial.lent = make_loans(&mut chance, &sheet, edition, runs);
    if asked(&[Service::Write, Service::Store]) {
        let [written, stored] = lengths(&sheet, edition);
        trial.room = make_room(&mut chance, written);
        trial.buffer = make_room(&mut chance, stored);
    }
    if asked(&[Service::CheckStored, Service::RunStored]) {
        trial.stored = stores::make(&mut chance, &sheet, edition);
    }
    if chance.one_in(100) {
        trial.lent.edition = chance.pick(&[0, 3, 1 << 16, u32::MAX]);
    }
    trial.short = chance.one_in(300).then(|| chance.below(100));
    trial.more = chance.pick(&[0, 0, 0, 1, 4]);
    trial.fill = chance.next_word();
    Trial { sheet, ..trial }
}

/// The bytes of what is written of the sheet, and of what is stored, if it passes.
fn lengths(sheet: &[u8], edition: u32) -> [usize; 2] {
    let tokens = text::tokens(sheet, edition).unwrap_or_default();
    let bytes: usize = tokens.iter().map(|token| token.length).sum();
    [bytes + tokens.len(), 2 * bytes + tokens.len() + 5]
}

/// One of the sheet's LFs to cut it at. If it has none, a space becomes one, or
/// one is put in anywhere, so that tokens, comments and numbers are cut too.
fn make_cut(chance: &mut Chance, sheet: &mut Vec<u8>) -> usize {
    let feeds = places_of(b'\n', sheet);
    let spaces = places_of(b' ', sheet);
    if !feeds.is_empty() && !chance.one_in(6) {
        return chance.pick(&feeds);
    }
    if !spaces.is_empty() && !chance.one_in(6) {
        let at = chance.pick(&spaces);
        sheet[at] = b'\n';
        return at;
    }
    let at = match chance.below(4) {
        0 => 0,
        1 => sheet.len(),
        _ => chance.below(sheet.len() + 1),
    };
    sheet.insert(at, b'\n');
    at
}

fn places_of(byte: u8, sheet: &[u8]) -> Vec<usize> {
    (0..sheet.len()).filter(|at| sheet[*at] == byte).collect()
}

/// Room for what is written of the sheet, or not quite.
fn make_room(chance: &mut Chance, written: usize) -> usize {
    match chance.below(8) {
        0 => chance.below(40),
        1 => written.saturating_sub(1),
        2 => written + 1,
        3 => 0,
        4 => MOST_BYTES + chance.below(40),
        _ => written,
    }
}

fn make_sheet(chance: &mut Chance, edition: u32) -> Vec<u8> {
    let choice = chance.below(100);
    if choice < 22 {
        return damaged_at_times(chance);
    }
    if choice < 24 {
        return damage::byte_soup(chance);
    }
    if choice < 28 {
        let tokens = damage::soup(chance);
        return damage::spell(chance, &tokens);
    }
    if choice < 36 {
        return slips::sheet(chance, edition);
    }
    let fuel = chance.pick(&[2, 5, 10, 20, 40, 80]);
    let mut tokens = sheets::program(chance, fuel, edition);
    if choice < 44 {
        damage::damage_tokens(chance, &mut tokens);
    }
    let mut sheet = damage::spell(chance, &tokens);
    if (44..52).contains(&choice) {
        damage::damage_bytes(chance, &mut sheet);
    }
    sheet
}

/// A sheet close to a limit, left alone most of the time.
fn damaged_at_times(chance: &mut Chance) -> Vec<u8> {
    let mut sheet = rare::sheet(chance);
    if chance.one_in(12) {
        damage::damage_bytes(chance, &mut sheet);
    }
    sheet
}

/// Loans; for those that run with an allowance that may be just enough.
fn make_loans(chance: &mut Chance, sheet: &[u8], edition: u32, runs: bool) -> Lent {
    let table = length(chance, TABLE_WORDS);
    let work = length(chance, WORK_WORDS);
    let output = match chance.below(5) {
        0 => 0,
        1 => chance.between(1, 4),
        _ => chance.between(5, 300),
    };
    let lent = Lent {
        edition,
        table,
        work,
        output,
        ..Lent::default()
    };
    let choice = chance.below(30);
    let used = match choice {
        2..=5 | 13.. if runs => units(sheet, lent),
        _ => Some(0),
    };
    let allowance = match (choice, used) {
        (0, _) => 0,
        (1, _) => 1,
        (2 | 3, Some(units)) => units,
        (4 | 5, Some(units)) => units.saturating_sub(1),
        (6, _) => chance.pick(&[MOST_UNITS + 1, u64::MAX, 1 << 32]),
        (7..=10, _) => chance.below(60) as u64,
        (11 | 12, _) => chance.below(LONG as usize) as u64,
        // Long runs are much alike, and a few of them are enough.
        (_, None) if !chance.one_in(100) => chance.below(5_000) as u64,
        _ => MOST_UNITS,
    };
    Lent { allowance, ..lent }
}

/// Units of a run that is long enough to be cut short most of the time.
const LONG: u64 = 20_000;

/// The units that this sheet uses, if they are not too many.
fn units(sheet: &[u8], lent: Lent) -> Option<u64> {
    let allowance = LONG;
    let told = answer::run(sheet, &Lent { allowance, ..lent });
    (told.number != 50).then_some(told.units)
}

fn length(chance: &mut Chance, required: usize) -> usize {
    match chance.below(60) {
        0 => required - 1,
        1 => chance.pick(&[0, 1, required / 2]),
        2..=9 => required + chance.between(1, 40),
        _ => required,
    }
}

#[cfg(test)]
mod tests {
    use super::*;
    use crate::on_big_stack;

    /// The writer of programs must know the typing rules, or the trials would
    /// seldom come to be run.
    #[test]
    fn undamaged_programs_have_a_type() {
        let wrong = on_big_stack(|| {
            let number = |index: u64| {
                let mut chance = Chance::new(11, index);
                let edition = 1 + index as u32 % 2;
                let tokens = sheets::program(&mut chance, 40, edition);
                let sheet = damage::spell(&mut chance, &tokens);
                let lent = Lent {
                    edition,
                    ..Lent::default()
                };
                answer::check(&sheet, &lent).number
            };
            (0..3000)
                .map(number)
                .filter(|n| ![0, 10, 14].contains(n))
                .count()
        });
        assert_eq!(wrong, 0);
    }
}
