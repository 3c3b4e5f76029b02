//! Two reports of shifts made one: those of two inputs, the first of which ends
//! with a line's LF or is empty, become that of the two as one input. Nothing is
//! believed of the words: what no shift can come to is not added.

use crate::answer::Lent;
use crate::chance::Chance;
use crate::compare::{same_words, Call, Other, Tell};
use crate::services::Service;
use crate::shift::{Shift, MOST_LINES};
use crate::shift_trial::ShiftTrial;

/// Number, lines, bad lines, lines for stops 50 to 58, sum, least, largest.
pub type Report = [u64; 15];

pub const NUMBER: usize = 0;
pub const LINES: usize = 1;
pub const BAD: usize = 2;
pub const SUM: usize = 12;
pub const LEAST: usize = 13;
pub const LARGEST: usize = 14;

const NO_EDITION: u64 = 42;
const MANY_LINES: u64 = 46;

/// Of any words. A refusal has no words but its number.
pub fn combine(first: &Report, second: &Report) -> Report {
    let both = [first, second];
    let numbers = both.map(|report| report[NUMBER]);
    if numbers.contains(&NO_EDITION) {
        return refusal(NO_EDITION);
    }
    let few = || number(first, LINES) + number(second, LINES) <= i128::from(MOST_LINES);
    match numbers == [0, 0] && both.into_iter().all(possible) && few() {
        true => added(first, second),
        false => refusal(MANY_LINES),
    }
}

fn refusal(number: u64) -> Report {
    let mut report = [0; 15];
    report[NUMBER] = number;
    report
}

/// Whether some lines have this report, its number aside. No sum of these words
/// wraps here, whatever they are.
pub fn possible(report: &Report) -> bool {
    let lines = number(report, LINES);
    let paid = paid(report);
    if lines > i128::from(MOST_LINES) || paid < 0 {
        return false;
    }
    let pays = [SUM, LEAST, LARGEST].map(|at| i128::from(report[at] as i64));
    match paid {
        0 => pays == [0, 0, 0],
        _ => payable(paid, pays),
    }
}

/// Whether so many ints, at least one, can have this sum, least and largest: one
/// of them is the least, one the largest, and the others are between the two.
fn payable(paid: i128, [sum, least, largest]: [i128; 3]) -> bool {
    let is_int = |pay: i128| i32::try_from(pay).is_ok();
    let others = paid - 1;
    is_int(least)
        && is_int(largest)
        && least <= largest
        && largest + others * least <= sum
        && sum <= least + others * largest
}

/// A word that counts something.
fn number(report: &Report, at: usize) -> i128 {
    i128::from(report[at])
}

/// How many lines were paid; less than 0 where more were bad or stopped than
/// there are.
fn paid(report: &Report) -> i128 {
    let unpaid: i128 = (BAD..SUM).map(|at| number(report, at)).sum();
    number(report, LINES) - unpaid
}

/// Of two possible ones.
fn added(first: &Report, second: &Report) -> Report {
    let mut all = [0; 15];
    for at in LINES..SUM {
        all[at] = first[at] + second[at];
    }
    all[SUM] = (first[SUM] as i64 + second[SUM] as i64) as u64;
    let least = |a: i64, b: i64| a.min(b);
    let largest = |a: i64, b: i64| a.max(b);
    all[LEAST] = of_both(first, second, LEAST, least);
    all[LARGEST] = of_both(first, second, LARGEST, largest);
    all
}

/// Where no line was paid, least and largest say nothing.
fn of_both(first: &Report, second: &Report, at: usize, choose: fn(i64, i64) -> i64) -> u64 {
    match (paid(first), paid(second)) {
        (0, 0) => 0,
        (_, 0) => first[at],
        (0, _) => second[at],
        _ => choose(first[at] as i64, second[at] as i64) as u64,
    }
}

/// The report of an input by the book of the trial.
pub fn report(trial: &ShiftTrial, input: &[u8]) -> Report {
    let mut shift = Shift::new(&trial.book, &trial.lent);
    let number = u64::from(shift.feed(input).0);
    let words = [vec![number], shift.finish().words()].concat();
    words.try_into().expect("fifteen words")
}

/// Three parts of the input, cut at two places where a line begins.
fn parts(trial: &ShiftTrial) -> [&[u8]; 3] {
    let mut chance = Chance::new(trial.fill, 15);
    let input = &trial.input;
    let behind = (1..=input.len()).filter(|at| input[at - 1] == b'\n');
    let begins: Vec<usize> = [0].into_iter().chain(behind).collect();
    let mut cuts = [chance.pick(&begins), chance.pick(&begins)];
    cuts.sort();
    let (left, last) = input.split_at(cuts[1]);
    let (first, second) = left.split_at(cuts[0]);
    [first, second, last]
}

/// What is true of all of them, where the shift begins.
pub fn laws(trial: &ShiftTrial) -> Result<(), String> {
    let told = parts(trial).map(|part| report(trial, part));
    let [a, b, c] = &told;
    let whole = report(trial, &trial.input);
    let both = combine(&combine(a, b), c);
    let same = match whole[0] {
        46 => both[0] == 46,
        _ => both == whole,
    };
    if !same {
        return Err(format!("combined to {both:?}, not {whole:?}"));
    }
    let empty = [0; 15];
    let kept = |r: &Report| r[0] == 46 || (combine(r, &empty) == *r && combine(&empty, r) == *r);
    match told.iter().all(kept) {
        true => laws_of_any(&told),
        false => Err(format!("combined with none: {told:?}")),
    }
}

/// What is true of any three reports: it does not matter which two are combined
/// first, nor in which order, and what is added can be added to again.
pub fn laws_of_any(three: &[Report; 3]) -> Result<(), String> {
    let [a, b, c] = three;
    let turned = combine(a, b) == combine(b, a);
    let grouped = combine(a, &combine(b, c)) == combine(&combine(a, b), c);
    match turned && grouped && possible(&combine(a, b)) {
        true => Ok(()),
        false => Err(format!("combined in another order: {three:?}")),
    }
}

fn combines(other: &dyn Other) -> Result<bool, String> {
    let heard = other.call(&Call::bare(Service::HasCombine, 1))?;
    Ok(heard.number != 0)
}

/// Holds another implementation on two reports, if it combines at all.
pub fn hold_case(other: &dyn Other, parts: &[Report; 2], tell: &mut Tell) -> Result<(), String> {
    if combines(other)? {
        let [first, second] = parts;
        let chance = &mut Chance::new(1, 16);
        held(other, chance, &Lent::default(), [first, second], tell)?;
    }
    Ok(())
}

/// The same on the parts of a shift's input.
pub fn hold(other: &dyn Other, trial: &ShiftTrial, tell: &mut Tell) -> Result<(), String> {
    let three = parts(trial).map(|part| report(trial, part));
    hold_any(other, &three, trial.fill, tell)
}

/// The same on any three reports, whichever two are combined first.
pub fn hold_any(
    other: &dyn Other,
    three: &[Report; 3],
    fill: u64,
    tell: &mut Tell,
) -> Result<(), String> {
    laws_of_any(three)?;
    if !combines(other)? {
        return Ok(());
    }
    let [a, b, c] = three;
    let mut chance = Chance::new(fill, 16);
    let lent = Lent::default();
    let left = held(other, &mut chance, &lent, [a, b], tell)?;
    held(other, &mut chance, &lent, [&left, c], tell)?;
    let right = held(other, &mut chance, &lent, [b, c], tell)?;
    held(other, &mut chance, &lent, [a, &right], tell)?;
    Ok(())
}

/// Holds one call, and now and then the same with something too short, which
/// changes nothing.
fn held(
    other: &dyn Other,
    chance: &mut Chance,
    lent: &Lent,
    [first, second]: [&Report; 2],
    tell: &mut Tell,
) -> Result<Report, String> {
    let bytes =
        |report: &[u64]| -> Vec<u8> { report.iter().flat_map(|w| w.to_ne_bytes()).collect() };
    let due = combine(first, second);
    let mut asked = |first: &[u64], second: &[u64], words: usize, due: Option<&Report>| {
        let report: Vec<u64> = (0..words).map(|_| chance.next_word()).collect();
        let heard = other.call(&Call {
            source: &bytes(first),
            second: &bytes(second),
            report: &report,
            fill: chance.next_word(),
            ..Call::bare(Service::Combine, lent.edition)
        })?;
        let mut all = report;
        if let Some(due) = due {
            all[..15].copy_from_slice(due);
        }
        let number = due.map_or(40, |due| due[0]);
        if heard.number != number {
            return Err(format!("returned {}, not {number}", heard.number));
        }
        same_words("report", &heard.report, &all)
    };
    asked(first, second, 15, Some(&due))?;
    match trial_of(first, second) {
        0 => asked(first, second, 14, None)?,
        1 => asked(&first[..14], second, 15, None)?,
        2 => asked(first, &second[..14], 15, None)?,
        3 => asked(first, second, 18, Some(&due))?,
        _ => {}
    }
    tell(Service::Combine, due[0] as u32);
    Ok(due)
}

/// Which of the further calls is made, by what the reports are.
fn trial_of(first: &Report, second: &Report) -> u64 {
    Chance::new(first[LINES] ^ first[SUM], second[LINES] ^ second[SUM]).below(12) as u64
}

#[cfg(test)]
mod tests {
    use super::*;
    use crate::shift::Sums;
    use crate::{combines, on_big_stack, shifts};
    use std::collections::BTreeSet;

    #[test]
    fn any_three_combine() {
        for index in 0..20_000 {
            let three = combines::make(17, index);
            laws_of_any(&three).unwrap_or_else(|e| panic!("{index}: {e}"));
        }
    }

    /// All pays of so many lines, each from -2 to 2.
    fn all_pays(lines: usize) -> Vec<Vec<i64>> {
        let mut all = vec![vec![]];
        for _ in 0..lines {
            let longer =
                |pays: &Vec<i64>| (-2..=2).map(|pay| [&pays[..], &[pay]].concat()).collect();
            all = all
                .iter()
                .flat_map(|pays| -> Vec<Vec<i64>> { longer(pays) })
                .collect();
        }
        all
    }

    /// The reports that lines have, and no others: both ways, for a few lines.
    #[test]
    fn what_lines_come_to() {
        for lines in 0..=4 {
            let of = |pays: Vec<i64>| -> [i64; 3] {
                let sums = Sums {
                    pays,
                    ..Sums::default()
                };
                [11, 12, 13].map(|at| sums.words()[at] as i64)
            };
            let met: BTreeSet<[i64; 3]> = all_pays(lines).into_iter().map(of).collect();
            for sum in -10..=10 {
                for least in -2..=2 {
                    for largest in -2..=2 {
                        let mut report = [0; 15];
                        report[LINES] = lines as u64 + 3;
                        (report[BAD], report[7]) = (1, 2);
                        let pays = [sum, least, largest];
                        report[SUM..].copy_from_slice(&pays.map(|pay| pay as u64));
                        assert_eq!(possible(&report), met.contains(&pays), "{lines} {pays:?}");
                    }
                }
            }
        }
    }

    #[test]
    fn reports_combine() {
        on_big_stack(|| {
            for index in 0..300 {
                let trial = shifts::make(16, index);
                if crate::shift::begin(&trial.book, &trial.lent).is_ok() {
                    laws(&trial).unwrap_or_else(|e| panic!("{index}: {e}"));
                }
            }
            for index in 0..20 {
                let trial = shifts::most_lines(16, index);
                laws(&trial).unwrap_or_else(|e| panic!("{index}: {e}"));
            }
        });
    }
}
