//! States that no shift left. They are read as some state: feed and finish answer
//! them with 0 or a number of the table, change nothing that they may not, and
//! say the same each time, whatever lies in the memory that is lent.

use crate::answer::{Left, TABLE_WORDS, WORK_WORDS};
use crate::chance::Chance;
use crate::combine::{self, Report};
use crate::compare::{same_words, Call, Heard, Other, Tell};
use crate::services::Service;
use crate::shares::NUMBERS;
use crate::shift_trial::ShiftTrial;

/// Forges the state that the trial's shift left, and goes on from there.
pub fn hold(
    other: &dyn Other,
    trial: &ShiftTrial,
    left: &[u64],
    tell: &mut Tell,
) -> Result<(), String> {
    let mut chance = Chance::new(trial.fill, 17);
    let state = forge(&mut chance, left);
    let told = |e: String| format!("{state:?}: {e}");
    let before = finish(other, trial, &mut chance, &state).map_err(told)?;
    let fed = feed(other, trial, &mut chance, &state).map_err(told)?;
    let after = finish(other, trial, &mut chance, &fed.state).map_err(told)?;
    tell(Service::ShiftFeed, fed.number as u32);
    tell(Service::ShiftFinish, before[0] as u32);
    tell(Service::ShiftFinish, after[0] as u32);
    // Whatever a state comes to is some report to combine.
    combine::hold_any(other, &[before, after, [0; 15]], trial.fill, tell).map_err(told)
}

/// Another state, of the same length: all words any, or a few of them not as left.
fn forge(chance: &mut Chance, left: &[u64]) -> Vec<u64> {
    let mut state = left.to_vec();
    match chance.below(4) {
        0 => state.iter_mut().for_each(|word| *word = any(chance)),
        1 => state.fill(chance.pick(&[1, 46, u64::MAX, 1 << 63])),
        _ => {
            for _ in 0..chance.between(1, 3) {
                let at = chance.below(state.len());
                state[at] = near(chance, state[at]);
            }
        }
    }
    if state == left {
        state[0] = !state[0];
    }
    state
}

/// Any word, many of them small or at an end of what a word may stand for.
fn any(chance: &mut Chance) -> u64 {
    match chance.below(3) {
        0 => chance.next_word() >> chance.below(64),
        1 => chance.pick(&[
            0, 1, 20, 21, 22, 65_535, 65_536, 65_537, 1_000_000, 1_000_001,
        ]),
        _ => chance.pick(&[
            1 << 31,
            (1 << 31) - 1,
            u64::MAX - (1 << 31),
            1 << 63,
            u64::MAX,
        ]),
    }
}

/// A word close to this one, or any.
fn near(chance: &mut Chance, word: u64) -> u64 {
    match chance.below(5) {
        0 => word.wrapping_add(1),
        1 => word.wrapping_sub(1),
        2 => word ^ 1 << chance.below(64),
        _ => any(chance),
    }
}

/// The same call three times, the last time with other memory, which may change
/// neither the number nor the report nor the state.
fn thrice(other: &dyn Other, call: &Call) -> Result<Heard, String> {
    let heard = other.call(call)?;
    if other.call(call)? != heard {
        return Err("the same call was answered otherwise".to_string());
    }
    let lent = Call {
        table: call.table + 7,
        work: call.work + 900,
        fill: !call.fill,
        ..*call
    };
    let again = other.call(&lent)?;
    let told = |heard: &Heard| (heard.number, heard.report.clone(), heard.state.clone());
    if told(&again) != told(&heard) {
        return Err("other memory, another answer".to_string());
    }
    let known = |number: &u32| u64::from(*number) == heard.number;
    match NUMBERS.iter().any(known) && heard.report[0] == heard.number {
        true => Ok(heard),
        false => Err(format!(
            "{} is no number, or not the report's",
            heard.number
        )),
    }
}

fn feed(
    other: &dyn Other,
    trial: &ShiftTrial,
    chance: &mut Chance,
    state: &[u64],
) -> Result<Heard, String> {
    let heard = thrice(
        other,
        &Call {
            source: &trial.book,
            second: &trial.input,
            table: TABLE_WORDS,
            work: WORK_WORDS,
            output: trial.lent.output,
            state,
            report: &[chance.next_word()],
            fill: chance.next_word(),
            ..Call::bare(Service::ShiftFeed, trial.lent.edition)
        },
    );
    let heard = heard.map_err(|e| format!("feed: {e}"))?;
    heard.table.hold("table", Left::RequiredZero, TABLE_WORDS)?;
    heard.work.hold("work", Left::RequiredZero, WORK_WORDS)?;
    if ![0, 46].contains(&heard.number) {
        // A refusal leaves the state as it was.
        same_words("state", &heard.state, state)?;
    }
    Ok(heard)
}

fn finish(
    other: &dyn Other,
    trial: &ShiftTrial,
    chance: &mut Chance,
    state: &[u64],
) -> Result<Report, String> {
    let report: Vec<u64> = (0..15).map(|_| chance.next_word()).collect();
    let call = Call {
        state,
        report: &report,
        ..Call::bare(Service::ShiftFinish, trial.lent.edition)
    };
    let heard = thrice(other, &call).map_err(|e| format!("finish: {e}"))?;
    same_words("state", &heard.state, state)?;
    heard.table.hold("table", Left::AsBefore, 0)?;
    heard.work.hold("work", Left::AsBefore, 0)?;
    let words = heard.report.try_into();
    words.map_err(|_| "fifteen words are wanted".to_string())
}
