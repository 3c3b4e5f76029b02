//! What is promised of every run, whatever it means (R11.2, R11.3, R10.6): a sheet
//! that passes ends in a value or a listed stop, of the type that Check gives it;
//! unless it ran out of units, more of them change nothing; and what the pay
//! profile counts is enough. Here the other implementation is held against itself.

use crate::answer::{Lent, MOST_UNITS, TABLE_WORDS, WORK_WORDS};
use crate::chance::Chance;
use crate::compare::{Call, Other};
use crate::services::Service;
use crate::trial::Trial;

/// What a passing sheet may end in.
pub const ENDS: [u32; 10] = [0, 50, 51, 52, 53, 54, 55, 56, 57, 58];

/// Whether a value told with this type can be one of it.
pub fn fits(kind: u64, value: i64) -> bool {
    match kind {
        1 => i32::try_from(value).is_ok(),
        2 => [0, 1].contains(&value),
        3 => value == 0,
        // Its bits, one form of not-a-number alone among them.
        4 => {
            let float = f64::from_bits(value as u64);
            !float.is_nan() || value as u64 == 0x7FF8_0000_0000_0000
        }
        // A reference: cells are counted from 1, and each takes a unit.
        _ => (1..=MOST_UNITS as i64).contains(&value),
    }
}

/// Number, place, type, value, units, printed; and the output.
type Ended = (Vec<u64>, Vec<u8>);

fn call(other: &dyn Other, service: Service, trial: &Trial, lent: &Lent) -> Result<Ended, String> {
    let heard = other.call(&Call {
        source: &trial.sheet,
        table: TABLE_WORDS,
        work: WORK_WORDS,
        output: lent.output,
        shown: lent.output,
        allowance: lent.allowance,
        report: &vec![0; service.words()],
        fill: trial.fill,
        ..Call::bare(service, lent.edition)
    })?;
    Ok((heard.report, heard.output))
}

/// Whether both promises hold on this trial, with the memory asked for.
pub fn kept(other: &dyn Other, trial: &Trial) -> Result<(), String> {
    if trial.lent.allowance > MOST_UNITS {
        return Ok(());
    }
    let (check, _) = call(other, Service::Check, trial, &trial.lent)?;
    let first = call(other, Service::Run, trial, &trial.lent)?;
    let [number, _, kind, value, ..] = first.0[..] else {
        unreachable!("six words");
    };
    if check[0] != 0 {
        return match number == check[0] {
            true => Ok(()),
            false => Err(format!(
                "check refuses with {}, run says {number}",
                check[0]
            )),
        };
    }
    if !ENDS.map(u64::from).contains(&number) || kind != check[2] {
        return Err(format!("it passes and ends in {number} with type {kind}"));
    }
    if number == 0 && !fits(kind, value as i64) {
        return Err(format!("{value} is no value of type {kind}"));
    }
    if number == 50 {
        return Ok(());
    }
    let more = larger(trial.lent.allowance, trial.fill);
    let lent = Lent {
        allowance: more,
        ..trial.lent
    };
    match call(other, Service::Run, trial, &lent)? == first {
        true => Ok(()),
        false => Err(format!("with {more} units it ends otherwise")),
    }
}

/// Whether a sheet of the pay profile, allowed its count and no more, uses no
/// more and does not run out (R10.6).
pub fn finishes(other: &dyn Other, trial: &Trial) -> Result<(), String> {
    let (told, _) = call(other, Service::Profile, trial, &trial.lent)?;
    let [0, _, _, count] = told[..] else {
        return Ok(());
    };
    let lent = Lent {
        allowance: count,
        ..trial.lent
    };
    let (ran, _) = call(other, Service::Run, trial, &lent)?;
    match ran[0] != 50 && ran[4] <= count {
        true => Ok(()),
        false => Err(format!("{count} units are not enough")),
    }
}

/// Another allowance, one more, twice as many, the most or any between.
pub fn larger(allowance: u64, fill: u64) -> u64 {
    let mut chance = Chance::new(fill, allowance);
    let between = allowance + chance.below((MOST_UNITS - allowance) as usize + 1) as u64;
    let choice = chance.pick(&[allowance + 1, 2 * allowance, MOST_UNITS, between]);
    choice.min(MOST_UNITS)
}
