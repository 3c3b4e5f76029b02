//! One sheet, run again and again by the clock: this interpreter's side of
//! `bench/run`. A sheet that does not come to a value is no measure.

use second::answer::{self, Answer, Lent};
use std::time::{Duration, Instant};

/// What the sheet prints, and its value on a line under it.
pub fn printed(sheet: &[u8], lent: &Lent) -> Result<Vec<u8>, String> {
    let (answer, _) = run(sheet, lent)?;
    let mut bytes = answer.printed;
    bytes.extend(format!("\n{}\n", answer.value).bytes());
    Ok(bytes)
}

/// Value, units, bytes printed, and the nanoseconds of the shortest run.
pub fn timed(sheet: &[u8], lent: &Lent, repeats: u64) -> Result<String, String> {
    let (answer, mut best) = run(sheet, lent)?;
    for _ in 1..repeats {
        best = best.min(run(sheet, lent)?.1);
    }
    let Answer { value, units, .. } = answer;
    let printed = answer.printed.len();
    let ns = best.as_nanos();
    Ok(format!(
        "value={value} units={units} printed={printed} ns={ns}\n"
    ))
}

fn run(sheet: &[u8], lent: &Lent) -> Result<(Answer, Duration), String> {
    let began = Instant::now();
    let answer = answer::run(sheet, lent);
    let took = began.elapsed();
    match answer.number {
        0 => Ok((answer, took)),
        number => Err(format!("number {number} at byte {}", answer.place)),
    }
}
