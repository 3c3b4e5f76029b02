//! Random reports to combine: possible ones, most of them at an edge of what is
//! possible, and the same with a word or two forged.

use crate::chance::Chance;
use crate::combine::{Report, BAD, LARGEST, LEAST, LINES, NUMBER, SUM};
use crate::shift::MOST_LINES;

/// The three reports of this number in the series of this seed.
pub fn make(seed: u64, index: u64) -> [Report; 3] {
    let mut chance = Chance::new(seed, index ^ 0x33);
    [(); 3].map(|()| {
        let mut report = possible(&mut chance);
        for _ in 0..chance.pick(&[0, 0, 0, 0, 1, 1, 2]) {
            forge(&mut chance, &mut report);
        }
        report
    })
}

/// A report that some lines have.
fn possible(chance: &mut Chance) -> Report {
    let mut report = [0; 15];
    let most = MOST_LINES as usize;
    let lines = match chance.below(8) {
        0 => chance.pick(&[most, most - 1, most / 2, most / 2 + 1]),
        1 => chance.below(most / 2),
        _ => chance.below(6),
    };
    report[LINES] = lines as u64;
    let paid = match chance.below(3) {
        0 => lines,
        1 => lines.min(chance.below(3)),
        _ => chance.below(lines + 1),
    };
    spread(chance, &mut report, lines - paid);
    if paid > 0 {
        pay(chance, &mut report, paid as i64);
    }
    report
}

/// So many bad and stopped lines.
fn spread(chance: &mut Chance, report: &mut Report, unpaid: usize) {
    let mut left = unpaid;
    while left > 0 {
        let some = chance.between(1, left);
        report[chance.between(BAD, SUM - 1)] += some as u64;
        left -= some;
    }
}

/// Sum, least and largest of so many pays, the sum often the least or the
/// largest that there can be.
fn pay(chance: &mut Chance, report: &mut Report, paid: i64) {
    let mut ends = [int(chance), int(chance)];
    ends.sort();
    let [least, largest] = match paid {
        1 => [ends[0]; 2],
        _ => ends,
    };
    let [low, high] = bounds(paid, least, largest);
    let sum = match chance.below(4) {
        0 => low,
        1 => high,
        _ => low + chance.below((high - low + 1) as usize) as i64,
    };
    report[SUM..].copy_from_slice(&[sum, least, largest].map(|pay| pay as u64));
}

/// The least and the largest sum of so many pays.
fn bounds(paid: i64, least: i64, largest: i64) -> [i64; 2] {
    let others = paid - 1;
    [largest + others * least, least + others * largest]
}

fn int(chance: &mut Chance) -> i64 {
    let (min, max) = (i64::from(i32::MIN), i64::from(i32::MAX));
    match chance.below(4) {
        0 => chance.pick(&[min, min + 1, max - 1, max]),
        1 => i64::from(chance.next_word() as i32),
        _ => chance.below(7) as i64 - 3,
    }
}

/// Makes one word another one, or two of them so that they wrap to what they were.
fn forge(chance: &mut Chance, report: &mut Report) {
    match chance.below(8) {
        0 => report[NUMBER] = chance.pick(&[42, 46, 1, 40, 1 << 32, (1 << 32) | 42, u64::MAX]),
        1 => wrap(chance, report),
        2 | 3 => {
            let by = chance.pick(&[1, u64::MAX]);
            let at = chance.pick(&[SUM, LEAST, LARGEST]);
            report[at] = report[at].wrapping_add(by);
        }
        4 => {
            let ends = [i32::MIN, i32::MAX].map(i64::from);
            let pay = chance.pick(&[ends[0] - 1, ends[1] + 1]);
            report[chance.pick(&[LEAST, LARGEST])] = pay as u64;
        }
        5 => {
            let at = chance.between(LINES, SUM - 1);
            report[at] = report[at].wrapping_add(chance.pick(&[1, u64::MAX]));
        }
        6 => {
            let at = chance.below(report.len());
            report[at] ^= 1 << chance.pick(&[16, 31, 32, 47, 62, 63]);
        }
        _ => {
            let at = chance.below(report.len());
            report[at] = chance.next_word() >> chance.below(64);
        }
    }
}

/// Two counts of lines that in 64 bits add up to what they did.
fn wrap(chance: &mut Chance, report: &mut Report) {
    let by = chance.next_word();
    let [one, two] = [chance.between(BAD, 6), chance.between(7, SUM - 1)];
    report[one] = report[one].wrapping_add(by);
    report[two] = report[two].wrapping_sub(by);
}

#[cfg(test)]
mod tests {
    use super::*;
    use crate::combine;

    /// What is drawn as possible is, and forged ones are met on both sides.
    #[test]
    fn both_sides_are_met() {
        let mut met = [0, 0];
        for index in 0..4000 {
            let mut chance = Chance::new(5, index);
            let mut report = possible(&mut chance);
            assert!(combine::possible(&report), "{report:?}");
            forge(&mut chance, &mut report);
            met[usize::from(combine::possible(&report))] += 1;
        }
        assert!(met.iter().all(|times| *times > 400), "{met:?}");
    }
}
