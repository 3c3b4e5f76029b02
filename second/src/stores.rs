//! Random stored sheets: those of random sources, and others that are spoilt in
//! one way or another.

use crate::answer::MOST_BYTES;
use crate::chance::Chance;
use crate::damage;
use crate::quote;
use crate::store::{form, form_of, hexadecimal};
use crate::text::MOST_TOKENS;

/// A stored sheet that is not just the source's own, if there is to be one.
pub fn make(chance: &mut Chance, sheet: &[u8], edition: u32) -> Option<Vec<u8>> {
    let choice = chance.below(48);
    if choice < 21 {
        return None;
    }
    let own = form_of(sheet, edition).unwrap_or_else(|| soup(chance));
    let text = String::from_utf8(own).expect("digits and LFs");
    let lines = || text.lines().map(str::to_string).collect::<Vec<String>>();
    let lines = match choice {
        21..=24 => {
            let count = wrong_count(chance, lines().len() - 1);
            [vec![count], lines().split_off(1)].concat()
        }
        25..=28 => spoil_line(chance, lines()),
        29..=35 => no_token(chance, lines()),
        36..=39 => move_lines(chance, lines()),
        40 => return Some(long(chance)),
        41 => return Some(many(chance)),
        42..=44 => return Some(cut(chance, &text)),
        _ => {
            let mut bytes = text.into_bytes();
            damage::damage_bytes(chance, &mut bytes);
            return Some(bytes);
        }
    };
    let text: String = lines.iter().map(|line| format!("{line}\n")).collect();
    match chance.one_in(10) {
        true => Some(cut(chance, &text)),
        false => Some(text.into_bytes()),
    }
}

/// Tokens without a sheet.
pub fn soup(chance: &mut Chance) -> Vec<u8> {
    let tokens: Vec<String> = (0..chance.below(9))
        .map(|_| damage::any_token(chance))
        .collect();
    let spelled: Vec<&[u8]> = tokens.iter().map(|t| t.as_bytes()).collect();
    form(&spelled)
}

fn wrong_count(chance: &mut Chance, count: usize) -> String {
    let other = [
        count + 1,
        count.saturating_sub(1),
        0,
        MOST_TOKENS,
        MOST_TOKENS + 1,
        0xFFFF,
    ];
    let other = chance.pick(&other);
    match chance.below(8) {
        0 => format!("{other:03X}"),
        1 => format!("{other:05X}"),
        2 => format!("{count:06X}"),
        _ => format!("{other:04X}"),
    }
}

/// Makes a line, maybe the first, into no hexadecimal.
fn spoil_line(chance: &mut Chance, mut lines: Vec<String>) -> Vec<String> {
    let at = chance.below(lines.len());
    let line = &mut lines[at];
    match chance.below(8) {
        0 => *line = line.to_ascii_lowercase(),
        1 => line.push('0'),
        2 => drop(line.pop()),
        3 => line.clear(),
        4 => line.push('\r'),
        5 => line.insert(0, ' '),
        6 => line.push_str("0x"),
        _ => line.push_str(chance.pick(&["G0", "0g", "@A", "/0", ":0", "`0"])),
    }
    lines
}

/// Lines that are no token, or two, or one after all, in the spelling of the case
/// files with a blank between two.
const LINES: &str = r"1\x20 \x201 1\n \t1 \r \x20 // //1 1// /**/ /**/1 1/**/ /* */ / 1+ +1 x\x20y xy
    x1 1x == === = & && | @ \xff \x00 . .. ..= 1.. 1. 1.5 for by 0x 0xF 2147483647 2147483648
    0x7fffffff 0x80000000 123456789012345. 1234567890123456.";

/// Puts one of these in place of a line.
fn no_token(chance: &mut Chance, mut lines: Vec<String>) -> Vec<String> {
    let all: Vec<&str> = LINES.split_whitespace().collect();
    let bytes = quote::decode(chance.pick(&all)).expect("the spelling of the case files");
    let line = hexadecimal(&bytes).map(char::from).collect();
    let at = chance.between(1, lines.len());
    match at < lines.len() {
        true => lines[at] = line,
        false => lines.push(line),
    }
    if chance.one_in(3) {
        lines[0] = format!("{:04X}", lines.len() - 1);
    }
    lines
}

/// A line is left out, doubled, or changes its place; the count stays.
fn move_lines(chance: &mut Chance, mut lines: Vec<String>) -> Vec<String> {
    let (from, to) = (chance.below(lines.len()), chance.below(lines.len()));
    match chance.below(3) {
        0 if lines.len() > 1 => drop(lines.remove(from)),
        1 => lines.swap(from, to),
        _ => lines.insert(to, lines[from].clone()),
    }
    lines
}

/// Spellings of as many bytes as a source may have, or nearly.
fn long(chance: &mut Chance) -> Vec<u8> {
    let short = "let=1in".len();
    let names = chance.between(MOST_BYTES - 2, MOST_BYTES + 3) - short;
    let (name, zeros) = ("a".repeat(names / 2), "0".repeat(names % 2));
    let number = format!("{zeros}1");
    let words = ["let", &name, "=", &number, "in", &name];
    let spelled: Vec<&[u8]> = words.iter().map(|word| word.as_bytes()).collect();
    let mut bytes = form(&spelled);
    if chance.one_in(4) {
        bytes[3] = b'5';
    }
    bytes
}

/// As many tokens as there may be, or nearly, and a count of its own.
fn many(chance: &mut Chance) -> Vec<u8> {
    let tokens = chance.between(MOST_TOKENS - 1, MOST_TOKENS + 2);
    let count = match chance.one_in(3) {
        true => chance.between(MOST_TOKENS - 1, MOST_TOKENS + 2),
        false => tokens,
    };
    let (mark, end) = chance.pick(&[("2D", "31"), ("28", "31"), ("2D", "20"), ("2D", "0")]);
    let minus = format!("{mark}\n").repeat(tokens - 1);
    format!("{count:04X}\n{minus}{end}\n").into_bytes()
}

/// Cut off anywhere, mostly close to the end.
fn cut(chance: &mut Chance, text: &str) -> Vec<u8> {
    let missing = match chance.below(4) {
        0 => chance.below(text.len() + 1),
        1 => chance.below(4).min(text.len()),
        _ => 1,
    };
    text.as_bytes()[..text.len() - missing].to_vec()
}

#[cfg(test)]
mod tests {
    use crate::services::{wanted, Service};
    use crate::{on_big_stack, trial};
    use std::collections::BTreeMap;

    /// Every refusal of the reader is met.
    #[test]
    fn all_refusals_are_drawn() {
        let numbers = on_big_stack(|| {
            let mut numbers: BTreeMap<u32, u64> = BTreeMap::new();
            for trial in (0..3000).map(|index| trial::make(9, index)) {
                if trial.stored.is_some() {
                    let told = wanted(Service::CheckStored, &trial);
                    *numbers.entry(told.number).or_default() += 1;
                }
            }
            numbers
        });
        for number in [0, 10, 14, 20, 33, 40, 42, 60, 61, 62] {
            assert!(numbers.contains_key(&number), "{number} of {numbers:?}");
        }
    }
}
