//! Makes a failing trial small: first the loans, then tokens, then bytes.
//! Dropping tokens alone gets stuck where a type is wanted, so whole parts are
//! also replaced by constants and brackets are taken off.

use crate::answer::{Lent, MOST_BYTES};
use crate::trial::{Trial, BUFFER};

const CONSTANTS: [&[u8]; 5] = [b"", b" 1 ", b" true ", b" tt ", b" 1. "];

/// The smallest trial found on which the test still holds.
pub fn shrink(start: Trial, mut fails: impl FnMut(&Trial) -> bool) -> Trial {
    let mut best = start;
    plain_loans(&mut best, &mut fails);
    loop {
        let before = best.sheet.len();
        drop_parts(&mut best, pieces, &mut fails);
        take_off_brackets(&mut best, &mut fails);
        replace_parts(&mut best, &mut fails);
        drop_parts(&mut best, single_bytes, &mut fails);
        if best.sheet.len() >= before {
            return best;
        }
    }
}

/// Tries the trial with these parts as its sheet.
fn accept(best: &mut Trial, parts: &[Vec<u8>], fails: &mut impl FnMut(&Trial) -> bool) -> bool {
    let mut next = Trial {
        sheet: parts.concat(),
        ..best.clone()
    };
    // A sheet that is cut stays so, at the LF that is nearest to the old cut.
    if let Some(cut) = best.cut {
        let mut feeds: Vec<usize> = (0..next.sheet.len()).collect();
        feeds.retain(|at| next.sheet[*at] == b'\n');
        let Some(feed) = feeds.into_iter().min_by_key(|at| at.abs_diff(cut)) else {
            return false;
        };
        next.cut = Some(feed);
    }
    let still = fails(&next);
    if still {
        *best = next;
    }
    still
}

/// Puts the usual loan in place of each one that does not matter.
fn plain_loans(best: &mut Trial, fails: &mut impl FnMut(&Trial) -> bool) {
    let usual = Lent::default();
    let changes: [fn(&mut Trial, Lent); 11] = [
        |t, usual| t.lent.edition = usual.edition,
        |t, usual| t.lent.table = usual.table,
        |t, usual| t.lent.work = usual.work,
        |t, usual| t.lent.output = usual.output,
        |t, usual| t.lent.allowance = usual.allowance,
        |t, _| t.cut = None,
        |t, _| t.stored = None,
        |t, _| t.room = MOST_BYTES,
        |t, _| t.buffer = BUFFER,
        |t, _| t.short = None,
        |t, _| t.more = 0,
    ];
    for change in changes {
        let mut next = best.clone();
        change(&mut next, usual);
        if fails(&next) {
            *best = next;
        }
    }
}

/// Leaves out runs of parts, long runs first, as long as it still fails.
fn drop_parts(
    best: &mut Trial,
    split: fn(&[u8]) -> Vec<Vec<u8>>,
    fails: &mut impl FnMut(&Trial) -> bool,
) {
    let mut parts = split(&best.sheet);
    let mut run = parts.len().div_ceil(2);
    while run > 0 {
        let mut at = 0;
        while at < parts.len() {
            let end = (at + run).min(parts.len());
            let kept = [&parts[..at], &parts[end..]].concat();
            if accept(best, &kept, fails) {
                parts = kept;
            } else {
                at = end;
            }
        }
        run /= 2;
    }
}

/// Leaves out an opening bracket together with its closing one.
fn take_off_brackets(best: &mut Trial, fails: &mut impl FnMut(&Trial) -> bool) {
    let mut parts = pieces(&best.sheet);
    let mut at = 0;
    while at < parts.len() {
        let end = (at + 2..=parts.len()).find(|end| balanced(&parts[at..*end]));
        let opens = matches!(&parts[at][..], b"(" | b"{");
        if let (true, Some(end)) = (opens, end) {
            let kept = [&parts[..at], &parts[at + 1..end - 1], &parts[end..]].concat();
            if accept(best, &kept, fails) {
                parts = kept;
                continue;
            }
        }
        at += 1;
    }
}

/// Puts a constant, or nothing, in place of longer parts.
fn replace_parts(best: &mut Trial, fails: &mut impl FnMut(&Trial) -> bool) {
    let mut parts = pieces(&best.sheet);
    let mut at = 0;
    while at < parts.len() {
        match replaced_at(best, &parts, at, fails) {
            Some(kept) => parts = kept,
            None => at += 1,
        }
    }
}

fn replaced_at(
    best: &mut Trial,
    parts: &[Vec<u8>],
    at: usize,
    fails: &mut impl FnMut(&Trial) -> bool,
) -> Option<Vec<Vec<u8>>> {
    for end in (at + 1..=parts.len())
        .rev()
        .filter(|end| balanced(&parts[at..*end]))
    {
        for constant in CONSTANTS {
            let kept = [&parts[..at], &[constant.to_vec()], &parts[end..]].concat();
            let shorter = kept.concat().len() < best.sheet.len();
            if shorter && accept(best, &kept, fails) {
                return Some(kept);
            }
        }
    }
    None
}

/// Whether every bracket in these parts has its partner among them.
fn balanced(parts: &[Vec<u8>]) -> bool {
    let mut open = Vec::new();
    for part in parts {
        match &part[..] {
            b"(" | b"{" => open.push(part[0]),
            b")" if open.pop() != Some(b'(') => return false,
            b"}" if open.pop() != Some(b'{') => return false,
            _ => {}
        }
    }
    open.is_empty()
}

/// Cuts a sheet into words, double marks, runs of blanks and single bytes.
/// Unlike reading it as tokens this never fails.
fn pieces(sheet: &[u8]) -> Vec<Vec<u8>> {
    let mut found = Vec::new();
    let mut at = 0;
    while at < sheet.len() {
        let rest = &sheet[at..];
        let length = match rest {
            [b, ..] if b.is_ascii_alphanumeric() => {
                same(rest, |b| b.is_ascii_alphanumeric() || b == b'_')
            }
            [b, ..] if b.is_ascii_whitespace() => same(rest, |b| b.is_ascii_whitespace()),
            [a, b, ..]
                if [*b"&&", *b"||", *b"==", *b":=", *b"/*", *b"*/", *b"//"].contains(&[*a, *b]) =>
            {
                2
            }
            _ => 1,
        };
        found.push(rest[..length].to_vec());
        at += length;
    }
    found
}

fn same(rest: &[u8], belongs: fn(u8) -> bool) -> usize {
    rest.iter().take_while(|b| belongs(**b)).count()
}

fn single_bytes(sheet: &[u8]) -> Vec<Vec<u8>> {
    sheet.iter().map(|b| vec![*b]).collect()
}

#[cfg(test)]
mod tests {
    use super::*;

    #[test]
    fn only_what_matters_is_left() {
        let sheet = b"let x = 1 in if true then x / 0 + 12 else putchar(65)";
        let start = Trial::of(
            sheet,
            Lent {
                table: 20_000,
                output: 0,
                ..Lent::default()
            },
        );
        let small = shrink(start, |t| t.sheet.contains(&b'/') && t.lent.output == 0);
        assert_eq!(small.sheet, b"/");
        assert_eq!(
            small.lent,
            Lent {
                output: 0,
                ..Lent::default()
            }
        );
    }
}
