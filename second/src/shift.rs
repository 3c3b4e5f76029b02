//! The shift report: a rule book, and lines of picks and rates that it pays.

use crate::answer::{self, prepare, Answer, Lent, MOST_BYTES, MOST_UNITS, TABLE_WORDS, WORK_WORDS};
use crate::pair::{placed, whole};
use crate::text;
use crate::tree::{Form, Program};
use crate::types::Type;
use crate::Refusal;

pub const MOST_LINES: u64 = 65_536;

/// The longest call that a line can need.
const LONGEST_CALL: &[u8] = b"pay(2147483647,2147483647)";

/// The refusal of a book before any line, if there is one. The place is that in
/// the book; one in what is set under the book is counted from there.
pub fn begin(book: &[u8], lent: &Lent) -> Result<(), Refusal> {
    if lent.table < TABLE_WORDS || lent.work < WORK_WORDS {
        return Err(Refusal::new(40, 0));
    }
    if lent.allowance > MOST_UNITS {
        return Err(Refusal::new(41, 0));
    }
    let (program, _) =
        prepare(&whole(book, b"0"), lent).map_err(|refusal| in_book(refusal, book, b"0"))?;
    if !has_pay(&program) || !ends_in_zero(&program, book) {
        return Err(Refusal::new(47, 0));
    }
    let longest = whole(book, LONGEST_CALL);
    if longest.len() > MOST_BYTES {
        return Err(Refusal::new(10, 0));
    }
    text::tokens(&longest, lent.edition).map_err(|refusal| in_book(refusal, book, LONGEST_CALL))?;
    Ok(())
}

fn in_book(refusal: Refusal, book: &[u8], under: &[u8]) -> Refusal {
    let place = placed(refusal.number, refusal.place as u64, book, under).place;
    Refusal::new(refusal.number, place as usize)
}

fn has_pay(program: &Program) -> bool {
    let pays = |name: &str, kinds: Vec<&Type>, result: &Type| {
        name == "pay" && kinds == [&Type::Int, &Type::Int] && *result == Type::Int
    };
    program.functions.iter().any(|f| {
        let kinds = f.parameters.iter().map(|p| &p.kind).collect();
        pays(&f.name, kinds, &f.result)
    })
}

/// Whether the `0` set under the book is all of the last expression, so that
/// every token of the book is in a function.
fn ends_in_zero(program: &Program, book: &[u8]) -> bool {
    matches!(program.last.form, Form::Number(0)) && program.last.place == book.len() + 1
}

/// What is reported of the lines so far.
#[derive(Clone, Debug, Default, PartialEq, Eq)]
pub struct Sums {
    pub lines: u64,
    pub bad: u64,
    /// How many lines ended in each of the stops 50 to 58.
    pub stops: [u64; 9],
    /// The pay of each of the rest.
    pub pays: Vec<i64>,
}

impl Sums {
    /// Lines, bad lines, stops, sum, least, largest.
    pub fn words(&self) -> Vec<u64> {
        let sum: i64 = self.pays.iter().sum();
        let least = self.pays.iter().min().copied().unwrap_or(0);
        let largest = self.pays.iter().max().copied().unwrap_or(0);
        let mut words = vec![self.lines, self.bad];
        words.extend(self.stops);
        words.extend([sum, least, largest].map(|pay| pay as u64));
        words
    }
}

/// A shift under way.
pub struct Shift {
    book: Vec<u8>,
    pub lent: Lent,
    sums: Sums,
    /// The bytes of a line whose LF has not come yet.
    line: Vec<u8>,
}

impl Shift {
    pub fn new(book: &[u8], lent: &Lent) -> Shift {
        Shift {
            book: book.to_vec(),
            lent: *lent,
            sums: Sums::default(),
            line: Vec::new(),
        }
    }

    /// Takes a piece of the input and gives what each run printed, in order; the
    /// number is 46 if there is a byte behind the last line that may be.
    pub fn feed(&mut self, piece: &[u8]) -> (u32, Vec<Vec<u8>>) {
        let mut printed = Vec::new();
        for byte in piece {
            if self.sums.lines == MOST_LINES {
                return (46, printed);
            }
            self.line.push(*byte);
            if *byte == b'\n' {
                let line = std::mem::take(&mut self.line);
                printed.extend(self.line(&line));
            }
        }
        (0, printed)
    }

    /// What is reported at the end: a line without its LF is a bad one.
    pub fn finish(&self) -> Sums {
        let mut sums = self.sums.clone();
        if !self.line.is_empty() {
            sums.lines += 1;
            sums.bad += 1;
        }
        sums
    }

    /// Counts a line, and gives what its run printed if it is a good one.
    fn line(&mut self, line: &[u8]) -> Option<Vec<u8>> {
        self.sums.lines += 1;
        let Some([picks, rate]) = numbers(line) else {
            self.sums.bad += 1;
            return None;
        };
        let call = format!("pay({picks},{rate})");
        let Answer {
            number,
            value,
            printed,
            ..
        } = answer::run(&whole(&self.book, call.as_bytes()), &self.lent);
        match number {
            0 => self.sums.pays.push(value),
            50..=58 => self.sums.stops[number as usize - 50] += 1,
            _ => unreachable!("a book that passes with its longest call"),
        }
        Some(printed)
    }
}

/// Picks and rate of a good line: 20 hexadecimal digits in capitals and the LF,
/// neither number above the largest int.
fn numbers(line: &[u8]) -> Option<[u32; 2]> {
    let (digits, end) = line.split_at_checked(20)?;
    let capitals = |byte: &u8| matches!(byte, b'0'..=b'9' | b'A'..=b'F');
    if end != b"\n" || !digits.iter().all(capitals) {
        return None;
    }
    let number = |part: &[u8]| {
        let text = std::str::from_utf8(part).ok()?;
        let number = u32::from_str_radix(text, 16).ok()?;
        i32::try_from(number).is_ok().then_some(number)
    };
    Some([number(&digits[4..12])?, number(&digits[12..])?])
}

#[cfg(test)]
mod tests {
    use super::*;

    const BOOK: &[u8] = b"def pay(p:int,r:int):int{p*r}";

    #[test]
    fn the_line_of_the_paper() {
        assert_eq!(numbers(b"00070001117000000003\n"), Some([70_000, 3]));
        assert_eq!(numbers(b"00070001117000000003"), None);
        assert_eq!(numbers(b"0007000111700000000a\n"), None);
        assert_eq!(numbers(b"00078000000000000003\n"), None);
    }

    #[test]
    fn wherever_it_is_cut() {
        let input = b"00070001117000000003\n\n0001000000020000000A\n00017FFFFFFF7FFFFFFF\n0";
        let whole = {
            let mut shift = Shift::new(BOOK, &Lent::default());
            shift.feed(input);
            shift.finish()
        };
        assert_eq!(whole.words()[..2], [5, 2]);
        assert_eq!(whole.words()[11..], [210_020, 20, 210_000]);
        for cut in 0..=input.len() {
            let mut shift = Shift::new(BOOK, &Lent::default());
            shift.feed(&input[..cut]);
            shift.feed(&input[cut..]);
            assert_eq!(shift.finish(), whole);
        }
    }
}
