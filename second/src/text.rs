//! Bytes to tokens.

use crate::sizes::BOX;
use crate::values::float;
use crate::Refusal;

pub const MOST_TOKENS: usize = BOX.tokens;
const LARGEST: u64 = 2_147_483_647;
/// Of a float, before and behind its point together.
pub const MOST_DIGITS: usize = 15;

/// Words that can never be names. `do` and `end` are among them although no
/// rule of the grammar mentions them.
pub const RESERVED: [&str; 18] = [
    "def", "let", "in", "while", "do", "end", "if", "then", "else", "ref", "not", "int", "bool",
    "true", "false", "unit", "tt", "float",
];

/// Longer marks stand before shorter ones, so the first hit is the longest.
pub const MARKS: [&str; 18] = [
    "&&", "||", "==", ":=", "+", "-", "*", "/", "<", "=", "!", ";", ",", ":", "(", ")", "{", "}",
];

/// What edition 2 has more.
pub const RESERVED_2: [&str; 2] = ["for", "by"];
pub const MARKS_2: [&str; 2] = ["..=", ".."];

#[derive(Clone, Debug, PartialEq)]
pub enum Kind {
    /// A reserved word or a mark: its spelling says all there is to say.
    Fixed(&'static str),
    Name(String),
    Number(i32),
    Float(f64),
}

#[derive(Clone, Debug, PartialEq)]
pub struct Token {
    pub kind: Kind,
    pub place: usize,
    pub length: usize,
}

impl Token {
    /// Its bytes in the source it is of.
    pub fn spelling<'a>(&self, source: &'a [u8]) -> &'a [u8] {
        &source[self.place..self.place + self.length]
    }
}

/// The tokens of a source in edition 1 or 2.
pub fn tokens(source: &[u8], edition: u32) -> Result<Vec<Token>, Refusal> {
    tokens_within(source, edition, MOST_TOKENS)
}

/// The same where so many tokens are the most.
pub fn tokens_within(source: &[u8], edition: u32, most: usize) -> Result<Vec<Token>, Refusal> {
    let mut found = Vec::new();
    let mut at = 0;
    while at < source.len() {
        let rest = &source[at..];
        if is_blank(rest[0]) {
            at += 1;
        } else if rest.starts_with(b"//") {
            at += line_comment(rest);
        } else if rest.starts_with(b"/*") {
            at += nested_comment(rest).ok_or(Refusal::new(12, at))?;
        } else {
            // The token is read in full before it is counted: a number that
            // is too large is told before there being one token too many.
            let read = token(rest, edition);
            let (kind, length) = read.map_err(|number| Refusal::new(number, at))?;
            if found.len() == most {
                return Err(Refusal::new(14, at));
            }
            found.push(Token {
                kind,
                place: at,
                length,
            });
            at += length;
        }
    }
    Ok(found)
}

fn is_blank(byte: u8) -> bool {
    matches!(byte, b' ' | b'\t' | b'\r' | b'\n')
}

/// Length of the comment up to, not with, its LF: that LF is a blank anyway.
fn line_comment(rest: &[u8]) -> usize {
    rest.iter().position(|&b| b == b'\n').unwrap_or(rest.len())
}

/// Length of a nested comment, or nothing if it never closes. A mark uses up
/// both its bytes; every other byte, a slash of `//` too, is passed singly.
fn nested_comment(rest: &[u8]) -> Option<usize> {
    let mut depth = 0;
    let mut at = 0;
    while at < rest.len() {
        if rest[at..].starts_with(b"/*") {
            depth += 1;
            at += 2;
        } else if rest[at..].starts_with(b"*/") {
            depth -= 1;
            at += 2;
            if depth == 0 {
                return Some(at);
            }
        } else {
            at += 1;
        }
    }
    None
}

/// The token at the start of `rest` with its length, or the refusal's number.
fn token(rest: &[u8], edition: u32) -> Result<(Kind, usize), u32> {
    if rest[0].is_ascii_alphabetic() {
        return Ok(word(rest, edition));
    }
    if rest[0].is_ascii_digit() {
        return number(rest, edition);
    }
    let more: &[&str] = if edition == 2 { &MARKS_2 } else { &[] };
    let mark = more
        .iter()
        .chain(&MARKS)
        .find(|m| rest.starts_with(m.as_bytes()));
    mark.map(|m| (Kind::Fixed(m), m.len())).ok_or(11)
}

fn word(rest: &[u8], edition: u32) -> (Kind, usize) {
    let length = run_of(rest, |b| b.is_ascii_alphanumeric() || b == b'_');
    let spelling = String::from_utf8_lossy(&rest[..length]).into_owned();
    let more: &[&str] = if edition == 2 { &RESERVED_2 } else { &[] };
    match more.iter().chain(&RESERVED).find(|r| **r == spelling) {
        Some(reserved) => (Kind::Fixed(reserved), length),
        None => (Kind::Name(spelling), length),
    }
}

fn number(rest: &[u8], edition: u32) -> Result<(Kind, usize), u32> {
    // Without a digit behind it, `0x` or `0b` is the number 0 and a name.
    let marked = [(&b"0x"[..], 16), (&b"0b"[..], 2)]
        .into_iter()
        .find(|(mark, base)| {
            rest.starts_with(mark) && rest.get(2).is_some_and(|b| is_digit(*b, *base))
        });
    let (start, base) = marked.map_or((0, 10), |(mark, base)| (mark.len(), base));
    let length = start + run_of(&rest[start..], |b| is_digit(b, base));
    // Before two points, where these are a mark, a run of digits is an int.
    let before_mark = edition == 2 && rest[length..].starts_with(b"..");
    if base == 10 && rest.get(length) == Some(&b'.') && !before_mark {
        return float_number(rest, length);
    }
    let mut value = 0u64;
    for byte in &rest[start..length] {
        let digit = char::from(*byte).to_digit(base).expect("a digit");
        value = value * u64::from(base) + u64::from(digit);
        if value > LARGEST {
            return Err(13);
        }
    }
    Ok((Kind::Number(value as i32), length))
}

/// A float with its point at that byte. However large it is, only its digits
/// are counted.
fn float_number(rest: &[u8], point: usize) -> Result<(Kind, usize), u32> {
    let after = run_of(&rest[point + 1..], |b| b.is_ascii_digit());
    if point + after > MOST_DIGITS {
        return Err(15);
    }
    let length = point + 1 + after;
    let digits = [&rest[..point], &rest[point + 1..length]].concat();
    Ok((Kind::Float(float(&digits, after)), length))
}

fn is_digit(byte: u8, base: u32) -> bool {
    char::from(byte).is_digit(base)
}

fn run_of(rest: &[u8], belongs: impl Fn(u8) -> bool) -> usize {
    rest.iter().take_while(|b| belongs(**b)).count()
}

#[cfg(test)]
mod tests {
    use super::*;

    fn spelled(source: &str) -> Vec<String> {
        spelled_in(1, source)
    }

    fn spelled_in(edition: u32, source: &str) -> Vec<String> {
        let show = |t: Token| match t.kind {
            Kind::Fixed(f) => f.to_string(),
            Kind::Name(n) => format!("name {n}"),
            Kind::Number(n) => format!("number {n}"),
            Kind::Float(f) => format!("float {f:?}"),
        };
        tokens(source.as_bytes(), edition)
            .unwrap()
            .into_iter()
            .map(show)
            .collect()
    }

    #[test]
    fn the_longest_token_wins() {
        assert_eq!(spelled("==="), ["==", "="]);
        assert_eq!(spelled(":=="), [":=", "="]);
        assert_eq!(spelled("iff if"), ["name iff", "if"]);
        assert_eq!(spelled("1x_2"), ["number 1", "name x_2"]);
        assert_eq!(spelled("*//"), ["*"]);
        assert_eq!(spelled("0x1else"), ["number 30", "name lse"]);
        assert_eq!(spelled("0b1else"), ["number 1", "else"]);
        assert_eq!(spelled("0b12"), ["number 1", "number 2"]);
        assert_eq!(
            spelled("1.x 1.5in"),
            ["float 1.0", "name x", "float 1.5", "in"]
        );
        assert_eq!(
            spelled("0xg 0b 00x1"),
            ["number 0", "name xg", "number 0", "name b", "number 0", "name x1"]
        );
    }

    #[test]
    fn two_points_are_a_mark_in_edition_2() {
        assert_eq!(spelled_in(2, "1..5"), ["number 1", "..", "number 5"]);
        assert_eq!(spelled_in(2, "1.5..=2"), ["float 1.5", "..=", "number 2"]);
        assert_eq!(
            spelled_in(2, "0x1..==x"),
            ["number 1", "..=", "=", "name x"]
        );
        assert_eq!(
            spelled_in(2, "3..0by-1"),
            ["number 3", "..", "number 0", "by", "-", "number 1"]
        );
        assert_eq!(tokens(b"1...2", 2), Err(Refusal::new(11, 3)));
        assert_eq!(tokens(b"1..5", 1), Err(Refusal::new(11, 2)));
        assert_eq!(spelled_in(1, "for by"), ["name for", "name by"]);
    }

    #[test]
    fn comments_swallow_any_byte() {
        assert_eq!(tokens(b"/*\xff\x00&*/", 1).unwrap(), vec![]);
        assert_eq!(tokens(b"//\xff", 1).unwrap(), vec![]);
        assert_eq!(tokens(b" /*//*/", 1), Err(Refusal::new(12, 1)));
    }
}
