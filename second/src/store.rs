//! Stored sheets: lines of hexadecimal, the first one the count of the tokens,
//! then the spelling of one token on each.

use crate::answer::{is_edition, understand, Lent, Prepared};
use crate::text::{self, Kind, Token};
use crate::write::{write_out, Written};
use crate::Refusal;

/// The stored form of a source, unless it is refused or longer than the buffer.
pub fn store(source: &[u8], lent: &Lent, buffer: usize) -> Written {
    write_out(source, lent, form, buffer)
}

/// The stored form of tokens that are spelled so.
pub fn form(spelled: &[&[u8]]) -> Vec<u8> {
    let mut text = format!("{:04X}\n", spelled.len()).into_bytes();
    for spelling in spelled {
        text.extend(hexadecimal(spelling));
        text.push(b'\n');
    }
    text
}

/// Two digits, capitals, for each byte.
pub fn hexadecimal(bytes: &[u8]) -> impl Iterator<Item = u8> + '_ {
    const DIGITS: &[u8; 16] = b"0123456789ABCDEF";
    let both = |byte: &u8| [byte / 16, byte % 16].map(|digit| DIGITS[usize::from(digit)]);
    bytes.iter().flat_map(both)
}

/// The stored form of a source's tokens, passing or not, if it has tokens.
pub fn form_of(source: &[u8], edition: u32) -> Option<Vec<u8>> {
    let tokens = text::tokens(source, edition).ok()?;
    let spelled: Vec<&[u8]> = tokens.iter().map(|t| t.spelling(source)).collect();
    Some(form(&spelled))
}

/// A program out of a stored sheet. Places are numbers of lines, and the end of
/// the source is one past the last line.
pub fn prepare(stored: &[u8], lent: &Lent) -> Prepared {
    if !is_edition(lent.edition) {
        return Err(Refusal::new(42, 0));
    }
    let tokens = tokens(stored, lent)?;
    understand(&tokens, tokens.len() + 2)
}

/// The tokens of a stored sheet, each with its line for a place.
pub fn tokens(stored: &[u8], lent: &Lent) -> Result<Vec<Token>, Refusal> {
    let lines = lines(stored);
    let count = lines.first().and_then(|line| count(line.as_deref()?));
    let count = count.ok_or(Refusal::new(60, 1))?;
    if count > lent.sizes.tokens {
        return Err(Refusal::new(14, 1));
    }
    let mut found = Vec::new();
    for (line, place) in lines[1..].iter().zip(2..) {
        let bytes = line.as_ref().ok_or(Refusal::new(60, place))?;
        found.push(Token {
            kind: only_token(bytes, lent.edition).ok_or(Refusal::new(62, place))?,
            place,
            length: bytes.len(),
        });
    }
    if found.len() != count {
        return Err(Refusal::new(61, 1));
    }
    if found.iter().map(|token| token.length).sum::<usize>() > lent.sizes.bytes {
        return Err(Refusal::new(10, 0));
    }
    Ok(found)
}

/// The bytes of each line, or none where a line is no hexadecimal or lacks its
/// LF.
pub fn lines(stored: &[u8]) -> Vec<Option<Vec<u8>>> {
    let mut lines: Vec<&[u8]> = stored.split(|byte| *byte == b'\n').collect();
    let behind = lines.pop().unwrap_or_default();
    let mut read: Vec<Option<Vec<u8>>> = lines.into_iter().map(bytes).collect();
    if !behind.is_empty() {
        read.push(None);
    }
    read
}

/// The bytes that a line without its LF stands for: two digits, capitals, for
/// each, and at least one.
fn bytes(line: &[u8]) -> Option<Vec<u8>> {
    let digit = |byte: u8| match byte {
        b'0'..=b'9' => Some(byte - b'0'),
        b'A'..=b'F' => Some(byte - b'A' + 10),
        _ => None,
    };
    if line.is_empty() || !line.len().is_multiple_of(2) {
        return None;
    }
    let both = |pair: &[u8]| Some(16 * digit(pair[0])? + digit(pair[1])?);
    line.chunks(2).map(both).collect()
}

/// The count on a first line, which has four digits.
fn count(bytes: &[u8]) -> Option<usize> {
    match bytes {
        [high, low] => Some(256 * usize::from(*high) + usize::from(*low)),
        _ => None,
    }
}

/// The token that these bytes are, with nothing before or behind it.
fn only_token(bytes: &[u8], edition: u32) -> Option<Kind> {
    match &text::tokens(bytes, edition).ok()?[..] {
        [token] if token.length == bytes.len() => Some(token.kind.clone()),
        _ => None,
    }
}

#[cfg(test)]
mod tests {
    use super::*;
    use crate::sizes::BEFORE;

    #[test]
    fn the_sheet_of_the_paper() {
        let stored = b"0003\n31\n2B\n32\n";
        assert_eq!(form_of(b"1+2", 1).unwrap(), stored);
        let tokens = tokens(stored, &Lent::default()).unwrap();
        let places: Vec<usize> = tokens.iter().map(|t| t.place).collect();
        assert_eq!(places, [2, 3, 4]);
    }

    /// R13.4: a box with the sizes before says 14 to a count above `0400`, whatever
    /// is behind it, and reads all up to there as this one does.
    #[test]
    fn a_box_before_says_14() {
        let old = Lent {
            sizes: BEFORE,
            ..Lent::default()
        };
        let sheet = |count: usize| format!("{count:04X}\n{}31\n", "2D\n".repeat(count - 1));
        for stored in [sheet(1025), sheet(1360), "0401\nx".into(), "FFFF\n".into()] {
            let told = tokens(stored.as_bytes(), &old);
            assert_eq!(told, Err(Refusal::new(14, 1)), "{stored}");
        }
        for stored in [sheet(1), sheet(1023), sheet(1024), "0400\nx".into()] {
            let told = tokens(stored.as_bytes(), &old);
            assert_eq!(
                told,
                tokens(stored.as_bytes(), &Lent::default()),
                "{stored}"
            );
        }
        assert!(tokens(sheet(1025).as_bytes(), &Lent::default()).is_ok());
    }

    #[test]
    fn a_line_is_capitals_and_ends() {
        assert_eq!(lines(b""), []);
        assert_eq!(lines(b"0A\n"), [Some(vec![10])]);
        assert_eq!(lines(b"0a\n\nA\nFF"), [None, None, None, None]);
    }
}
