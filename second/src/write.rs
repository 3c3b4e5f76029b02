//! The writer: a sheet that passes, written out again with one space between
//! two tokens and an LF at the end.

use crate::answer::{prepare, Left, Lent};
use crate::text;
use crate::Refusal;

#[derive(Clone, Debug, PartialEq, Eq)]
pub struct Written {
    pub number: u32,
    pub place: u64,
    /// What the first bytes of the output are then; none if it is refused.
    pub text: Vec<u8>,
    pub table: Left,
}

pub fn write(source: &[u8], lent: &Lent, room: usize) -> Written {
    write_out(source, lent, tokens_apart, room.min(lent.sizes.bytes))
}

/// What both writers share: the source's own refusal comes first, then 44 if
/// what they make of the spellings is longer than it may be.
pub fn write_out(
    source: &[u8],
    lent: &Lent,
    text_of: fn(&[&[u8]]) -> Vec<u8>,
    longest: usize,
) -> Written {
    if lent.table < lent.sizes.table {
        return refused(Refusal::new(40, 0), Left::AsBefore);
    }
    if let Err(refusal) = prepare(source, lent) {
        return refused(refusal, Left::RequiredZero);
    }
    let tokens = text::tokens(source, lent.edition).expect("a sheet that passes has tokens");
    let spelled: Vec<&[u8]> = tokens.iter().map(|t| t.spelling(source)).collect();
    let text = text_of(&spelled);
    if text.len() > longest {
        return refused(Refusal::new(44, 0), Left::RequiredZero);
    }
    Written {
        text,
        ..refused(Refusal::new(0, 0), Left::RequiredZero)
    }
}

fn tokens_apart(spelled: &[&[u8]]) -> Vec<u8> {
    let mut text = spelled.join(&b' ');
    text.push(b'\n');
    text
}

fn refused(refusal: Refusal, table: Left) -> Written {
    Written {
        number: refusal.number,
        place: refusal.place as u64,
        text: Vec::new(),
        table,
    }
}
