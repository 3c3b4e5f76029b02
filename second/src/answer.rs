//! What Check and Run must report, and in which state each lent memory
//! must be afterwards.

use crate::sizes::{Sizes, BOX};
use crate::{begins, grammar, run as runner, text, tree, types, Refusal};

pub const MOST_BYTES: usize = BOX.bytes;
pub const MOST_UNITS: u64 = 1_000_000;
pub const TABLE_WORDS: usize = BOX.table;
pub const WORK_WORDS: usize = 16_384;

/// Lengths of what is lent to a run, in words or bytes, its allowance, the edition
/// that the caller names, and the sizes of the box that is called.
#[derive(Clone, Copy, Debug, PartialEq, Eq)]
pub struct Lent {
    pub sizes: Sizes,
    pub edition: u32,
    pub table: usize,
    pub work: usize,
    pub output: usize,
    pub allowance: u64,
}

impl Default for Lent {
    fn default() -> Lent {
        Lent {
            sizes: BOX,
            edition: 1,
            table: TABLE_WORDS,
            work: WORK_WORDS,
            output: 64,
            allowance: MOST_UNITS,
        }
    }
}

/// What a lent memory holds afterwards. Words past the required ones, if it
/// is longer, keep what they held in either case.
#[derive(Clone, Copy, Debug, PartialEq, Eq)]
pub enum Left {
    AsBefore,
    RequiredZero,
}

#[derive(Clone, Debug, PartialEq, Eq)]
pub struct Answer {
    pub number: u32,
    pub place: u64,
    pub kind: u64,
    pub value: i64,
    pub units: u64,
    /// The first bytes of the output; bytes after them stay untouched.
    pub printed: Vec<u8>,
    pub table: Left,
    pub work: Left,
}

/// A program and its type, or why there is none.
pub type Prepared = Result<(tree::Program, types::Type), Refusal>;

/// How the bytes of a sheet become a program, in an edition and within sizes: as
/// a source, or as a stored sheet.
pub type Prepare = fn(&[u8], &Lent) -> Prepared;

pub fn check(source: &[u8], lent: &Lent) -> Answer {
    check_by(prepare, source, lent)
}

pub fn run(source: &[u8], lent: &Lent) -> Answer {
    run_by(prepare, source, lent)
}

/// The answer of Check: value, units and printed are of no meaning there and
/// stay 0, and so does the work memory, which Check is never lent.
pub fn check_by(prepare: Prepare, sheet: &[u8], lent: &Lent) -> Answer {
    if lent.table < lent.sizes.table {
        return refused(Refusal::new(40, 0), Left::AsBefore);
    }
    let answer = match prepare(sheet, lent) {
        Ok((_, kind)) => Answer {
            kind: kind.code(),
            ..refused(Refusal::new(0, 0), Left::RequiredZero)
        },
        Err(refusal) => refused(refusal, Left::RequiredZero),
    };
    Answer {
        work: Left::AsBefore,
        ..answer
    }
}

pub fn run_by(prepare: Prepare, sheet: &[u8], lent: &Lent) -> Answer {
    if lent.table < lent.sizes.table || lent.work < WORK_WORDS {
        return refused(Refusal::new(40, 0), Left::AsBefore);
    }
    if lent.allowance > MOST_UNITS {
        return refused(Refusal::new(41, 0), Left::RequiredZero);
    }
    let (program, kind) = match prepare(sheet, lent) {
        Ok(prepared) => prepared,
        Err(refusal) => return refused(refusal, Left::RequiredZero),
    };
    let outcome = runner::run(&program, lent.allowance, lent.output);
    let (end, value) = match outcome.end {
        Ok(value) => (Refusal::new(0, 0), value.code()),
        Err(stop) => (stop, 0),
    };
    Answer {
        number: end.number,
        place: end.place as u64,
        kind: kind.code(),
        value,
        units: outcome.units,
        printed: outcome.printed,
        table: Left::RequiredZero,
        work: Left::RequiredZero,
    }
}

pub fn is_edition(edition: u32) -> bool {
    [1, 2].contains(&edition)
}

/// Everything the services share of a source once the loans are known to be long
/// enough and the allowance is not too large.
pub fn prepare(source: &[u8], lent: &Lent) -> Prepared {
    let Lent { sizes, edition, .. } = *lent;
    if !is_edition(edition) {
        return Err(Refusal::new(42, 0));
    }
    if source.len() > sizes.bytes {
        return Err(Refusal::new(10, 0));
    }
    let tokens = text::tokens_within(source, edition, sizes.tokens)?;
    understand(&tokens, source.len())
}

/// The program that the tokens are. 20 is told at the token that no program
/// begins with; where only the end is wrong, at the end, which for a source is
/// behind blanks and comments too.
pub fn understand(tokens: &[text::Token], end: usize) -> Prepared {
    let no_reading = || {
        let wrong = begins::first_wrong(tokens).map(|index| tokens[index].place);
        Refusal::new(20, wrong.unwrap_or(end))
    };
    let program = grammar::read(tokens).ok_or_else(no_reading)?;
    let kind = types::check(&program)?;
    Ok((program, kind))
}

fn refused(refusal: Refusal, left: Left) -> Answer {
    Answer {
        number: refusal.number,
        place: refusal.place as u64,
        kind: 0,
        value: 0,
        units: 0,
        printed: Vec::new(),
        table: left,
        work: left,
    }
}
