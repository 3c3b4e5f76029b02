//! From tokens to bytes in many spellings, and ways to spoil either.

use crate::chance::Chance;
use crate::text::{MARKS, MARKS_2, RESERVED, RESERVED_2};

const GAPS: [&str; 6] = [" ", "\t", "\r", "  ", "/* a */", "/*/**/ // */"];

/// Gaps with an LF. A sheet gets few of them, because it is cut at every one.
const BREAKS: [&str; 5] = ["\n", "\r\n", "// b\n", "/*/*\n*/ // */", " \n"];
const LOOSE: [&str; 23] = [
    "x",
    "y",
    "f0",
    "putchar",
    "n",
    "0",
    "1",
    "2",
    "65",
    "256",
    "2147483647",
    "2147483648",
    "0x",
    "0b",
    "0x1f",
    "0b101",
    "0x7FFFFFFF",
    "0x80000000",
    "b1",
    "1.5",
    "2.",
    "0.0",
    "1234567890.123456",
];

/// Spells the tokens out. Blanks and comments come where tokens would run
/// together otherwise, and elsewhere as chance has it.
pub fn spell(chance: &mut Chance, tokens: &[String]) -> Vec<u8> {
    let gap_one_in = chance.pick(&[1, 2, 4, 1000]);
    let only_spaces = chance.one_in(2);
    let breaks = chance.pick(&[0, 0, 1, 2, 3, 8]);
    let broken: Vec<usize> = (0..breaks)
        .map(|_| chance.below(tokens.len() + 1))
        .collect();
    let mut text = String::new();
    for (index, token) in tokens.iter().enumerate() {
        let apart = index > 0 && runs_together(&tokens[index - 1], token);
        // A comment right after a slash would be another comment.
        let slash = index > 0 && tokens[index - 1] == "/";
        if broken.contains(&index) {
            text += if slash { "\n" } else { chance.pick(&BREAKS) };
        } else if apart || (index > 0 && chance.one_in(gap_one_in)) {
            let plain = only_spaces || slash;
            text += if plain { " " } else { chance.pick(&GAPS) };
        }
        text += token;
    }
    if broken.contains(&tokens.len()) {
        text.push('\n');
    }
    text.into_bytes()
}

/// The same with a blank only where it has to be.
pub fn closely(tokens: &[String]) -> Vec<u8> {
    let mut text = String::new();
    for (index, token) in tokens.iter().enumerate() {
        if index > 0 && runs_together(&tokens[index - 1], token) {
            text.push(' ');
        }
        text += token;
    }
    text.into_bytes()
}

/// Whether two tokens with nothing between them would be read as others.
fn runs_together(left: &str, right: &str) -> bool {
    let (Some(first), Some(next)) = (left.bytes().next(), right.bytes().next()) else {
        return false;
    };
    let wordlike = next.is_ascii_alphanumeric() || next == b'_';
    (first.is_ascii_alphabetic() && wordlike)
        || (first.is_ascii_digit() && next.is_ascii_digit())
        || (left.starts_with("0x") && next.is_ascii_hexdigit())
        || (matches!(left, "=" | ":" | "..") && next == b'=')
        || (left.ends_with('.') && next == b'.')
        || (left == "/" && matches!(next, b'/' | b'*'))
}

pub fn any_token(chance: &mut Chance) -> String {
    match chance.below(16) {
        0..=4 => chance.pick(&RESERVED).to_string(),
        5..=9 => chance.pick(&MARKS).to_string(),
        10 => chance.pick(&RESERVED_2).to_string(),
        11 => chance.pick(&MARKS_2).to_string(),
        _ => chance.pick(&LOOSE).to_string(),
    }
}

/// Takes out, doubles, swaps, replaces or puts in a few tokens.
pub fn damage_tokens(chance: &mut Chance, tokens: &mut Vec<String>) {
    for _ in 0..chance.between(1, 3) {
        if tokens.is_empty() {
            return;
        }
        let at = chance.below(tokens.len());
        let other = chance.below(tokens.len());
        match chance.below(6) {
            0 => drop(tokens.remove(at)),
            1 => tokens.insert(at, tokens[at].clone()),
            2 => tokens.swap(at, other),
            3 => tokens[at] = any_token(chance),
            4 => tokens.insert(at, any_token(chance)),
            _ => tokens[at] = tokens[other].clone(),
        }
    }
}

/// Takes out, changes, puts in or cuts off a few bytes.
pub fn damage_bytes(chance: &mut Chance, sheet: &mut Vec<u8>) {
    const TELLING: &[u8] = b"/*&|:=!<>_~.9xb0f \n\x00\xff(){}";
    for _ in 0..chance.between(1, 3) {
        if sheet.is_empty() {
            return;
        }
        let at = chance.below(sheet.len());
        let byte = if chance.one_in(3) {
            chance.next_word() as u8
        } else {
            chance.pick(TELLING)
        };
        match chance.below(8) {
            0 | 1 => drop(sheet.remove(at)),
            2 | 3 => sheet[at] = byte,
            4 | 5 => sheet.insert(at, byte),
            6 => sheet.splice(at..at, *b"/*").for_each(drop),
            _ => sheet.truncate(at),
        }
    }
}

/// Tokens with no thought behind them. Few of them, since a reading is found
/// only for short ones.
pub fn soup(chance: &mut Chance) -> Vec<String> {
    let count = if chance.one_in(10) {
        chance.between(8, 60)
    } else {
        chance.below(8)
    };
    (0..count).map(|_| any_token(chance)).collect()
}

/// Bytes with no thought behind them.
pub fn byte_soup(chance: &mut Chance) -> Vec<u8> {
    const LIKELY: &[u8] = b"001xbfg ax_+-*/&|<=:!;,(){}\n";
    let odd_one_in = chance.pick(&[10, 1000]);
    let byte = |chance: &mut Chance| match chance.one_in(odd_one_in) {
        true => chance.next_word() as u8,
        false => chance.pick(LIKELY),
    };
    (0..chance.below(30)).map(|_| byte(chance)).collect()
}
