//! Sheets whose text is close to a limit, as it stands or when it is written
//! out again, and sheets that are just long.

use crate::answer::MOST_BYTES;
use crate::chance::Chance;
use crate::damage::closely;
use crate::forms::SEQ;
use crate::numbers;
use crate::rare::part;
use crate::sheets::Writer;
use crate::sizes::BEFORE;
use crate::text::MOST_TOKENS;
use crate::types::{Type, MOST_FUNCTIONS};

/// Two long names, which make the text as long as a source may be, or nearly.
pub fn long_text(chance: &mut Chance) -> String {
    let text = chance.between(MOST_BYTES - 3, MOST_BYTES + 3);
    // `let N = 1 in N` has 7 bytes of other tokens, 5 spaces and the LF.
    let names = text - 13;
    let zeros = names % 2 + 2 * chance.below(3);
    let name = "n".repeat((names - zeros) / 2);
    let gap = chance.pick(&["", "/**/"]);
    format!("let {name}{gap}={}1in {name}", "0".repeat(zeros))
}

/// A program with more tokens than there could be before, and blanks or a comment
/// somewhere, which may make it longer than a source could be, too.
pub fn long_program(chance: &mut Chance) -> String {
    let tokens = many_functions(chance);
    let at = chance.below(tokens.len() + 1);
    let (left, right) = tokens.split_at(at);
    let [left, right] = [left, right].map(|part| closely(part).len());
    let length = match chance.below(4) {
        0 => 0,
        1 => chance.between(BEFORE.bytes - 2, BEFORE.bytes + 2),
        2 => chance.between(BEFORE.bytes, MOST_BYTES),
        _ => chance.between(MOST_BYTES - 2, MOST_BYTES + 2),
    };
    let fill = length.saturating_sub(left + right);
    let gap = match chance.below(3) {
        0 => format!(" /*{}*/ ", "*".repeat(fill.saturating_sub(6))),
        1 => format!(" //{}\n", "/".repeat(fill.saturating_sub(4))),
        _ => " ".repeat(fill.max(1)),
    };
    let [left, right] = [&tokens[..at], &tokens[at..]].map(closely);
    let text = [left, gap.into_bytes(), right].concat();
    String::from_utf8(text).expect("tokens are text")
}

/// Functions, and an expression under them, of as many tokens as there may be now
/// and could not be before; a few more now and then.
fn many_functions(chance: &mut Chance) -> Vec<String> {
    let goal = chance.between(BEFORE.tokens + 1, MOST_TOKENS);
    let mut writer = Writer::new(chance, 0);
    for index in 0..MOST_FUNCTIONS {
        if writer.tokens.len() + 40 > goal {
            break;
        }
        let (before, known) = (writer.tokens.len(), writer.functions.len());
        writer.function(index);
        // Once more if this one leaves no room for what is under it.
        if writer.tokens.len() + 10 > goal {
            writer.tokens.truncate(before);
            writer.functions.truncate(known);
        }
    }
    let kind = writer.kind();
    let missing = goal.saturating_sub(writer.tokens.len() + 1);
    for _ in 0..missing / 2 {
        writer.put("tt ;");
    }
    let start = writer.tokens.len();
    writer.fuel = 12;
    writer.expression(&kind, SEQ);
    let more = writer.tokens.len() - start;
    // Of what holds the place as much goes as the expression takes.
    let from = start - (missing / 2 * 2).min(more / 2 * 2);
    if !writer.chance.one_in(8) {
        writer.tokens.drain(from..start);
    }
    writer.tokens
}

/// As many tokens as there may be, or nearly, each with a space behind it.
pub fn many_words(chance: &mut Chance) -> String {
    let most = MOST_TOKENS / 2;
    let count = chance.between(most - 4, most + 1);
    let word = "x".repeat(MOST_BYTES / most - chance.below(4));
    let sum = vec![word.as_str(); count].join("+");
    format!("let {word}=1in {sum}")
}

pub fn long_sheet(chance: &mut Chance) -> String {
    let start = part(chance, &Type::Int);
    let length = chance.between(MOST_BYTES - 2, MOST_BYTES + 2);
    let fill = chance.pick(&[" ", "\r", "-"]);
    let comment = if fill == "-" { "//" } else { "" };
    let missing = length.saturating_sub(start.len() + comment.len());
    format!("{start}{comment}{}", fill.repeat(missing))
}

pub fn many_tokens(chance: &mut Chance) -> String {
    let (unit, size) = chance.pick(&[
        ("-", 1),
        ("1+", 2),
        ("tt;", 2),
        ("(", 1),
        ("1*1-", 4),
        ("- -", 2),
    ]);
    let times = chance.between((MOST_TOKENS - 4) / size, (MOST_TOKENS + 4) / size);
    let end = chance.pick(&[
        "1",
        "tt",
        "2147483648",
        "&",
        "/*",
        "1 1",
        "1 3000000000",
        "x",
    ]);
    format!("{}{end}", unit.repeat(times))
}

pub fn large_number(chance: &mut Chance) -> String {
    let mark = chance.pick(&["+", "-", "*", "/", "<"]);
    format!(
        "{}{mark}{}",
        part(chance, &Type::Int),
        numbers::large(chance)
    )
}

pub fn odd_number(chance: &mut Chance) -> String {
    let form = chance.pick(&[
        "N",
        "N+1",
        "if true then Nelse 2",
        "let x=1in N",
        "let x1=2in Nx1",
        "putchar(N)",
    ]);
    form.replace('N', &numbers::odd(chance))
}

pub fn long_float(chance: &mut Chance) -> String {
    let (left, right) = (numbers::float(chance), numbers::long_float(chance));
    format!(
        "{left}{}{right}",
        chance.pick(&["+", "-", "*", "/", "<", " "])
    )
}

pub fn odd_float(chance: &mut Chance) -> String {
    let form = chance.pick(&[
        "N",
        "N+1.5",
        "N<2.",
        "if true then Nelse 2.",
        "let x=1.in N",
        "1.+N",
    ]);
    form.replace('N', &numbers::odd_float(chance))
}

pub fn open_comment(chance: &mut Chance) -> String {
    let depth = chance.between(1, 40);
    let closed = (depth + 1 - chance.below(3)).min(depth + 1);
    let before = if chance.one_in(2) {
        part(chance, &Type::Int)
    } else {
        String::new()
    };
    let inside = chance.pick(&["", "/", "*", "//", "& | \u{e9}"]);
    format!(
        "{before} {}{inside}{} 1",
        "/*".repeat(depth),
        "*/".repeat(closed)
    )
}

#[cfg(test)]
mod tests {
    use super::*;
    use crate::answer::{check, Lent};
    use crate::{on_big_stack, text};

    /// Most long programs pass, with more tokens or bytes than there could be
    /// before.
    #[test]
    fn long_programs_pass() {
        on_big_stack(|| {
            let (mut passed, mut tokens, mut bytes) = (0, 0, 0);
            for index in 0..300 {
                let sheet = long_program(&mut Chance::new(13, index)).into_bytes();
                let number = check(&sheet, &Lent::default()).number;
                assert!([0, 10, 14].contains(&number), "{number} at {index}");
                if number == 0 {
                    passed += 1;
                    let count = text::tokens(&sheet, 1).expect("it passes").len();
                    tokens += u32::from(count > BEFORE.tokens);
                    bytes += u32::from(sheet.len() > BEFORE.bytes);
                }
            }
            assert!(
                passed > 200 && tokens > 150 && bytes > 100,
                "{passed} {tokens} {bytes}"
            );
        });
    }
}
