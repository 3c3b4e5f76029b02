//! Names that are all but reserved words.

use crate::chance::Chance;
use std::sync::LazyLock;

/// The paper's list once more, apart from the one that tokens are read with.
const WORDS: &str =
    "def let in while do end if then else ref not int bool true false unit tt float";

/// What edition 2 adds.
const WORDS_2: &str = "for by";

const LATER: &[u8] = b"abcdefghijklmnopqrstuvwxyzABCDEFGHIJKLMNOPQRSTUVWXYZ0123456789_";

fn words(edition: u32) -> Vec<&'static str> {
    let more = if edition == 2 { WORDS_2 } else { "" };
    WORDS.split(' ').chain(more.split_whitespace()).collect()
}

/// Whether it is a name in both editions, being spelled as one.
fn is_name(word: &[u8]) -> bool {
    let reserved = words(2).iter().any(|w| w.as_bytes() == word);
    word.first().is_some_and(u8::is_ascii_alphabetic)
        && word.iter().all(|byte| LATER.contains(byte))
        && !reserved
}

/// Everything one byte away from the word: a byte changed, left out, put in;
/// and the word in other cases, doubled and turned round.
fn near(word: &[u8]) -> Vec<Vec<u8>> {
    let mut all = vec![
        word.to_ascii_uppercase(),
        [&word[..1].to_ascii_uppercase(), &word[1..]].concat(),
        word.repeat(2),
        word.iter().rev().copied().collect(),
    ];
    for at in 0..=word.len() {
        let (left, right) = word.split_at(at);
        all.push(left.to_vec());
        all.push(right.to_vec());
        all.extend(LATER.iter().map(|byte| [left, &[*byte], right].concat()));
        if let Some((_, rest)) = right.split_first() {
            all.push([left, rest].concat());
            all.extend(LATER.iter().map(|byte| [left, &[*byte], rest].concat()));
        }
    }
    all.sort();
    all.dedup();
    all.retain(|name| is_name(name));
    all
}

/// Sheets of this edition that bind such names, as many as a sheet has room for,
/// and add them up; each is worth the number of names in it.
pub fn sheets(edition: u32) -> Vec<(Vec<u8>, i64)> {
    let near = words(2).into_iter().flat_map(|w| near(w.as_bytes()));
    let text = |name: Vec<u8>| String::from_utf8(name).expect("letters");
    let mut names: Vec<String> = near.map(text).collect();
    if edition == 1 {
        names.extend(WORDS_2.split(' ').map(str::to_string));
    }
    let sheet = |names: &[String]| {
        let bound: String = names.iter().map(|n| format!("let {n}=1 in ")).collect();
        let sheet = bound + &names.join("+");
        (sheet.into_bytes(), names.len() as i64)
    };
    names.chunks(140).map(sheet).collect()
}

/// A name that is one byte away from a reserved word; in edition 1 also a word
/// that only edition 2 reserves.
pub fn name(chance: &mut Chance, edition: u32) -> String {
    if edition == 1 && chance.one_in(4) {
        return chance.pick(&["for", "by"]).to_string();
    }
    let all = &NEAR[chance.below(NEAR.len())];
    let name = all[chance.below(all.len())].clone();
    String::from_utf8(name).expect("letters")
}

/// By word of both editions, what is near it.
static NEAR: LazyLock<Vec<Vec<Vec<u8>>>> = LazyLock::new(|| {
    let words = words(2).into_iter();
    words.map(|word| near(word.as_bytes())).collect()
});

#[cfg(test)]
mod tests {
    use super::*;
    use crate::answer::{check, run, Lent};
    use crate::on_big_stack;

    fn in_edition(edition: u32) -> Lent {
        Lent {
            edition,
            ..Lent::default()
        }
    }

    #[test]
    fn near_misses_are_names() {
        for edition in [1, 2] {
            for (sheet, value) in sheets(edition) {
                let answer = on_big_stack(|| run(&sheet, &in_edition(edition)));
                let shown = String::from_utf8_lossy(&sheet);
                assert_eq!((answer.number, answer.value), (0, value), "{shown}");
            }
        }
    }

    #[test]
    fn the_words_are_not() {
        for edition in [1, 2] {
            for word in words(edition) {
                let sheet = format!("let {word}=1 in {word}");
                let answer = check(sheet.as_bytes(), &in_edition(edition));
                assert_eq!((answer.number, answer.place), (20, 4), "{word}");
            }
        }
    }
}
