//! Sheets that are a walk of layers, nested as far as the tokens allow.

use crate::answer::MOST_BYTES;
use crate::layers::{Kind, Layer};
use crate::quote;
use crate::text::{tokens_within, MOST_TOKENS};

#[derive(Clone, Copy, Debug, PartialEq, Eq)]
pub enum Shape {
    /// The walk again and again around a leaf.
    Nested,
    /// The same without what closes it: only read, and refused at the end.
    Open,
    /// The walk this many times in the body of a function around a call of the
    /// function itself, which is never over.
    Body { parameters: usize, times: usize },
    /// The same called by `pay` in a rule book.
    Book { parameters: usize, times: usize },
}

impl Shape {
    pub fn body(parameters: usize, times: usize) -> Shape {
        Shape::Body { parameters, times }
    }
}

/// The sheet of the walk in this shape, in the spelling of the case files.
pub fn sheet(walk: &[&Layer], shape: Shape) -> String {
    match shape {
        Shape::Nested => nested(walk, false),
        Shape::Open => nested(walk, true),
        Shape::Body { parameters, times } => body(walk, parameters, times, false),
        Shape::Book { parameters, times } => body(walk, parameters, times, true),
    }
}

fn count(text: &str) -> usize {
    let bytes = quote::decode(text).expect("a text of this module");
    tokens_within(&bytes, 2, usize::MAX).expect("tokens").len()
}

/// The functions that the walk calls, but for the one named.
fn definitions(walk: &[&Layer], but: Option<usize>) -> String {
    let called = |n: &usize| walk.iter().any(|l| l.parameters == Some(*n)) && but != Some(*n);
    let define = |n: usize| head(&format!("c{n}"), n, Kind::Int) + "1}";
    (1..=8).filter(called).map(define).collect()
}

fn head(name: &str, parameters: usize, result: Kind) -> String {
    let list: Vec<String> = (0..parameters).map(|p| format!("p{p}:int")).collect();
    let (list, result) = (list.join(","), result.spelling());
    format!("def {name}({list}):{result}{{")
}

/// So many times the first text around the inside, and as often the second.
fn around(before: &str, after: &str, times: usize, inside: &str) -> String {
    format!("\\{{{times}*{before}\\}}{inside}\\{{{times}*{after}\\}}")
}

fn befores(walk: &[&Layer]) -> String {
    walk.iter().map(|l| l.before.as_str()).collect()
}

fn afters(walk: &[&Layer]) -> String {
    walk.iter().rev().map(|l| l.after.as_str()).collect()
}

/// The leaf has one token or two, and all together as many as may be.
fn nested(walk: &[&Layer], open: bool) -> String {
    let around = |leaf: usize| nested_around(walk, open, leaf);
    let fits = |sheet: &String| count(sheet) <= MOST_TOKENS;
    [1, 2].map(around).into_iter().find(fits).expect("one fits")
}

fn nested_around(walk: &[&Layer], open: bool, leaf: usize) -> String {
    let definitions = definitions(walk, None);
    let shut = |layers: &[&Layer]| if open { String::new() } else { afters(layers) };
    let size = |layers: &[&Layer]| count(&befores(layers)) + count(&shut(layers));
    let room = MOST_TOKENS - count(&definitions) - leaf;
    // An open walk of nothing but left sides has no tokens.
    let times = room.checked_div(size(walk)).unwrap_or(0);
    // What is left over is filled with the beginning of the walk.
    let rest = room - times * size(walk);
    let more = (0..walk.len()).rev().find(|n| size(&walk[..*n]) <= rest);
    let more = &walk[..more.unwrap_or(0)];
    let leaf = more.last().or(walk.last()).map_or("1", |l| l.hole.leaf());
    let inside = format!("{}{leaf}{}", befores(more), shut(more));
    definitions + &around(&befores(walk), &shut(walk), times, &inside)
}

fn body(walk: &[&Layer], parameters: usize, times: usize, book: bool) -> String {
    let result = walk[0].outer;
    // Where the function itself will do for a call of the walk, no other is
    // defined.
    let (name, own) = match result {
        Kind::Int => (format!("c{parameters}"), Some(parameters)),
        _ => ("f".to_string(), None),
    };
    let definitions = definitions(walk, own);
    let head = head(&name, parameters, result);
    let again = format!("{name}({})", vec!["1"; parameters].join(","));
    let (last, call) = match book {
        true => (
            format!("def pay(p:int,r:int):int{{let x={again} in 1}}"),
            "pay(1,1)",
        ),
        false => (again.clone(), ""),
    };
    let fixed = count(&format!("{definitions}{head}{again}}}{last}{call}"));
    let size = count(&befores(walk)) + count(&afters(walk));
    let times = times.min((MOST_TOKENS - fixed) / size);
    let inside = around(&befores(walk), &afters(walk), times, &again);
    format!("{definitions}{head}{inside}}}{last}")
}

/// What is long without being a nest of nodes: as many bytes or tokens as may be.
pub fn lists() -> Vec<String> {
    let times = |count: usize, text: &str| format!("\\{{{count}*{text}\\}}");
    let comments = MOST_BYTES / 4 - 1;
    let parameters = times((MOST_TOKENS - 13) / 4, ",a:int");
    let function = "def f():int{1}";
    vec![
        times(2 * comments, "/*"),
        format!("{}{}1", times(comments, "/*"), times(comments, "*/")),
        format!("def f(a:int{}):int{{1}}1", times(MOST_TOKENS - 13, " ref")),
        format!("def f():int{}{{1}}1", times(MOST_TOKENS - 10, " ref")),
        format!("def f(a:int{parameters}):int{{1}}1"),
        format!("def f(a:int{parameters}"),
        times((MOST_TOKENS - 1) / 9, function) + "1",
        format!(
            "{}{}1",
            times(33, function),
            times((MOST_TOKENS - 298) / 2, "1+")
        ),
        format!("def f():int{{{}1}}f()", times(MOST_TOKENS - 12, "-")),
        times(MOST_TOKENS - 1, "1 ") + "1",
    ]
}

#[cfg(test)]
mod tests {
    use super::*;
    use crate::answer::{self, Lent};
    use crate::layers::{closed, layers, Fit};
    use crate::on_big_stack;

    /// The longest nests have all the tokens that there may be.
    #[test]
    fn nests_are_as_long_as_may_be() {
        let all = layers();
        let walk = |index: usize| closed(&all, &[index], Fit::Typed).expect("closed");
        let walks: Vec<Vec<usize>> = (0..all.len()).map(walk).collect();
        for shape in [Shape::Nested, Shape::Open] {
            let length = |walk: &Vec<usize>| {
                let walk: Vec<&Layer> = walk.iter().map(|l| &all[*l]).collect();
                count(&sheet(&walk, shape))
            };
            assert_eq!(walks.iter().map(length).max(), Some(MOST_TOKENS));
        }
    }

    /// A nest that is refused is not run, and measures nothing.
    #[test]
    fn typed_walks_are_run() {
        let all = layers();
        for shape in [Shape::Nested, Shape::body(8, MOST_TOKENS)] {
            for index in 0..all.len() {
                let walk = closed(&all, &[index], Fit::Typed).expect("closed");
                let walk: Vec<&Layer> = walk.iter().map(|l| &all[*l]).collect();
                let text = sheet(&walk, shape);
                let bytes = quote::decode(&text).expect("a text of this module");
                let lent = Lent {
                    edition: 2,
                    ..Lent::default()
                };
                let number = on_big_stack(|| answer::run(&bytes, &lent).number);
                assert!(number == 0 || number >= 50, "{number} of {text}");
            }
        }
    }
}
