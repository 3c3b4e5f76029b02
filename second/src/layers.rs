//! What a sheet can be nested of: every kind of node with a hole at every one
//! of its positions. A walk is a list of such layers, each in the hole of the
//! one before it, and the first in the hole of the last.

use crate::forms::{AND, ASSIGN, ATOM, CMP, ITEM, OR, PROD, SEQ, SUM, UN};

#[derive(Clone, Copy, Debug, PartialEq, Eq)]
pub enum Kind {
    Int,
    Bool,
    Unit,
    Cell,
    Float,
}

pub const KINDS: [Kind; 5] = [Kind::Int, Kind::Bool, Kind::Unit, Kind::Cell, Kind::Float];

impl Kind {
    /// An expression of this type with nothing more in it.
    pub fn leaf(self) -> &'static str {
        match self {
            Kind::Int => "1",
            Kind::Bool => "true",
            Kind::Unit => "tt",
            Kind::Cell => "ref 1",
            Kind::Float => "1.0",
        }
    }

    pub fn spelling(self) -> &'static str {
        match self {
            Kind::Int => "int",
            Kind::Bool => "bool",
            Kind::Unit => "unit",
            Kind::Cell => "int ref",
            Kind::Float => "float",
        }
    }
}

#[derive(Clone, Debug)]
pub struct Layer {
    pub before: String,
    pub after: String,
    pub outer: Kind,
    pub hole: Kind,
    /// The rule level of the whole, and the loosest one that the hole takes.
    pub level: u8,
    pub accepts: u8,
    /// Parameters of the function called, if it has to be defined.
    pub parameters: Option<usize>,
}

fn layer(before: &str, after: &str, kinds: [Kind; 2], levels: [u8; 2]) -> Layer {
    Layer {
        before: before.to_string(),
        after: after.to_string(),
        outer: kinds[0],
        hole: kinds[1],
        level: levels[0],
        accepts: levels[1],
        parameters: None,
    }
}

pub fn layers() -> Vec<Layer> {
    let mut all = operators();
    all.extend(between());
    for kind in KINDS {
        all.extend(of_any_kind(kind));
    }
    all.push(layer(
        "while ",
        "{tt}",
        [Kind::Unit, Kind::Bool],
        [ITEM, SEQ],
    ));
    all.push(layer("while true{", "}", [Kind::Unit; 2], [ITEM, SEQ]));
    let bound = [Kind::Unit, Kind::Int];
    all.push(layer("for i in ", "..1{tt}", bound, [ITEM, OR]));
    all.push(layer("for i in 1..", "{tt}", bound, [ITEM, OR]));
    all.push(layer("for i in 1..2 by ", "{tt}", bound, [ITEM, OR]));
    all.push(layer("for i in 1..2{", "}", [Kind::Unit; 2], [ITEM, SEQ]));
    all.push(layer(
        "for i in 1..=1 by 1{",
        "}",
        [Kind::Unit; 2],
        [ITEM, SEQ],
    ));
    all.push(layer("putchar(", ")", [Kind::Int; 2], [ATOM, SEQ]));
    for count in 1..=8 {
        all.extend((0..count).map(|hole| call(count, hole)));
    }
    all
}

fn operators() -> Vec<Layer> {
    use Kind::{Bool, Cell, Int, Unit};
    vec![
        layer("-", "", [Int, Int], [UN, UN]),
        layer("not ", "", [Bool, Bool], [UN, UN]),
        layer("!", "", [Int, Cell], [UN, UN]),
        layer("ref ", "", [Cell, Int], [UN, UN]),
        layer("ref 1:=", "", [Unit, Int], [ASSIGN, OR]),
        layer("", ":=1", [Unit, Cell], [ASSIGN, OR]),
    ]
}

/// Operators between two of one type, with the hole on either side.
fn between() -> Vec<Layer> {
    use Kind::{Bool, Float, Int};
    let mut all = Vec::new();
    let marks = [
        ("+", Int, Int, SUM, SUM, PROD),
        ("-", Int, Int, SUM, SUM, PROD),
        ("*", Int, Int, PROD, PROD, UN),
        ("/", Int, Int, PROD, PROD, UN),
        ("+", Float, Float, SUM, SUM, PROD),
        ("/", Float, Float, PROD, PROD, UN),
        ("<", Bool, Float, CMP, SUM, SUM),
        ("<", Bool, Int, CMP, SUM, SUM),
        ("==", Bool, Int, CMP, SUM, SUM),
        ("&&", Bool, Bool, AND, AND, CMP),
        ("||", Bool, Bool, OR, OR, AND),
    ];
    for (mark, outer, inner, level, left, right) in marks {
        // The left side must not settle the whole.
        let first = if mark == "||" { "false" } else { inner.leaf() };
        let second = inner.leaf();
        all.push(layer(
            &format!("{first}{mark}"),
            "",
            [outer, inner],
            [level, right],
        ));
        all.push(layer(
            "",
            &format!("{mark}{second}"),
            [outer, inner],
            [level, left],
        ));
    }
    all
}

fn of_any_kind(kind: Kind) -> Vec<Layer> {
    let (same, leaf) = ([kind, kind], kind.leaf());
    let choice = format!("if false then {leaf} else ");
    let mut all = vec![
        layer("(", ")", same, [ATOM, SEQ]),
        layer("{", "}", same, [ATOM, SEQ]),
        layer("", &format!(";{leaf}"), [kind, Kind::Unit], [SEQ, ITEM]),
        layer("tt;", "", same, [SEQ, SEQ]),
        layer("let x=1 in ", "", same, [SEQ, SEQ]),
        layer(
            "if ",
            &format!(" then {leaf} else {leaf}"),
            [kind, Kind::Bool],
            [ITEM, SEQ],
        ),
        layer("if true then ", &format!(" else {leaf}"), same, [ITEM, SEQ]),
        layer(&choice, "", same, [ITEM, ITEM]),
        layer(&format!("{choice}let x=1 in "), "", same, [SEQ, SEQ]),
        layer(
            &format!("{choice}{choice}let x="),
            &format!(" in {leaf}"),
            same,
            [SEQ, SEQ],
        ),
    ];
    for bound in KINDS {
        all.push(layer(
            "let x=",
            &format!(" in {leaf}"),
            [kind, bound],
            [SEQ, SEQ],
        ));
    }
    all
}

/// A call of a function with so many parameters, the hole being one argument.
pub fn call(count: usize, hole: usize) -> Layer {
    let before = format!("c{count}({}", "1,".repeat(hole));
    let after = format!("{})", ",1".repeat(count - 1 - hole));
    Layer {
        parameters: Some(count),
        ..layer(&before, &after, [Kind::Int; 2], [ATOM, SEQ])
    }
}

/// Calls with more arguments than any function has parameters: they are read
/// and their arguments have types, so they matter before a run.
pub fn long_calls() -> Vec<Layer> {
    let mut all: Vec<Layer> = [9, 16, 40, 100, 250, 500].map(|n| call(n, n - 1)).to_vec();
    all.extend([9, 100, 500].map(|n| call(n, 0)));
    for layer in &mut all {
        layer.parameters = None;
    }
    all
}

/// Whether the types must fit, or only the grammar's levels: without a type a
/// sheet is refused, but at its innermost node first, when all is nested.
#[derive(Clone, Copy, Debug, PartialEq, Eq)]
pub enum Fit {
    Typed,
    Read,
}

impl Layer {
    fn takes(&self, inner: &Layer, fit: Fit) -> bool {
        inner.level >= self.accepts && (fit == Fit::Read || inner.outer == self.hole)
    }
}

/// The walk with the fewest layers put in that make each fit into the one
/// before it; nothing if a joint would need more than two.
pub fn closed(all: &[Layer], walk: &[usize], fit: Fit) -> Option<Vec<usize>> {
    let mut found = Vec::new();
    for (index, step) in walk.iter().enumerate() {
        found.push(*step);
        let next = walk[(index + 1) % walk.len()];
        found.extend(joint(all, *step, next, fit)?);
    }
    Some(found)
}

fn joint(all: &[Layer], from: usize, to: usize, fit: Fit) -> Option<Vec<usize>> {
    let takes = |outer: usize, inner: usize| all[outer].takes(&all[inner], fit);
    if takes(from, to) {
        return Some(vec![]);
    }
    let after: Vec<usize> = (0..all.len()).filter(|l| takes(from, *l)).collect();
    if let Some(one) = after.iter().find(|l| takes(**l, to)) {
        return Some(vec![*one]);
    }
    let before: Vec<usize> = (0..all.len()).filter(|l| takes(*l, to)).collect();
    after.iter().find_map(|first| {
        let second = before.iter().find(|l| takes(*first, **l))?;
        Some(vec![*first, *second])
    })
}

#[cfg(test)]
mod tests {
    use super::*;

    #[test]
    fn every_layer_can_be_closed() {
        let all = layers();
        for fit in [Fit::Typed, Fit::Read] {
            for index in 0..all.len() {
                assert!(closed(&all, &[index], fit).is_some(), "{:?}", all[index]);
            }
        }
    }
}
