//! Sheets that bring floats to their edges: no number, without end, zero with a
//! sign, too small, and types that do not mix.

use crate::chance::Chance;
use crate::numbers::{float, spelled};

/// Floats that no number spells.
const EDGES: [&str; 12] = [
    "(0.0/0.0)",
    "(1.0/0.0)",
    "(0.0-1.0/0.0)",
    "(0.0*(0.0-1.0))",
    "(1./0.-1./0.)",
    "(0./0.*0.)",
    "tiny(40)",
    "huge(40)",
    "(0.0-huge(40))",
    "(0.0-tiny(35))",
    "((0.0-tiny(35))/1000000000.)",
    "(0.0/(0.0-1.0))",
];

/// Divided and multiplied again and again, down to the smallest floats and up
/// past the largest.
const FAR: &str = "def tiny(n:int):float{if n<1 then 1.0 else tiny(n-1)/1000000000.}\
                   def huge(n:int):float{if n<1 then 1.0 else huge(n-1)*1000000000.}";

fn operand(chance: &mut Chance) -> String {
    match chance.below(4) {
        0 => float(chance),
        1 => format!(
            "{}({})",
            chance.pick(&["tiny", "huge"]),
            chance.pick(&[1, 2, 33, 34, 35, 36, 40])
        ),
        _ => chance.pick(&EDGES).to_string(),
    }
}

pub fn edge(chance: &mut Chance) -> String {
    let (left, right) = (operand(chance), operand(chance));
    let (mark, other) = (
        chance.pick(&["+", "-", "*", "/"]),
        chance.pick(&["+", "-", "*", "/"]),
    );
    let form = match chance.below(7) {
        0 => format!("{left}{mark}{right}"),
        1 => format!("{left}<{right}"),
        2 => format!("if {left}<{right} then 1 else 2"),
        3 => format!("let x={left} in let y=ref x in !y{mark}{right}{other}x"),
        4 => format!("let y=ref {left} in y:={right};!y"),
        5 => format!("def f(a:float,b:float):float{{b}}f({left},{right})"),
        _ => format!("{left}{mark}{right}{other}{}", operand(chance)),
    };
    FAR.to_string() + &form
}

/// Where ints and floats meet, which no rule allows.
pub fn mixed(chance: &mut Chance) -> String {
    let (int, float) = (spelled(chance), float(chance));
    let mark = chance.pick(&["+", "-", "*", "/", "<", "=="]);
    let form = chance.pick(&[
        "I M F",
        "F M I",
        "F M F",
        "-F",
        "-(F M F)",
        "F==F",
        "putchar(F)",
        "not F",
        "!F",
        "ref F:=I",
        "ref I:=F",
        "ref F:=F;!ref F",
        "if F<F then F else I",
        "def f(a:float):int{I}f(I)",
        "def f(a:float):float{a M F}f(F)",
        "def f(a:int):float{F}f(I)M F",
        "F;I",
        "while F<F{tt};F",
        "let x=F in x M x",
        "F&&true",
    ]);
    let filled = form.replace('F', &float).replace('I', &int);
    filled.replace('M', mark)
}
