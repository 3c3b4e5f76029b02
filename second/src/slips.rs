//! Sheets with the slips of a clerk: a token too many, too few or another one,
//! an end that is missing, names that nothing is bound to, arguments that are
//! not wanted.

use crate::chance::Chance;
use crate::damage::{any_token, spell};
use crate::rare::part;
use crate::sheets;
use crate::types::Type;

pub fn sheet(chance: &mut Chance, edition: u32) -> Vec<u8> {
    match chance.below(6) {
        0 => cut_off(chance, edition),
        1 | 2 => wrong_token(chance, edition),
        3 => unknown_name(chance),
        4 => unknown_call(chance),
        _ => wrong_count(chance),
    }
}

fn program(chance: &mut Chance, edition: u32) -> Vec<String> {
    let fuel = chance.pick(&[3, 8, 20, 50]);
    sheets::program(chance, fuel, edition)
}

/// The beginning of a program, maybe with more behind it that is no token.
fn cut_off(chance: &mut Chance, edition: u32) -> Vec<u8> {
    let mut tokens = program(chance, edition);
    tokens.truncate(chance.below(tokens.len() + 1));
    let mut sheet = spell(chance, &tokens);
    sheet.extend(
        chance
            .pick(&["", "", " ", "\n\n", " // end", " /* */"])
            .bytes(),
    );
    sheet
}

/// One token put in, left out or put in another's stead.
fn wrong_token(chance: &mut Chance, edition: u32) -> Vec<u8> {
    let mut tokens = program(chance, edition);
    let at = chance.below(tokens.len());
    match chance.below(3) {
        0 => drop(tokens.remove(at)),
        1 => tokens.insert(at, any_token(chance)),
        _ => tokens[at] = any_token(chance),
    }
    spell(chance, &tokens)
}

fn unknown_name(chance: &mut Chance) -> Vec<u8> {
    let name = chance.pick(&["q", "putchar", "f", "x", "a"]);
    let form = chance.pick(&[
        "def f(a:int):int{N+1}{P}",
        "let x=1 in {P}+N",
        "let x=N in x",
        "({let q=1 in tt});N",
        "putchar(true,N)",
        "f({P},N)",
        "true+N",
        "while N{1}",
        "if 1 then N else {P}",
        "ref N:={P}",
        "let q={P} in q+N",
    ]);
    filled(chance, form, name)
}

fn unknown_call(chance: &mut Chance) -> Vec<u8> {
    let name = chance.pick(&["g", "f", "x", "putchar", "h"]);
    let form = chance.pick(&[
        "def f():int{N()}def g():int{1}{P}",
        "let x=1 in N({P})",
        "let x=N(1,2) in x",
        "N(N({P}),q)",
        "true+N(1)",
        "def f(a:int):int{a}N({P})+f(1,2)",
        "def h(a:int):int{if a<1 then 1 else N(a-1)}h({P})",
    ]);
    filled(chance, form, name)
}

/// A call with a few arguments more or less, of the right types or not.
fn wrong_count(chance: &mut Chance) -> Vec<u8> {
    let (wanted, given) = (chance.below(9), chance.below(10));
    let list: Vec<String> = (0..wanted).map(|i| format!("p{i}:int")).collect();
    let odd = chance.below(12);
    let argument = |chance: &mut Chance, i: usize| match i == odd {
        true => chance.pick(&["true", "tt", "q", "ref 1"]).to_string(),
        false => part(chance, &Type::Int),
    };
    let arguments: Vec<String> = (0..given).map(|i| argument(chance, i)).collect();
    let name = chance.pick(&["f", "f", "f", "putchar", "g"]);
    let (list, arguments) = (list.join(","), arguments.join(","));
    format!("def f({list}):int{{1}}{name}({arguments})").into_bytes()
}

/// The form with the name for N and a short expression for {P}.
fn filled(chance: &mut Chance, form: &str, name: &str) -> Vec<u8> {
    let inside = format!("({})", part(chance, &Type::Int));
    form.replace("{P}", &inside).replace('N', name).into_bytes()
}
