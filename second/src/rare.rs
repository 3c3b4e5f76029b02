//! Sheets made to come close to one limit or the other. Plain random programs
//! hardly ever do. Those whose text matters, not their tree, are in `long`.

use crate::chance::Chance;
use crate::floats;
use crate::forms::SEQ;
use crate::long;
use crate::loops;
use crate::profiles;
use crate::sheets::Writer;
use crate::text::MOST_TOKENS;
use crate::types::Type;

/// Those that are long take long, and are seldom drawn.
const LONG_ONE_IN: usize = 15;

pub fn sheet(chance: &mut Chance) -> Vec<u8> {
    if chance.one_in(LONG_ONE_IN) {
        let make = chance.pick(&[
            long::long_sheet as fn(&mut Chance) -> String,
            long::many_tokens,
            long::long_text,
            long::many_words,
            long::long_program,
            long::long_program,
        ]);
        return make(chance).into_bytes();
    }
    let make = chance.pick(&[
        long::large_number as fn(&mut Chance) -> String,
        long::odd_number,
        long::long_float,
        long::odd_float,
        floats::edge,
        floats::edge,
        floats::edge,
        floats::mixed,
        loops::ends,
        loops::far,
        loops::wrong,
        profiles::at_the_limit,
        profiles::unbounded,
        long::open_comment,
        many_functions,
        many_parameters,
        same_function,
        same_parameter,
        many_refs,
        wrong_type,
        deep_prefixes,
        deep_nest,
        deep_calls,
        many_cells,
        stale_cell,
        low_end,
        much_output,
        endless,
    ]);
    make(chance).into_bytes()
}

/// A short random expression, to vary what stands around a limit.
pub fn part(chance: &mut Chance, kind: &Type) -> String {
    let fuel = chance.between(1, 6) as i32;
    let mut writer = Writer::new(chance, fuel);
    writer.expression(kind, SEQ);
    writer.tokens.join(" ")
}

fn many_functions(chance: &mut Chance) -> String {
    let count = chance.between(30, 35);
    let define = |i: usize| match i {
        0 => "def f0():int{1}".to_string(),
        _ => format!("def f{i}():int{{f{}()+1}}", i - 1),
    };
    let all: String = (0..count).map(define).collect();
    format!("{all} f{}()", chance.below(36))
}

fn many_parameters(chance: &mut Chance) -> String {
    let count = chance.between(7, 10);
    let twice = if chance.one_in(3) {
        chance.below(count)
    } else {
        99
    };
    let name = |i: usize| {
        if i == twice {
            "p0".to_string()
        } else {
            format!("p{i}")
        }
    };
    let list: Vec<String> = (0..count).map(|i| format!("{}:int", name(i))).collect();
    let arguments: Vec<String> = (0..chance.between(count - 1, count))
        .map(|i| i.to_string())
        .collect();
    format!(
        "def f({}):int{{p0+p6}}f({})",
        list.join(","),
        arguments.join(",")
    )
}

fn same_function(chance: &mut Chance) -> String {
    let (first, second) = (
        chance.pick(&["f", "g", "putchar"]),
        chance.pick(&["f", "g", "h", "putchar"]),
    );
    let (one, two) = (part(chance, &Type::Int), part(chance, &Type::Int));
    format!("def {first}():int{{{one}}}def {second}(a:int):int{{{two}}}{first}()")
}

fn same_parameter(chance: &mut Chance) -> String {
    let mut name = || chance.pick(&["a", "b", "c", "putchar", "f"]);
    let list = format!("{}:int,{}:bool ref,{}:unit", name(), name(), name());
    format!(
        "def f({list}):int{{{}}}f(1,ref true,tt)",
        part(chance, &Type::Int)
    )
}

fn many_refs(chance: &mut Chance) -> String {
    let count = chance.between(13, 17);
    let (refs, kind) = (" ref".repeat(count), chance.pick(&["int", "bool", "unit"]));
    let value = chance.pick(&["1", "true", "tt", "ref 1"]);
    match chance.below(4) {
        0 => format!(
            "def f(a:int,b:{kind}{refs}):{kind}{refs}{{b}}{}",
            part(chance, &Type::Int)
        ),
        1 => format!("def f(b:{kind}):{kind}{refs}{{{refs} b}}f({value})"),
        2 => format!("{refs} {value}"),
        _ => format!("{}({refs} {value})", "!".repeat(chance.between(12, 18))),
    }
}

fn wrong_type(chance: &mut Chance) -> String {
    let forms = [
        "not {}",
        "!{}",
        "{} && true",
        "{}; 1",
        "if {} then 1 else 2",
        "while {}{tt}",
    ];
    let more = [
        "if true then {} else tt",
        "putchar({},1)",
        "x + ({})",
        "{} := 1",
        "-({})",
        "f0({})",
    ];
    let form = if chance.one_in(2) {
        chance.pick(&forms)
    } else {
        chance.pick(&more)
    };
    let kind = [Type::Int, Type::Bool, Type::Unit][chance.below(3)].clone();
    form.replace("{}", &part(chance, &kind))
}

fn deep_prefixes(chance: &mut Chance) -> String {
    let (prefix, end) = chance.pick(&[("-", "1"), ("not ", "true"), ("-", "(2147483647+1)")]);
    let count = chance.pick(&[509, 510, 511, 512, 513, MOST_TOKENS - 2, MOST_TOKENS - 1]);
    format!("{}{end}", prefix.repeat(count))
}

fn deep_nest(chance: &mut Chance) -> String {
    let (open, inside, close) = chance.pick(&[
        ("(", "1", ")"),
        ("{", "ref 1", "}"),
        ("-(", "1", ")"),
        ("{-", "putchar(66)", "}"),
        ("if true then ", "1", " else 2"),
        ("let x=1 in ", "x", ""),
        ("if false then tt else ", "tt", ""),
        ("tt;", "1", ""),
        ("putchar(", "300", ")"),
        ("", "1", "+1"),
        ("1+(", "2", ")"),
    ]);
    let most = (MOST_TOKENS - 2) / (open.len() + close.len()).max(2);
    let count = if chance.one_in(2) {
        chance.between(100, most.max(101))
    } else {
        chance.between(505, 514)
    };
    format!("{}{inside}{}", open.repeat(count), close.repeat(count))
}

fn deep_calls(chance: &mut Chance) -> String {
    let body = chance.pick(&[
        "f(n-1)",
        "1+f(n-1)",
        "(f(n-1))",
        "{f(n-1)}",
        "f(n-1)+putchar(67)",
    ]);
    let per_level = chance.pick(&[3, 4, 5]);
    let count = chance.between(500 / per_level, 520 / per_level);
    format!(
        "def f(n:int):int{{if n<1 then {} else {body}}}f({count})",
        part(chance, &Type::Int)
    )
}

fn many_cells(chance: &mut Chance) -> String {
    let rounds = chance.pick(&[3, 1019, 1020, 1021, 1022, 1023, 1024, 1025]);
    let (kind, place) = chance.pick(&[("ref 1", "body"), ("ref tt", "test"), ("ref 1", "test")]);
    let end = part(chance, &Type::Int);
    match place {
        "body" => format!("let i=ref 0 in while !i<{rounds} {{let c={kind} in i:=!i+1}};{end}"),
        _ => format!("let i=ref 0 in while let c={kind} in i:=!i+1;!i<{rounds} {{tt}};{end}"),
    }
}

fn stale_cell(chance: &mut Chance) -> String {
    let first = part(chance, &Type::Int);
    let leak = chance.pick(&[
        "{ref 1}",
        "(ref 1)",
        "{{ref 1}}",
        "{let a=ref 2 in a}",
        "{(ref 3)}",
    ]);
    let use_ = chance.pick(&[
        "!r",
        "{r:=5};!r+!s",
        "r:=!s;1",
        "{!r}",
        "let q=ref r in !!q",
    ]);
    format!("let k={first} in let r={leak} in let s=ref k in {use_}")
}

fn low_end(chance: &mut Chance) -> String {
    let low = chance.pick(&["(-2147483647-1)", "-2147483647", "(0-2147483647-1)"]);
    let rest = chance.pick(&["/-1", "*-1", "-1", "+1", "/1", "/2", "*1", "-0", "/0"]);
    format!("{}{low}{rest}", chance.pick(&["", "-", "1+", "0-"]))
}

fn much_output(chance: &mut Chance) -> String {
    let byte = chance.between(0, 260);
    let rounds = chance.pick(&[0, 1, 2, 3, 4, 63, 64, 65, 200]);
    format!("let i=ref 0 in while !i<{rounds}{{let p=putchar({byte}+!i) in i:=!i+1}};!i")
}

fn endless(chance: &mut Chance) -> String {
    let body = part(chance, &Type::Unit);
    match chance.below(3) {
        0 => format!("while true{{{body}}}"),
        1 => format!("{body};while {{true}}{{tt}};1"),
        _ => format!("let c=ref true in while !c {{{body}}}"),
    }
}
