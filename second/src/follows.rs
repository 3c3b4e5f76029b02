//! Which tokens may come after which beginning, by hand: for the place of 20
//! every kind of token is set behind every beginning, also where it is wrong.

use crate::text::{MARKS, MARKS_2, RESERVED, RESERVED_2};

/// What begins an operand, a sequence, a program. A last branch begins as a
/// sequence does.
const OPERAND: &str = "- not ! ref x 1 1.5 true false tt ( {";
const SEQ: &str = "let if while - not ! ref x 1 1.5 true false tt ( {";
const PROGRAM: &str = "def let if while - not ! ref x 1 1.5 true false tt ( {";

/// What may come behind an operand before a sequence has to end.
const MORE: &str = "+ - * / < == && || := ;";

/// A beginning, and what may come behind it.
const TABLE: &[(&str, &[&str])] = &[
    ("", &[PROGRAM]),
    ("def", &["x"]),
    ("def f", &["("]),
    ("def f(", &["x )"]),
    ("def f(a", &[":"]),
    ("def f(a:", &["int bool unit float"]),
    ("def f(a:int", &["ref , )"]),
    ("def f(a:bool ref", &["ref , )"]),
    ("def f(a:int,", &["x"]),
    ("def f(a:int,b", &[":"]),
    ("def f(a:int,b:unit", &["ref , )"]),
    ("def f()", &[":"]),
    ("def f(a:int)", &[":"]),
    ("def f():", &["int bool unit float"]),
    ("def f():int", &["ref {"]),
    ("def f():int ref", &["ref {"]),
    ("def f():int{", &[SEQ]),
    ("def f():int{1", &[MORE, "}"]),
    ("def f():int{1}", &[PROGRAM]),
    ("def f():int{1}1", &[MORE]),
    ("let", &["x"]),
    ("let x", &["="]),
    ("let x=", &[SEQ]),
    ("let x=1", &[MORE, "in"]),
    ("let x=1;1", &[MORE, "in"]),
    ("let x=1 in", &[SEQ]),
    ("let x=1 in 1", &[MORE]),
    ("let x=let y=1", &[MORE, "in"]),
    ("let x=let y=1 in 1", &[MORE, "in"]),
    ("if", &[SEQ]),
    ("if 1", &[MORE, "then"]),
    ("if 1 then", &[SEQ]),
    ("if 1 then 1", &[MORE, "else"]),
    ("if 1 then 1 else", &[SEQ]),
    ("if 1 then 1 else 1", &[MORE]),
    ("if 1 then if 1 then 1 else 1", &[MORE, "else"]),
    ("if 1 then 1 else if 1 then 1", &[MORE, "else"]),
    ("if 1 then 1 else if 1 then 1 else", &[SEQ]),
    ("if 1 then 1 else let", &["x"]),
    ("if 1 then 1 else let x", &["="]),
    ("if 1 then 1 else let x=", &[SEQ]),
    ("if 1 then 1 else let x=1", &[MORE, "in"]),
    ("if 1 then 1 else let x=1 in", &[SEQ]),
    ("if 1 then 1 else let x=1 in 1", &[MORE]),
    ("if 1 then 1 else let x=1 in 1;", &[SEQ]),
    ("if 1 then 1 else if 1 then 1 else let x=1 in 1", &[MORE]),
    ("if if 1 then 1 else let x=1 in 1", &[MORE, "then"]),
    ("if 1 then if 1 then 1 else let x=1 in 1", &[MORE, "else"]),
    ("if 1 then if 1 then 1 else let x=1 in 1 else", &[SEQ]),
    ("let x=if 1 then 1 else let y=1 in 1", &[MORE, "in"]),
    ("(if 1 then 1 else let x=1 in 1", &[MORE, ")"]),
    ("{if 1 then 1 else let x=1 in 1", &[MORE, "}"]),
    ("f(if 1 then 1 else let x=1 in 1", &[MORE, ", )"]),
    ("f(1,if 1 then 1 else let x=1 in 1", &[MORE, ", )"]),
    ("while if 1 then 1 else let x=1 in 1", &[MORE, "{"]),
    ("while 1{if 1 then 1 else let x=1 in 1", &[MORE, "}"]),
    ("def f():int{if 1 then 1 else let x=1 in 1", &[MORE, "}"]),
    ("1;if 1 then 1 else let x=1 in 1", &[MORE]),
    (
        "if 1 then 1 else let x=1 in 1:=1",
        &["+ - * / < == && || ;"],
    ),
    ("if 1 then 1 else let x=1 in while 1{1}", &[";"]),
    ("if 1 then let x=1 in 1", &[MORE, "else"]),
    ("if 1 then 1 else while 1{1}", &[";"]),
    ("while", &[SEQ]),
    ("while 1", &[MORE, "{"]),
    ("while {1}", &[MORE, "{"]),
    ("while 1{", &[SEQ]),
    ("while 1{1", &[MORE, "}"]),
    ("while 1{1}", &[";"]),
    ("while 1{1};", &[SEQ]),
    ("(", &[SEQ]),
    ("(1", &[MORE, ")"]),
    ("(1)", &[MORE]),
    ("(while 1{1}", &["; )"]),
    ("{", &[SEQ]),
    ("{1", &[MORE, "}"]),
    ("{1}", &[MORE]),
    ("({1", &[MORE, "}"]),
    ("({1}", &[MORE, ")"]),
    ("f", &[MORE, "("]),
    ("f(", &[SEQ, ")"]),
    ("f(1", &[MORE, ", )"]),
    ("f(1,", &[SEQ]),
    ("f(1,1", &[MORE, ", )"]),
    ("f()", &[MORE]),
    ("f(1)", &[MORE]),
    ("f((1", &[MORE, ")"]),
    ("1", &[MORE]),
    ("1.5", &[MORE]),
    ("1.5+", &[OPERAND]),
    ("def f(a:float", &["ref , )"]),
    ("def f():float", &["ref {"]),
    ("true", &[MORE]),
    ("false", &[MORE]),
    ("tt", &[MORE]),
    ("1;", &[SEQ]),
    ("1;1", &[MORE]),
    ("-", &[OPERAND]),
    ("not", &[OPERAND]),
    ("!", &[OPERAND]),
    ("ref", &[OPERAND]),
    ("-1", &[MORE]),
    ("1+", &[OPERAND]),
    ("1-", &[OPERAND]),
    ("1*", &[OPERAND]),
    ("1/", &[OPERAND]),
    ("1<", &[OPERAND]),
    ("1==", &[OPERAND]),
    ("1&&", &[OPERAND]),
    ("1||", &[OPERAND]),
    ("1:=", &[OPERAND]),
    ("1+1", &[MORE]),
    ("1*1", &[MORE]),
    ("1<1", &["+ - * / && || := ;"]),
    ("1==1", &["+ - * / && || := ;"]),
    ("1<1&&1", &[MORE]),
    ("1<1||1", &[MORE]),
    ("1:=1", &["+ - * / < == && || ;"]),
    ("1:=1<1", &["+ - * / && || ;"]),
    ("1:=1;1", &[MORE]),
    ("(1:=1)", &[MORE]),
    ("(1<1)", &[MORE]),
];

/// The same for what edition 2 has more. Where a `while` may begin there, a `for`
/// may.
const TABLE_2: &[(&str, &[&str])] = &[
    ("for", &["x"]),
    ("for i", &["in"]),
    ("for i in", &[OPERAND]),
    ("for i in 1", &[BOUND, ".. ..="]),
    ("for i in x", &[BOUND, "( .. ..="]),
    ("for i in (1)", &[BOUND, ".. ..="]),
    ("for i in 1<1", &["+ - * / && || .. ..="]),
    ("for i in 1||1", &[BOUND, ".. ..="]),
    ("for i in 1..", &[OPERAND]),
    ("for i in 1..=", &[OPERAND]),
    ("for i in 1..1", &[BOUND, "by {"]),
    ("for i in 1..=x", &[BOUND, "( by {"]),
    ("for i in 1..{1}", &[BOUND, "by {"]),
    ("for i in 1..1 by", &[OPERAND]),
    ("for i in 1..1 by 1", &[BOUND, "{"]),
    ("for i in 1..1 by -", &[OPERAND]),
    ("for i in 1..1 by x", &[BOUND, "( {"]),
    ("for i in 1..1{", &[SEQ]),
    ("for i in 1..1 by 1{", &[SEQ]),
    ("for i in 1..1{1", &[MORE, "}"]),
    ("for i in 1..1{1}", &[";"]),
    ("for i in 1..1{1};", &[SEQ]),
    ("for i in 1..1 by 1{1}", &[";"]),
    ("(for i in 1..1{1}", &["; )"]),
    ("{for i in 1..1{1}", &["; }"]),
    ("f(for i in 1..1{1}", &["; , )"]),
    ("if 1 then for i in 1..1{1}", &["; else"]),
    ("if 1 then 1 else for i in 1..1{1}", &[";"]),
    ("let x=for i in 1..1{1}", &["; in"]),
    ("while for i in 1..1{1}", &["; {"]),
    ("def f():int{for i in 1..1{1}", &["; }"]),
    ("for i in 1..1{for j in 1..1{1}", &["; }"]),
];

/// What may come behind an operand of a bound.
const BOUND: &str = "+ - * / < == && ||";

/// A sheet of a beginning and one token, and whether that token may be there.
pub struct Follow {
    pub edition: u32,
    pub sheet: Vec<u8>,
    pub place: usize,
    pub may: bool,
}

type Row = (&'static str, &'static [&'static str]);

fn rows(edition: u32) -> Vec<Row> {
    let more = if edition == 2 { TABLE_2 } else { &[] };
    TABLE.iter().chain(more).copied().collect()
}

fn kinds(edition: u32) -> Vec<&'static str> {
    let mut kinds = [&RESERVED[..], &MARKS, &["x", "1", "1.5"]].concat();
    if edition == 2 {
        kinds.extend(RESERVED_2.iter().chain(&MARKS_2));
    }
    kinds
}

/// Every beginning with every kind of token behind it.
pub fn all(edition: u32) -> Vec<Follow> {
    let follow = |(begin, allowed): Row| {
        let mut allowed: Vec<&str> = allowed.iter().flat_map(|a| a.split(' ')).collect();
        if allowed.contains(&"while") {
            allowed.push("for");
        }
        let one = |kind: &str| Follow {
            edition,
            sheet: format!("{begin} {kind}").into_bytes(),
            place: begin.len() + 1,
            may: allowed.contains(&kind),
        };
        kinds(edition).into_iter().map(one).collect::<Vec<Follow>>()
    };
    rows(edition).into_iter().flat_map(follow).collect()
}

/// Every beginning by itself, and with what is no token behind it.
pub fn ends(edition: u32) -> Vec<Vec<u8>> {
    let behind = ["", "  ", "\n", "/* x */", " // x"];
    let end = |(begin, _): Row| behind.map(|b| format!("{begin}{b}").into_bytes());
    rows(edition).into_iter().flat_map(end).collect()
}

#[cfg(test)]
mod tests {
    use super::*;
    use crate::answer::{check, Lent};
    use crate::on_big_stack;

    fn in_edition(edition: u32) -> Lent {
        Lent {
            edition,
            ..Lent::default()
        }
    }

    /// A token that may not be there is where 20 is told, and no other is.
    #[test]
    fn a_wrong_token_is_told_where_it_stands() {
        on_big_stack(|| {
            for follow in all(1).into_iter().chain(all(2)) {
                let Follow { sheet, place, .. } = &follow;
                let answer = check(sheet, &in_edition(follow.edition));
                let told = answer.number == 20 && answer.place == *place as u64;
                let shown = String::from_utf8_lossy(sheet);
                assert_eq!(
                    told, !follow.may,
                    "{shown}: {} {}",
                    answer.number, answer.place
                );
            }
        });
    }

    /// No beginning has a wrong token in it, so what is missing is at the end.
    #[test]
    fn a_missing_end_is_told_at_the_end() {
        on_big_stack(|| {
            for edition in [1, 2] {
                for sheet in ends(edition) {
                    let answer = check(&sheet, &in_edition(edition));
                    let shown = String::from_utf8_lossy(&sheet);
                    let told = answer.number != 20 || answer.place == sheet.len() as u64;
                    assert!(told, "{shown}: {}", answer.place);
                }
            }
        });
    }
}
