//! The examples of the paper, with what it leaves unsaid worked out by hand.

use crate::answer::Lent;
use crate::cases::{ran, Case};
use crate::trial::Trial;

/// The first program of the source document: legal, and 5 when called.
pub const LEGAL: &str = "
def f(x:int, y:bool) : int {   // -+ x and y go into scope
  let z = ref x in             // -+ z goes into scope
  {                            //  |
    let w = !z in              // ---+ w goes into scope
    z := w + 1                 //  | |
  };                           // ---+ w goes out of scope
  !z + 1                       //  |
}                              // -+ x,y, and z go out of scope
f(3, false)
";

/// Its illegal twin, which uses w after the block that bound it.
pub const ILLEGAL: &str = "
def g(x:int, y:bool) : int {   // -+ x and y go into scope
  let z = ref x in             // -+ z goes into scope
  {                            //  |
    let w = !z in              // ---+ w goes into scope
    z := w + 1                 //  | |
  };                           // ---+ w goes out of scope
  w + 1                        //  |   ERROR! w not in scope
}                              // -+ x,y, and z go out of scope
g(3, false)
";

/// Its second example of an error, which only shows when it is run.
pub const DANGLING: &str = "
def h() : int ref {            // -+
  let x = ref 1 in             // -+ x and its associated ref cell go into scope
  x                            //  |
}                              // -+ x and its ref cell go out of scope
!h() + 1                       //    ERROR! attempt to access x's ref cell
";

fn case(
    sheet: &str,
    number: u32,
    place: u64,
    kind: u64,
    value: i64,
    units: u64,
    printed: &[u8],
) -> Case {
    let title = format!("paper {}", sheet.trim().lines().next().unwrap_or("(empty)"));
    let trial = Trial::of(sheet.as_bytes(), Lent::default());
    let run = ran(number, place, kind, value, units, printed);
    Case::of_run(&title, trial, run)
}

fn int(sheet: &str, value: i64, units: u64) -> Case {
    case(sheet, 0, 0, 1, value, units, b"")
}

/// A program of type int that stops.
fn stop(sheet: &str, number: u32, place: u64, units: u64) -> Case {
    case(sheet, number, place, 1, 0, units, b"")
}

fn refused(sheet: &str, number: u32, place: u64) -> Case {
    case(sheet, number, place, 0, 0, 0, b"")
}

pub fn examples() -> Vec<Case> {
    let mut all = proved();
    all.extend(easily_wrong());
    all.extend(scope_programs());
    all
}

fn proved() -> Vec<Case> {
    let mut endless = case("while true{tt}", 50, 6, 3, 0, 10, b"");
    endless.trial.lent.allowance = 10;
    vec![
        int("1+2", 3, 3),
        int("-2147483647-1", -2_147_483_648, 4),
        int("65535+1", 65_536, 3),
        stop("2147483647+1", 52, 10, 3),
        refused("2147483648", 13, 0),
        int("-7/2", -3, 4),
        stop("7/0", 53, 1, 3),
        refused("1<2<3", 20, 3),
        refused("", 20, 0),
        refused("let x=1 in x;2", 33, 12),
        refused("/*/*/", 12, 0),
        int("/* /* */ */1", 1, 1),
        case("putchar(65)", 0, 0, 1, 65, 2, b"A"),
        stop("putchar(256)", 56, 0, 2),
        endless,
        stop("def h():int ref{let x=ref 1 in x}!h()+1", 54, 33, 8),
        case("{ref 1}", 0, 0, 9, 1, 3, b""),
        refused("def f():int{1}def f():int{2}3", 31, 18),
        refused("putchar(65); 1", 33, 11),
    ]
}

/// One sheet or more for each way named as easy to get wrong.
fn easily_wrong() -> Vec<Case> {
    vec![
        // The second cell may well lie where the first one lay.
        stop("let r={ref 1}in let s=ref 2 in !r", 54, 31, 9),
        int("let x=1 in let z = ref x in {z := 5}; !z + 1", 6, 14),
        stop("(-2147483647-1)/-1", 52, 15, 8),
        stop("-(-2147483647-1)", 52, 0, 6),
        refused("def f():int{x}let x=1 in f()", 35, 12),
        int(
            "def f(x:int):int{let y=x in y}let x=7 in let y=9 in f(1)+x+y",
            17,
            14,
        ),
        case("false&&1/0==0", 0, 0, 2, 0, 2, b""),
        case("true||1/0==0", 0, 0, 2, 1, 2, b""),
        case(
            "def p():bool{putchar(66)==66}false&&p()",
            0,
            0,
            2,
            0,
            2,
            b"",
        ),
    ]
}

fn scope_programs() -> Vec<Case> {
    let place = |sheet: &str, part: &str| sheet.rfind(part).expect("the part is there") as u64;
    vec![
        int(LEGAL, 5, 21),
        refused(ILLEGAL, 35, place(ILLEGAL, "w + 1")),
        stop(DANGLING, 54, place(DANGLING, "!h()"), 8),
    ]
}

#[cfg(test)]
mod tests {
    use super::*;
    use crate::on_big_stack;

    fn all_agree(cases: Vec<Case>) {
        let wrong = on_big_stack(move || {
            let tries = cases.iter().map(Case::try_own);
            tries.filter_map(Result::err).collect::<Vec<String>>()
        });
        assert!(wrong.is_empty(), "{wrong:#?}");
    }

    #[test]
    fn the_proved_examples() {
        all_agree(proved());
    }

    #[test]
    fn the_ways_to_get_it_wrong() {
        all_agree(easily_wrong());
    }

    #[test]
    fn the_scope_programs() {
        all_agree(scope_programs());
    }
}
