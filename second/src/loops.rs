//! Counted loops at their edges: steps toward, away and past the end, equal ends,
//! the ends of 32 bits, and what a loop's type does not allow. In edition 1 all
//! of them are refused.

use crate::chance::Chance;
use crate::rare::part;
use crate::types::Type;

/// Counts the passes, adds up the name, and leaves both to be seen.
fn seen(head: &str) -> String {
    format!("let n=ref 0 in let s=ref 0 in {head}{{n:=!n+1;s:=!s/2+i/8}};!n*1000+!s/1048576")
}

fn small(chance: &mut Chance) -> String {
    let number = chance.below(7);
    match chance.one_in(3) {
        true => format!("-{number}"),
        false => number.to_string(),
    }
}

pub fn ends(chance: &mut Chance) -> String {
    let (start, end) = (small(chance), small(chance));
    let end = if chance.one_in(4) { start.clone() } else { end };
    let mark = chance.pick(&["..", "..=", " .. ", " ..= "]);
    let step = match chance.below(3) {
        0 => String::new(),
        1 => format!(" by {}", small(chance)),
        _ => format!(
            "by {}",
            chance.pick(&["1", "-1", "2", "-2", "0", "-0", "100", "-100"])
        ),
    };
    // A digit right before `by` would be binary.
    seen(&format!("for i in {start}{mark}({end}){step}"))
}

/// Near the ends of 32 bits, where a step leaves them.
pub fn far(chance: &mut Chance) -> String {
    const FAR: [&str; 7] = [
        "2147483647",
        "2147483646",
        "2147483640",
        "-2147483647-1",
        "-2147483647",
        "-2147483640",
        "0",
    ];
    const STEPS: [&str; 8] = [
        "1",
        "-1",
        "3",
        "-3",
        "2147483647",
        "-2147483647-1",
        "1073741824",
        "-1073741824",
    ];
    let (start, end) = (chance.pick(&FAR), chance.pick(&FAR));
    let mark = chance.pick(&["..", "..="]);
    // Without a step it is far from one end to the other; the units end it.
    let step = match chance.one_in(6) {
        true => String::new(),
        false => format!(" by {}", chance.pick(&STEPS)),
    };
    seen(&format!("for i in {start}{mark}{end}{step}"))
}

pub fn wrong(chance: &mut Chance) -> String {
    let form = chance.pick(&[
        "for i in B..3{tt}",
        "for i in 0..B{tt}",
        "for i in 0..3 by B{tt}",
        "for i in B..B by B{i+true}",
        "for i in 0..3{I}",
        "for i in 0..3{i}",
        "for i in i..3{tt}",
        "for i in 0..i{tt}",
        "for i in 0..3 by i{tt}",
        "for i in 0..3{tt};i",
        "let i=true in for i in 0..3{tt};i",
        "for i in 0..3{let i=true in tt}",
        "for i in 0..I{for i in 0..i{tt}}",
        "for i in I/0..3 by 0{tt}",
        "for i in 0..I/0 by 0{tt}",
        "for i in 0..3 by 0*I{tt}",
        "for for in 0..3{tt}",
        "for i in 0..3 by{tt}",
        "for i in 0...3{tt}",
        "for i in 0..==3{tt}",
        "for i in 1.5..3{tt}",
        "for i in 1...5{tt}",
        "for i in 3..0by-1{tt}",
        "for i in 0..3{let c=ref i in tt};I",
        "for i in (for j in 0..3{tt};0)..3{tt}",
        "let r={ref 1}in for i in 0..3{r:=i}",
        "let for=1 in let by=2 in for+by",
        "1+for i in 0..3{tt}",
        "for i in 0..3{putchar(i)==0;tt}",
    ]);
    let (int, bool) = (part(chance, &Type::Int), part(chance, &Type::Bool));
    let form = form.replace('B', &format!("({bool})"));
    form.replace('I', &format!("({int})"))
}
