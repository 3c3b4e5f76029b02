//! Sheets for the pay profile: counts close to the largest, and loops and calls
//! that it does not have, where they may be missed.

use crate::answer::MOST_UNITS;
use crate::chance::Chance;
use crate::rare::part;
use crate::types::Type;

/// So many functions, each of which calls the one before it twice.
const LEVELS: usize = 17;

/// The count of a call of each of them: the Block, the sum and two calls.
fn calls() -> Vec<u64> {
    let next = |call: &u64| Some(1 + 1 + 1 + 2 * call);
    std::iter::successors(Some(3), next).take(LEVELS).collect()
}

fn functions() -> String {
    let define = |level: usize| match level {
        0 => "def f0():int{1}".to_string(),
        _ => format!("def f{level}():int{{f{0}()+f{0}()}}", level - 1),
    };
    (0..LEVELS).map(define).collect()
}

/// A sheet of just this count, which a run uses up but for calls in branches
/// that are not taken.
pub fn of_count(count: u64, branches: &mut dyn FnMut() -> bool) -> String {
    let mut sum = String::new();
    let mut left = count - 1;
    for (level, call) in calls().iter().enumerate().rev() {
        loop {
            // Besides the call: the plus; then brackets, the choice and its test.
            let (term, cost) = match branches() {
                false => (format!("+f{level}()"), call + 1),
                true => (format!("+(if 1<2 then 1 else f{level}())"), call + 6),
            };
            if left < cost {
                break;
            }
            left -= cost;
            sum += &term;
        }
    }
    format!("{}{}1{sum}", functions(), "-".repeat(left as usize))
}

/// At the limit, or nearly, or far above it.
pub fn at_the_limit(chance: &mut Chance) -> String {
    match chance.below(12) {
        0 | 1 => return far_above(chance),
        2 | 3 => return of_a_power(chance),
        _ => {}
    }
    let count = MOST_UNITS - 2 + chance.below(5) as u64;
    let one_in = chance.pick(&[1, 3, 1000]);
    of_count(count, &mut || chance.one_in(one_in))
}

/// More than 64 bits hold, called or not.
fn far_above(chance: &mut Chance) -> String {
    let define = |level: usize| match level {
        0 => "def f0():int{1}".to_string(),
        _ => {
            let calls = vec![format!("f{}()", level - 1); 6];
            format!("def f{level}():int{{{}}}", calls.join("+"))
        }
    };
    let all: String = (0..32).map(define).collect();
    let last = chance.pick(&["1", "f3()", "f31()", "true||f31()<1", "f31()+f31()"]);
    all + last
}

/// Each function calls the one before it four times, one call being the next
/// one's argument, so a call of the one at a level counts a power of four less
/// one; and what few bits would hold of it is small.
fn of_a_power(chance: &mut Chance) -> String {
    let level = chance.pick(&[7, 8, 8, 9, 14, 15, 15, 15, 30, 31, 31, 31]);
    let define = |level: usize| match level {
        0 => "def f0(x:int):int{x}".to_string(),
        _ => {
            let before = format!("f{}(", level - 1);
            format!(
                "def f{level}(x:int):int{{{}x{}}}",
                before.repeat(4),
                ")".repeat(4)
            )
        }
    };
    let all: String = (0..=level).map(define).collect();
    let calls = chance.between(1, 4);
    let minus = "-".repeat(chance.below(9));
    let call = format!(
        "{minus}{}1{}",
        format!("f{level}(").repeat(calls),
        ")".repeat(calls)
    );
    let last = chance.pick(&["C", "if true then 1 else C", "false&&C<1", "let c=1 in C"]);
    all + &last.replace('C', &call)
}

/// Where a loop or a call of itself may be missed, or seen where none is.
pub fn unbounded(chance: &mut Chance) -> String {
    let form = chance.pick(&[
        "while B{tt};I",
        "def f():int{while B{tt};I}I",
        "def f():int{f()}I",
        "def f():int{I}def g():int{f()+g()}f()",
        "def f(x:int):int{f(f(x))}I",
        "def f(x:int):int{if B then I else f(x-1)}f(3)",
        "def f():int{I}def g():int{f()+f()}f()+g()",
        "def f(f:int):int{f}f(I)",
        "let f=I in f",
        "def f():unit{while B{while B{tt}}}f()",
        "while(while B{tt};B){tt};I",
        "if true then I else(while B{tt};I)",
        "true||(while B{tt};B)",
        "def f():int{putchar(I)}f()",
        "while true{tt};x",
        "def f():int{f()}1+true",
        "for i in 0..3{tt};I",
        "def f():int{for i in f()..3{tt};I}I",
    ]);
    let (int, bool) = (part(chance, &Type::Int), part(chance, &Type::Bool));
    let form = form.replace('B', &format!("({bool})"));
    form.replace('I', &format!("({int})"))
}

#[cfg(test)]
mod tests {
    use super::*;
    use crate::answer::{run, Lent};
    use crate::on_big_stack;
    use crate::profile::profile;

    #[test]
    fn counts_are_as_planned() {
        on_big_stack(|| {
            for count in [1, 2, 9, 500, 123_456, 999_999, 1_000_000] {
                for one_in in [1, 2, 1000] {
                    let mut chance = Chance::new(count, one_in as u64);
                    let sheet = of_count(count, &mut || chance.one_in(one_in));
                    let told = profile(sheet.as_bytes(), &Lent::default());
                    assert_eq!((told.number, told.count), (0, count), "{sheet}");
                }
                let straight = of_count(count, &mut || false);
                let ran = run(straight.as_bytes(), &Lent::default());
                assert_eq!((ran.number, ran.units), (0, count), "{straight}");
            }
            let more = of_count(1_000_001, &mut || false);
            assert_eq!(profile(more.as_bytes(), &Lent::default()).number, 45);
        });
    }

    /// None is refused for its size, and both sides of the limit are met.
    #[test]
    fn powers_pass_or_are_over() {
        on_big_stack(|| {
            let mut met = [0, 0];
            for index in 0..400 {
                let sheet = of_a_power(&mut Chance::new(45, index));
                match profile(sheet.as_bytes(), &Lent::default()).number {
                    0 => met[0] += 1,
                    45 => met[1] += 1,
                    other => panic!("{other} for {sheet}"),
                }
            }
            assert!(met.iter().all(|times| *times > 20), "{met:?}");
        });
    }
}
