//! Random shifts: books that pay, books that do not, and lines of every shape.

use crate::answer::{Lent, MOST_BYTES};
use crate::chance::Chance;
use crate::damage;
use crate::forms::SEQ;
use crate::sheets::Writer;
use crate::shift::MOST_LINES;
use crate::shift_trial::ShiftTrial;
use crate::text::MOST_TOKENS;
use crate::types::Type;

/// The shift of this number in the series of this seed.
pub fn make(seed: u64, index: u64) -> ShiftTrial {
    let mut chance = Chance::new(seed, index ^ 0x5417);
    let edition = 1 + chance.below(2) as u32;
    let book = book(&mut chance, edition);
    let input = input(&mut chance);
    let cuts = cuts(&mut chance, input.len());
    let mut lent = Lent {
        edition,
        output: chance.pick(&[0, 1, 3, 64]),
        allowance: chance.pick(&[0, 5, 40, 500, 20_000]),
        ..Lent::default()
    };
    match chance.below(60) {
        0 => lent.edition = chance.pick(&[0, 3]),
        1 => lent.allowance = 1_000_001,
        2 => lent.table -= 1,
        3 => lent.work -= 1,
        4 | 5 => lent.table += 5,
        _ => {}
    }
    ShiftTrial {
        book,
        input,
        cuts,
        lent,
        fill: chance.next_word(),
    }
}

/// A shift of as many lines as there may be, a few less or more. Nearly all of
/// them are bad, and most of these empty: so many runs would take too long.
pub fn most_lines(seed: u64, index: u64) -> ShiftTrial {
    let mut chance = Chance::new(seed, index ^ 0x46);
    let most = MOST_LINES as usize;
    let mut lines = vec![b"\n".to_vec(); most - 2 + chance.below(6)];
    for _ in 0..chance.below(6) {
        let at = match chance.below(3) {
            0 => chance.below(3),
            1 => lines.len() - 1 - chance.below(6),
            _ => chance.below(lines.len()),
        };
        lines[at] = line(&mut chance);
    }
    let mut input = lines.concat();
    // A last line without its LF, which is one line more or one cut short.
    match chance.below(4) {
        0 => input.extend(chance.pick(&["0", "00070001117000000003", "x"]).bytes()),
        1 => drop(input.pop()),
        _ => {}
    }
    let mut cuts: Vec<usize> = (0..chance.below(4))
        .map(|_| match chance.one_in(2) {
            true => chance.below(input.len() + 1),
            false => input.len() - chance.below(50),
        })
        .collect();
    cuts.sort();
    let book = chance.pick(&["p", "r-p", "p/r", "putchar(p)+r", "p*r"]);
    ShiftTrial {
        book: format!("def pay(p:int,r:int):int{{{book}}}").into_bytes(),
        input,
        cuts,
        lent: Lent {
            edition: 1 + chance.below(2) as u32,
            allowance: chance.pick(&[5, 40, 500]),
            ..Lent::default()
        },
        fill: chance.next_word(),
    }
}

fn book(chance: &mut Chance, edition: u32) -> Vec<u8> {
    match chance.below(12) {
        0..=3 => by_hand(chance).into_bytes(),
        4..=9 => drawn(chance, edition),
        10 => refused(chance).into_bytes(),
        _ => at_the_limit(chance).into_bytes(),
    }
}

/// Books that come to every stop, depending on picks and rate.
fn by_hand(chance: &mut Chance) -> String {
    let body = chance.pick(&[
        "p*r",
        "p*r/100",
        "p/r",
        "p-r",
        "putchar(p)+r",
        "if p<r then putchar(65) else p*r",
        "let c={ref p} in if p<r then !c else r",
        "let c=ref 0 in while !c<p{c:=!c+1};!c*r",
        "let c=ref 0 in while !c<p{let d=ref (let e=putchar(66) in e) in c:=!c+1};!c",
        "0-p",
        "deep(p)",
        "let f=1.5 in if f<2.0 then p else r",
    ]);
    let comment = chance.pick(&["", " // end", "/* end */", "\n", "\r\n"]);
    format!("def deep(n:int):int{{if n<1 then 0 else 1+deep(n-1)}}def pay(p:int,r:int):int{{{body}}}{comment}")
}

/// A book of random functions, `pay` among them, now and then damaged.
fn drawn(chance: &mut Chance, edition: u32) -> Vec<u8> {
    let mut writer = Writer::new(chance, 12);
    writer.edition = edition;
    for index in 0..writer.chance.below(3) {
        writer.function(index);
    }
    writer.put("def pay ( p : int , r : int ) : int {");
    writer.variables = ["p", "r"].map(|n| (n.to_string(), Type::Int)).to_vec();
    writer.fuel = writer.chance.between(2, 25) as i32;
    writer.expression(&Type::Int, SEQ);
    writer.put("}");
    let mut tokens = writer.tokens;
    match chance.below(12) {
        0 => damage::damage_tokens(chance, &mut tokens),
        1 => tokens.push(damage::any_token(chance)),
        _ => {}
    }
    damage::spell(chance, &tokens)
}

fn refused(chance: &mut Chance) -> String {
    chance
        .pick(&[
            "",
            "1",
            "tt;",
            "def pay(p:int,r:int):int{p}1",
            "def pay(p:int,r:int):int{p}-",
            "def pay(p:int,r:int):int{p}tt;",
            "def pay(p:int,r:int):int{p}let x=1 in",
            "def pay(p:int,r:int):int{p}(",
            "def pay(p:int,r:int):int{p}/*",
            "def pay(p:int,r:int):int{p}#",
            "def pay(p:int,r:int):int{",
            "def pay(p:int):int{p}",
            "def pay(p:int,r:int,s:int):int{p}",
            "def pay(p:int,r:bool):int{p}",
            "def pay(p:int,r:int):bool{true}",
            "def Pay(p:int,r:int):int{p}",
            "def f(p:int,r:int):int{p}",
            "def pay(p:int,r:int):int{q}",
            "def pay(p:int,r:int):int{p}def pay(p:int,r:int):int{r}",
            "def pay(p:int ref,r:int):int{!p}",
        ])
        .to_string()
}

/// Books with as many bytes or tokens as leave room for the longest call, or
/// for the `0` only, or nearly.
fn at_the_limit(chance: &mut Chance) -> String {
    let pay = "def pay(p:int,r:int):int{p+r}";
    if chance.one_in(2) {
        let call = "\npay(2147483647,2147483647)".len();
        let room = MOST_BYTES - pay.len() - chance.pick(&[call, 2]);
        let blanks = room + chance.below(3) - 1;
        return format!("{pay}{}", " ".repeat(blanks));
    }
    // `pay` has 18 tokens; another function has 9, and one for each minus.
    let tokens = MOST_TOKENS - 18 - 9 - chance.pick(&[6, 1]) + chance.below(3) - 1;
    format!("def f():int{{{}1}}{pay}", "-".repeat(tokens))
}

fn input(chance: &mut Chance) -> Vec<u8> {
    let count = chance.pick(&[0, 1, 2, 3, 5, 8]);
    let mut input: Vec<u8> = (0..count).flat_map(|_| line(chance)).collect();
    if chance.one_in(4) {
        input.pop();
    }
    input
}

/// One line with its LF, mostly a good one.
fn line(chance: &mut Chance) -> Vec<u8> {
    let mut text = format!(
        "{:04X}{:08X}{:08X}",
        chance.below(1 << 16),
        number(chance),
        number(chance)
    );
    match chance.below(14) {
        0 => drop(text.pop()),
        1 => text.push('0'),
        2 => text = text.to_ascii_lowercase(),
        3 => text.clear(),
        4 => text.push('\r'),
        5 => text.replace_range(7..8, chance.pick(&["g", "G", " ", "-", "\u{0}"])),
        6 => text = text.repeat(chance.between(2, 30)),
        _ => {}
    }
    text.push('\n');
    text.into_bytes()
}

fn number(chance: &mut Chance) -> u64 {
    match chance.below(5) {
        0 => chance.pick(&[0, 1, 65, 255, 256, 46_341, 65_536]),
        1 => chance.pick(&[0x7FFF_FFFE, 0x7FFF_FFFF, 0x8000_0000, 0xFFFF_FFFF]),
        2 => chance.below(1 << 31) as u64,
        _ => chance.below(300) as u64,
    }
}

fn cuts(chance: &mut Chance, length: usize) -> Vec<usize> {
    let count = chance.pick(&[0, 1, 2, 5, 20]);
    let mut cuts: Vec<usize> = (0..count).map(|_| chance.below(length + 1)).collect();
    cuts.sort();
    cuts
}

#[cfg(test)]
mod tests {
    use super::*;
    use crate::on_big_stack;
    use crate::shift::Shift;

    /// Both sides of the most lines are met.
    #[test]
    fn most_lines_and_more() {
        on_big_stack(|| {
            let mut met = [0, 0];
            for index in 0..40 {
                let trial = most_lines(46, index);
                let mut shift = Shift::new(&trial.book, &trial.lent);
                let (number, _) = shift.feed(&trial.input);
                assert!([0, 46].contains(&number));
                met[usize::from(number == 46)] += 1;
            }
            assert!(met.iter().all(|times| *times > 5), "{met:?}");
        });
    }
}
