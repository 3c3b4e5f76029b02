//! Which tokens begin a program. The grammar is written down here once more, as
//! plain productions, and followed by sets of productions under way (Earley's
//! way), not by the reader: a token is wrong when nothing under way can take it.
//! Every part of the grammar has some text, so what is under way can be ended.

use crate::text::{Kind, Token};
use std::collections::HashMap;
use std::sync::LazyLock;

/// One production a line. A word that stands left of an arrow is a part of the
/// grammar, `name`, `number` and `decimal` are any of these, all else is itself.
/// Both editions are in it: without the word `for` there is no way into what
/// edition 2 has more, and outside of that no need of it.
const PRODUCTIONS: &str = "
Program -> Defs Seq
Defs ->
Defs -> Defs Def
Def -> def name ( Parameters ) : Type { Seq }
Parameters ->
Parameters -> SomeParameters
SomeParameters -> name : Type
SomeParameters -> SomeParameters , name : Type
Type -> int
Type -> bool
Type -> unit
Type -> float
Type -> Type ref
Seq -> Let
Seq -> Item
Seq -> Item ; Seq
Seq -> Last
Let -> let name = Seq in Seq
Last -> if Seq then Seq else Let
Last -> if Seq then Seq else Last
Item -> if Seq then Seq else Item
Item -> while Seq { Seq }
Item -> for name in Or Mark Or { Seq }
Item -> for name in Or Mark Or by Or { Seq }
Mark -> ..
Mark -> ..=
Item -> Assign
Assign -> Or
Assign -> Or := Or
Or -> And
Or -> Or || And
And -> Cmp
And -> And && Cmp
Cmp -> Sum
Cmp -> Sum < Sum
Cmp -> Sum == Sum
Sum -> Prod
Sum -> Sum + Prod
Sum -> Sum - Prod
Prod -> Un
Prod -> Prod * Un
Prod -> Prod / Un
Un -> - Un
Un -> not Un
Un -> ! Un
Un -> ref Un
Un -> Atom
Atom -> name
Atom -> name ( Arguments )
Atom -> number
Atom -> decimal
Atom -> true
Atom -> false
Atom -> tt
Atom -> ( Seq )
Atom -> { Seq }
Arguments ->
Arguments -> SomeArguments
SomeArguments -> Seq
SomeArguments -> SomeArguments , Seq
";

pub struct Production {
    pub part: &'static str,
    pub symbols: Vec<&'static str>,
}

pub fn productions() -> Vec<Production> {
    let line = |line: &'static str| {
        let mut words = line.split_whitespace();
        let part = words.next().expect("a part");
        let symbols = words.skip(1).collect();
        Production { part, symbols }
    };
    PRODUCTIONS.trim().lines().map(line).collect()
}

/// A word of the productions, by its number.
type Symbol = usize;

/// A place in a production, by its number: all symbols before it are passed. The
/// next one up is behind one symbol more.
#[derive(Clone, Copy)]
struct Spot {
    part: Symbol,
    next: Option<Symbol>,
}

/// The productions with numbers for words.
struct Rules {
    symbols: HashMap<&'static str, Symbol>,
    spots: Vec<Spot>,
    /// By symbol, where its productions begin; none for what is itself.
    begins: Vec<Vec<usize>>,
    /// By symbol, whether one of these has no symbols. Only these parts may be
    /// empty, and at once: none is by way of another.
    empty: Vec<bool>,
}

static RULES: LazyLock<Rules> = LazyLock::new(|| {
    let productions = productions();
    let mut symbols: HashMap<&'static str, Symbol> = HashMap::new();
    for production in &productions {
        for word in [production.part].iter().chain(&production.symbols) {
            let number = symbols.len();
            symbols.entry(word).or_insert(number);
        }
    }
    let mut rules = Rules {
        spots: Vec::new(),
        begins: vec![Vec::new(); symbols.len()],
        empty: vec![false; symbols.len()],
        symbols,
    };
    for production in &productions {
        let part = rules.symbols[production.part];
        rules.begins[part].push(rules.spots.len());
        rules.empty[part] |= production.symbols.is_empty();
        let nexts = production.symbols.iter().map(|word| rules.symbols[word]);
        let spots = nexts.map(Some).chain([None]);
        rules.spots.extend(spots.map(|next| Spot { part, next }));
    }
    rules
});

/// A production passed up to that spot, begun before the token of that number.
#[derive(Clone, Copy)]
struct UnderWay {
    spot: usize,
    begun: usize,
}

pub struct Recogniser {
    rules: &'static Rules,
    /// What is under way before each token, and after the last one.
    sets: Vec<Vec<UnderWay>>,
    /// By begin and spot, one more than the last set that it is in.
    known: Vec<usize>,
}

impl Default for Recogniser {
    fn default() -> Recogniser {
        let mut recogniser = Recogniser {
            rules: &RULES,
            sets: Vec::new(),
            known: Vec::new(),
        };
        let program = recogniser.rules.symbols["Program"];
        recogniser.grow(recogniser.begin(program, 0).collect());
        recogniser
    }
}

impl Recogniser {
    /// Whether a program begins with all tokens so far and this one. If not,
    /// the token is as good as not there.
    pub fn take(&mut self, token: &Kind) -> bool {
        let word = match token {
            Kind::Fixed(word) => word,
            Kind::Name(_) => "name",
            Kind::Number(_) => "number",
            Kind::Float(_) => "decimal",
        };
        // Words that are in no production, as `do`, no program has.
        let Some(symbol) = self.rules.symbols.get(word) else {
            return false;
        };
        let last = self.sets.last().expect("at least one set");
        let taken: Vec<UnderWay> = self.waiting_for(*symbol, last).collect();
        let any = !taken.is_empty();
        if any {
            self.grow(taken);
        }
        any
    }

    /// Whether the tokens so far are a program.
    pub fn complete(&self) -> bool {
        let program = self.rules.symbols["Program"];
        let whole = |u: &UnderWay| {
            let Spot { part, next } = self.rules.spots[u.spot];
            u.begun == 0 && next.is_none() && part == program
        };
        self.sets.last().is_some_and(|last| last.iter().any(whole))
    }

    fn begin(&self, part: Symbol, begun: usize) -> impl Iterator<Item = UnderWay> {
        let begins = self.rules.begins[part].iter();
        begins.map(move |spot| UnderWay { spot: *spot, begun })
    }

    /// What of the set waits for the symbol, the symbol passed.
    fn waiting_for<'a>(
        &'a self,
        symbol: Symbol,
        set: &'a [UnderWay],
    ) -> impl Iterator<Item = UnderWay> + 'a {
        let waits = move |u: &&UnderWay| self.rules.spots[u.spot].next == Some(symbol);
        set.iter().filter(waits).map(passed)
    }

    /// Adds a set: these, what may begin where they stand, and what goes on
    /// where one of them ends.
    fn grow(&mut self, start: Vec<UnderWay>) {
        let here = self.sets.len();
        let spots = self.rules.spots.len();
        self.known.resize(spots * (here + 1), 0);
        let mut set: Vec<UnderWay> = Vec::new();
        let mut waiting = start;
        while let Some(u) = waiting.pop() {
            let known = &mut self.known[spots * u.begun + u.spot];
            if std::mem::replace(known, here + 1) == here + 1 {
                continue;
            }
            set.push(u);
            let Spot { part, next } = self.rules.spots[u.spot];
            match next {
                Some(next) => {
                    waiting.extend(self.begin(next, here));
                    if self.rules.empty[next] {
                        waiting.push(passed(&u));
                    }
                }
                // One that ends where it began was empty, and passed when it
                // was begun.
                None => {
                    let waited = self.sets.get(u.begun).unwrap_or(&set);
                    waiting.extend(self.waiting_for(part, waited));
                }
            }
        }
        self.sets.push(set);
    }
}

fn passed(u: &UnderWay) -> UnderWay {
    UnderWay {
        spot: u.spot + 1,
        ..*u
    }
}

/// The number of the first token that no program begins with, the tokens before
/// it included; nothing if only the end is wrong.
pub fn first_wrong(tokens: &[Token]) -> Option<usize> {
    let mut recogniser = Recogniser::default();
    let wrong = tokens.iter().position(|t| !recogniser.take(&t.kind));
    assert!(wrong.is_some() || !recogniser.complete(), "a program");
    wrong
}

#[cfg(test)]
mod tests {
    use super::*;
    use crate::chance::Chance;
    use crate::text::tokens;
    use crate::{grammar, on_big_stack, slips};

    /// What a beginning still needs: of these, the first that may come, until it
    /// is a program. What closes stands before what opens.
    const ENDINGS: [&str; 14] = [
        ")", "}", "in", "then", "else", "=", ":", "int", "x", "1", "{", "(", ",", "..",
    ];

    fn ended(begin: &[Token]) -> Vec<Token> {
        let mut all = begin.to_vec();
        let mut recogniser = Recogniser::default();
        for token in begin {
            assert!(recogniser.take(&token.kind), "not a beginning");
        }
        while !recogniser.complete() {
            let next = ENDINGS.iter().find_map(|word| {
                let token = tokens(word.as_bytes(), 2).expect("a token").remove(0);
                recogniser.take(&token.kind).then_some(token)
            });
            all.push(next.expect("a beginning can be ended"));
        }
        all
    }

    /// The tokens before the place of 20 do begin a program: the reader reads
    /// one that begins with them (R01.4).
    #[test]
    fn what_is_before_the_place_can_be_ended() {
        let check = |index: u64| {
            let mut chance = Chance::new(20, index);
            let sheet = slips::sheet(&mut chance, 2);
            let Ok(tokens) = tokens(&sheet, 2) else {
                return;
            };
            if grammar::read(&tokens).is_some() {
                return;
            }
            let right = first_wrong(&tokens).unwrap_or(tokens.len());
            let whole = ended(&tokens[..right]);
            assert!(grammar::read(&whole).is_some(), "trial {index}");
        };
        on_big_stack(|| (0..2000).for_each(check));
    }

    /// The reader and the recogniser take the same programs.
    #[test]
    fn two_ways_to_one_grammar() {
        let check = |index: u64| {
            let mut chance = Chance::new(22, index);
            let sheet = slips::sheet(&mut chance, 2);
            let Ok(tokens) = tokens(&sheet, 2) else {
                return;
            };
            let mut recogniser = Recogniser::default();
            let taken = tokens.iter().all(|t| recogniser.take(&t.kind));
            let program = taken && recogniser.complete();
            assert_eq!(grammar::read(&tokens).is_some(), program, "trial {index}");
        };
        on_big_stack(|| (0..3000).for_each(check));
    }
}
