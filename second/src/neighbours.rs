//! Sheets in which, taken together, every two kinds of token that can be
//! neighbours in a sheet that passes are neighbours.

use crate::answer::{self, Lent};
use crate::chance::Chance;
use crate::text::{tokens, Kind, Token};
use crate::{damage, sheets};
use std::collections::BTreeSet;

/// By kind of token; a reserved word or a mark is a kind by itself.
type Pair = (String, String);

fn word(token: &Token) -> String {
    match &token.kind {
        Kind::Fixed(word) => word.to_string(),
        Kind::Name(_) => "name".to_string(),
        Kind::Number(_) => "number".to_string(),
        Kind::Float(_) => "decimal".to_string(),
    }
}

fn pairs(sheet: &[u8], edition: u32) -> Vec<Pair> {
    let tokens = tokens(sheet, edition).unwrap_or_default();
    let both = |pair: &[Token]| (word(&pair[0]), word(&pair[1]));
    tokens.windows(2).map(both).collect()
}

/// Neighbours that random sheets hardly ever have.
const BY_HAND: [&str; 2] = [
    "while while false{tt};false{tt}",
    "while ref 1:=2;false{tt}",
];
const BY_HAND_2: [&str; 3] = [
    "while for i in 0..1{tt};false{tt}",
    "for i in {1}..{2}by{1}{tt}",
    "for i in !ref 1..=!ref 1 by!ref 2{tt}",
];

/// So many random sheets without new neighbours are enough.
const IDLE: u64 = 4000;

/// Sheets that pass, each with two neighbours that none before it has, spelled
/// with no more blanks than needed.
pub fn all(edition: u32) -> Vec<Vec<u8>> {
    let more: &[&str] = if edition == 2 { &BY_HAND_2 } else { &[] };
    let by_hand = BY_HAND.iter().chain(more);
    let mut found: Vec<Vec<u8>> = by_hand.map(|s| s.as_bytes().to_vec()).collect();
    let mut seen: BTreeSet<Pair> = found.iter().flat_map(|s| pairs(s, edition)).collect();
    let lent = Lent {
        edition,
        ..Lent::default()
    };
    let (mut index, mut last) = (0, 0);
    while index < last + IDLE {
        let mut chance = Chance::new(3, index);
        let fuel = chance.pick(&[4, 8, 16, 30]);
        let sheet = damage::closely(&sheets::program(&mut chance, fuel, edition));
        index += 1;
        let here = pairs(&sheet, edition);
        let new = here.iter().any(|pair| !seen.contains(pair));
        if new && answer::check(&sheet, &lent).number == 0 {
            seen.extend(here);
            found.push(sheet);
            last = index;
        }
    }
    found
}

#[cfg(test)]
mod tests {
    use super::*;
    use crate::begins::{productions, Production};
    use crate::on_big_stack;
    use std::collections::HashMap;

    type Words = BTreeSet<&'static str>;

    struct Grammar {
        productions: Vec<Production>,
        /// By part, the tokens it may begin with.
        first: HashMap<&'static str, Words>,
        /// By part, the tokens it may end with.
        last: HashMap<&'static str, Words>,
    }

    impl Grammar {
        fn new() -> Grammar {
            let mut grammar = Grammar {
                productions: productions(),
                first: HashMap::new(),
                last: HashMap::new(),
            };
            // As often as there are parts, so that all has gone all the way.
            for _ in 0..grammar.productions.len() {
                grammar.first = grammar.next(false);
                grammar.last = grammar.next(true);
            }
            grammar
        }

        fn empty(&self, symbol: &str) -> bool {
            let mut own = self.productions.iter().filter(|p| p.part == symbol);
            own.any(|p| p.symbols.is_empty())
        }

        fn is_part(&self, symbol: &str) -> bool {
            self.productions.iter().any(|p| p.part == symbol)
        }

        fn edge(&self, symbol: &'static str, at_end: bool) -> Words {
            let known = if at_end { &self.last } else { &self.first };
            match self.is_part(symbol) {
                true => known.get(symbol).cloned().unwrap_or_default(),
                false => Words::from([symbol]),
            }
        }

        fn next(&self, at_end: bool) -> HashMap<&'static str, Words> {
            let mut all: HashMap<&str, Words> = HashMap::new();
            for production in &self.productions {
                let mut symbols = production.symbols.clone();
                if at_end {
                    symbols.reverse();
                }
                let skipped = symbols.iter().take_while(|s| self.empty(s)).count();
                let edges = symbols.iter().take(skipped + 1);
                let edges = edges.flat_map(|symbol| self.edge(symbol, at_end));
                all.entry(production.part).or_default().extend(edges);
            }
            all
        }

        /// What may stand side by side at this place of a production.
        fn around(&self, symbols: &[&'static str], at: usize) -> BTreeSet<Pair> {
            let right = &symbols[at + 1..];
            let skipped = right.iter().take_while(|s| self.empty(s)).count();
            let mut found = BTreeSet::new();
            for next in right.iter().take(skipped + 1) {
                for left in self.edge(symbols[at], true) {
                    let pair = |right: &str| (left.to_string(), right.to_string());
                    found.extend(self.edge(next, false).into_iter().map(pair));
                }
            }
            found
        }

        fn neighbours(&self) -> BTreeSet<Pair> {
            let within = |p: &Production| {
                let places = 0..p.symbols.len();
                places.flat_map(|at| self.around(&p.symbols, at)).collect()
            };
            let all = self.productions.iter().map(within);
            all.flat_map(|pairs: Vec<Pair>| pairs).collect()
        }
    }

    const NOT_AN_INT: [&str; 6] = ["true", "false", "tt", "ref", "not", "decimal"];

    /// Neighbours that the grammar lets be and the types do not.
    fn untyped(left: &str, right: &str) -> bool {
        const BETWEEN_INTS: [&str; 6] = ["+", "-", "*", "/", "<", "=="];
        const BETWEEN_BOOLS: [&str; 2] = ["&&", "||"];
        const NEVER_CELLS: [&str; 7] = ["-", "not", "number", "decimal", "true", "false", "tt"];
        (BETWEEN_INTS.contains(&left) && ["true", "false", "tt", "ref", "not"].contains(&right))
            || (BETWEEN_INTS.contains(&right) && ["true", "false", "tt"].contains(&left))
            || (BETWEEN_BOOLS.contains(&left) && ["tt", "ref"].contains(&right))
            || (BETWEEN_BOOLS.contains(&right) && left == "tt")
            || (left == "!" && NEVER_CELLS.contains(&right))
            || (left == "not" && ["-", "number", "decimal", "ref", "tt"].contains(&right))
            || (left == "tt" && ["then", "{", "..", "..=", "by"].contains(&right))
            || (left == "==" && right == "decimal")
            || (left == "decimal" && right == "==")
            || (["..", "..=", "by"].contains(&left) && NOT_AN_INT.contains(&right))
            || (["..", "..=", "by"].contains(&right) && NOT_AN_INT.contains(&left))
    }

    /// What is one number in hex or binary was a number and a name before, and
    /// these are never neighbours: no sheet that passed then changes (R06.6).
    #[test]
    fn no_name_after_a_number() {
        let possible = Grammar::new().neighbours();
        assert!(!possible.contains(&("number".to_string(), "name".to_string())));
        assert!(possible.contains(&("number".to_string(), "in".to_string())));
    }

    #[test]
    fn all_neighbours_are_there() {
        let seen: BTreeSet<Pair> =
            on_big_stack(|| all(2).iter().flat_map(|sheet| pairs(sheet, 2)).collect());
        let possible = Grammar::new().neighbours();
        assert!(seen.is_subset(&possible));
        let due = possible.into_iter().filter(|(l, r)| !untyped(l, r));
        let missing: Vec<Pair> = due.filter(|pair| !seen.contains(pair)).collect();
        assert!(missing.is_empty(), "{missing:?}");
        assert!(seen.iter().all(|(l, r)| !untyped(l, r)));
    }
}
