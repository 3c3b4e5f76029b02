//! Tokens to a tree, one function for each rule of the grammar; those from
//! Assign down to Atom are in `operators`.

use crate::text::{Kind, Token};
use crate::tree::{infix, For, Form, Function, Infix, Node, Parameter, Program};
use crate::types::Type;

/// The only reading of the tokens, or nothing.
pub fn read(tokens: &[Token]) -> Option<Program> {
    read_by(Reader {
        tokens,
        at: 0,
        let_after_else: true,
    })
}

/// The reading by the grammar of page 01, in which a let after `else` needs
/// brackets.
pub fn read_before(tokens: &[Token]) -> Option<Program> {
    read_by(Reader {
        tokens,
        at: 0,
        let_after_else: false,
    })
}

fn read_by(mut reader: Reader) -> Option<Program> {
    let program = reader.program()?;
    (reader.at == reader.tokens.len()).then_some(program)
}

pub struct Reader<'a> {
    tokens: &'a [Token],
    pub at: usize,
    let_after_else: bool,
}

impl Reader<'_> {
    pub fn here(&self) -> Option<&Token> {
        self.tokens.get(self.at)
    }

    pub fn sees(&self, fixed: &str) -> bool {
        matches!(self.here(), Some(Token { kind: Kind::Fixed(f), .. }) if *f == fixed)
    }

    /// Passes this fixed token and gives its place.
    pub fn take(&mut self, fixed: &str) -> Option<usize> {
        if !self.sees(fixed) {
            return None;
        }
        self.at += 1;
        Some(self.tokens[self.at - 1].place)
    }

    /// Passes whichever of these tokens stands here.
    pub fn take_any<T: Copy>(&mut self, choices: &[(&str, T)]) -> Option<(usize, T)> {
        let (fixed, meaning) = choices.iter().find(|(f, _)| self.sees(f))?;
        Some((self.take(fixed)?, *meaning))
    }

    pub fn name(&mut self) -> Option<(String, usize)> {
        let token = self.here()?;
        let Kind::Name(name) = &token.kind else {
            return None;
        };
        let found = (name.clone(), token.place);
        self.at += 1;
        Some(found)
    }

    fn program(&mut self) -> Option<Program> {
        let mut functions = Vec::new();
        while self.sees("def") {
            functions.push(self.function()?);
        }
        Some(Program {
            functions,
            last: self.seq()?,
        })
    }

    fn function(&mut self) -> Option<Function> {
        let def = self.take("def")?;
        let (name, name_place) = self.name()?;
        self.take("(")?;
        let parameters = self.list(Reader::parameter)?;
        self.take(":")?;
        let result = self.kind()?;
        let body = self.block()?;
        Some(Function {
            def,
            name,
            name_place,
            parameters,
            result,
            body,
        })
    }

    /// What stands between an opening parenthesis already passed and its
    /// closing one: nothing, or items with commas between them.
    pub fn list<T>(&mut self, item: fn(&mut Self) -> Option<T>) -> Option<Vec<T>> {
        let mut items = Vec::new();
        if self.take(")").is_some() {
            return Some(items);
        }
        items.push(item(self)?);
        while self.take(",").is_some() {
            items.push(item(self)?);
        }
        self.take(")")?;
        Some(items)
    }

    fn parameter(&mut self) -> Option<Parameter> {
        let (name, place) = self.name()?;
        self.take(":")?;
        let kind = self.kind()?;
        Some(Parameter { name, place, kind })
    }

    fn kind(&mut self) -> Option<Type> {
        let bases = [("int", 0), ("bool", 1), ("unit", 2), ("float", 3)];
        let kinds = [Type::Int, Type::Bool, Type::Unit, Type::Float];
        let (_, base) = self.take_any(&bases)?;
        let mut kind = kinds.into_iter().nth(base)?;
        while self.take("ref").is_some() {
            kind = Type::Ref(Box::new(kind));
        }
        Some(kind)
    }

    pub fn block(&mut self) -> Option<Node> {
        let place = self.take("{")?;
        let inside = self.seq()?;
        self.take("}")?;
        Some(Node {
            place,
            form: Form::Block(Box::new(inside)),
        })
    }

    pub fn seq(&mut self) -> Option<Node> {
        if self.sees("let") {
            return self.binding();
        }
        let first = self.item()?;
        let Some(place) = self.take(";") else {
            return Some(first);
        };
        let second = self.seq()?;
        Some(infix(place, Infix::Then, first, second))
    }

    fn binding(&mut self) -> Option<Node> {
        let place = self.take("let")?;
        let (name, _) = self.name()?;
        self.take("=")?;
        let bound = Box::new(self.seq()?);
        self.take("in")?;
        let body = Box::new(self.seq()?);
        Some(Node {
            place,
            form: Form::Let(name, bound, body),
        })
    }

    fn item(&mut self) -> Option<Node> {
        if let Some(place) = self.take("if") {
            let test = Box::new(self.seq()?);
            self.take("then")?;
            let yes = Box::new(self.seq()?);
            self.take("else")?;
            let no = Box::new(self.last_branch()?);
            return Some(Node {
                place,
                form: Form::If(test, yes, no),
            });
        }
        if let Some(place) = self.take("while") {
            let test = Box::new(self.seq()?);
            let body = Box::new(self.block()?);
            return Some(Node {
                place,
                form: Form::While(test, body),
            });
        }
        if let Some(place) = self.take("for") {
            let form = Form::For(Box::new(self.counted()?));
            return Some(Node { place, form });
        }
        self.assign()
    }

    /// What stands behind `for`, which is a word in edition 2 only.
    fn counted(&mut self) -> Option<For> {
        let (name, _) = self.name()?;
        self.take("in")?;
        let start = self.or()?;
        let (_, with_end) = self.take_any(&[("..", false), ("..=", true)])?;
        let end = self.or()?;
        let step = match self.take("by") {
            Some(_) => Some(self.or()?),
            None => None,
        };
        let body = self.block()?;
        Some(For {
            name,
            start,
            end,
            with_end,
            step,
            body,
        })
    }

    /// A let here reaches as far right as it can, so nothing of the sequence
    /// is left for the `if` to be followed by.
    fn last_branch(&mut self) -> Option<Node> {
        match self.let_after_else && self.sees("let") {
            true => self.binding(),
            false => self.item(),
        }
    }
}

#[cfg(test)]
mod tests {
    use super::*;
    use crate::text::tokens;
    use crate::{on_big_stack, trial};

    /// R05.4: what had a reading before has the same one, and there is more now.
    #[test]
    fn readings_before_are_readings() {
        let (mut before, mut now) = (0, 0);
        on_big_stack(|| {
            for trial in (0..3000).map(|index| trial::make(5, index)) {
                let tokens = tokens(&trial.sheet, trial.lent.edition).unwrap_or_default();
                let reading = read(&tokens);
                now += u32::from(reading.is_some());
                if let Some(program) = read_before(&tokens) {
                    before += 1;
                    assert_eq!(Some(program), reading);
                }
            }
        });
        assert!(100 < before && before < now, "{before} and {now}");
    }
}
