//! The rules of the grammar for operators and what they stand between.

use crate::grammar::Reader;
use crate::text::{Kind, Token};
use crate::tree::{infix, Form, Infix, Node, Prefix};

impl Reader<'_> {
    pub fn assign(&mut self) -> Option<Node> {
        self.at_most_once(&[(":=", Infix::Write)], Reader::or)
    }

    pub fn or(&mut self) -> Option<Node> {
        self.repeated(&[("||", Infix::Or)], Reader::and)
    }

    fn and(&mut self) -> Option<Node> {
        self.repeated(&[("&&", Infix::And)], Reader::cmp)
    }

    fn cmp(&mut self) -> Option<Node> {
        self.at_most_once(&[("<", Infix::Less), ("==", Infix::Same)], Reader::sum)
    }

    fn sum(&mut self) -> Option<Node> {
        self.repeated(&[("+", Infix::Plus), ("-", Infix::Minus)], Reader::prod)
    }

    fn prod(&mut self) -> Option<Node> {
        self.repeated(&[("*", Infix::Times), ("/", Infix::Over)], Reader::un)
    }

    fn repeated(
        &mut self,
        marks: &[(&str, Infix)],
        part: fn(&mut Self) -> Option<Node>,
    ) -> Option<Node> {
        let mut left = part(self)?;
        while let Some((place, mark)) = self.take_any(marks) {
            left = infix(place, mark, left, part(self)?);
        }
        Some(left)
    }

    fn at_most_once(
        &mut self,
        marks: &[(&str, Infix)],
        part: fn(&mut Self) -> Option<Node>,
    ) -> Option<Node> {
        let left = part(self)?;
        match self.take_any(marks) {
            Some((place, mark)) => Some(infix(place, mark, left, part(self)?)),
            None => Some(left),
        }
    }

    fn un(&mut self) -> Option<Node> {
        let prefixes = [
            ("-", Prefix::Minus),
            ("not", Prefix::Not),
            ("!", Prefix::Read),
            ("ref", Prefix::Cell),
        ];
        match self.take_any(&prefixes) {
            Some((place, prefix)) => {
                let inside = Box::new(self.un()?);
                Some(Node {
                    place,
                    form: Form::Prefix(prefix, inside),
                })
            }
            None => self.atom(),
        }
    }

    fn atom(&mut self) -> Option<Node> {
        let Token { kind, place, .. } = self.here()?.clone();
        let form = match kind {
            Kind::Fixed("{") => return self.block(),
            Kind::Fixed("(") => return self.group(),
            Kind::Name(_) => return self.variable_or_call(),
            Kind::Number(value) => Form::Number(value),
            Kind::Float(value) => Form::Float(value),
            Kind::Fixed("true") => Form::Truth(true),
            Kind::Fixed("false") => Form::Truth(false),
            Kind::Fixed("tt") => Form::Unit,
            Kind::Fixed(_) => return None,
        };
        self.at += 1;
        Some(Node { place, form })
    }

    fn group(&mut self) -> Option<Node> {
        let place = self.take("(")?;
        let inside = self.seq()?;
        self.take(")")?;
        Some(Node {
            place,
            form: Form::Group(Box::new(inside)),
        })
    }

    fn variable_or_call(&mut self) -> Option<Node> {
        let (name, place) = self.name()?;
        if self.take("(").is_none() {
            return Some(Node {
                place,
                form: Form::Variable(name),
            });
        }
        let arguments = self.list(Reader::seq)?;
        Some(Node {
            place,
            form: Form::Call(name, arguments),
        })
    }
}
