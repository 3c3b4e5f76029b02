//! The tree of a program. Every node has the place of its own token.

use crate::types::Type;

#[derive(Debug, PartialEq)]
pub struct Program {
    pub functions: Vec<Function>,
    pub last: Node,
}

#[derive(Debug, PartialEq)]
pub struct Function {
    pub def: usize,
    pub name: String,
    pub name_place: usize,
    pub parameters: Vec<Parameter>,
    pub result: Type,
    pub body: Node,
}

#[derive(Debug, PartialEq)]
pub struct Parameter {
    pub name: String,
    pub place: usize,
    pub kind: Type,
}

#[derive(Debug, PartialEq)]
pub struct Node {
    pub place: usize,
    pub form: Form,
}

#[derive(Clone, Copy, Debug, PartialEq, Eq)]
pub enum Prefix {
    Minus,
    Not,
    Read,
    Cell,
}

#[derive(Clone, Copy, Debug, PartialEq, Eq)]
pub enum Infix {
    Plus,
    Minus,
    Times,
    Over,
    Less,
    Same,
    And,
    Or,
    Write,
    Then,
}

#[derive(Debug, PartialEq)]
pub enum Form {
    Number(i32),
    Float(f64),
    Truth(bool),
    Unit,
    Variable(String),
    Call(String, Vec<Node>),
    Group(Box<Node>),
    Block(Box<Node>),
    Prefix(Prefix, Box<Node>),
    Infix(Infix, Box<Node>, Box<Node>),
    Let(String, Box<Node>, Box<Node>),
    If(Box<Node>, Box<Node>, Box<Node>),
    While(Box<Node>, Box<Node>),
    For(Box<For>),
}

/// A counted loop.
#[derive(Debug, PartialEq)]
pub struct For {
    pub name: String,
    pub start: Node,
    pub end: Node,
    /// Whether the end is a pass too.
    pub with_end: bool,
    pub step: Option<Node>,
    pub body: Node,
}

pub fn infix(place: usize, mark: Infix, left: Node, right: Node) -> Node {
    Node {
        place,
        form: Form::Infix(mark, Box::new(left), Box::new(right)),
    }
}

impl Node {
    pub fn children(&self) -> Vec<&Node> {
        match &self.form {
            Form::Number(_) | Form::Float(_) | Form::Truth(_) | Form::Unit | Form::Variable(_) => {
                vec![]
            }
            Form::Call(_, arguments) => arguments.iter().collect(),
            Form::Group(a) | Form::Block(a) | Form::Prefix(_, a) => vec![a],
            Form::Infix(_, a, b) | Form::Let(_, a, b) | Form::While(a, b) => vec![a, b],
            Form::If(a, b, c) => vec![a, b, c],
            Form::For(f) => {
                let bounds = [&f.start, &f.end].into_iter().chain(&f.step);
                bounds.chain([&f.body]).collect()
            }
        }
    }
}

#[cfg(test)]
mod tests {
    use super::*;
    use crate::chance::Chance;
    use crate::grammar::read;
    use crate::text::tokens;
    use crate::{damage, on_big_stack, sheets};

    fn places(node: &Node, found: &mut Vec<usize>) {
        found.push(node.place);
        node.children().iter().for_each(|c| places(c, found));
    }

    /// No two nodes have one token, so a program never has more nodes than
    /// tokens (R02.2).
    #[test]
    fn every_node_has_a_token_of_its_own() {
        let check = |index: u64| {
            let mut chance = Chance::new(21, index);
            let words = sheets::program(&mut chance, 40, 2);
            let sheet = damage::spell(&mut chance, &words);
            let Ok(tokens) = tokens(&sheet, 2) else {
                return;
            };
            let program = read(&tokens).expect("it has a reading");
            let mut found = Vec::new();
            for function in &program.functions {
                places(&function.body, &mut found);
            }
            places(&program.last, &mut found);
            let count = found.len();
            found.sort();
            found.dedup();
            assert_eq!(found.len(), count, "trial {index}");
            let tokens: Vec<usize> = tokens.iter().map(|t| t.place).collect();
            assert!(found.iter().all(|p| tokens.contains(p)), "trial {index}");
        };
        on_big_stack(|| (0..1000).for_each(check));
    }
}
