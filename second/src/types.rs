//! The checker: which type a program has, or the first refusal in it.

use crate::tree::{For, Form, Function, Infix, Node, Prefix, Program};
use crate::Refusal;
use std::collections::HashMap;

pub const MOST_FUNCTIONS: usize = 32;
pub const MOST_PARAMETERS: usize = 8;
pub const MOST_REFS: u64 = 15;

#[derive(Clone, Debug, PartialEq, Eq)]
pub enum Type {
    Int,
    Bool,
    Unit,
    Float,
    Ref(Box<Type>),
}

impl Type {
    pub fn refs(&self) -> u64 {
        match self {
            Type::Ref(inside) => 1 + inside.refs(),
            _ => 0,
        }
    }

    /// The number a report gives for this type.
    pub fn code(&self) -> u64 {
        match self {
            Type::Int => 1,
            Type::Bool => 2,
            Type::Unit => 3,
            Type::Float => 4,
            Type::Ref(inside) => 8 + inside.code(),
        }
    }
}

struct Signature {
    parameters: Vec<Type>,
    result: Type,
}

struct Checker {
    functions: HashMap<String, Signature>,
    /// Innermost binding last, so a search from the end finds the nearest.
    variables: Vec<(String, Type)>,
}

pub fn check(program: &Program) -> Result<Type, Refusal> {
    let putchar = Signature {
        parameters: vec![Type::Int],
        result: Type::Int,
    };
    let functions = HashMap::from([("putchar".to_string(), putchar)]);
    let mut checker = Checker {
        functions,
        variables: Vec::new(),
    };
    for (index, function) in program.functions.iter().enumerate() {
        checker.function(index, function)?;
    }
    checker.node(&program.last)
}

fn refuse<T>(number: u32, place: usize) -> Result<T, Refusal> {
    Err(Refusal::new(number, place))
}

impl Checker {
    fn function(&mut self, index: usize, f: &Function) -> Result<(), Refusal> {
        if index >= MOST_FUNCTIONS {
            return refuse(30, f.def);
        }
        if self.functions.contains_key(&f.name) {
            return refuse(31, f.name_place);
        }
        check_parameters(f)?;
        if f.result.refs() > MOST_REFS {
            return refuse(34, f.def);
        }
        // Known before the body is looked at, so that it may call itself.
        let parameters = f.parameters.iter().map(|p| p.kind.clone()).collect();
        let signature = Signature {
            parameters,
            result: f.result.clone(),
        };
        self.functions.insert(f.name.clone(), signature);
        self.variables = f
            .parameters
            .iter()
            .map(|p| (p.name.clone(), p.kind.clone()))
            .collect();
        let body = self.node(&f.body)?;
        self.variables.clear();
        if body != f.result {
            return refuse(33, f.def);
        }
        Ok(())
    }

    fn node(&mut self, node: &Node) -> Result<Type, Refusal> {
        // Of a let and a counted loop the last child sees more than the others.
        if let Form::Let(name, bound, body) = &node.form {
            let kind = self.node(bound)?;
            self.variables.push((name.clone(), kind));
            let result = self.node(body)?;
            self.variables.pop();
            return Ok(result);
        }
        if let Form::For(counted) = &node.form {
            return self.counted(node, counted);
        }
        let mut inside = Vec::new();
        for child in node.children() {
            inside.push(self.node(child)?);
        }
        if let (Form::Prefix(Prefix::Cell, _), [kind]) = (&node.form, &inside[..]) {
            if kind.refs() >= MOST_REFS {
                return refuse(34, node.place);
            }
        }
        self.rule(&node.form, &inside)
            .map_err(|number| Refusal::new(number, node.place))
    }

    /// Bounds and body have types before the loop asks which, the body with the
    /// name as an int whatever the bounds are.
    fn counted(&mut self, node: &Node, counted: &For) -> Result<Type, Refusal> {
        let bounds = [&counted.start, &counted.end]
            .into_iter()
            .chain(&counted.step);
        let mut fits = true;
        for bound in bounds {
            fits &= self.node(bound)? == Type::Int;
        }
        self.variables.push((counted.name.clone(), Type::Int));
        fits &= self.node(&counted.body)? == Type::Unit;
        self.variables.pop();
        match fits {
            true => Ok(Type::Unit),
            false => refuse(33, node.place),
        }
    }

    /// The type of a form whose children have these types, or the number of
    /// its refusal.
    fn rule(&self, form: &Form, inside: &[Type]) -> Result<Type, u32> {
        let fitting = match (form, inside) {
            (Form::Variable(name), _) => return self.variable(name),
            (Form::Call(name, _), arguments) => return self.call(name, arguments),
            (Form::Number(_), _) => Some(Type::Int),
            (Form::Float(_), _) => Some(Type::Float),
            (Form::Truth(_), _) => Some(Type::Bool),
            (Form::Unit, _) => Some(Type::Unit),
            (Form::Group(_) | Form::Block(_), [kind]) => Some(kind.clone()),
            (Form::Prefix(prefix, _), [kind]) => prefix_rule(*prefix, kind),
            (Form::Infix(mark, ..), [left, right]) => infix_rule(*mark, left, right),
            (Form::If(..), [Type::Bool, yes, no]) => (yes == no).then(|| yes.clone()),
            (Form::While(..), [Type::Bool, Type::Unit]) => Some(Type::Unit),
            _ => None,
        };
        fitting.ok_or(33)
    }

    fn variable(&self, name: &str) -> Result<Type, u32> {
        let nearest = self.variables.iter().rev().find(|(n, _)| n == name);
        nearest.map(|(_, kind)| kind.clone()).ok_or(35)
    }

    fn call(&self, name: &str, arguments: &[Type]) -> Result<Type, u32> {
        let signature = self.functions.get(name).ok_or(36u32)?;
        if signature.parameters.len() != arguments.len() {
            return Err(37);
        }
        match signature.parameters == arguments {
            true => Ok(signature.result.clone()),
            false => Err(33),
        }
    }
}

fn check_parameters(f: &Function) -> Result<(), Refusal> {
    for (index, parameter) in f.parameters.iter().enumerate() {
        if index >= MOST_PARAMETERS {
            return refuse(30, parameter.place);
        }
        if f.parameters[..index]
            .iter()
            .any(|p| p.name == parameter.name)
        {
            return refuse(32, parameter.place);
        }
        if parameter.kind.refs() > MOST_REFS {
            return refuse(34, parameter.place);
        }
    }
    Ok(())
}

fn prefix_rule(prefix: Prefix, kind: &Type) -> Option<Type> {
    match (prefix, kind) {
        (Prefix::Minus, Type::Int) => Some(Type::Int),
        (Prefix::Not, Type::Bool) => Some(Type::Bool),
        (Prefix::Read, Type::Ref(inside)) => Some((**inside).clone()),
        (Prefix::Cell, _) => Some(Type::Ref(Box::new(kind.clone()))),
        _ => None,
    }
}

fn infix_rule(mark: Infix, left: &Type, right: &Type) -> Option<Type> {
    match (mark, left, right) {
        (Infix::Plus | Infix::Minus | Infix::Times | Infix::Over, left, right) => {
            (is_arithmetic(left) && left == right).then(|| left.clone())
        }
        (Infix::Less, left, right) => (is_arithmetic(left) && left == right).then_some(Type::Bool),
        (Infix::Same, Type::Int, Type::Int) => Some(Type::Bool),
        (Infix::And | Infix::Or, Type::Bool, Type::Bool) => Some(Type::Bool),
        (Infix::Write, Type::Ref(inside), _) => (**inside == *right).then_some(Type::Unit),
        (Infix::Then, Type::Unit, _) => Some(right.clone()),
        _ => None,
    }
}

/// The source document's arithmetic types.
fn is_arithmetic(kind: &Type) -> bool {
    matches!(kind, Type::Int | Type::Float)
}
