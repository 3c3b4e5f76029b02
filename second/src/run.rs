//! The interpreter. It only ever sees programs the checker has passed.

use crate::tree::{For, Form, Function, Infix, Node, Prefix, Program};
use crate::values::{in_range, operate, Value};
use crate::Refusal;
use std::collections::{BTreeMap, HashMap};

pub const MOST_ACTIVE: usize = 512;
pub const MOST_CELLS: usize = 1024;

/// How a run came out, whether by a value or by a stop.
pub struct Outcome {
    pub end: Result<Value, Refusal>,
    pub units: u64,
    pub printed: Vec<u8>,
}

/// The bindings one activation can see, nearest last.
type Scope<'a> = Vec<(&'a str, Value)>;
type Step = Result<Value, Refusal>;

struct Machine<'a> {
    functions: HashMap<&'a str, &'a Function>,
    allowance: u64,
    units: u64,
    /// Nodes begun and not ended.
    active: usize,
    /// Live cells by birth number. Taking freed ones out of the map is all
    /// it needs to tell an old reference from a new cell.
    cells: BTreeMap<u64, Value>,
    births: u64,
    printed: Vec<u8>,
    room: usize,
}

pub fn run(program: &Program, allowance: u64, room: usize) -> Outcome {
    let mut machine = Machine {
        functions: program
            .functions
            .iter()
            .map(|f| (f.name.as_str(), f))
            .collect(),
        allowance,
        units: 0,
        active: 0,
        cells: BTreeMap::new(),
        births: 0,
        printed: Vec::new(),
        room,
    };
    let end = machine.node(&program.last, &mut Vec::new());
    Outcome {
        end,
        units: machine.units,
        printed: machine.printed,
    }
}

/// A result, or a stop at the node.
fn at(node: &Node, result: Result<Value, u32>) -> Step {
    result.map_err(|number| Refusal::new(number, node.place))
}

fn stop<T>(number: u32, node: &Node) -> Result<T, Refusal> {
    Err(Refusal::new(number, node.place))
}

impl<'a> Machine<'a> {
    fn node(&mut self, node: &'a Node, scope: &mut Scope<'a>) -> Step {
        if self.units == self.allowance {
            return stop(50, node);
        }
        self.units += 1;
        if self.active == MOST_ACTIVE {
            return stop(51, node);
        }
        self.active += 1;
        let value = self.form(node, scope)?;
        self.active -= 1;
        Ok(value)
    }

    fn form(&mut self, node: &'a Node, scope: &mut Scope<'a>) -> Step {
        match &node.form {
            Form::Number(value) => Ok(Value::Int(*value)),
            Form::Float(value) => Ok(Value::Float(*value)),
            Form::Truth(truth) => Ok(Value::Bool(*truth)),
            Form::Unit => Ok(Value::Unit),
            Form::Variable(name) => Ok(nearest(scope, name)),
            Form::Call(name, arguments) => self.call(node, name, arguments, scope),
            Form::Group(inside) => self.node(inside, scope),
            Form::Block(inside) => self.block(inside, scope),
            Form::Prefix(prefix, inside) => {
                let value = self.node(inside, scope)?;
                self.prefix(node, *prefix, value)
            }
            Form::Infix(Infix::And, left, right) => self.both(left, right, false, scope),
            Form::Infix(Infix::Or, left, right) => self.both(left, right, true, scope),
            Form::Infix(mark, left, right) => {
                let left = self.node(left, scope)?;
                let right = self.node(right, scope)?;
                self.infix(node, *mark, left, right)
            }
            Form::Let(name, bound, body) => {
                let value = self.node(bound, scope)?;
                scope.push((name, value));
                let result = self.node(body, scope)?;
                scope.pop();
                Ok(result)
            }
            Form::If(test, yes, no) => match self.node(test, scope)? {
                Value::Bool(true) => self.node(yes, scope),
                _ => self.node(no, scope),
            },
            Form::While(test, body) => self.repeated(test, body, scope),
            Form::For(counted) => self.counted(node, counted, scope),
        }
    }

    fn repeated(&mut self, test: &'a Node, body: &'a Node, scope: &mut Scope<'a>) -> Step {
        while self.node(test, scope)? == Value::Bool(true) {
            self.node(body, scope)?;
        }
        Ok(Value::Unit)
    }

    /// The bounds are worked out once, in the order they are written in; without
    /// a step the loop goes toward its end by one.
    fn counted(&mut self, node: &'a Node, counted: &'a For, scope: &mut Scope<'a>) -> Step {
        let start = self.node(&counted.start, scope)?.code();
        let end = self.node(&counted.end, scope)?.code();
        let step = match &counted.step {
            Some(step) => self.node(step, scope)?.code(),
            None if start > end => -1,
            None => 1,
        };
        if step == 0 {
            return stop(58, node);
        }
        for pass in passes(start, end, step, counted.with_end) {
            scope.push((&counted.name, Value::Int(pass)));
            self.node(&counted.body, scope)?;
            scope.pop();
        }
        Ok(Value::Unit)
    }

    /// `&&` and `||`: when the left side is `settled`, it is the answer and
    /// the right side is never begun.
    fn both(
        &mut self,
        left: &'a Node,
        right: &'a Node,
        settled: bool,
        scope: &mut Scope<'a>,
    ) -> Step {
        let first = self.node(left, scope)?;
        if first == Value::Bool(settled) {
            return Ok(first);
        }
        self.node(right, scope)
    }

    fn block(&mut self, inside: &'a Node, scope: &mut Scope<'a>) -> Step {
        let first_inside = self.births + 1;
        let value = self.node(inside, scope)?;
        self.cells.split_off(&first_inside);
        Ok(value)
    }

    fn call(
        &mut self,
        node: &Node,
        name: &str,
        arguments: &'a [Node],
        scope: &mut Scope<'a>,
    ) -> Step {
        let mut values = Vec::new();
        for argument in arguments {
            values.push(self.node(argument, scope)?);
        }
        let Some(function) = self.functions.get(name).copied() else {
            return self.putchar(node, values[0]);
        };
        // A fresh scope: nothing of the caller's is in sight.
        let names = function.parameters.iter().map(|p| p.name.as_str());
        let mut own: Scope<'a> = names.zip(values).collect();
        self.node(&function.body, &mut own)
    }

    fn putchar(&mut self, node: &Node, value: Value) -> Step {
        let Ok(byte) = u8::try_from(value.code()) else {
            return stop(56, node);
        };
        if self.printed.len() == self.room {
            return stop(57, node);
        }
        self.printed.push(byte);
        Ok(value)
    }

    fn prefix(&mut self, node: &Node, prefix: Prefix, value: Value) -> Step {
        match (prefix, value) {
            (Prefix::Minus, Value::Int(int)) => at(node, in_range(-i64::from(int))),
            (Prefix::Not, Value::Bool(truth)) => Ok(Value::Bool(!truth)),
            (Prefix::Read, Value::Ref(birth)) => match self.cells.get(&birth) {
                Some(content) => Ok(*content),
                None => stop(54, node),
            },
            (Prefix::Cell, content) => self.cell(node, content),
            _ => unreachable!("the checker lets no other operand through"),
        }
    }

    fn cell(&mut self, node: &Node, content: Value) -> Step {
        if self.cells.len() == MOST_CELLS {
            return stop(55, node);
        }
        self.births += 1;
        self.cells.insert(self.births, content);
        Ok(Value::Ref(self.births))
    }

    fn infix(&mut self, node: &Node, mark: Infix, left: Value, right: Value) -> Step {
        match (mark, left, right) {
            (Infix::Then, _, _) => Ok(right),
            (Infix::Write, Value::Ref(birth), _) => match self.cells.get_mut(&birth) {
                Some(content) => {
                    *content = right;
                    Ok(Value::Unit)
                }
                None => stop(54, node),
            },
            _ => at(node, operate(mark, left, right)),
        }
    }
}

/// What the name of a counted loop is in each pass. Counted in 64 bits, where a
/// step never leaves the range; past 32 bits there is no pass.
fn passes(start: i64, end: i64, step: i64, with_end: bool) -> impl Iterator<Item = i32> {
    let within = move |at: &i64| match *at == end {
        true => with_end,
        false => (*at < end) == (step > 0),
    };
    let steps = (0..).map(move |count: i64| start + count * step);
    steps
        .take_while(within)
        .map_while(|at| i32::try_from(at).ok())
}

fn nearest(scope: &Scope, name: &str) -> Value {
    let found = scope.iter().rev().find(|(n, _)| *n == name);
    found.expect("the checker knows every name").1
}
