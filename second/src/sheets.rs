//! Random programs that have a type. They are written token by token, rule by
//! rule, knowing at each point which names are in sight and which type is due.

use crate::chance::Chance;
use crate::forms::{CMP, ITEM, PROD, SEQ};
use crate::near;
use crate::types::Type;

/// What a call of a function already written needs.
#[derive(Clone)]
pub struct Known {
    pub name: String,
    pub parameters: Vec<Type>,
    pub result: Type,
    /// Its first argument says how many times it calls itself.
    pub counts_down: bool,
}

pub struct Writer<'a> {
    pub chance: &'a mut Chance,
    pub tokens: Vec<String>,
    pub variables: Vec<(String, Type)>,
    pub functions: Vec<Known>,
    /// How many more nodes may be spent before only leaves are written.
    pub fuel: i32,
    pub counters: usize,
    pub loops: usize,
    /// 1 or 2, or 0 for what is the same in both.
    pub edition: u32,
}

/// Few names, so that they hide one another often. One is a function's too.
pub const NAMES: [&str; 8] = ["x", "y", "z", "w", "f0", "putchar", "ints", "a_1"];

/// The tokens of one program of this edition.
pub fn program(chance: &mut Chance, fuel: i32, edition: u32) -> Vec<String> {
    let mut writer = Writer::new(chance, fuel);
    writer.edition = edition;
    for index in 0..writer.chance.pick(&[0, 0, 1, 1, 2, 3, 4]) {
        writer.function(index);
    }
    let kind = writer.kind();
    let start = writer.tokens.len();
    // A few attempts at one that is not over after a leaf or two.
    for _ in 0..4 {
        writer.tokens.truncate(start);
        writer.fuel = fuel;
        writer.expression(&kind, SEQ);
        if writer.tokens.len() - start >= fuel as usize {
            break;
        }
    }
    writer.tokens
}

pub fn cell_of(kind: &Type) -> Type {
    Type::Ref(Box::new(kind.clone()))
}

impl<'a> Writer<'a> {
    pub fn new(chance: &'a mut Chance, fuel: i32) -> Writer<'a> {
        let (tokens, variables, functions) = (Vec::new(), Vec::new(), Vec::new());
        Writer {
            chance,
            tokens,
            variables,
            functions,
            fuel,
            counters: 0,
            loops: 0,
            edition: 0,
        }
    }

    pub fn put(&mut self, tokens: &str) {
        self.tokens.extend(tokens.split(' ').map(str::to_string));
    }

    pub fn kind(&mut self) -> Type {
        let (int, float) = (Type::Int, Type::Float);
        let base = [int.clone(), int.clone(), int, Type::Bool, Type::Unit, float];
        let mut kind = base[self.chance.below(base.len())].clone();
        while self.chance.one_in(5) {
            kind = cell_of(&kind);
        }
        kind
    }

    /// A name to be bound, now and then one that is all but reserved.
    pub fn name(&mut self) -> String {
        match self.chance.one_in(6) {
            true => near::name(self.chance, self.edition),
            false => self.chance.pick(&NAMES).to_string(),
        }
    }

    fn put_kind(&mut self, kind: &Type) {
        match kind {
            Type::Int => self.put("int"),
            Type::Bool => self.put("bool"),
            Type::Unit => self.put("unit"),
            Type::Float => self.put("float"),
            Type::Ref(inside) => {
                self.put_kind(inside);
                self.put("ref");
            }
        }
    }

    pub fn function(&mut self, index: usize) {
        let counts_down = self.chance.one_in(3);
        let mut parameters: Vec<(String, Type)> = Vec::new();
        if counts_down {
            parameters.push(("n".to_string(), Type::Int));
        }
        let more = self.chance.below(4);
        for (number, common) in NAMES.iter().enumerate().take(more) {
            let kind = self.kind();
            let own = format!("p{number}");
            let name = if self.chance.one_in(2) { &own } else { *common };
            parameters.push((name.to_string(), kind));
        }
        let result = self.kind();
        let name = format!("f{index}");
        self.head(&name, &parameters, &result);
        let kinds = parameters.iter().map(|(_, kind)| kind.clone()).collect();
        let known = Known {
            name,
            parameters: kinds,
            result: result.clone(),
            counts_down,
        };
        self.variables = parameters;
        self.fuel = self.chance.between(3, 25) as i32;
        match counts_down {
            true => self.countdown(&known),
            false => self.expression(&result, SEQ),
        }
        self.variables.clear();
        self.functions.push(known);
        self.put("}");
    }

    fn head(&mut self, name: &str, parameters: &[(String, Type)], result: &Type) {
        self.put(&format!("def {name} ("));
        for (number, (name, kind)) in parameters.iter().enumerate() {
            if number > 0 {
                self.put(",");
            }
            self.put(&format!("{name} :"));
            self.put_kind(kind);
        }
        self.put(") :");
        self.put_kind(result);
        self.put("{");
    }

    /// A body that calls itself with n - 1 until n is below 1.
    fn countdown(&mut self, known: &Known) {
        self.put("if n < 1 then");
        self.fuel /= 2;
        self.expression(&known.result, SEQ);
        self.put("else");
        if self.chance.one_in(4) {
            let name = self.chance.pick(&NAMES);
            self.put(&format!("let {name} ="));
            self.expression(&Type::Int, SEQ);
            self.put("in");
            self.variables.push((name.to_string(), Type::Int));
        }
        match &known.result {
            Type::Int | Type::Float if self.chance.one_in(2) => {
                self.expression(&known.result, PROD)
            }
            Type::Bool if self.chance.one_in(2) => self.expression(&Type::Bool, CMP),
            Type::Unit if self.chance.one_in(2) => self.expression(&Type::Unit, ITEM),
            _ => return self.call(known, "n - 1"),
        }
        let joint = match known.result {
            Type::Int | Type::Float => self.chance.pick(&["+", "-", "*"]),
            Type::Bool => self.chance.pick(&["&&", "||"]),
            _ => ";",
        };
        self.put(joint);
        self.call(known, "n - 1");
    }

    /// A call; the text is the first argument of functions that count down.
    pub fn call(&mut self, known: &Known, count: &str) {
        self.put(&format!("{} (", known.name));
        for (number, kind) in known.parameters.iter().enumerate() {
            if number > 0 {
                self.put(",");
            }
            match number == 0 && known.counts_down {
                true => self.put(count),
                false => self.expression(kind, SEQ),
            }
        }
        self.put(")");
    }
}
