//! The expressions of random programs: one function for each kind of form.

use crate::numbers;
use crate::sheets::{cell_of, Known, Writer};
use crate::types::Type;

/// Rule levels, loosest first: an expression written for one level may use
/// its forms and those of all later levels.
pub const SEQ: u8 = 0;
pub const ITEM: u8 = 1;
pub const ASSIGN: u8 = 2;
pub const OR: u8 = 3;
pub const AND: u8 = 4;
pub const CMP: u8 = 5;
pub const SUM: u8 = 6;
pub const PROD: u8 = 7;
pub const UN: u8 = 8;
pub const ATOM: u8 = 9;

impl Writer<'_> {
    /// Writes an expression of this type for a place of this rule level.
    pub fn expression(&mut self, kind: &Type, level: u8) {
        self.fuel -= 1;
        // Without early leaves all the fuel would go into the first branch.
        if self.fuel <= 0 || self.chance.one_in(7) {
            return self.leaf(kind, level);
        }
        for _ in 0..6 {
            let form = self.chance.below(13) as u8;
            if form >= level && self.form(form, kind, level) {
                return;
            }
        }
        self.leaf(kind, level);
    }

    /// Writes this form if it can have the type, for a place of this level.
    /// Numbers past the levels are further ways to write an atom.
    fn form(&mut self, form: u8, kind: &Type, level: u8) -> bool {
        match form {
            SEQ => self.seq(kind),
            ITEM => self.item(kind, level == SEQ),
            ASSIGN if *kind == Type::Unit => self.write(),
            OR if *kind == Type::Bool => self.pair(kind, OR, "||", AND),
            AND if *kind == Type::Bool => self.pair(kind, AND, "&&", CMP),
            CMP if *kind == Type::Bool => {
                let mark = self.chance.pick(&["<", "=="]);
                let float = mark == "<" && self.chance.one_in(3);
                let inside = if float { Type::Float } else { Type::Int };
                self.pair(&inside, SUM, mark, SUM);
            }
            SUM if matches!(kind, Type::Int | Type::Float) => {
                let mark = self.chance.pick(&["+", "-"]);
                self.pair(kind, SUM, mark, PROD);
            }
            PROD if matches!(kind, Type::Int | Type::Float) => {
                let mark = self.chance.pick(&["*", "*", "/"]);
                self.pair(kind, PROD, mark, UN);
            }
            UN => self.prefix(kind),
            ATOM => self.wrapped("(", kind, ")"),
            10 if self.chance.one_in(2) => self.wrapped("{", kind, "}"),
            11 => return self.known_call(kind),
            12 if *kind == Type::Int => self.print(),
            _ => return false,
        }
        true
    }

    fn pair(&mut self, kind: &Type, left: u8, mark: &str, right: u8) {
        self.expression(kind, left);
        self.put(mark);
        self.expression(kind, right);
    }

    fn wrapped(&mut self, open: &str, kind: &Type, close: &str) {
        self.put(open);
        self.expression(kind, SEQ);
        self.put(close);
    }

    fn seq(&mut self, kind: &Type) {
        if self.chance.one_in(3) {
            self.expression(&Type::Unit, ITEM);
            self.put(";");
            return self.expression(kind, SEQ);
        }
        if self.chance.one_in(4) && self.loops < 2 {
            return self.counted_loop(kind);
        }
        self.binding(kind);
    }

    fn binding(&mut self, kind: &Type) {
        let plain = self.kind();
        let bound = if self.chance.one_in(3) {
            cell_of(&plain)
        } else {
            plain
        };
        let name = self.name();
        self.put(&format!("let {name} ="));
        self.expression(&bound, SEQ);
        self.put("in");
        self.variables.push((name, bound));
        self.expression(kind, SEQ);
        self.variables.pop();
    }

    /// A loop whose counter nothing else can name.
    fn counted_loop(&mut self, kind: &Type) {
        let counter = format!("i_{}", self.counters);
        let rounds = self.chance.below(5);
        self.counters += 1;
        self.loops += 1;
        self.put(&format!(
            "let {counter} = ref 0 in while ! {counter} < {rounds} {{"
        ));
        self.expression(&Type::Unit, ITEM);
        self.put(&format!("; {counter} := ! {counter} + 1 }} ;"));
        self.loops -= 1;
        self.expression(kind, SEQ);
    }

    /// An `if` or a loop; whether it is the last of its sequence matters, as
    /// only then its last branch may be a let.
    fn item(&mut self, kind: &Type, last: bool) {
        if *kind == Type::Unit && self.edition == 2 && self.chance.one_in(3) {
            return self.counted();
        }
        if *kind == Type::Unit && self.chance.one_in(12) {
            self.put("while");
            self.expression(&Type::Bool, SEQ);
            return self.wrapped("{", kind, "}");
        }
        self.put("if");
        self.expression(&Type::Bool, SEQ);
        self.put("then");
        self.expression(kind, SEQ);
        self.put("else");
        match self.chance.below(4) {
            0 if last => self.binding(kind),
            1 if last && self.fuel > 0 => self.item(kind, true),
            _ => self.expression(kind, ITEM),
        }
    }

    /// A loop of edition 2, mostly with few passes.
    fn counted(&mut self) {
        let name = self.name();
        self.put(&format!("for {name} in"));
        self.bound();
        let mark = self.chance.pick(&["..", "..="]);
        self.put(mark);
        self.bound();
        if self.chance.one_in(3) {
            self.put("by");
            match self.chance.one_in(3) {
                true => self.bound(),
                false => {
                    let step = self.chance.pick(&["1", "2", "- 1", "- 2", "3", "0"]);
                    self.put(step);
                }
            }
        }
        self.variables.push((name, Type::Int));
        self.wrapped("{", &Type::Unit, "}");
        self.variables.pop();
    }

    fn bound(&mut self) {
        match self.chance.one_in(4) {
            true => self.expression(&Type::Int, OR),
            false => {
                let number = self.chance.below(6).to_string();
                self.put(&number);
            }
        }
    }

    fn write(&mut self) {
        let content = self.kind();
        if self.chance.one_in(4) || !self.variable(&cell_of(&content)) {
            self.expression(&cell_of(&content), OR);
        }
        self.put(":=");
        self.expression(&content, OR);
    }

    fn prefix(&mut self, kind: &Type) {
        match kind {
            Type::Ref(inside) if self.chance.one_in(2) => {
                self.put("ref");
                self.expression(inside, UN);
            }
            Type::Int if self.chance.one_in(2) => {
                self.put("-");
                self.expression(kind, UN);
            }
            Type::Bool if self.chance.one_in(2) => {
                self.put("not");
                self.expression(kind, UN);
            }
            _ if kind.refs() < 3 => {
                self.put("!");
                if self.chance.one_in(3) || !self.variable(&cell_of(kind)) {
                    self.expression(&cell_of(kind), UN);
                }
            }
            _ => self.leaf(kind, UN),
        }
    }

    fn known_call(&mut self, kind: &Type) -> bool {
        let fitting: Vec<Known> = self
            .functions
            .iter()
            .filter(|f| f.result == *kind)
            .cloned()
            .collect();
        if fitting.is_empty() {
            return false;
        }
        let known = fitting[self.chance.below(fitting.len())].clone();
        let count = self
            .chance
            .pick(&["0", "1", "2", "3", "5", "9", "40", "200"]);
        self.call(&known, count);
        true
    }

    fn print(&mut self) {
        self.put("putchar (");
        match self.chance.one_in(4) {
            true => self.expression(&Type::Int, SEQ),
            false => {
                let byte = self.chance.below(258).to_string();
                self.put(&byte);
            }
        }
        self.put(")");
    }

    /// A name or a constant, which ends the growth here.
    fn leaf(&mut self, kind: &Type, level: u8) {
        if !self.chance.one_in(3) && self.variable(kind) {
            return;
        }
        match kind {
            Type::Int => {
                let number = numbers::spelled(self.chance);
                self.put(&number);
            }
            Type::Float => {
                let number = numbers::float(self.chance);
                self.put(&number);
            }
            Type::Bool => {
                let truth = self.chance.pick(&["true", "false"]);
                self.put(truth);
            }
            Type::Unit => self.put("tt"),
            Type::Ref(_) if level > UN => {
                self.put("(");
                self.leaf(kind, UN);
                self.put(")");
            }
            Type::Ref(inside) => {
                self.put("ref");
                self.leaf(inside, UN);
            }
        }
    }

    /// Writes a variable of the type, if its name is not hidden by another.
    fn variable(&mut self, kind: &Type) -> bool {
        let nearest = |name: &str| self.variables.iter().rev().find(|(n, _)| n == name);
        let seen = self
            .variables
            .iter()
            .filter(|(n, _)| nearest(n).is_some_and(|(_, k)| k == kind));
        let names: Vec<String> = seen.map(|(n, _)| n.clone()).collect();
        if names.is_empty() {
            return false;
        }
        let name = names[self.chance.below(names.len())].clone();
        self.put(&name);
        true
    }
}
