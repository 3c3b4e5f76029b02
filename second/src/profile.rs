//! The pay profile: sheets that cannot run out of units, and how many they may
//! use at most.

use crate::answer::{prepare, Left, Lent, MOST_UNITS};
use crate::tree::{Form, Node, Program};
use crate::Refusal;
use std::collections::HashMap;

#[derive(Clone, Debug, PartialEq, Eq)]
pub struct Profiled {
    pub number: u32,
    pub place: u64,
    pub kind: u64,
    /// The upper count of units; 0 if it is refused.
    pub count: u64,
    pub table: Left,
}

pub fn profile(source: &[u8], lent: &Lent) -> Profiled {
    if lent.table < lent.sizes.table {
        return refused(Refusal::new(40, 0), Left::AsBefore);
    }
    let told = prepare(source, lent).and_then(|(program, kind)| {
        if let Some(place) = forbidden(&program) {
            return Err(Refusal::new(43, place));
        }
        match count(&program) {
            count if count > MOST_UNITS => Err(Refusal::new(45, 0)),
            count => Ok((kind.code(), count)),
        }
    });
    match told {
        Err(refusal) => refused(refusal, Left::RequiredZero),
        Ok((kind, count)) => Profiled {
            kind,
            count,
            ..refused(Refusal::new(0, 0), Left::RequiredZero)
        },
    }
}

fn refused(refusal: Refusal, table: Left) -> Profiled {
    Profiled {
        number: refusal.number,
        place: refusal.place as u64,
        kind: 0,
        count: 0,
        table,
    }
}

/// The place of the first node that the profile does not have: functions in
/// order, called or not, then the last expression.
fn forbidden(program: &Program) -> Option<usize> {
    let mut functions = program.functions.iter();
    let first = functions.find_map(|f| forbidden_in(&f.body, Some(&f.name)));
    first.or_else(|| forbidden_in(&program.last, None))
}

/// The same in one expression, children before their node. A loop of either kind
/// is one, and a call of the function whose body it is in.
fn forbidden_in(node: &Node, own: Option<&str>) -> Option<usize> {
    let children = node.children();
    let inside = children.into_iter().find_map(|c| forbidden_in(c, own));
    let here = match &node.form {
        Form::While(..) | Form::For(_) => true,
        Form::Call(name, _) => own == Some(name),
        _ => false,
    };
    inside.or(here.then_some(node.place))
}

/// The upper count of the last expression.
fn count(program: &Program) -> u64 {
    let mut bodies: HashMap<&str, u64> = HashMap::new();
    for function in &program.functions {
        let body = count_of(&function.body, &bodies);
        bodies.insert(&function.name, body);
    }
    count_of(&program.last, &bodies)
}

/// One for the node, and what is below it; of two branches the dearer one. Each
/// function may call the one before it twice and more, so it does not always fit
/// into 64 bits.
fn count_of(node: &Node, bodies: &HashMap<&str, u64>) -> u64 {
    let of = |node: &Node| count_of(node, bodies);
    let below = match &node.form {
        Form::If(test, yes, no) => of(test).saturating_add(of(yes).max(of(no))),
        _ => {
            let children = node.children().into_iter().map(of);
            children.fold(0, u64::saturating_add)
        }
    };
    // `putchar` has no body.
    let body = match &node.form {
        Form::Call(name, _) => bodies.get(name.as_str()).copied().unwrap_or(0),
        _ => 0,
    };
    below.saturating_add(body).saturating_add(1)
}
