//! A second interpreter of Grumpy, written from the paper alone, to hold
//! against a first one. Speed and thrift do not matter here; being easy to
//! follow does, so everything is an ordinary tree, vector or map.

pub mod answer;
pub mod begins;
pub mod casefile;
pub mod cases;
pub mod chance;
pub mod combine;
pub mod combine_file;
pub mod combines;
pub mod compare;
pub mod damage;
pub mod deep;
pub mod floats;
pub mod follows;
pub mod forged;
pub mod forms;
pub mod grammar;
pub mod laws;
pub mod layers;
pub mod length_file;
pub mod lengths;
pub mod long;
pub mod loops;
pub mod many;
pub mod near;
pub mod neighbours;
pub mod nests;
pub mod numbers;
pub mod operators;
pub mod pair;
pub mod paper;
pub mod piped;
pub mod profile;
pub mod profiles;
pub mod promise;
pub mod quote;
pub mod rare;
pub mod run;
pub mod services;
pub mod shares;
pub mod sheets;
pub mod shift;
pub mod shift_file;
#[cfg(test)]
mod shift_mirror;
pub mod shift_trial;
pub mod shifts;
pub mod shrink;
pub mod sizes;
pub mod slips;
pub mod store;
pub mod stored_laws;
pub mod stores;
pub mod text;
pub mod tree;
pub mod trial;
pub mod types;
pub mod values;
pub mod write;

/// A numbered end other than success, and the byte offset it points at.
#[derive(Clone, Copy, Debug, PartialEq, Eq)]
pub struct Refusal {
    pub number: u32,
    pub place: usize,
}

impl Refusal {
    pub fn new(number: u32, place: usize) -> Refusal {
        Refusal { number, place }
    }
}

/// Runs a job on a thread whose stack is far larger than any legal sheet can
/// use, because reader, checker and interpreter all recurse over the tree.
pub fn on_big_stack<T: Send>(job: impl FnOnce() -> T + Send) -> T {
    on_stack(1 << 29, job)
}

/// The same with a stack of the caller's choice.
pub fn on_stack<T: Send>(bytes: usize, job: impl FnOnce() -> T + Send) -> T {
    std::thread::scope(|scope| {
        let builder = std::thread::Builder::new().stack_size(bytes);
        let thread = builder
            .spawn_scoped(scope, job)
            .expect("a thread can be started");
        match thread.join() {
            Ok(result) => result,
            Err(panic) => std::panic::resume_unwind(panic),
        }
    })
}
