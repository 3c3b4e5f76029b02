//! The search for the sheet that takes the most stack, for Check and for Run.
//!
//! How much a nest takes is nothing that can be read off the paper, so it is
//! measured: first each layer alone, nested as far as the tokens and the active
//! nodes allow, then the worst of these with layers put in, put in another's
//! stead or left out, until nothing makes them worse.

use crate::layers::{closed, layers, long_calls, Fit, Layer};
use crate::nests::{lists, sheet, Shape};
use crate::services::Service;
use crate::text::MOST_TOKENS;
use std::collections::HashMap;

#[derive(Clone, Debug)]
struct Candidate {
    walk: Vec<usize>,
    shape: Shape,
}

/// A sheet in the spelling of the case files, and the stack that it took.
#[derive(Clone, Debug)]
pub struct Found {
    pub sheet: String,
    pub taken: u64,
    /// The same as a rule book, if it is one that calls itself.
    pub book: Option<String>,
}

/// Candidates that are made worse, and how many sheets may be tried in all.
const CLIMBS: usize = 6;
const MOST_TRIED: usize = 2000;

pub struct Search<'a> {
    service: Service,
    fit: Fit,
    layers: Vec<Layer>,
    /// Which layers to try first: those that took the most alone.
    order: Vec<usize>,
    measure: &'a mut dyn FnMut(&str) -> u64,
    tried: HashMap<String, u64>,
    /// Rule books by the sheets they were made of.
    books: HashMap<String, String>,
}

/// All sheets that were tried, the worst first. The measure is of one sheet in
/// the spelling of the case files.
pub fn search(service: Service, measure: &mut dyn FnMut(&str) -> u64) -> Vec<Found> {
    let mut layers = layers();
    let fit = match service {
        Service::Run => Fit::Typed,
        _ => Fit::Read,
    };
    if fit == Fit::Read {
        layers.extend(long_calls());
    }
    let mut search = Search {
        service,
        fit,
        order: (0..layers.len()).collect(),
        layers,
        measure,
        tried: HashMap::new(),
        books: HashMap::new(),
    };
    search.all();
    let books = search.books;
    let found = |(sheet, taken)| Found {
        book: books.get(&sheet).cloned(),
        sheet,
        taken,
    };
    let mut all: Vec<Found> = search.tried.into_iter().map(found).collect();
    all.sort_by(|a, b| (b.taken, &a.sheet).cmp(&(a.taken, &b.sheet)));
    all
}

impl Search<'_> {
    fn all(&mut self) {
        for sheet in lists() {
            self.measure(sheet);
        }
        let mut alone = self.alone();
        alone.sort_by_key(|(taken, _)| std::cmp::Reverse(*taken));
        let mut order: Vec<usize> = alone.iter().map(|(_, c)| c.walk[0]).collect();
        order.extend(0..self.layers.len());
        let mut seen = vec![false; self.layers.len()];
        order.retain(|layer| !std::mem::replace(&mut seen[*layer], true));
        self.order = order;
        for (taken, candidate) in alone.into_iter().take(CLIMBS) {
            self.climb(taken, candidate);
        }
    }

    /// Every layer by itself, in every shape.
    fn alone(&mut self) -> Vec<(u64, Candidate)> {
        let shapes: &[Shape] = match self.service {
            Service::Run => &[
                Shape::Nested,
                Shape::body(0, 1),
                Shape::body(8, 1),
                Shape::body(0, MOST_TOKENS),
                Shape::body(8, MOST_TOKENS),
            ],
            _ => &[Shape::Nested, Shape::Open],
        };
        let mut found = Vec::new();
        for layer in 0..self.layers.len() {
            for shape in shapes.iter().copied() {
                if let Some(walk) = closed(&self.layers, &[layer], self.fit) {
                    let candidate = Candidate { walk, shape };
                    found.push((self.try_out(&candidate), candidate));
                }
            }
        }
        found
    }

    fn climb(&mut self, mut most: u64, mut best: Candidate) {
        loop {
            let mut better = None;
            for next in self.neighbours(&best) {
                if self.tried.len() >= MOST_TRIED {
                    return;
                }
                let taken = self.try_out(&next);
                if taken > most {
                    better = Some((taken, next));
                    break;
                }
            }
            match better {
                Some((taken, next)) => (most, best) = (taken, next),
                None => return,
            }
        }
    }

    /// Everything that is one step away.
    fn neighbours(&self, from: &Candidate) -> Vec<Candidate> {
        let mut all = Vec::new();
        let Candidate { walk, shape } = from;
        if let Shape::Body { .. } = shape {
            for (parameters, times) in bodies() {
                let (walk, shape) = (walk.clone(), Shape::body(parameters, times));
                all.push(Candidate { walk, shape });
            }
        }
        let mut add = |walk: Vec<usize>| {
            if let Some(walk) = closed(&self.layers, &walk, self.fit) {
                all.push(Candidate {
                    walk,
                    shape: *shape,
                });
            }
        };
        for at in 0..walk.len() {
            let (left, right) = (&walk[..at], &walk[at + 1..]);
            if walk.len() > 1 {
                add([left, right].concat());
            }
            for layer in &self.order {
                add([left, &[*layer], right].concat());
                add([left, &[*layer, walk[at]], right].concat());
            }
        }
        all
    }

    fn try_out(&mut self, candidate: &Candidate) -> u64 {
        let walk: Vec<&Layer> = candidate.walk.iter().map(|l| &self.layers[*l]).collect();
        let text = sheet(&walk, candidate.shape);
        if let Shape::Body { parameters, times } = candidate.shape {
            let book = sheet(&walk, Shape::Book { parameters, times });
            self.books.insert(text.clone(), book);
        }
        self.measure(text)
    }

    fn measure(&mut self, sheet: String) -> u64 {
        if let Some(taken) = self.tried.get(&sheet) {
            return *taken;
        }
        let taken = (self.measure)(&sheet);
        self.tried.insert(sheet, taken);
        taken
    }
}

/// Numbers of parameters, with how often the walk stands in the body.
fn bodies() -> Vec<(usize, usize)> {
    let times = [1, 2, 3, 5, 8, 13, 21, 34, 55, MOST_TOKENS];
    let all = times.iter().rev().map(|t| (0..=8).rev().map(|p| (p, *t)));
    all.flatten().collect()
}
