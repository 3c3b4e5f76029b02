//! The command `deep`: how much of a promised stack the worst sheet takes.

use second::answer::Lent;
use second::compare::hold;
use second::deep::{search, Found};
use second::piped::{Piped, Stack};
use second::quote;
use second::services::Service;
use second::shift_trial::{self, ShiftTrial};
use second::trial::Trial;

/// Failures shown; later ones are only counted.
const MOST_SHOWN: u64 = 10;

/// A call has to leave this much of the stack, which is the caller's share.
const MARGIN: u64 = 16_384;

/// How many of the worst sheets of Check and of Run the other services get.
const PASSED_ON: usize = 40;

/// Searches for the worst sheets and fails those that leave too little, or that
/// are answered otherwise than here.
pub fn worst(bytes: usize) -> u64 {
    let Some(other) = Piped::painted(bytes) else {
        eprintln!("deep: GRUMPY_BOX names no program whose stack could be measured");
        return 1;
    };
    println!("a stack of {bytes} bytes, of which {MARGIN} are to be left");
    let mut tally = Tally::default();
    let mut worst = Vec::new();
    for service in [Service::Check, Service::Run] {
        let found = search(service, &mut |sheet| tally.measure(&other, service, sheet));
        tell(service, &found);
        worst.extend(found.into_iter().take(PASSED_ON));
    }
    for service in Service::ALL {
        if ![Service::Check, Service::Run].contains(&service) {
            let measure = |found: Found| Found {
                taken: tally.measure(&other, service, &found.sheet),
                ..found
            };
            let mut found: Vec<Found> = worst.iter().cloned().map(measure).collect();
            found.sort_by_key(|f| std::cmp::Reverse(f.taken));
            tell(service, &found);
        }
    }
    tally.shifts(&other, &worst);
    println!("{} passed, {} failed", tally.passed, tally.failed);
    tally.failed
}

#[derive(Default)]
struct Tally {
    passed: u64,
    failed: u64,
}

impl Tally {
    /// How much stack this sheet takes.
    fn measure(&mut self, other: &Piped, service: Service, sheet: &str) -> u64 {
        let (verdict, taken) = one(other, service, sheet);
        self.count(verdict, sheet);
        taken
    }

    fn count(&mut self, verdict: Result<(), String>, sheet: &str) {
        match verdict {
            Ok(()) => self.passed += 1,
            Err(difference) => {
                self.failed += 1;
                if self.failed <= MOST_SHOWN {
                    println!("# FAILED {difference}\n| {sheet}");
                }
            }
        }
    }

    /// The worst sheets as rule books, with one line.
    fn shifts(&mut self, other: &Piped, worst: &[Found]) {
        let mut most = (0, "");
        for book in worst.iter().filter_map(|found| found.book.as_deref()) {
            let bytes = quote::decode(book).expect("a sheet in the spelling of the case files");
            let line = b"00010000000100000001\n";
            let trial = ShiftTrial::of(&bytes, line, lent());
            let (verdict, taken) = enough(
                shift_trial::hold(other, &trial, &mut |_, _| {}),
                other.stack(),
            );
            self.count(verdict, book);
            most = most.max((taken, book));
        }
        println!("Shift: the worst takes {} bytes\n| {}", most.0, most.1);
    }
}

/// Whether this sheet is as it should be, and how much stack it took.
fn one(other: &Piped, service: Service, sheet: &str) -> (Result<(), String>, u64) {
    let bytes = quote::decode(sheet).expect("a sheet in the spelling of the case files");
    // Of two sheets the second is the sheet, and the first is empty.
    let trial = match service {
        Service::CheckPair | Service::RunPair => Trial::of_pair(b"", &bytes, lent()),
        _ => Trial::of(&bytes, lent()),
    };
    enough(hold(other, &trial, service).map(drop), other.stack())
}

/// Edition 2 has all that edition 1 has.
fn lent() -> Lent {
    Lent {
        edition: 2,
        ..Lent::default()
    }
}

/// The verdict, or that too little of the stack was left; and what was taken.
fn enough(verdict: Result<(), String>, stack: Stack) -> (Result<(), String>, u64) {
    match verdict {
        Ok(()) if stack.left < MARGIN => {
            let why = format!("only {} bytes of stack are left", stack.left);
            (Err(why), stack.taken)
        }
        _ => (verdict, stack.taken),
    }
}

fn tell(service: Service, found: &[Found]) {
    let count = found.len();
    let Some(worst) = found.first() else { return };
    let taken = match worst.taken {
        u64::MAX => "more than all".to_string(),
        taken => format!("{taken} bytes"),
    };
    println!("{service:?}: the worst of {count} sheets takes {taken}");
    println!("| {}", worst.sheet);
}
