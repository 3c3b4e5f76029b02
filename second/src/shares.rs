//! How often each number is answered, and how often each service was asked.

use crate::services::Service;
use std::collections::BTreeMap;
use std::fmt;

/// Every number that an answer may have.
pub const NUMBERS: [u32; 36] = [
    0, 10, 11, 12, 13, 14, 15, 20, 30, 31, 32, 33, 34, 35, 36, 37, 40, 41, 42, 43, 44, 45, 46, 47,
    50, 51, 52, 53, 54, 55, 56, 57, 58, 60, 61, 62,
];

#[derive(Default)]
pub struct Shares {
    numbers: BTreeMap<u32, u64>,
    /// In edition 1, in edition 2 and in one that is none.
    services: BTreeMap<Service, [u64; 3]>,
}

impl Shares {
    pub fn add(&mut self, service: Service, edition: u32, number: u32) {
        *self.numbers.entry(number).or_default() += 1;
        let which = match edition {
            1 => 0,
            2 => 1,
            _ => 2,
        };
        self.services.entry(service).or_default()[which] += 1;
    }

    pub fn answers(&self) -> u64 {
        self.numbers.values().sum()
    }

    /// How often this number was answered.
    pub fn of(&self, number: u32) -> u64 {
        self.numbers.get(&number).copied().unwrap_or(0)
    }
}

/// The numbers with their shares, those that never came too; then the services.
impl fmt::Display for Shares {
    fn fmt(&self, f: &mut fmt::Formatter) -> fmt::Result {
        let all = self.answers().max(1) as f64;
        writeln!(f, "number     answers       share")?;
        let more = self.numbers.keys().filter(|n| !NUMBERS.contains(n));
        for number in NUMBERS.iter().chain(more) {
            let times = self.of(*number);
            let share = 100.0 * times as f64 / all;
            writeln!(f, "{number:>6} {times:>11} {share:>9.4} %")?;
        }
        writeln!(f, "   all {:>11}", self.answers())?;
        writeln!(f, "service           edition 1   edition 2     another")?;
        for (service, [one, two, other]) in &self.services {
            let name = format!("{service:?}");
            writeln!(f, "{name:<15} {one:>11} {two:>11} {other:>11}")?;
        }
        Ok(())
    }
}

#[cfg(test)]
mod tests {
    use super::*;

    #[test]
    fn all_numbers_are_told() {
        let mut shares = Shares::default();
        shares.add(Service::Run, 1, 55);
        shares.add(Service::Check, 2, 0);
        shares.add(Service::Check, 3, 42);
        shares.add(Service::Check, 1, 21);
        let text = shares.to_string();
        assert!(
            text.contains("\n    55           1   25.0000 %\n"),
            "{text}"
        );
        assert!(
            text.contains("\n    46           0    0.0000 %\n"),
            "{text}"
        );
        assert!(
            text.contains("\n    21           1   25.0000 %\n"),
            "{text}"
        );
        assert!(
            text.contains("Check                     1           1           1\n"),
            "{text}"
        );
    }
}
