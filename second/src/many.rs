//! Cases for a long series: each of one service, on a sheet, a pair, a stored
//! sheet, a shift of its own or reports that combine; now and then a trial of all
//! services at once.

use crate::chance::Chance;
use crate::combine::{self, Report};
use crate::compare::{self, Other, Tell};
use crate::services::{wanted, Service};
use crate::shift_trial::{self, ShiftTrial};
use crate::trial::{self, Trial};
use crate::{combines, laws, shift_file, shifts, stores};

pub enum Case {
    One(Trial, Service),
    All(Trial),
    Shift(ShiftTrial),
    /// Any three reports.
    Combine([Report; 3]),
}

/// Of so many cases one is a trial of all services.
const ALL_ONE_IN: usize = 64;

/// Of so many cases one is a shift with more lines than there may be, or nearly.
const MOST_LINES_ONE_IN: usize = 2500;

/// How often each service is asked, to one another.
const SERVICES: [(Service, usize); 11] = [
    (Service::Check, 2),
    (Service::Run, 4),
    (Service::CheckPair, 1),
    (Service::RunPair, 3),
    (Service::Write, 2),
    (Service::Store, 2),
    (Service::CheckStored, 2),
    (Service::RunStored, 3),
    (Service::Profile, 2),
    (Service::ShiftFeed, 1),
    (Service::Combine, 1),
];

/// The case of this number in the series of this seed.
pub fn draw(seed: u64, index: u64) -> Case {
    let mut chance = Chance::new(seed ^ 0x3232, index);
    if chance.one_in(MOST_LINES_ONE_IN) {
        return Case::Shift(shifts::most_lines(seed, index));
    }
    if chance.one_in(ALL_ONE_IN) {
        return Case::All(trial::make(seed, index));
    }
    let all: usize = SERVICES.iter().map(|(_, times)| times).sum();
    let mut left = chance.below(all);
    let mut services = SERVICES.iter();
    let service = loop {
        let (service, times) = services.next().expect("one of them");
        match left.checked_sub(*times) {
            Some(less) => left = less,
            None => break *service,
        }
    };
    match service {
        Service::ShiftFeed => return Case::Shift(shifts::make(seed, index)),
        Service::Combine => return Case::Combine(combines::make(seed, index)),
        _ => {}
    }
    let mut trial = trial::make_for(&[service], seed, index);
    if !service.applies(&trial) {
        trial.stored = Some(stores::soup(&mut chance));
    }
    Case::One(trial, service)
}

/// Holds the other implementation on this case, or, where there is none, this one
/// against what is true of all answers.
pub fn hold(other: Option<&dyn Other>, case: &Case, tell: &mut Tell) -> Result<(), String> {
    match (case, other) {
        (Case::One(trial, service), Some(other)) => {
            tell(*service, compare::hold(other, trial, *service)?)
        }
        (Case::One(trial, service), None) => {
            let complete = trial.report(*service) >= service.words();
            let number = complete.then(|| wanted(*service, trial).number);
            tell(*service, number.unwrap_or(40));
        }
        (Case::All(trial), Some(other)) => compare::compare(other, trial, tell)?,
        (Case::All(trial), None) => {
            laws::hold(trial)?;
            for service in Service::ALL {
                if service.applies(trial) {
                    tell(service, wanted(service, trial).number);
                }
            }
        }
        (Case::Shift(trial), Some(other)) => shift_trial::hold(other, trial, tell)?,
        (Case::Shift(trial), None) => shift_file::laws(trial, tell)?,
        (Case::Combine(three), Some(other)) => {
            combine::hold_any(other, three, three[0][combine::SUM], tell)?
        }
        (Case::Combine(three), None) => {
            combine::laws_of_any(three)?;
            tell(
                Service::Combine,
                combine::combine(&three[0], &three[1])[0] as u32,
            );
        }
    }
    Ok(())
}

impl Case {
    pub fn edition(&self) -> u32 {
        match self {
            Case::One(trial, _) | Case::All(trial) => trial.lent.edition,
            Case::Shift(trial) => trial.lent.edition,
            // It takes none.
            Case::Combine(_) => 1,
        }
    }
}

#[cfg(test)]
mod tests {
    use super::*;
    use crate::on_big_stack;
    use crate::shares::Shares;

    /// The numbers that are rarest come often enough: 1,000 times in ten million
    /// cases and more. Here that is one in a few thousand, times a margin.
    #[test]
    fn rare_numbers_come() {
        on_big_stack(|| {
            let mut shares = Shares::default();
            for index in 0..40_000 {
                let case = draw(32, index);
                let edition = case.edition();
                let tell = &mut |service, number| shares.add(service, edition, number);
                hold(None, &case, tell).expect("it holds");
            }
            let text = shares.to_string();
            for number in [43, 45, 46, 47, 55, 57, 58, 60, 61, 62] {
                assert!(shares.of(number) >= 8, "{number}\n{text}");
            }
            assert_eq!(shares.of(21), 0, "{text}");
        });
    }
}
