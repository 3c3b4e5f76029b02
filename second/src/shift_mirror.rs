//! This interpreter's shifts behind the other's interface, with a fault at will,
//! to see whether faults are found.

use crate::answer::{is_edition, Lent, TABLE_WORDS, WORK_WORDS};
use crate::combine::Report;
use crate::compare::{After, Call, Heard, Other, Told};
use crate::services::Service;
use crate::shift::{begin, Shift};
use crate::shift_trial::hold;
use crate::{combine, combines, length_file, lengths, on_big_stack, shifts, Refusal};
use std::cell::{Cell, RefCell};

const STATE_WORDS: usize = 3;

/// The shifts under way; a state's first word says which is its own, and the
/// other two that it was not forged.
struct Mirror {
    fault: &'static str,
    shifts: RefCell<Vec<Shift>>,
    calls: Cell<u64>,
}

fn state_of(index: usize) -> [u64; STATE_WORDS] {
    let index = index as u64;
    [index, !index, index ^ 0x5417]
}

impl Mirror {
    fn begin(&self, call: &Call, heard: &mut Heard) {
        let lent = Lent {
            edition: call.edition,
            table: call.table,
            work: call.work,
            output: 0,
            allowance: call.allowance,
            ..Lent::default()
        };
        let refused = match too_long(call) {
            true => (begin(b"", &lent).err()).map(|refusal| match refusal.number {
                40..=42 => refusal,
                _ => Refusal::new(10, 0),
            }),
            false => begin(call.source, &lent).err(),
        };
        let Refusal { number, place } = refused.unwrap_or(Refusal::new(0, 0));
        heard.number = u64::from(number);
        heard.report[..2].copy_from_slice(&[heard.number, place as u64]);
        if number != 40 {
            let mut shifts = self.shifts.borrow_mut();
            heard.state[..STATE_WORDS].copy_from_slice(&state_of(shifts.len()));
            let book = if number == 0 { call.source } else { b"" };
            shifts.push(Shift::new(book, &lent));
            heard.table.zeros = TABLE_WORDS;
            heard.work.zeros = WORK_WORDS;
        }
    }

    fn feed(&self, call: &Call, heard: &mut Heard) {
        if call.table < TABLE_WORDS || call.work < WORK_WORDS {
            heard.report[0] = 40;
            return;
        }
        heard.table.zeros = TABLE_WORDS;
        heard.work.zeros = WORK_WORDS;
        let refused = match (call.edition, too_long(call)) {
            (1 | 2, false) => 0,
            (1 | 2, true) => 10,
            _ => 42,
        };
        (heard.number, heard.report[0]) = (refused, refused);
        let shifts = &mut self.shifts.borrow_mut();
        let Some(index) = self.own(call.state, shifts.len()).filter(|_| refused == 0) else {
            if self.fault == "a forged state that tells the time" {
                heard.state[1] = self.calls.get();
            }
            if self.fault == "a forged state that tells the memory" {
                heard.state[1] = call.table as u64;
            }
            return;
        };
        let shift = &mut shifts[index];
        shift.lent.output = call.output;
        // A line cut in two would be two lines.
        let piece = match self.fault {
            "a line lost in longer memory" if call.work > WORK_WORDS + 1000 => b"",
            "a line lost" => call.second.strip_suffix(b"\n").unwrap_or(call.second),
            _ => call.second,
        };
        let (number, printed) = shift.feed(piece);
        for bytes in printed {
            if self.fault == "one print behind the other" {
                heard.output.extend(bytes);
                continue;
            }
            let longest = heard.output.len().max(bytes.len());
            heard.output.resize(longest, 0);
            heard.output[..bytes.len()].copy_from_slice(&bytes);
        }
        heard.changed = heard.output.len();
        if self.fault == "a table not cleared" {
            heard.table.zeros = 0;
        }
        heard.number = u64::from(number);
        heard.report[0] = heard.number;
    }

    fn finish(&self, call: &Call, heard: &mut Heard) {
        let shifts = self.shifts.borrow();
        let mut words = match self.own(call.state, shifts.len()) {
            Some(index) => shifts[index].finish().words(),
            None => vec![7; 14],
        };
        if self.fault == "a sum too large" {
            words[11] = words[11].wrapping_add(1);
        }
        if self.fault == "a state that finish changes" {
            heard.state[1] = !heard.state[1];
        }
        heard.number = if is_edition(call.edition) { 0 } else { 42 };
        heard.report[0] = heard.number;
        heard.report[1..=words.len()].copy_from_slice(&words);
    }
}

/// Whether the source is told to have more bytes than it has.
fn too_long(call: &Call) -> bool {
    call.claimed[0].is_some_and(|told| told > call.source.len() as u64)
}

impl Mirror {
    fn of(fault: &'static str) -> Mirror {
        Mirror {
            fault,
            shifts: RefCell::default(),
            calls: Cell::default(),
        }
    }

    /// Which of so many shifts this state is of, if it was not forged.
    fn own(&self, state: &[u64], shifts: usize) -> Option<usize> {
        let index = usize::try_from(state[0]).ok()?;
        (index < shifts && state[..STATE_WORDS] == state_of(index)).then_some(index)
    }

    fn combine(&self, call: &Call, heard: &mut Heard) {
        let words = |bytes: &[u8]| -> Vec<u64> {
            let eights = bytes.chunks_exact(8);
            eights
                .map(|eight| u64::from_ne_bytes(eight.try_into().expect("eight bytes")))
                .collect()
        };
        let [first, second] =
            [call.source, call.second].map(|bytes| Report::try_from(words(bytes)));
        let (Ok(first), Ok(second)) = (first, second) else {
            return;
        };
        if call.report.len() < 15 {
            return;
        }
        let mut told = combine::combine(&first, &second);
        let whole = [first[0], second[0]] == [0, 0];
        match self.fault {
            "the least of none" if told[0] == 0 => {
                told[13] = (first[13] as i64).min(second[13] as i64) as u64
            }
            "what no shift can come to is added" if told[0] == 46 && whole => {
                (0..15).for_each(|at| told[at] = first[at].wrapping_add(second[at]))
            }
            "46 before 42" if [first[0], second[0]].contains(&46) => told[0] = 46,
            _ => {}
        }
        heard.number = told[0];
        heard.report[..15].copy_from_slice(&told);
    }
}

impl Other for Mirror {
    fn call(&self, call: &Call) -> Told {
        let mut heard = Heard {
            number: 40,
            table: After::default(),
            work: After::default(),
            output: vec![],
            changed: 0,
            state: call.state.to_vec(),
            report: call.report.to_vec(),
        };
        self.calls.set(self.calls.get() + 1);
        match call.service {
            Service::StateWords => heard.number = STATE_WORDS as u64,
            Service::HasCombine => heard.number = 1,
            Service::Combine => self.combine(call, &mut heard),
            _ => {}
        }
        if [Service::StateWords, Service::HasCombine, Service::Combine].contains(&call.service) {
            return Ok(heard);
        }
        if call.report.len() < call.service.words() || call.state.len() < STATE_WORDS {
            return Ok(heard);
        }
        match call.service {
            Service::ShiftBegin => self.begin(call, &mut heard),
            Service::ShiftFeed => self.feed(call, &mut heard),
            _ => self.finish(call, &mut heard),
        }
        Ok(heard)
    }
}

fn failures(fault: &'static str) -> Vec<String> {
    on_big_stack(move || {
        let mirror = Mirror::of(fault);
        let tell = &mut |_, _| {};
        let mut wrong = Vec::new();
        for index in 0..400 {
            wrong.extend(hold(&mirror, &shifts::make(14, index), tell).err());
            let three = combines::make(14, index);
            wrong.extend(combine::hold_any(&mirror, &three, index, tell).err());
        }
        wrong
    })
}

#[test]
fn equals_are_found_equal() {
    assert_eq!(failures("none"), Vec::<String>::new());
}

#[test]
fn faults_are_found() {
    for fault in [
        "a line lost",
        "a line lost in longer memory",
        "a table not cleared",
        "a sum too large",
        "one print behind the other",
        "a state that finish changes",
        "a forged state that tells the time",
        "a forged state that tells the memory",
        "the least of none",
        "what no shift can come to is added",
        "46 before 42",
    ] {
        assert!(!failures(fault).is_empty(), "{fault}");
    }
}

/// Of the cases of lengths those of a shift, by the mirror.
#[test]
fn lengths_decide() {
    let folder = crate::casefile::folder();
    let mut cases = length_file::read_folder(&folder).unwrap_or_else(|e| panic!("{e}"));
    cases.extend(lengths::systematic());
    let mirror = Mirror::of("none");
    for case in cases {
        let held = case.hold_shift(&mirror);
        held.unwrap_or_else(|e| panic!("{}: {e}", case.title));
    }
}
