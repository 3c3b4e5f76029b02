//! Random trials, case files and deep sheets from the command line.
//!
//! ```text
//! second N SEED [START]     N random trials of all services, from number START (0) on
//! second many N SEED [START]   N random cases, most of them of one service each
//! second trace N SEED START the first of these, naming each trial before it is made
//! second trace-many N SEED START   the second
//! second show SEED INDEX    one random trial as a case
//! second show-many SEED INDEX  one random case of a series of many
//! second cases              all case files and all examples of the paper
//! second table FILE         the file's sheets, each with the answer under it
//! second deep BYTES         which sheets take the most stack, of that many bytes
//! second bench FILE ALLOWANCE REPEATS   the sheet by the clock, that many runs
//! second bench FILE ALLOWANCE print     what it prints, its value under it
//! ```
//!
//! Where GRUMPY_BOX names a program (see `piped`), each of them but those that show
//! and `bench` holds that one against this one; without it this one runs alone.

mod bench;
mod stack;

use second::answer::{self, Answer, Lent};
use second::compare::Other;
use second::many::{self, Case};
use second::piped::Piped;
use second::shares::Shares;
use second::trial::Trial;
use second::{casefile, cases, combine, combine_file, combines, follows, length_file, lengths};
use second::{near, neighbours, on_big_stack, paper, shift_file, shifts, shrink, trial};
use std::io::Write;
use std::process::ExitCode;
use std::sync::LazyLock;
use std::time::Instant;

/// Failures shown in full; later ones are only counted.
const MOST_SHOWN: u64 = 10;

fn main() -> ExitCode {
    let words: Vec<String> = std::env::args().skip(1).collect();
    let words: Vec<&str> = words.iter().map(String::as_str).collect();
    let failed = match words[..] {
        ["cases"] => on_big_stack(all_cases),
        ["table", file] => on_big_stack(|| table(file)),
        ["show", seed, index] => {
            let all = |seed, index| Case::All(trial::make(seed, index));
            show(number(seed), number(index), all)
        }
        ["show-many", seed, index] => show(number(seed), number(index), many::draw),
        ["deep", bytes] => on_big_stack(|| stack::worst(number(bytes) as usize)),
        ["bench", file, allowance, repeats] => {
            on_big_stack(|| by_the_clock(file, number(allowance), repeats))
        }
        ["many", count, seed] => many(number(count), number(seed), 0, false),
        ["many", count, seed, start] => many(number(count), number(seed), number(start), false),
        ["trace-many", count, seed, start] => {
            many(number(count), number(seed), number(start), true)
        }
        ["trace", count, seed, start] => series(number(count), number(seed), number(start), true),
        [count, seed] => series(number(count), number(seed), 0, false),
        [count, seed, start] => series(number(count), number(seed), number(start), false),
        _ => usage(),
    };
    ExitCode::from(u8::from(failed > 0))
}

fn number(word: &str) -> u64 {
    word.parse()
        .unwrap_or_else(|_| panic!("not a number: {word}"))
}

fn usage() -> u64 {
    eprintln!("second N SEED [START] | trace N SEED START | show SEED INDEX | cases | table FILE");
    eprintln!("second many N SEED [START] | trace-many N SEED START | show-many SEED INDEX");
    eprintln!("second deep BYTES | bench FILE ALLOWANCE REPEATS");
    1
}

/// Of so many trials one is a shift too.
const SHIFTS: u64 = 10;

/// The stack of the other implementation, where none is asked for.
const STACK: usize = 1 << 23;

/// The other implementation, started at its first use.
static OTHER: LazyLock<Option<Piped>> = LazyLock::new(|| Piped::from_environment(STACK));

/// The same, if there is one.
fn other() -> Option<&'static dyn Other> {
    OTHER.as_ref().map(|other| other as &dyn Other)
}

/// Whether the case passes. Alone, an answer can only be held against what is true
/// of all answers.
fn verdict(case: &Case) -> Result<(), String> {
    many::hold(other(), case, &mut |_, _| {})
}

/// All services on every trial.
fn series(count: u64, seed: u64, start: u64, trace: bool) -> u64 {
    let draw = |index: u64| {
        let mut cases = vec![
            Case::All(trial::make(seed, index)),
            Case::Combine(combines::make(seed, index)),
        ];
        if index.is_multiple_of(SHIFTS) {
            cases.push(Case::Shift(shifts::make(seed, index)));
        }
        cases
    };
    in_turn(count, seed, start, trace, draw)
}

/// One service on most of the cases, drawn for it.
fn many(count: u64, seed: u64, start: u64, trace: bool) -> u64 {
    in_turn(count, seed, start, trace, |index| {
        vec![many::draw(seed, index)]
    })
}

fn in_turn(
    count: u64,
    seed: u64,
    start: u64,
    trace: bool,
    draw: impl Fn(u64) -> Vec<Case> + Send,
) -> u64 {
    on_big_stack(move || {
        let clock = Instant::now();
        let mut tally = Tally::default();
        for index in start..start + count {
            if trace {
                println!("trial {index}");
            }
            for case in draw(index) {
                tally.add(&format!("seed {seed} trial {index}"), case);
            }
            let done = index + 1 - start;
            if done.is_multiple_of(20_000) || done == count {
                let each = done as f64 / clock.elapsed().as_secs_f64();
                println!(
                    "{done} of {count}, {} failed, {each:.0} a second",
                    tally.failed
                );
            }
        }
        tally.close()
    })
}

#[derive(Default)]
struct Tally {
    shares: Shares,
    passed: u64,
    failed: u64,
}

impl Tally {
    fn add(&mut self, title: &str, case: Case) {
        let edition = case.edition();
        let tell = &mut |service, number| self.shares.add(service, edition, number);
        match many::hold(other(), &case, tell) {
            Ok(()) => self.passed += 1,
            Err(difference) => self.fail(title, case, &difference),
        }
    }

    /// Takes in a case that was held already.
    fn count(&mut self, title: &str, held: Result<(), String>) {
        match held {
            Ok(()) => self.passed += 1,
            Err(difference) => {
                println!("# FAILED {title}: {difference}");
                self.failed += 1;
            }
        }
    }

    fn fail(&mut self, title: &str, case: Case, difference: &str) {
        self.failed += 1;
        if self.failed > MOST_SHOWN {
            return;
        }
        println!("# FAILED {title}: {difference}");
        let small = match case {
            Case::Shift(trial) => {
                println!("{}", shift_file::show(title, &trial));
                return;
            }
            Case::Combine(three) => {
                println!("{}", combine_file::show(title, &three));
                return;
            }
            Case::One(trial, service) => {
                let one = |t: &Trial| Case::One(t.clone(), service);
                let fails = |t: &Trial| service.applies(t) && verdict(&one(t)).is_err();
                one(&shrink::shrink(trial, fails))
            }
            Case::All(trial) => {
                let all = |t: &Trial| Case::All(t.clone());
                all(&shrink::shrink(trial, |t| verdict(&all(t)).is_err()))
            }
        };
        let now = verdict(&small).err().unwrap_or_default();
        if let Case::One(trial, _) | Case::All(trial) = &small {
            println!("# made smaller: {now}; {}", reports(trial));
            println!("{}", cases::show_case(title, trial));
        }
    }

    fn close(self) -> u64 {
        print!("{}", self.shares);
        println!("{} passed, {} failed", self.passed, self.failed);
        self.failed
    }
}

/// What a case does not say of a trial.
fn reports(trial: &Trial) -> String {
    match trial.short {
        Some(_) => "reports too short".to_string(),
        None => format!("reports {} words too long", trial.more),
    }
}

fn show(seed: u64, index: u64, draw: fn(u64, u64) -> Case) -> u64 {
    on_big_stack(move || {
        let title = format!("seed {seed} trial {index}");
        match draw(seed, index) {
            Case::Shift(trial) => println!("{}", shift_file::show(&title, &trial)),
            Case::Combine(three) => println!("{}", combine_file::show(&title, &three)),
            Case::One(trial, service) => {
                println!("# {service:?}, {}", reports(&trial));
                println!("{}", cases::show_case(&title, &trial));
            }
            Case::All(trial) => {
                println!("# {}", reports(&trial));
                println!("{}", cases::show_case(&title, &trial));
            }
        }
        0
    })
}

fn all_cases() -> u64 {
    let mut all = paper::examples();
    match casefile::read_folder(&casefile::folder()) {
        Ok(found) => all.extend(found),
        Err(problem) => {
            println!("{problem}");
            return 1;
        }
    }
    let mut tally = Tally::default();
    for case in all {
        match case.try_own() {
            Ok(()) => tally.add(&case.title, Case::All(case.trial)),
            Err(difference) => {
                println!("# FAILED {difference}");
                tally.failed += 1;
            }
        }
    }
    for edition in [1, 2] {
        systematic(&mut tally, edition);
    }
    shift_cases(&mut tally);
    combine_cases(&mut tally);
    length_cases(&mut tally);
    tally.close()
}

/// Each two reports that combine, here and, if it combines, by the other one.
fn combine_cases(tally: &mut Tally) {
    let cases = combine_file::read_folder(&casefile::folder()).unwrap_or_else(|e| panic!("{e}"));
    for case in cases {
        let tell = &mut |service, number| tally.shares.add(service, 1, number);
        let held = case
            .try_own()
            .and_then(|()| other().map_or(Ok(()), |o| combine::hold_case(o, &case.parts, tell)));
        tally.count(&case.title, held);
    }
}

/// Sources that are told to be longer than any memory, by hand and by a system.
fn length_cases(tally: &mut Tally) {
    let mut cases = length_file::read_folder(&casefile::folder()).unwrap_or_else(|e| panic!("{e}"));
    cases.extend(lengths::systematic());
    for case in cases {
        let edition = case.lent.edition;
        let tell = &mut |service, number| tally.shares.add(service, edition, number);
        let held = case
            .try_own()
            .and_then(|()| other().map_or(Ok(()), |o| case.hold(o, tell)));
        tally.count(&case.title, held);
    }
}

/// Each shift as a whole, and cut into pieces of every small size.
fn shift_cases(tally: &mut Tally) {
    let cases = shift_file::read_folder(&casefile::folder()).unwrap_or_else(|e| panic!("{e}"));
    for case in cases {
        if let Err(difference) = case.try_own() {
            println!("# FAILED {difference}");
            tally.failed += 1;
            continue;
        }
        for size in [usize::MAX, 1, 2, 7, 20, 21, 22] {
            let mut trial = case.trial.clone();
            trial.cuts = (1..40).map(|piece| size.saturating_mul(piece)).collect();
            trial.cuts.retain(|cut| *cut < trial.input.len());
            tally.add(&case.title, Case::Shift(trial));
        }
    }
}

/// What is tried by a system, not by hand.
fn systematic(tally: &mut Tally, edition: u32) {
    let lent = Lent {
        edition,
        ..Lent::default()
    };
    let tokens = follows::all(edition).into_iter().map(|follow| follow.sheet);
    let sheets = follows::ends(edition).into_iter().chain(tokens);
    for (turn, sheet) in sheets.enumerate() {
        let mut trial = Trial::of(&sheet, lent);
        trial.turn = Some(turn);
        tally.add("a token or an end", Case::All(trial));
    }
    for (sheet, _) in near::sheets(edition) {
        tally.add("near misses", Case::All(Trial::of(&sheet, lent)));
    }
    for sheet in neighbours::all(edition) {
        tally.add("neighbours", Case::All(Trial::of(&sheet, lent)));
    }
}

/// Of a file whose lines are a sheet and its answer in turn, the answers begun
/// with an allowance and a colon: the same lines with this interpreter's answers.
fn table(file: &str) -> u64 {
    let text = std::fs::read_to_string(file).expect("the file can be read");
    let lines: Vec<&str> = text.lines().collect();
    for pair in lines.chunks(2) {
        let (sheet, allowance) = (pair[0], pair[1].split(':').next().unwrap_or_default());
        let lent = Lent {
            allowance: number(allowance.trim()),
            ..Lent::default()
        };
        let a = answer::run(sheet.as_bytes(), &lent);
        let printed: String = a.printed.iter().map(|byte| format!(" {byte}")).collect();
        let Answer {
            number,
            place,
            kind,
            value,
            units,
            ..
        } = a;
        println!("{sheet}\n{allowance}: {number} {place} {kind} {value} {units}{printed}");
    }
    0
}

/// Room for the output of any sheet of the bench, as the box has it there.
const ROOM: usize = 1 << 16;

fn by_the_clock(file: &str, allowance: u64, repeats: &str) -> u64 {
    let sheet = std::fs::read(file).expect("the file can be read");
    let lent = Lent {
        allowance,
        output: ROOM,
        ..Lent::default()
    };
    let told = match repeats {
        "print" => bench::printed(&sheet, &lent),
        _ => bench::timed(&sheet, &lent, number(repeats)).map(String::into_bytes),
    };
    match told {
        Ok(bytes) => {
            std::io::stdout()
                .write_all(&bytes)
                .expect("it can be written");
            0
        }
        Err(problem) => {
            eprintln!("{file}: {problem}");
            1
        }
    }
}
