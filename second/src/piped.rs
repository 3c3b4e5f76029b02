//! The other implementation behind a pipe: a program that takes calls on its
//! standard input and answers on its standard output (`bridge/bridge.c`). So it
//! may be made for another machine than this one and run under an emulator, and
//! one that crashes is started again.

use crate::compare::{After, Call, Heard, Other, Told};
use std::io::{self, BufReader, BufWriter, Read, Write};
use std::process::{Child, ChildStdin, ChildStdout, Command, Stdio};
use std::sync::Mutex;

pub struct Piped {
    words: Vec<String>,
    pipes: Mutex<Pipes>,
}

struct Pipes {
    child: Child,
    asked: BufWriter<ChildStdin>,
    told: BufReader<ChildStdout>,
    stack: Stack,
}

/// The most that a call took of its stack, if that was painted before, and the
/// least that was left. A call that never came back may have taken all of it.
#[derive(Clone, Copy, Debug, PartialEq, Eq)]
pub struct Stack {
    pub taken: u64,
    pub left: u64,
}

impl Default for Stack {
    fn default() -> Stack {
        Stack {
            taken: 0,
            left: u64::MAX,
        }
    }
}

/// The variable that names the program, its words apart by blanks.
pub const VARIABLE: &str = "GRUMPY_BOX";

impl Piped {
    /// The program of the variable, if there is one, its calls made on a stack
    /// of this many bytes.
    pub fn from_environment(stack: usize) -> Option<Piped> {
        Piped::new(vec![stack.to_string()])
    }

    /// The same, with each call's stack painted beforehand and measured.
    pub fn painted(stack: usize) -> Option<Piped> {
        Piped::new(vec![stack.to_string(), "paint".to_string()])
    }

    fn new(more: Vec<String>) -> Option<Piped> {
        let line = std::env::var(VARIABLE).ok()?;
        let mut words: Vec<String> = line.split_whitespace().map(str::to_string).collect();
        words.extend(more);
        let pipes = Mutex::new(Pipes::start(&words));
        Some(Piped { words, pipes })
    }

    /// What was done with the painted stack since this was last asked.
    pub fn stack(&self) -> Stack {
        let mut pipes = self.pipes.lock().expect("one call at a time");
        std::mem::take(&mut pipes.stack)
    }
}

impl Other for Piped {
    fn call(&self, call: &Call) -> Told {
        let mut pipes = self.pipes.lock().expect("one call at a time");
        let told = pipes.ask(call).and_then(|()| pipes.hear(call));
        match told {
            Ok((heard, 0)) => Ok(heard),
            Ok((_, spilt)) => Err(format!("{spilt} bytes were changed that were not lent")),
            Err(_) => {
                let end = pipes.child.wait().map(|status| status.to_string());
                *pipes = Pipes::start(&self.words);
                pipes.stack.taken = u64::MAX;
                Err(format!("it ended without an answer: {end:?}"))
            }
        }
    }
}

impl Pipes {
    fn start(words: &[String]) -> Pipes {
        let mut child = Command::new(words.first().expect("a program is named"))
            .args(&words[1..])
            .stdin(Stdio::piped())
            .stdout(Stdio::piped())
            .spawn()
            .expect("the other implementation starts");
        let asked = BufWriter::with_capacity(1 << 16, child.stdin.take().expect("its input"));
        let told = BufReader::new(child.stdout.take().expect("its output"));
        let stack = Stack::default();
        Pipes {
            child,
            asked,
            told,
            stack,
        }
    }

    fn ask(&mut self, call: &Call) -> io::Result<()> {
        let [first, second] = call.claimed;
        self.send(&[
            call.service.code(),
            u64::from(call.edition),
            call.source.len() as u64,
            call.second.len() as u64,
            call.table as u64,
            call.work as u64,
            call.output as u64,
            call.state.len() as u64,
            call.report.len() as u64,
            call.allowance,
            call.fill,
            call.shown as u64,
            first.unwrap_or(call.source.len() as u64),
            second.unwrap_or(call.second.len() as u64),
        ])?;
        self.asked.write_all(call.source)?;
        self.asked.write_all(call.second)?;
        self.send(call.state)?;
        self.send(call.report)?;
        self.asked.flush()
    }

    /// What came back, and how many bytes were changed that were not lent.
    fn hear(&mut self, call: &Call) -> io::Result<(Heard, u64)> {
        let told = self.hear_words(10)?;
        let [number, spilt, taken, left, zeros, odd, work_zeros, work_odd, changed, shown] =
            told[..]
        else {
            unreachable!("ten words");
        };
        self.stack = Stack {
            taken: taken.max(self.stack.taken),
            left: left.min(self.stack.left),
        };
        let mut output = vec![0; shown as usize];
        self.told.read_exact(&mut output)?;
        let heard = Heard {
            number,
            table: After::of(zeros, odd),
            work: After::of(work_zeros, work_odd),
            output,
            changed: changed as usize,
            state: self.hear_words(call.state.len())?,
            report: self.hear_words(call.report.len())?,
        };
        Ok((heard, spilt))
    }

    fn send(&mut self, words: &[u64]) -> io::Result<()> {
        for word in words {
            self.asked.write_all(&word.to_ne_bytes())?;
        }
        Ok(())
    }

    fn hear_words(&mut self, count: usize) -> io::Result<Vec<u64>> {
        let mut bytes = vec![0; 8 * count];
        self.told.read_exact(&mut bytes)?;
        let word = |eight: &[u8]| u64::from_ne_bytes(eight.try_into().expect("eight bytes"));
        Ok(bytes.chunks_exact(8).map(word).collect())
    }
}
