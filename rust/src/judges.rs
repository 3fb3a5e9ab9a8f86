//! The judge: whether a log's steps have a run from its roots, and if not, which line is faulty.
use crate::abi;
use crate::lines::Line;
use crate::refusals::Refusal;
use crate::words::Capability;
use std::cell::UnsafeCell;
use std::ffi::c_void;
use std::{error, fmt, ptr};

pub(crate) const GOES_ON: u8 = 0;
pub(crate) const YES: u8 = 1;
pub(crate) const NO: u8 = 2;
pub(crate) const NO_MEMORY: u8 = 3;
pub(crate) const REPORT_SIZE: usize = 3136;

/// The verdict on a log. It is displayed as `capcheck judge` prints it.
#[derive(Clone, Copy, Debug, PartialEq, Eq, Hash)]
pub enum Verdict {
    /// The log is accepted, with as many step lines and root lines.
    Yes {
        /// The number of step lines.
        steps: u32,
        /// The number of root lines.
        roots: u32,
    },
    /// The log is rejected.
    No {
        /// The number of the faulty line, counted from 1.
        line: u64,
        /// The first check that this line fails.
        refusal: Refusal,
    },
}

impl fmt::Display for Verdict {
    fn fmt(&self, to: &mut fmt::Formatter<'_>) -> fmt::Result {
        match self {
            Verdict::Yes { steps, roots } => write!(to, "yes {steps} {roots}"),
            Verdict::No { line, refusal } => write!(to, "no {line} {} {refusal}", *refusal as u8),
        }
    }
}

/// Why a judge doesn't go on.
#[derive(Clone, Copy, Debug, PartialEq, Eq, Hash)]
pub enum Fault {
    /// This line or an earlier one is faulty. The verdict stays, whatever is passed.
    Refused {
        /// The number of the faulty line, counted from 1.
        line: u64,
        /// The first check that this line fails.
        refusal: Refusal,
    },
    /// An allocation failed. The line wasn't passed: pass it again, or give up.
    NoMemory,
    /// The bytes aren't one line with its line feed, or a number is out of range. Nothing was passed.
    NoLine,
}

impl fmt::Display for Fault {
    fn fmt(&self, to: &mut fmt::Formatter<'_>) -> fmt::Result {
        match self {
            Fault::Refused { line, refusal } => write!(to, "line {line} is refused: {refusal}"),
            Fault::NoMemory => to.write_str("the judge is out of memory"),
            Fault::NoLine => to.write_str("the bytes aren't one line with its line feed, or a number is out of range"),
        }
    }
}

impl error::Error for Fault {}

/// A place of the model.
#[derive(Clone, Copy, Debug, PartialEq, Eq, Hash)]
pub enum Place {
    /// A register, 0 to 31.
    Register(u64),
    /// The granule that contains an address; in a result, its first address.
    Granule(u64),
}

/// What the rules give for a step that records another result.
#[derive(Clone, Copy, Debug, PartialEq, Eq, Hash)]
pub enum Expected {
    /// A capability for its register.
    Capability(Capability),
    /// The number that it loads, of `size` bytes.
    Number {
        /// The number.
        number: u64,
        /// Its number of bytes in memory.
        size: u8,
    },
}

impl Expected {
    pub(crate) fn of(found: abi::Expected) -> Option<Expected> {
        match found.kind {
            1 => Some(Expected::Capability(found.cap.into())),
            2 => Some(Expected::Number { number: found.number, size: found.size }),
            _ => None,
        }
    }
}

fn refusal_of(answer: abi::Answer) -> Refusal {
    Refusal::of(answer.refusal).expect("a refused line has a refusal")
}

/// The verdict on a log in memory.
pub fn judge_bytes(log: &[u8]) -> Result<Verdict, Fault> {
    let answer = unsafe { abi::capcheck_judge_bytes(log.as_ptr(), log.len()) };
    match answer.state {
        YES => Ok(Verdict::Yes { steps: answer.steps, roots: answer.roots }),
        NO => Ok(Verdict::No { line: answer.line, refusal: refusal_of(answer) }),
        _ => Err(Fault::NoMemory),
    }
}

/// A judge that gets the lines of a log one by one, as an emulator makes them. Threads may send it, and not share it.
pub struct Judge {
    judge: UnsafeCell<abi::Judge>,
}

// The library lets any thread use a judge, one at a time.
unsafe impl Send for Judge {}

impl Judge {
    /// A judge without lines.
    pub fn new() -> Result<Judge, Fault> {
        let judge = Judge { judge: UnsafeCell::new(abi::Judge { at: ptr::null_mut::<c_void>(), held: false }) };
        match unsafe { abi::capcheck_judge_open(judge.judge.get()) } {
            GOES_ON => Ok(judge),
            _ => Err(Fault::NoMemory),
        }
    }

    fn passed(&self, state: u8) -> Result<(), Fault> {
        match state {
            GOES_ON => Ok(()),
            NO => {
                let answer = unsafe { abi::capcheck_judge_answer(self.judge.get()) };
                Err(Fault::Refused { line: answer.line, refusal: refusal_of(answer) })
            }
            NO_MEMORY => Err(Fault::NoMemory),
            _ => Err(Fault::NoLine),
        }
    }

    /// Passes the next line as its bytes, with the line feed.
    pub fn line(&mut self, line: &[u8]) -> Result<(), Fault> {
        let state = unsafe { abi::capcheck_judge_line(self.judge.get(), line.as_ptr(), line.len()) };
        self.passed(state)
    }

    /// Passes the whole lines that some bytes begin with, and returns how many bytes they have: pass the rest again, with more
    /// after it. If the log ends there and the verdict is a `yes`, pass the rest with a line feed: nothing may follow the end line.
    /// After [`Fault::NoMemory`], [`Judge::lines_taken`] says how far it came.
    pub fn lines(&mut self, bytes: &[u8]) -> Result<usize, Fault> {
        let (taken, state) = self.lines_taken(bytes);
        state.map(|()| taken)
    }

    /// The same, with the number of bytes of the lines that were taken in any case.
    pub fn lines_taken(&mut self, bytes: &[u8]) -> (usize, Result<(), Fault>) {
        let taken = unsafe { abi::capcheck_judge_lines(self.judge.get(), bytes.as_ptr(), bytes.len()) };
        (taken.bytes as usize, self.passed(taken.state))
    }

    /// Passes the next line by its numbers. No text is made of a step that passes.
    pub fn pass(&mut self, line: &Line) -> Result<(), Fault> {
        match line.step() {
            Some(step) => self.passed(unsafe { abi::capcheck_judge_step(self.judge.get(), &step) }),
            None => self.line(&line.write().map_err(|_| Fault::NoLine)?),
        }
    }

    /// The verdict on the lines so far as a whole log. More may follow.
    pub fn end(&self) -> Verdict {
        let answer = unsafe { abi::capcheck_judge_end(self.judge.get()) };
        match answer.state {
            YES => Verdict::Yes { steps: answer.steps, roots: answer.roots },
            _ => Verdict::No { line: answer.line, refusal: refusal_of(answer) },
        }
    }

    /// Whether all lines so far pass.
    pub fn goes_on(&self) -> Result<(), Fault> {
        self.passed(unsafe { abi::capcheck_judge_answer(self.judge.get()) }.state)
    }

    /// What the model holds in a register; after a faulty line, what it held before that line. None above 31.
    pub fn register(&self, number: u64) -> Option<Capability> {
        let found = unsafe { abi::capcheck_judge_register(self.judge.get(), number) };
        (found.present != 0).then(|| found.cap.into())
    }

    /// The same of the granule, 16 aligned bytes of memory, that contains an address.
    pub fn granule(&self, address: u64) -> Capability {
        unsafe { abi::capcheck_judge_granule(self.judge.get(), address) }.cap.into()
    }

    /// The place of the root that the tagged capability at a place descends from.
    pub fn origin(&self, place: Place) -> Option<Place> {
        let (number, kind) = match place {
            Place::Register(number) => (number, 1),
            Place::Granule(address) => (address, 2),
        };
        let found = unsafe { abi::capcheck_judge_origin(self.judge.get(), abi::Place { number, kind }) };
        match found.kind {
            1 => Some(Place::Register(found.number)),
            2 => Some(Place::Granule(found.number)),
            _ => None,
        }
    }

    /// After [`Refusal::WrongResult`], what the rules give.
    pub fn expected(&self) -> Option<Expected> {
        Expected::of(unsafe { abi::capcheck_judge_expected(self.judge.get()) })
    }

    /// What `capdiag why` prints of the lines so far as a whole log: the verdict, and after a `no` the diagnosis.
    pub fn diagnosis(&self) -> String {
        let mut text = vec![0; REPORT_SIZE];
        let length = unsafe { abi::capcheck_judge_end_report(self.judge.get(), text.as_mut_ptr(), text.len()) };
        String::from_utf8_lossy(&text[..length as usize]).into_owned()
    }
}

impl fmt::Debug for Judge {
    fn fmt(&self, to: &mut fmt::Formatter<'_>) -> fmt::Result {
        match self.goes_on() {
            Ok(()) => to.write_str("<Judge: no line so far is faulty>"),
            Err(fault) => write!(to, "<Judge: {fault}>"),
        }
    }
}

impl Drop for Judge {
    fn drop(&mut self) {
        unsafe { abi::capcheck_judge_close(self.judge.get()) };
    }
}
