//! Run logs: their lines, their judge, and the objects that own what places hold.
use crate::abi;
use crate::judges::{Expected, Fault, GOES_ON, NO, NO_MEMORY, REPORT_SIZE, YES};
use crate::lines::{recording, register, Line, LineText, OutOfRange};
use crate::refusals::Refusal;
use crate::words::{to_word, Capability};
use std::cell::UnsafeCell;
use std::ffi::c_void;
use std::{fmt, ptr};

/// The harts of a log are 0 to 65,535.
const HARTS: u32 = 65536;

/// A place that a run's machine has. It is displayed as a log writes it.
#[derive(Clone, Copy, Debug, PartialEq, Eq, Hash)]
pub enum RunPlace {
    /// A general-purpose register, 1 to 31; 0 too where it is only read.
    Register(u64),
    /// The granule that contains an address; in a line and in a result, its first address.
    Granule(u64),
    /// A special register, 0 to 31: 0 is PCC, 1 is DDC.
    Special(u64),
}

impl From<RunPlace> for abi::Place {
    fn from(place: RunPlace) -> abi::Place {
        let (number, kind) = match place {
            RunPlace::Register(number) => (number, 1),
            RunPlace::Granule(address) => (address, 2),
            RunPlace::Special(number) => (number, 3),
        };
        abi::Place { number, kind }
    }
}

fn place_of(place: abi::Place) -> Option<RunPlace> {
    match place.kind {
        1 => Some(RunPlace::Register(place.number)),
        2 => Some(RunPlace::Granule(place.number)),
        3 => Some(RunPlace::Special(place.number)),
        _ => None,
    }
}

impl fmt::Display for RunPlace {
    fn fmt(&self, to: &mut fmt::Formatter<'_>) -> fmt::Result {
        match self {
            RunPlace::Register(number) => write!(to, "c{number}"),
            RunPlace::Granule(address) => write!(to, "@{address:016x}"),
            RunPlace::Special(number) => write!(to, "scr{number}"),
        }
    }
}

/// A line of a run log. The fields named `recorded` are what the target holds after the step; registers are numbers from 0 to
/// 31, and those that are written at least 1.
#[derive(Clone, Copy, Debug, PartialEq, Eq, Hash)]
pub enum RunLine {
    /// A line that logs of steps have, too: a mode, a root in a register or in memory, one of their steps, the end.
    Usual(Line),
    /// The first line, `run 1`.
    Version,
    /// A root in a special register.
    RootSpecial {
        /// The special register.
        special: u64,
        /// The root.
        word: u128,
    },
    /// The registers of the lines after it are those of the hart with this number, 0 to 65,535.
    Hart(u64),
    /// A register, special or not, gets what is derived from another one.
    Derive {
        /// The register that is written.
        target: RunPlace,
        /// The register that is read.
        source: RunPlace,
        /// What the target gets.
        recorded: Capability,
    },
    /// A register gets what is derived from a special register, and that what is derived from a register: a call, or CSpecialRW.
    Exchange {
        /// The register that is written.
        target: u64,
        /// The register that is read.
        source: u64,
        /// The special register that is read and written.
        special: u64,
        /// What the target gets.
        recorded: Capability,
        /// What the special register gets.
        special_recorded: Capability,
    },
    /// CInvoke: PCC and c31 get the two words, tagged.
    Invoke {
        /// The register of the code capability.
        code: u64,
        /// The register of the data capability.
        datum: u64,
        /// The word of PCC.
        code_word: u128,
        /// The word of c31.
        datum_word: u128,
    },
    /// The tag of a place goes.
    Drop(RunPlace),
    /// A granule gets a word without a tag, from outside.
    Fill {
        /// The granule's first address.
        address: u64,
        /// The word.
        word: u128,
    },
    /// What a register holds is a new object's if `object` is 0; otherwise it is also that of the object with this number.
    Object {
        /// The register.
        source: u64,
        /// An object's number, or 0.
        object: u64,
    },
    /// Frees the object that owns a register; or, of the register 0, the object with a number.
    Free {
        /// The register, or 0.
        source: u64,
        /// An object's number, or 0.
        object: u64,
    },
}

impl From<Line> for RunLine {
    fn from(line: Line) -> RunLine {
        RunLine::Usual(line)
    }
}

impl RunLine {
    /// Writes the line.
    pub fn write(&self) -> Result<LineText, OutOfRange> {
        LineText::by(|to| unsafe {
            match *self {
                RunLine::Usual(line) => line.write_to(to),
                RunLine::Version => abi::capcheck_line_run_version(to),
                RunLine::RootSpecial { special, word } => abi::capcheck_line_root_special(to, special, to_word(word)),
                RunLine::Hart(hart) => abi::capcheck_line_hart(to, hart),
                RunLine::Derive { target, source, recorded } => {
                    abi::capcheck_line_derive(to, target.into(), source.into(), recorded.into())
                }
                RunLine::Exchange { target, source, special, recorded, special_recorded } => {
                    abi::capcheck_line_exchange(to, target, source, special, recorded.into(), special_recorded.into())
                }
                RunLine::Invoke { code, datum, code_word, datum_word } => {
                    abi::capcheck_line_invoke(to, code, datum, to_word(code_word), to_word(datum_word))
                }
                RunLine::Drop(place) => abi::capcheck_line_drop(to, place.into()),
                RunLine::Fill { address, word } => abi::capcheck_line_fill(to, address, to_word(word)),
                RunLine::Object { source, object } => abi::capcheck_line_object(to, source, object),
                RunLine::Free { source, object } => abi::capcheck_line_free(to, source, object),
            }
        })
    }

    /// A step as C takes it by its kind; none for a line that is no step.
    fn step(&self) -> Option<abi::RunLine> {
        let (none, null) = (abi::Place { number: 0, kind: 0 }, Capability::NULL);
        let tagged = |word| Capability::new(word, true);
        let alone = |line| abi::RunLine { line, second: null.into(), target: none, source: none };
        Some(match *self {
            RunLine::Usual(line) => alone(line.step()?),
            RunLine::Derive { target, source, recorded } => {
                abi::RunLine { target: target.into(), source: source.into(), ..alone(recording(64, 0, 0, 0, recorded)) }
            }
            RunLine::Exchange { target, source, special, recorded, special_recorded } => {
                abi::RunLine { second: special_recorded.into(), ..alone(recording(65, target, source, special, recorded)) }
            }
            RunLine::Invoke { code, datum, code_word, datum_word } => {
                let line = abi::Line { authority: register(datum), ..recording(66, 0, code, 0, tagged(code_word)) };
                abi::RunLine { second: tagged(datum_word).into(), ..alone(line) }
            }
            RunLine::Drop(place) => abi::RunLine { target: place.into(), ..alone(recording(67, 0, 0, 0, null)) },
            RunLine::Fill { address, word } => alone(recording(68, 0, 0, address, Capability::new(word, false))),
            RunLine::Object { source, object } => alone(recording(69, 0, source, object, null)),
            RunLine::Free { source, object } => alone(recording(70, 0, source, object, null)),
            RunLine::Version | RunLine::RootSpecial { .. } | RunLine::Hart(_) => return None,
        })
    }

    /// Reads the line at the front of some bytes, with its line feed: the line and its length, or none.
    pub fn read(bytes: &[u8]) -> Option<(RunLine, usize)> {
        let found = unsafe { abi::capcheck_read_run_line(bytes.as_ptr(), bytes.len()) };
        let it = &found.line;
        let (target, source, recorded) = (it.target.into(), it.source.into(), Capability::from(it.cap));
        let second = Capability::from(found.second);
        let line = match it.kind {
            64 => RunLine::Derive { target: place_of(found.target)?, source: place_of(found.source)?, recorded },
            65 => RunLine::Exchange { target, source, special: it.number, recorded, special_recorded: second },
            66 => {
                let datum = it.authority.into();
                RunLine::Invoke { code: source, datum, code_word: recorded.word(), datum_word: second.word() }
            }
            67 => RunLine::Drop(place_of(found.target)?),
            68 => RunLine::Fill { address: it.number, word: recorded.word() },
            69 => RunLine::Object { source, object: it.number },
            70 => RunLine::Free { source, object: it.number },
            71 => RunLine::Version,
            72 => RunLine::RootSpecial { special: target, word: recorded.word() },
            73 => RunLine::Hart(it.number),
            _ => RunLine::Usual(Line::of(it)?),
        };
        Some((line, it.length))
    }
}

/// What is asked of freed objects, and of authorities that no object owns. The default is what `capdiag run` asks by itself.
#[derive(Clone, Copy, Debug, PartialEq, Eq, Hash)]
pub struct Asks {
    /// No memory is allocated again while a capability of a freed object reaches it.
    pub held: bool,
    /// No access goes through a capability of a freed object.
    pub used: bool,
    /// No access through a capability without owner touches a live object.
    pub owned: bool,
}

impl Default for Asks {
    fn default() -> Asks {
        Asks { held: true, used: false, owned: false }
    }
}

impl From<Asks> for abi::Asks {
    fn from(asks: Asks) -> abi::Asks {
        abi::Asks { held: asks.held.into(), used: asks.used.into(), owned: asks.owned.into() }
    }
}

/// The verdict on a run log. It is displayed as `capdiag run` prints it.
#[derive(Clone, Copy, Debug, PartialEq, Eq, Hash)]
pub enum RunVerdict {
    /// The log is accepted.
    Yes {
        /// The number of step lines.
        steps: u32,
        /// The number of root lines.
        roots: u32,
        /// How many objects were allocated.
        objects: u32,
    },
    /// The log is rejected.
    No {
        /// The number of the faulty line, counted from 1.
        line: u64,
        /// The first check that this line fails.
        refusal: Refusal,
    },
}

impl fmt::Display for RunVerdict {
    fn fmt(&self, to: &mut fmt::Formatter<'_>) -> fmt::Result {
        match self {
            RunVerdict::Yes { steps, roots, objects } => write!(to, "yes {steps} {roots} {objects}"),
            RunVerdict::No { line, refusal } => write!(to, "no {line} {} {refusal}", *refusal as u8),
        }
    }
}

/// An object that is live, or of which a place still holds a capability. It is displayed as `capdiag run --owners` prints it.
#[derive(Clone, Copy, Debug, PartialEq, Eq, Hash)]
pub struct Object {
    /// Its number: objects are numbered from 1 in the order in which they are allocated.
    pub number: u32,
    /// Its first address.
    pub base: u64,
    /// The address after its last one.
    pub top: u128,
    /// How many places it owns.
    pub held: u64,
    /// The number of the line that handed it out.
    pub line: u64,
    /// Whether it isn't freed.
    pub live: bool,
}

impl fmt::Display for Object {
    fn fmt(&self, to: &mut fmt::Formatter<'_>) -> fmt::Result {
        let Object { number, base, top, held, line, live } = self;
        write!(to, "object {number} {line} {base:016x} {top:017x} {} {held}", if *live { "live" } else { "freed" })
    }
}

fn refusal_of(answer: abi::RunAnswer) -> Refusal {
    Refusal::of(answer.refusal).expect("a refused line has a refusal")
}

fn verdict_of(answer: abi::RunAnswer) -> Result<RunVerdict, Fault> {
    match answer.state {
        YES => Ok(RunVerdict::Yes { steps: answer.steps, roots: answer.roots, objects: answer.objects }),
        NO => Ok(RunVerdict::No { line: answer.line, refusal: refusal_of(answer) }),
        _ => Err(Fault::NoMemory),
    }
}

/// The verdict on a run log in memory.
pub fn judge_run_bytes(log: &[u8], asks: Asks) -> Result<RunVerdict, Fault> {
    verdict_of(unsafe { abi::capcheck_run_judge_bytes(log.as_ptr(), log.len(), asks.into()) })
}

/// A judge that gets the lines of a run log one by one, as an emulator makes them. Threads may send it, and not share it.
pub struct RunJudge {
    judge: UnsafeCell<abi::RunJudge>,
}

// The library lets any thread use a judge, one at a time.
unsafe impl Send for RunJudge {}

impl RunJudge {
    /// A judge without lines.
    pub fn new(asks: Asks) -> Result<RunJudge, Fault> {
        let judge = RunJudge { judge: UnsafeCell::new(abi::RunJudge { at: ptr::null_mut::<c_void>(), held: false }) };
        match unsafe { abi::capcheck_run_judge_open(judge.judge.get(), asks.into()) } {
            GOES_ON => Ok(judge),
            _ => Err(Fault::NoMemory),
        }
    }

    fn passed(&self, state: u8) -> Result<(), Fault> {
        match state {
            GOES_ON => Ok(()),
            NO => {
                let answer = unsafe { abi::capcheck_run_judge_answer(self.judge.get()) };
                Err(Fault::Refused { line: answer.line, refusal: refusal_of(answer) })
            }
            NO_MEMORY => Err(Fault::NoMemory),
            _ => Err(Fault::NoLine),
        }
    }

    /// Passes the next line as its bytes, with the line feed.
    pub fn line(&mut self, line: &[u8]) -> Result<(), Fault> {
        let state = unsafe { abi::capcheck_run_judge_line(self.judge.get(), line.as_ptr(), line.len()) };
        self.passed(state)
    }

    /// Passes the whole lines that some bytes begin with, and returns how many bytes they have: pass the rest again, with more
    /// after it. If the log ends there and the verdict is a `yes`, pass the rest with a line feed: nothing may follow the end line.
    /// After [`Fault::NoMemory`], [`RunJudge::lines_taken`] says how far it came.
    pub fn lines(&mut self, bytes: &[u8]) -> Result<usize, Fault> {
        let (taken, state) = self.lines_taken(bytes);
        state.map(|()| taken)
    }

    /// The same, with the number of bytes of the lines that were taken in any case.
    pub fn lines_taken(&mut self, bytes: &[u8]) -> (usize, Result<(), Fault>) {
        let taken = unsafe { abi::capcheck_run_judge_lines(self.judge.get(), bytes.as_ptr(), bytes.len()) };
        (taken.bytes as usize, self.passed(taken.state))
    }

    /// Passes the next line by its numbers. No text is made of a step that passes.
    pub fn pass(&mut self, line: impl Into<RunLine>) -> Result<(), Fault> {
        let line = line.into();
        match line.step() {
            Some(step) => self.passed(unsafe { abi::capcheck_run_step(self.judge.get(), &step) }),
            None => self.line(&line.write().map_err(|_| Fault::NoLine)?),
        }
    }

    /// The verdict on the lines so far as a whole log. More may follow.
    pub fn end(&self) -> RunVerdict {
        let answer = unsafe { abi::capcheck_run_judge_end(self.judge.get()) };
        verdict_of(answer).expect("the end of a log needs no memory")
    }

    /// Whether all lines so far pass.
    pub fn goes_on(&self) -> Result<(), Fault> {
        self.passed(unsafe { abi::capcheck_run_judge_answer(self.judge.get()) }.state)
    }

    /// After [`Refusal::WrongResult`] of a step that other logs have too, what the rules give.
    pub fn expected(&self) -> Option<Expected> {
        Expected::of(unsafe { abi::capcheck_run_judge_expected(self.judge.get()) })
    }

    /// The current hart, whose registers the next line names: that of the last hart line, or 0.
    pub fn hart(&self) -> u32 {
        unsafe { abi::capcheck_run_judge_hart(self.judge.get()) }
    }

    /// The harts that hart lines named, and hart 0, by their numbers.
    pub fn harts(&self) -> impl Iterator<Item = u32> + '_ {
        let mut from = 0;
        std::iter::from_fn(move || {
            let hart = unsafe { abi::capcheck_run_judge_next_hart(self.judge.get(), from) };
            from = hart + 1;
            (hart < HARTS).then_some(hart)
        })
    }

    /// What [`RunJudge::held`] is, where a register is that of a hart.
    pub fn held_in(&self, hart: u32, place: RunPlace) -> Option<Capability> {
        let found = unsafe { abi::capcheck_run_judge_held_in(self.judge.get(), hart, place.into()) };
        (found.present != 0).then(|| found.cap.into())
    }

    /// What [`RunJudge::owner`] is, where a register is that of a hart.
    pub fn owner_in(&self, hart: u32, place: RunPlace) -> Option<u32> {
        let number = unsafe { abi::capcheck_run_judge_owner_in(self.judge.get(), hart, place.into()) };
        (number != 0).then_some(number)
    }

    /// What the model holds in a place, a register of the current hart; after a faulty line, what it held before that line. None
    /// if there is no such place.
    pub fn held(&self, place: RunPlace) -> Option<Capability> {
        let found = unsafe { abi::capcheck_run_judge_held(self.judge.get(), place.into()) };
        (found.present != 0).then(|| found.cap.into())
    }

    /// The number of the object that owns what a place holds.
    pub fn owner(&self, place: RunPlace) -> Option<u32> {
        let number = unsafe { abi::capcheck_run_judge_owner(self.judge.get(), place.into()) };
        (number != 0).then_some(number)
    }

    /// The object with a number; none if it was never allocated, or is freed and no place holds it.
    pub fn object(&self, number: u32) -> Option<Object> {
        let found = unsafe { abi::capcheck_run_judge_object(self.judge.get(), number) };
        let top = u128::from(found.top.high) << 64 | u128::from(found.top.low);
        let abi::Object { base, held, line, state, .. } = found;
        (state != 0).then_some(Object { number, base, top, held, line, live: state == 1 })
    }

    /// The objects that are live or held, by their numbers.
    pub fn objects(&self) -> impl Iterator<Item = Object> + '_ {
        let mut from = Some(1);
        std::iter::from_fn(move || {
            let number = unsafe { abi::capcheck_run_judge_next_object(self.judge.get(), from?) };
            from = if number == 0 { None } else { number.checked_add(1) };
            self.object(number)
        })
    }

    /// The first place that an object owns: by hart c1 to c31 and the special registers, then granules by address.
    /// [`RunJudge::holder_hart`] is that register's hart.
    pub fn holder(&self, number: u32) -> Option<RunPlace> {
        place_of(unsafe { abi::capcheck_run_judge_holder(self.judge.get(), number) })
    }

    /// Of which hart the register is that [`RunJudge::holder`] names; 0 for a granule, and for none.
    pub fn holder_hart(&self, number: u32) -> u32 {
        unsafe { abi::capcheck_run_judge_holder_hart(self.judge.get(), number) }
    }

    /// What `capdiag run --why` prints of the lines so far as a whole log: the verdict, and after a `no` the diagnosis; after a
    /// `yes` without what was asked.
    pub fn diagnosis(&self) -> String {
        let mut text = vec![0; REPORT_SIZE];
        let length = unsafe { abi::capcheck_run_judge_end_report(self.judge.get(), text.as_mut_ptr(), text.len()) };
        String::from_utf8_lossy(&text[..length as usize]).into_owned()
    }
}

impl fmt::Debug for RunJudge {
    fn fmt(&self, to: &mut fmt::Formatter<'_>) -> fmt::Result {
        match self.goes_on() {
            Ok(()) => to.write_str("<RunJudge: no line so far is faulty>"),
            Err(fault) => write!(to, "<RunJudge: {fault}>"),
        }
    }
}

impl Drop for RunJudge {
    fn drop(&mut self) {
        unsafe { abi::capcheck_run_judge_close(self.judge.get()) };
    }
}
