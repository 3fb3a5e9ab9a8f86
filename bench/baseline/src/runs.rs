//! The judge of run logs: a machine with special registers, whose places have owners.

use crate::judge::{access, operate, Buffer, Register};
use crate::lines::{read_run_line, Line, Operation, RunLine};
use crate::memory::Memory;
use crate::objects::{Objects, NONE};
use crate::refusals::Refusal::{self, *};
use crate::words::*;
use std::io::{self, Read};

pub enum RunVerdict {
    Yes { steps: u32, roots: u32, objects: u32 },
    No { line: u64, refusal: Refusal },
}

const GRANULES: u32 = u32::MAX;

/// Registers c0 to c31 and scr0 to scr31, memory, and objects. The origin of a place is its owner.
pub struct RunMachine {
    registers: [Register; 64],
    memory: Memory<true>,
    pub objects: Objects,
    asks_used: bool,
    asks_owned: bool,
    clears: bool,
    steps: u32,
    roots: u32,
}

/// The owner that a capability has by that of its parent.
#[inline(always)]
fn owner_of(parent: u64, tag: bool, word: u128) -> u64 {
    if parent == NONE || !tag {
        return NONE;
    }
    let (base, top) = bounds(word);
    if base as u128 == top {
        NONE
    } else {
        parent
    }
}

/// The first check of a derivation that fails. It opens a sentry if it writes scr0.
fn derived(source: Register, opens: bool, tag: bool, word: u128) -> Result<(), Refusal> {
    if !tag {
        return Ok(());
    }
    if !source.tag {
        return Err(SourceUntagged);
    }
    if !is_sound(word) {
        return Err(UnsoundResult);
    }
    let ((low, high), (base, top)) = (bounds(source.word), bounds(word));
    if base < low || top > high || permissions(word) & !permissions(source.word) != 0 {
        return Err(BeyondSource);
    }
    let keeps = if is_sealed(source.word) {
        word == source.word || opens && object_type(source.word) == SENTRY && is_opened(source.word, word)
    } else {
        matches!(object_type(word), UNSEALED | SENTRY)
    };
    if keeps {
        Ok(())
    } else {
        Err(SealChanged)
    }
}

/// Whether a word is another without its type, at its address or with bit 0 of that cleared.
fn is_opened(word: u128, opened: u128) -> bool {
    let whole = with_object_type(word, UNSEALED as u64);
    opened == whole || opened == whole & !1
}

impl RunMachine {
    pub fn new(compares_freed: bool, asks_used: bool, asks_owned: bool) -> Self {
        let registers = [Register { word: NULL, tag: false, origin: NONE }; 64];
        RunMachine { registers, memory: Memory::new(), objects: Objects::new(compares_freed), asks_used, asks_owned, clears: false, steps: 0, roots: 0 }
    }

    /// The places that have an owner, in order, and its number.
    pub fn owned(&self) -> Vec<(u64, u32)> {
        let registers = self.registers.iter().enumerate().map(|(code, it)| (code as u64, it.origin));
        let granules = self.memory.tagged().into_iter().map(|(granule, owner)| (granule + 64, owner));
        let owned = registers.chain(granules).filter(|it| it.1 != NONE);
        owned.map(|(code, owner)| (code, self.objects.number(owner))).collect()
    }

    #[inline(always)]
    fn write(&mut self, code: u8, tag: bool, word: u128, owner: u64) {
        let register = &mut self.registers[code as usize & 63];
        let before = register.origin;
        *register = Register { word, tag, origin: owner };
        self.objects.pass(before, owner);
    }

    /// Puts what a function makes of a granule's bytes, with a tag and an owner.
    #[inline(always)]
    fn put(&mut self, granule: u64, tag: bool, owner: u64, bytes: impl FnOnce(u128) -> u128) -> Result<(), Refusal> {
        let before = if self.objects.count == 0 { NONE } else { self.memory.get(granule).origin };
        if self.steps == u32::MAX || !self.memory.put(granule, GRANULES, tag, owner, bytes) {
            return Err(LimitPassed);
        }
        self.objects.pass(before, owner);
        Ok(())
    }

    /// What the options ask of an access that passed its checks.
    #[inline(always)]
    fn ask(&self, authority: Register, at: u64, size: u8) -> Result<(), Refusal> {
        if self.asks_used && authority.origin != NONE && !self.objects.is_live(authority.origin) {
            return Err(OwnerFreed);
        }
        if self.asks_owned && authority.origin == NONE && self.objects.is_touched(at, size) {
            return Err(NotOwned);
        }
        Ok(())
    }

    fn has_room(&self) -> Result<(), Refusal> {
        if self.steps == u32::MAX {
            return Err(LimitPassed);
        }
        Ok(())
    }

    fn declare(&mut self, place: u64, word: u128) -> Result<(), Refusal> {
        let is_taken = if place < 64 { self.registers[place as usize].tag } else { self.memory.get(place - 64).tag };
        if is_taken {
            return Err(PlaceTaken);
        }
        if !is_sound(word) {
            return Err(UnsoundRoot);
        }
        if self.roots == u32::MAX {
            return Err(LimitPassed);
        }
        if place < 64 {
            self.registers[place as usize] = Register { word, tag: true, origin: NONE };
        } else if !self.memory.put(place - 64, GRANULES, true, NONE, |_| word ^ NULL) {
            return Err(LimitPassed);
        }
        self.roots += 1;
        Ok(())
    }

    #[inline(always)]
    fn usual(&mut self, line: Line) -> Result<(), Refusal> {
        match line {
            Line::Operate { operation, target, source, tag, word } => {
                let source = self.registers[source as usize & 31];
                let (failed, wanted) = operate(&self.registers, operation, source);
                let mut keeps_tag = source.tag && !matches!(operation, Operation::ClearTag);
                if let Some(refusal) = failed {
                    if !self.clears {
                        return Err(refusal);
                    }
                    keeps_tag = false;
                }
                if keeps_tag != tag || wanted != word {
                    return Err(WrongResult);
                }
                self.has_room()?;
                self.write(target, tag, word, owner_of(source.origin, tag, word));
            }
            Line::LoadCapability { target, authority, offset, tag, word } => {
                let authority = self.registers[authority as usize & 31];
                let at = access(authority, offset, 16, LOAD)?;
                self.ask(authority, at, 16)?;
                let held = self.memory.get(at >> 4);
                if tag != (held.tag && permissions(authority.word) & LOAD_CAPABILITY != 0) || held.bytes ^ NULL != word {
                    return Err(WrongResult);
                }
                self.has_room()?;
                self.write(target, tag, word, if tag { held.origin } else { NONE });
            }
            Line::StoreCapability { source, authority, offset } => {
                let authority = self.registers[authority as usize & 31];
                let source = self.registers[source as usize & 31];
                let at = access(authority, offset, 16, STORE)?;
                if source.tag {
                    if permissions(authority.word) & STORE_CAPABILITY == 0 {
                        return Err(StoreCapPermission);
                    }
                    if permissions(source.word) & GLOBAL == 0 && permissions(authority.word) & STORE_LOCAL == 0 {
                        return Err(StoreLocalPermission);
                    }
                }
                self.ask(authority, at, 16)?;
                self.put(at >> 4, source.tag, source.origin, |_| source.word ^ NULL)?;
            }
            Line::Load { authority, offset, size, value } => {
                let authority = self.registers[authority as usize & 31];
                let at = access(authority, offset, size, LOAD)?;
                self.ask(authority, at, size)?;
                let held = self.memory.get(at >> 4).bytes >> (8 * (at & 15));
                if held as u64 & (u64::MAX >> (64 - 8 * size as u32)) != value {
                    return Err(WrongResult);
                }
                self.has_room()?;
            }
            Line::Store { authority, offset, size, value } => {
                let authority = self.registers[authority as usize & 31];
                let at = access(authority, offset, size, STORE)?;
                self.ask(authority, at, size)?;
                let shift = 8 * (at & 15);
                let mask = ((u64::MAX >> (64 - 8 * size as u32)) as u128) << shift;
                self.put(at >> 4, false, NONE, |bytes: u128| bytes & !mask | (value as u128) << shift)?;
            }
            _ => unreachable!(),
        }
        Ok(())
    }

    #[inline(always)]
    fn step(&mut self, number: u64, line: RunLine) -> Result<(), Refusal> {
        match line {
            RunLine::Usual(line) => self.usual(line)?,
            RunLine::Derive { target, source, tag, word } => {
                let source = self.registers[source as usize & 63];
                derived(source, target == 32, tag, word)?;
                self.has_room()?;
                self.write(target, tag, word, owner_of(source.origin, tag, word));
            }
            RunLine::Exchange { target, source, special, first, second } => {
                let (given, taken) = (self.registers[source as usize & 31], self.registers[special as usize + 32 & 63]);
                derived(taken, false, first.0, first.1)?;
                derived(given, special == 0, second.0, second.1)?;
                self.has_room()?;
                let owners = [owner_of(taken.origin, first.0, first.1), owner_of(given.origin, second.0, second.1)];
                // Counted before anything is counted away.
                self.objects.pass(NONE, owners[0]);
                self.objects.pass(NONE, owners[1]);
                self.write(target, first.0, first.1, owners[0]);
                self.write(special + 32, second.0, second.1, owners[1]);
                self.objects.pass(owners[0], NONE);
                self.objects.pass(owners[1], NONE);
            }
            RunLine::Invoke { code, datum, first, second } => self.invoke(code, datum, first, second)?,
            RunLine::Drop(place) if place < 64 => {
                self.has_room()?;
                let word = self.registers[place as usize].word;
                self.write(place as u8, false, word, NONE);
            }
            RunLine::Drop(place) => {
                self.has_room()?;
                let owner = self.memory.get(place - 64).origin;
                self.memory.clear(place - 64);
                self.objects.pass(owner, NONE);
            }
            RunLine::Fill(granule, word) => self.put(granule, false, NONE, |_| word ^ NULL)?,
            RunLine::Object { register, number: of } => {
                let held = self.registers[register as usize & 31];
                if !held.tag || is_sealed(held.word) {
                    return Err(NoCapability);
                }
                if held.origin != NONE {
                    return Err(HasOwner);
                }
                let ((base, top), has_room) = (bounds(held.word), self.steps != u32::MAX);
                let owner = match of {
                    0 => self.objects.add(number, base, top, has_room)?,
                    of => self.objects.widen(of, base, top, has_room)?,
                };
                self.write(register, true, held.word, owner_of(owner, true, held.word));
            }
            RunLine::Free { register, number: of } => {
                let held = self.registers[register as usize & 31];
                if of == 0 && !held.tag {
                    return Err(NoCapability);
                }
                if of == 0 && held.origin == NONE {
                    return Err(NoOwner);
                }
                self.objects.free(if of == 0 { held.origin } else { NONE }, of, self.steps != u32::MAX)?;
            }
            RunLine::Version | RunLine::Root(..) => unreachable!(),
        }
        self.steps += 1;
        Ok(())
    }

    fn invoke(&mut self, code: u8, datum: u8, first: u128, second: u128) -> Result<(), Refusal> {
        let (code, datum) = (self.registers[code as usize & 31], self.registers[datum as usize & 31]);
        if !code.tag || !datum.tag {
            return Err(AuthorityUntagged);
        }
        let (of_code, of_datum) = (permissions(code.word), permissions(datum.word));
        let is_pair = object_type(code.word) == object_type(datum.word) && object_type(code.word) <= 0x3fffb;
        if !is_pair || of_code & of_datum & INVOKE == 0 || of_code & EXECUTE == 0 || of_datum & EXECUTE != 0 {
            return Err(NotInvokable);
        }
        if !is_opened(code.word, first) || second != with_object_type(datum.word, UNSEALED as u64) {
            return Err(WrongResult);
        }
        self.has_room()?;
        self.objects.pass(NONE, datum.origin);
        self.write(32, true, first, code.origin);
        self.write(31, true, second, datum.origin);
        self.objects.pass(datum.origin, NONE);
        Ok(())
    }
}

pub fn judge<R: Read>(input: R, machine: &mut RunMachine) -> io::Result<RunVerdict> {
    let mut buffer = Buffer::new(input);
    let no = |line, refusal| Ok(RunVerdict::No { line, refusal });
    for number in 1..3 {
        let other = if number == 1 { BadHeader } else { BadMode };
        match read_run_line(buffer.window()?) {
            Some((RunLine::Version, count)) if number == 1 => buffer.start += count,
            Some((RunLine::Usual(Line::Mode { clear }), count)) if number == 2 => {
                buffer.start += count;
                machine.clears = clear;
            }
            _ => {
                let refusal = buffer.refusal();
                return no(number, if refusal == BadLine { other } else { refusal });
            }
        }
    }
    let (mut number, mut has_steps) = (2, false);
    loop {
        number += 1;
        let Some((line, count)) = read_run_line(buffer.window()?) else {
            return no(number, buffer.refusal());
        };
        buffer.start += count;
        let done = match line {
            RunLine::Usual(Line::End(steps)) => {
                if steps != machine.steps {
                    return no(number, WrongCount);
                }
                if !buffer.is_at_end()? {
                    return no(number + 1, Misplaced);
                }
                return Ok(RunVerdict::Yes { steps, roots: machine.roots, objects: machine.objects.count });
            }
            RunLine::Root(..) if has_steps => Err(Misplaced),
            RunLine::Root(place, word) => machine.declare(place, word),
            RunLine::Version | RunLine::Usual(Line::Version(_) | Line::Mode { .. } | Line::Root(..)) => Err(Misplaced),
            step => {
                has_steps = true;
                machine.step(number, step)
            }
        };
        if let Err(refusal) = done {
            return no(number, refusal);
        }
    }
}
