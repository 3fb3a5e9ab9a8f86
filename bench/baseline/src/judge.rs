//! The judge: lines from an input, and one machine that makes their steps.

use crate::lines::{read_line, Line, Operation, WINDOW};
use crate::memory::Memory;
use crate::refusals::Refusal::{self, *};
use crate::words::*;
use std::io::{self, Read};

pub enum Verdict {
    Yes { steps: u32, roots: u32 },
    No { line: u64, refusal: Refusal },
}

const ROOM: usize = 1 << 18;
const LONGEST: usize = 96;
const MOST_ROOTS: u32 = 4096;

/// The bytes of an input that weren't taken yet, with a window of zero bytes after them.
pub struct Buffer<R> {
    input: R,
    bytes: Box<[u8]>,
    pub start: usize,
    end: usize,
    has_ended: bool,
}

impl<R: Read> Buffer<R> {
    pub fn new(input: R) -> Self {
        Buffer { input, bytes: vec![0; ROOM + WINDOW].into_boxed_slice(), start: 0, end: 0, has_ended: false }
    }

    #[cold]
    fn fill(&mut self, least: usize) -> io::Result<()> {
        self.bytes.copy_within(self.start..self.end, 0);
        self.end -= self.start;
        self.start = 0;
        while !self.has_ended && self.end < least && !self.bytes[..self.end].contains(&b'\n') {
            let count = self.input.read(&mut self.bytes[self.end..ROOM])?;
            self.has_ended = count == 0;
            self.end += count;
        }
        self.bytes[self.end..self.end + WINDOW].fill(0);
        Ok(())
    }

    /// A window that has the next line whole, if there is one.
    #[inline(always)]
    pub fn window(&mut self) -> io::Result<&[u8; WINDOW]> {
        if self.end - self.start < LONGEST && !self.has_ended {
            self.fill(LONGEST)?;
        }
        Ok(self.bytes[self.start..self.start + WINDOW].try_into().unwrap())
    }

    /// Why the window holds no line.
    #[cold]
    pub fn refusal(&self) -> Refusal {
        let left = &self.bytes[self.start..self.end];
        if left[..left.len().min(LONGEST)].contains(&b'\n') {
            BadLine
        } else if left.len() >= LONGEST {
            LineTooLong
        } else {
            Truncated
        }
    }

    pub fn is_at_end(&mut self) -> io::Result<bool> {
        if self.start == self.end && !self.has_ended {
            self.fill(1)?;
        }
        Ok(self.start == self.end)
    }
}

/// What a register holds, and its origin or its owner.
#[derive(Clone, Copy)]
pub struct Register {
    pub word: u128,
    pub tag: bool,
    pub origin: u64,
}

pub struct Machine<const ORIGINS: bool> {
    registers: [Register; 32],
    memory: Memory<ORIGINS>,
    clears: bool,
    limit: u32,
    steps: u32,
    roots: u32,
}

impl<const ORIGINS: bool> Machine<ORIGINS> {
    pub fn new() -> Self {
        let registers = [Register { word: NULL, tag: false, origin: 0 }; 32];
        Machine { registers, memory: Memory::new(), clears: false, limit: 65_536, steps: 0, roots: 0 }
    }

    /// The tagged places with their origins, in order.
    pub fn origins(&self) -> Vec<(u64, u64)> {
        let tagged = (1..32).filter(|number| self.registers[*number].tag);
        let mut found: Vec<_> = tagged.map(|number| (number as u64, self.registers[number].origin)).collect();
        found.extend(self.memory.tagged().into_iter().map(|(granule, origin)| (granule + 32, origin)));
        found
    }

    fn declare(&mut self, place: u64, word: u128) -> Option<Refusal> {
        let is_taken = if place < 32 { self.registers[place as usize].tag } else { self.memory.get(place - 32).tag };
        if is_taken {
            return Some(PlaceTaken);
        }
        if !is_sound(word) {
            return Some(UnsoundRoot);
        }
        if self.roots >= MOST_ROOTS {
            return Some(LimitPassed);
        }
        if place < 32 {
            self.registers[place as usize] = Register { word, tag: true, origin: place };
        } else if !self.memory.put(place - 32, self.limit, true, place, |_| word ^ NULL) {
            return Some(LimitPassed);
        }
        self.roots += 1;
        None
    }

    #[inline(always)]
    fn step(&mut self, line: Line) -> Option<Refusal> {
        match line {
            Line::Operate { operation, target, source, tag, word } => {
                let source = self.registers[source as usize & 31];
                let (failed, wanted) = operate(&self.registers, operation, source);
                let mut keeps_tag = source.tag && !matches!(operation, Operation::ClearTag);
                if failed.is_some() {
                    if !self.clears {
                        return failed;
                    }
                    keeps_tag = false;
                }
                if keeps_tag != tag || wanted != word {
                    return Some(WrongResult);
                }
                if self.steps == u32::MAX {
                    return Some(LimitPassed);
                }
                self.registers[target as usize & 31] = Register { word, tag, origin: source.origin };
            }
            Line::LoadCapability { target, authority, offset, tag, word } => {
                let authority = self.registers[authority as usize & 31];
                let at = match access(authority, offset, 16, LOAD) {
                    Ok(at) => at,
                    Err(refusal) => return Some(refusal),
                };
                let held = self.memory.get(at >> 4);
                if tag != (held.tag && permissions(authority.word) & LOAD_CAPABILITY != 0) || held.bytes ^ NULL != word {
                    return Some(WrongResult);
                }
                if self.steps == u32::MAX {
                    return Some(LimitPassed);
                }
                self.registers[target as usize & 31] = Register { word, tag, origin: held.origin };
            }
            Line::StoreCapability { source, authority, offset } => {
                let authority = self.registers[authority as usize & 31];
                let source = self.registers[source as usize & 31];
                let at = match access(authority, offset, 16, STORE) {
                    Ok(at) => at,
                    Err(refusal) => return Some(refusal),
                };
                if source.tag {
                    if permissions(authority.word) & STORE_CAPABILITY == 0 {
                        return Some(StoreCapPermission);
                    }
                    if permissions(source.word) & GLOBAL == 0 && permissions(authority.word) & STORE_LOCAL == 0 {
                        return Some(StoreLocalPermission);
                    }
                }
                if self.steps == u32::MAX || !self.memory.put(at >> 4, self.limit, source.tag, source.origin, |_| source.word ^ NULL) {
                    return Some(LimitPassed);
                }
            }
            Line::Load { authority, offset, size, value } => {
                let at = match access(self.registers[authority as usize & 31], offset, size, LOAD) {
                    Ok(at) => at,
                    Err(refusal) => return Some(refusal),
                };
                let held = self.memory.get(at >> 4).bytes >> (8 * (at & 15));
                if held as u64 & (u64::MAX >> (64 - 8 * size as u32)) != value {
                    return Some(WrongResult);
                }
                if self.steps == u32::MAX {
                    return Some(LimitPassed);
                }
            }
            Line::Store { authority, offset, size, value } => {
                let at = match access(self.registers[authority as usize & 31], offset, size, STORE) {
                    Ok(at) => at,
                    Err(refusal) => return Some(refusal),
                };
                let shift = 8 * (at & 15);
                let mask = ((u64::MAX >> (64 - 8 * size as u32)) as u128) << shift;
                let put = |bytes: u128| bytes & !mask | (value as u128) << shift;
                if self.steps == u32::MAX || !self.memory.put(at >> 4, self.limit, false, 0, put) {
                    return Some(LimitPassed);
                }
            }
            _ => unreachable!(),
        }
        self.steps += 1;
        None
    }
}

/// The first check of an authority that fails, for sealing or unsealing.
#[inline(always)]
fn authorize(authority: Register, permission: u32) -> Option<Refusal> {
    if !authority.tag {
        return Some(AuthorityUntagged);
    }
    if is_sealed(authority.word) {
        return Some(AuthoritySealed);
    }
    if permissions(authority.word) & permission == 0 {
        return Some(AuthorityPermission);
    }
    let (base, top) = bounds(authority.word);
    let at = address(authority.word);
    if !(base <= at && (at as u128) < top) {
        return Some(AuthorityBounds);
    }
    None
}

/// The first check of an operation that fails, and its result's word.
#[inline(always)]
pub fn operate(registers: &[Register], operation: Operation, source: Register) -> (Option<Refusal>, u128) {
    let word = source.word;
    match operation {
        Operation::Move | Operation::ClearTag => (None, word),
        Operation::SetBounds(length) | Operation::SetBoundsExact(length) => {
            let rounded = round(address(word), length);
            let mut failed = None;
            if source.tag {
                if is_sealed(word) {
                    failed = Some(SourceSealed);
                } else {
                    let (base, top) = bounds(word);
                    if !(base <= rounded.base && rounded.top <= top) {
                        failed = Some(BoundsEscape);
                    } else if matches!(operation, Operation::SetBoundsExact(_)) && !rounded.is_exact {
                        failed = Some(NotExact);
                    }
                }
            }
            (failed, with_bounds(word, &rounded))
        }
        Operation::SetAddress(to) => {
            let failed = if !source.tag {
                None
            } else if is_sealed(word) {
                Some(SourceSealed)
            } else if !keeps_bounds(word, to) {
                Some(NotRepresentable)
            } else {
                None
            };
            (failed, with_address(word, to))
        }
        Operation::AndPermissions(mask) => {
            let failed = if source.tag && is_sealed(word) { Some(SourceSealed) } else { None };
            (failed, with_permissions(word, mask))
        }
        Operation::Seal(number) => {
            let authority = registers[number as usize & 31];
            let mut failed = authorize(authority, SEAL);
            if failed.is_none() {
                if address(authority.word) > 0x3fffb {
                    failed = Some(TypeOutOfRange);
                } else if !source.tag {
                    failed = Some(SourceUntagged);
                } else if is_sealed(word) {
                    failed = Some(SourceSealed);
                }
            }
            (failed, with_object_type(word, address(authority.word)))
        }
        Operation::Unseal(number) => {
            let authority = registers[number as usize & 31];
            let mut failed = authorize(authority, UNSEAL);
            if failed.is_none() {
                if !source.tag {
                    failed = Some(SourceUntagged);
                } else if object_type(word) >= 0x3fffc || object_type(word) as u64 != address(authority.word) {
                    failed = Some(TypeMismatch);
                }
            }
            (failed, unsealed(word, permissions(authority.word) & GLOBAL != 0))
        }
    }
}

/// The address of an access.
#[inline(always)]
pub fn access(authority: Register, offset: i16, size: u8, permission: u32) -> Result<u64, Refusal> {
    if !authority.tag {
        return Err(AuthorityUntagged);
    }
    if is_sealed(authority.word) {
        return Err(AuthoritySealed);
    }
    if permissions(authority.word) & permission == 0 {
        return Err(AuthorityPermission);
    }
    let at = address(authority.word).wrapping_add(offset as i64 as u64);
    let (base, top) = bounds(authority.word);
    if !(base <= at && at as u128 + size as u128 <= top) {
        return Err(AuthorityBounds);
    }
    if at & (size as u64 - 1) != 0 {
        return Err(Misaligned);
    }
    Ok(at)
}

pub fn judge<R: Read, const ORIGINS: bool>(input: R, machine: &mut Machine<ORIGINS>) -> io::Result<Verdict> {
    let mut buffer = Buffer::new(input);
    let mut number = 1;
    let no = |line, refusal| Ok(Verdict::No { line, refusal });
    let version = match read_line(buffer.window()?) {
        Some((Line::Version(version), count)) => {
            buffer.start += count;
            version
        }
        _ => {
            let refusal = buffer.refusal();
            return no(1, if refusal == BadLine { BadHeader } else { refusal });
        }
    };
    if version == 2 {
        number = 2;
        match read_line(buffer.window()?) {
            Some((Line::Mode { clear }, count)) => {
                buffer.start += count;
                machine.clears = clear;
                machine.limit = 1_048_576;
            }
            _ => {
                let refusal = buffer.refusal();
                return no(2, if refusal == BadLine { BadMode } else { refusal });
            }
        }
    }
    let mut has_steps = false;
    loop {
        number += 1;
        let Some((line, count)) = read_line(buffer.window()?) else {
            return no(number, buffer.refusal());
        };
        buffer.start += count;
        let failed = match line {
            Line::End(steps) => {
                if steps != machine.steps {
                    return no(number, WrongCount);
                }
                if !buffer.is_at_end()? {
                    return no(number + 1, Misplaced);
                }
                return Ok(Verdict::Yes { steps, roots: machine.roots });
            }
            Line::Root(place, word) => {
                if has_steps {
                    Some(Misplaced)
                } else {
                    machine.declare(place, word)
                }
            }
            Line::Version(2) | Line::Mode { .. } if version == 1 => Some(BadLine),
            Line::Version(_) | Line::Mode { .. } => Some(Misplaced),
            step => {
                has_steps = true;
                machine.step(step)
            }
        };
        if let Some(refusal) = failed {
            return no(number, refusal);
        }
    }
}
