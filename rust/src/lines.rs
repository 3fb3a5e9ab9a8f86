//! The lines of a log.
use crate::abi;
use crate::words::{to_word, Capability};
use std::{error, fmt, ops};

const LINE_SIZE: usize = 96;

/// A line of a log. The fields named `recorded` are what the target holds after the step; `target` is a register from 1 to 31,
/// `source` and `authority` are registers from 0 to 31, an `offset` is from -2048 to 2047, a `size` is 1, 2, 4 or 8, and a
/// `value` has as many bytes.
#[derive(Clone, Copy, Debug, PartialEq, Eq, Hash)]
#[allow(missing_docs)]
pub enum Line {
    /// The first line: version 1 or 2.
    Version(u64),
    /// The second line of a log of version 2.
    Mode {
        clear: bool,
    },
    /// A root in a register.
    Root {
        target: u64,
        word: u128,
    },
    /// A root in the granule at an address, a multiple of 16.
    RootAt {
        address: u64,
        word: u128,
    },
    Move {
        target: u64,
        source: u64,
        recorded: Capability,
    },
    ClearTag {
        target: u64,
        source: u64,
        recorded: Capability,
    },
    SetBounds {
        target: u64,
        source: u64,
        length: u64,
        recorded: Capability,
    },
    SetBoundsExact {
        target: u64,
        source: u64,
        length: u64,
        recorded: Capability,
    },
    SetAddress {
        target: u64,
        source: u64,
        address: u64,
        recorded: Capability,
    },
    AndPermissions {
        target: u64,
        source: u64,
        mask: u64,
        recorded: Capability,
    },
    Seal {
        target: u64,
        source: u64,
        authority: u64,
        recorded: Capability,
    },
    Unseal {
        target: u64,
        source: u64,
        authority: u64,
        recorded: Capability,
    },
    LoadCapability {
        target: u64,
        authority: u64,
        offset: i64,
        recorded: Capability,
    },
    StoreCapability {
        source: u64,
        authority: u64,
        offset: i64,
    },
    Load {
        authority: u64,
        offset: i64,
        size: u64,
        value: u64,
    },
    Store {
        authority: u64,
        offset: i64,
        size: u64,
        value: u64,
    },
    /// The last line: the number of step lines, below 2^32.
    End {
        steps: u64,
    },
}

/// A number of a line is out of range.
#[derive(Clone, Copy, Debug, PartialEq, Eq)]
pub struct OutOfRange;

impl fmt::Display for OutOfRange {
    fn fmt(&self, to: &mut fmt::Formatter<'_>) -> fmt::Result {
        to.write_str("a number of a line is out of range")
    }
}

impl error::Error for OutOfRange {}

/// The text of a line, with its line feed. It derefs to its bytes.
#[derive(Clone, Copy)]
pub struct LineText {
    bytes: [u8; LINE_SIZE],
    length: usize,
}

impl LineText {
    /// The text that a call of C writes, which returns its length, or 0 if a number is out of range.
    pub(crate) fn by(write: impl FnOnce(*mut u8) -> usize) -> Result<LineText, OutOfRange> {
        let mut bytes = [0; LINE_SIZE];
        match write(bytes.as_mut_ptr()) {
            0 => Err(OutOfRange),
            length => Ok(LineText { bytes, length }),
        }
    }
}

impl ops::Deref for LineText {
    type Target = [u8];

    fn deref(&self) -> &[u8] {
        &self.bytes[..self.length]
    }
}

impl Line {
    /// Writes the line.
    pub fn write(&self) -> Result<LineText, OutOfRange> {
        LineText::by(|to| unsafe { self.write_to(to) })
    }

    /// Writes the line to where a buffer of [`LINE_SIZE`] bytes is.
    pub(crate) unsafe fn write_to(&self, to: *mut u8) -> usize {
        unsafe {
            match *self {
                Line::Version(number) => abi::capcheck_line_version(to, number),
                Line::Mode { clear } => abi::capcheck_line_mode(to, clear.into()),
                Line::Root { target, word } => abi::capcheck_line_root(to, target, to_word(word)),
                Line::RootAt { address, word } => abi::capcheck_line_root_at(to, address, to_word(word)),
                Line::Move { target, source, recorded } => abi::capcheck_line_move(to, target, source, recorded.into()),
                Line::ClearTag { target, source, recorded } => abi::capcheck_line_cleartag(to, target, source, recorded.into()),
                Line::SetBounds { target, source, length, recorded } => {
                    abi::capcheck_line_setbounds(to, target, source, length, recorded.into())
                }
                Line::SetBoundsExact { target, source, length, recorded } => {
                    abi::capcheck_line_setboundsexact(to, target, source, length, recorded.into())
                }
                Line::SetAddress { target, source, address, recorded } => {
                    abi::capcheck_line_setaddr(to, target, source, address, recorded.into())
                }
                Line::AndPermissions { target, source, mask, recorded } => {
                    abi::capcheck_line_andperm(to, target, source, mask, recorded.into())
                }
                Line::Seal { target, source, authority, recorded } => {
                    abi::capcheck_line_seal(to, target, source, authority, recorded.into())
                }
                Line::Unseal { target, source, authority, recorded } => {
                    abi::capcheck_line_unseal(to, target, source, authority, recorded.into())
                }
                Line::LoadCapability { target, authority, offset, recorded } => {
                    abi::capcheck_line_lc(to, target, authority, offset, recorded.into())
                }
                Line::StoreCapability { source, authority, offset } => abi::capcheck_line_sc(to, source, authority, offset),
                Line::Load { authority, offset, size, value } => abi::capcheck_line_load(to, authority, offset, size, value),
                Line::Store { authority, offset, size, value } => abi::capcheck_line_store(to, authority, offset, size, value),
                Line::End { steps } => abi::capcheck_line_end(to, steps),
            }
        }
    }

    /// A step as C takes it by its kind; none for a line that is no step.
    pub(crate) fn step(&self) -> Option<abi::Line> {
        Some(match *self {
            Line::Move { target, source, recorded } => recording(5, target, source, 0, recorded),
            Line::ClearTag { target, source, recorded } => recording(6, target, source, 0, recorded),
            Line::SetBounds { target, source, length, recorded } => recording(7, target, source, length, recorded),
            Line::SetBoundsExact { target, source, length, recorded } => recording(8, target, source, length, recorded),
            Line::SetAddress { target, source, address, recorded } => recording(9, target, source, address, recorded),
            Line::AndPermissions { target, source, mask, recorded } => recording(10, target, source, mask, recorded),
            Line::Seal { target, source, authority, recorded } => {
                abi::Line { authority: register(authority), ..recording(11, target, source, 0, recorded) }
            }
            Line::Unseal { target, source, authority, recorded } => {
                abi::Line { authority: register(authority), ..recording(12, target, source, 0, recorded) }
            }
            Line::LoadCapability { target, authority, offset, recorded } => {
                abi::Line { cap: recorded.into(), target: register(target), ..access(13, authority, offset, 0, 0) }
            }
            Line::StoreCapability { source, authority, offset } => {
                abi::Line { source: register(source), ..access(14, authority, offset, 0, 0) }
            }
            Line::Load { authority, offset, size, value } => access(15, authority, offset, size, value),
            Line::Store { authority, offset, size, value } => access(16, authority, offset, size, value),
            Line::Version(_) | Line::Mode { .. } | Line::Root { .. } | Line::RootAt { .. } | Line::End { .. } => return None,
        })
    }

    /// Reads the line at the front of some bytes, with its line feed: the line and its length, or none.
    pub fn read(bytes: &[u8]) -> Option<(Line, usize)> {
        let found = unsafe { abi::capcheck_read_line(bytes.as_ptr(), bytes.len()) };
        Some((Line::of(&found)?, found.length))
    }

    /// The line that C read, or none.
    pub(crate) fn of(found: &abi::Line) -> Option<Line> {
        let (target, source, authority) = (found.target.into(), found.source.into(), found.authority.into());
        let (offset, size, number) = (found.offset.into(), found.size.into(), found.number);
        let recorded = Capability::from(found.cap);
        let word = recorded.word();
        Some(match found.kind {
            1 => Line::Version(number),
            2 => Line::Mode { clear: number != 0 },
            3 => Line::Root { target, word },
            4 => Line::RootAt { address: number, word },
            5 => Line::Move { target, source, recorded },
            6 => Line::ClearTag { target, source, recorded },
            7 => Line::SetBounds { target, source, length: number, recorded },
            8 => Line::SetBoundsExact { target, source, length: number, recorded },
            9 => Line::SetAddress { target, source, address: number, recorded },
            10 => Line::AndPermissions { target, source, mask: number, recorded },
            11 => Line::Seal { target, source, authority, recorded },
            12 => Line::Unseal { target, source, authority, recorded },
            13 => Line::LoadCapability { target, authority, offset, recorded },
            14 => Line::StoreCapability { source, authority, offset },
            15 => Line::Load { authority, offset, size, value: number },
            16 => Line::Store { authority, offset, size, value: number },
            17 => Line::End { steps: number },
            _ => return None,
        })
    }
}

/// A register as C takes it; of a number above 255 it is 255, which is no register either.
pub(crate) fn register(number: u64) -> u8 {
    u8::try_from(number).unwrap_or(u8::MAX)
}

/// A line of a kind that has these registers, this number and this capability.
pub(crate) fn recording(kind: u8, target: u64, source: u64, number: u64, cap: Capability) -> abi::Line {
    let (target, source) = (register(target), register(source));
    abi::Line { cap: cap.into(), number, length: 0, offset: 0, kind, target, source, authority: 0, size: 0 }
}

/// A step that accesses memory. An offset or a size that C's types don't have is out of range for C too.
fn access(kind: u8, authority: u64, offset: i64, size: u64, number: u64) -> abi::Line {
    let (offset, size) = (i16::try_from(offset).unwrap_or(i16::MAX), u8::try_from(size).unwrap_or(u8::MAX));
    abi::Line { authority: register(authority), offset, size, ..recording(kind, 0, 0, number, Capability::NULL) }
}

/// The lines of some bytes, one after another.
#[derive(Clone, Debug)]
pub struct ReadLines<'a> {
    rest: &'a [u8],
}

/// Reads lines from the front of some bytes. It ends where no line follows: see [`ReadLines::rest`].
pub fn read_lines(bytes: &[u8]) -> ReadLines<'_> {
    ReadLines { rest: bytes }
}

impl<'a> ReadLines<'a> {
    /// The bytes that aren't read yet. At the end they are empty, unless they don't begin with a line.
    pub fn rest(&self) -> &'a [u8] {
        self.rest
    }
}

impl Iterator for ReadLines<'_> {
    type Item = Line;

    fn next(&mut self) -> Option<Line> {
        let (line, length) = Line::read(self.rest)?;
        self.rest = &self.rest[length..];
        Some(line)
    }
}
