//! The lines of a log, read from a window of bytes.

#[inline(always)]
fn eight_digits(c: &[u8; 8]) -> (u32, u64) {
    const H: u64 = 0x8080_8080_8080_8080;
    const L: u64 = 0x0101_0101_0101_0101;
    let x = u64::from_be_bytes(*c);
    let y = x & !H;
    let digit = (y + L * 0x50) & !(y + L * 0x46);
    let alpha = (y + L * 0x1f) & !(y + L * 0x19);
    let bad = !(digit | alpha) & H | x & H;
    let n = (x & L * 0x0f) + 9 * (x >> 6 & L);
    let n = (n | n >> 4) & 0x00ff_00ff_00ff_00ff;
    let n = (n | n >> 8) & 0x0000_ffff_0000_ffff;
    ((n | n >> 16) as u32, bad)
}

#[inline(always)]
fn eight(b: &[u8], at: usize) -> &[u8; 8] {
    b[at..at + 8].try_into().unwrap()
}

#[inline(always)]
fn sixteen_digits(b: &[u8], at: usize) -> Option<u64> {
    let (h, x) = eight_digits(eight(b, at));
    let (l, y) = eight_digits(eight(b, at + 8));
    if x | y == 0 {
        Some((h as u64) << 32 | l as u64)
    } else {
        None
    }
}

#[inline(always)]
fn thirty_two_digits(b: &[u8], at: usize) -> Option<u128> {
    Some((sixteen_digits(b, at)? as u128) << 64 | sixteen_digits(b, at + 16)? as u128)
}

fn digit(c: u8) -> Option<u64> {
    match c {
        b'0'..=b'9' => Some((c - b'0') as u64),
        b'a'..=b'f' => Some((c - b'a' + 10) as u64),
        _ => None,
    }
}

pub const WINDOW: usize = 128;

#[derive(Clone, Copy)]
pub enum Operation {
    Move,
    ClearTag,
    SetBounds(u64),
    SetBoundsExact(u64),
    SetAddress(u64),
    AndPermissions(u64),
    Seal(u8),
    Unseal(u8),
}

pub enum Line {
    Version(u8),
    Mode { clear: bool },
    Root(u64, u128),
    Operate { operation: Operation, target: u8, source: u8, tag: bool, word: u128 },
    LoadCapability { target: u8, authority: u8, offset: i16, tag: bool, word: u128 },
    StoreCapability { source: u8, authority: u8, offset: i16 },
    Load { authority: u8, offset: i16, size: u8, value: u64 },
    Store { authority: u8, offset: i16, size: u8, value: u64 },
    End(u32),
}

/// A line of a run log. Registers are c0 to c31 and, from 32 on, scr0 to scr31; places these, and from 64 on granules.
pub enum RunLine {
    Version,
    Usual(Line),
    Root(u64, u128),
    Derive { target: u8, source: u8, tag: bool, word: u128 },
    Exchange { target: u8, source: u8, special: u8, first: (bool, u128), second: (bool, u128) },
    Invoke { code: u8, datum: u8, first: u128, second: u128 },
    Drop(u64),
    Fill(u64, u128),
    Object { register: u8, number: u32 },
    Free { register: u8, number: u32 },
}

/// A place in a window that ends in bytes of no word.
struct Cursor<'a> {
    b: &'a [u8; WINDOW],
    i: usize,
}

impl Cursor<'_> {
    #[inline(always)]
    fn byte(&mut self, c: u8) -> Option<()> {
        if self.b[self.i] == c {
            self.i += 1;
            Some(())
        } else {
            None
        }
    }

    #[inline(always)]
    fn has(&mut self, text: &[u8]) -> bool {
        let ok = self.b[self.i..].starts_with(text);
        if ok {
            self.i += text.len();
        }
        ok
    }

    #[inline(always)]
    fn register(&mut self) -> Option<u8> {
        self.byte(b'c')?;
        let d = self.b[self.i].wrapping_sub(b'0');
        if d > 9 {
            return None;
        }
        self.i += 1;
        let f = self.b[self.i].wrapping_sub(b'0');
        if f > 9 {
            return Some(d);
        }
        self.i += 1;
        let n = d * 10 + f;
        if d == 0 || n > 31 {
            None
        } else {
            Some(n)
        }
    }

    #[inline(always)]
    fn target(&mut self) -> Option<u8> {
        self.register().filter(|&n| n != 0)
    }

    #[inline(always)]
    fn two_registers(&mut self, first_target: bool) -> Option<(u8, u8)> {
        let d = if first_target { self.target()? } else { self.register()? };
        self.byte(b' ')?;
        Some((d, self.register()?))
    }

    #[inline(always)]
    fn number(&mut self) -> Option<u64> {
        let v = sixteen_digits(self.b, self.i)?;
        self.i += 16;
        Some(v)
    }

    #[inline(always)]
    fn word_digits(&mut self) -> Option<u128> {
        let value = thirty_two_digits(self.b, self.i)?;
        self.i += 32;
        Some(value)
    }

    /// The number of `scrN`.
    #[inline(always)]
    fn special(&mut self) -> Option<u8> {
        if !self.has(b"scr") {
            return None;
        }
        self.decimal(2).filter(|it| *it < 32).map(|it| it as u8)
    }

    /// A register or a special register.
    #[inline(always)]
    fn either(&mut self) -> Option<u8> {
        if self.b[self.i] == b's' {
            return Some(self.special()? + 32);
        }
        self.register()
    }

    /// A place of a run log.
    fn place(&mut self) -> Option<u64> {
        if self.byte(b'@').is_some() {
            return Some((self.number().filter(|it| it & 15 == 0)? >> 4) + 64);
        }
        self.either().filter(|it| *it != 0).map(u64::from)
    }

    /// An object's number.
    fn object(&mut self) -> Option<u32> {
        u32::try_from(self.decimal(10)?).ok().filter(|it| *it != 0)
    }

    /// ` = T WORD`
    #[inline(always)]
    fn result(&mut self) -> Option<(bool, u128)> {
        if !self.has(b" = ") {
            return None;
        }
        self.capability()
    }

    /// `T WORD`
    #[inline(always)]
    fn capability(&mut self) -> Option<(bool, u128)> {
        let t = self.b[self.i].wrapping_sub(b'0');
        if t > 1 {
            return None;
        }
        self.i += 1;
        self.byte(b' ')?;
        Some((t == 1, self.word_digits()?))
    }

    #[inline(always)]
    fn offset(&mut self) -> Option<i16> {
        let minus = self.b[self.i] == b'-';
        self.i += minus as usize;
        let n = self.decimal(4)? as i16;
        if minus {
            (n != 0 && n <= 2048).then_some(-n)
        } else {
            (n <= 2047).then_some(n)
        }
    }

    /// A decimal of at most so many digits, without a leading zero.
    #[inline(always)]
    fn decimal(&mut self, most: usize) -> Option<u64> {
        let start = self.i;
        let mut n = 0u64;
        loop {
            let d = self.b[self.i].wrapping_sub(b'0');
            if d > 9 {
                break;
            }
            if self.i - start == most {
                return None;
            }
            n = n * 10 + d as u64;
            self.i += 1;
        }
        if self.i == start || (self.b[start] == b'0' && self.i != start + 1) {
            return None;
        }
        Some(n)
    }

    #[inline(always)]
    fn size(&mut self) -> Option<u8> {
        let s = self.b[self.i].wrapping_sub(b'0');
        self.i += 1;
        matches!(s, 1 | 2 | 4 | 8).then_some(s)
    }

    #[inline(always)]
    fn data(&mut self, size: u8) -> Option<u64> {
        if size == 8 {
            return self.number();
        }
        let mut v = 0;
        for _ in 0..2 * size {
            v = v << 4 | digit(self.b[self.i])?;
            self.i += 1;
        }
        Some(v)
    }
}

/// The line at the front of a window, and how many bytes it has with its line feed.
#[inline(always)]
pub fn read_line(b: &[u8; WINDOW]) -> Option<(Line, usize)> {
    let mut c = Cursor { b, i: 0 };
    let line = match b[0] {
        b'm' => {
            if c.has(b"move ") {
                operate(&mut c, |_| Some(Operation::Move))?
            } else if c.has(b"mode strict") {
                Line::Mode { clear: false }
            } else if c.has(b"mode clear") {
                Line::Mode { clear: true }
            } else {
                return None;
            }
        }
        b's' => {
            if c.has(b"store ") {
                let authority = c.register()?;
                c.byte(b' ')?;
                let offset = c.offset()?;
                c.byte(b' ')?;
                let size = c.size()?;
                c.byte(b' ')?;
                Line::Store { authority, offset, size, value: c.data(size)? }
            } else if c.has(b"setaddr ") {
                operate(&mut c, |c| operand(c).map(Operation::SetAddress))?
            } else if c.has(b"setbounds ") {
                operate(&mut c, |c| operand(c).map(Operation::SetBounds))?
            } else if c.has(b"sc ") {
                let (source, authority) = c.two_registers(false)?;
                c.byte(b' ')?;
                Line::StoreCapability { source, authority, offset: c.offset()? }
            } else if c.has(b"setboundsexact ") {
                operate(&mut c, |c| operand(c).map(Operation::SetBoundsExact))?
            } else if c.has(b"seal ") {
                operate(&mut c, |c| third(c).map(Operation::Seal))?
            } else {
                return None;
            }
        }
        b'l' => {
            if c.has(b"load ") {
                let authority = c.register()?;
                c.byte(b' ')?;
                let offset = c.offset()?;
                c.byte(b' ')?;
                let size = c.size()?;
                if !c.has(b" = ") {
                    return None;
                }
                Line::Load { authority, offset, size, value: c.data(size)? }
            } else if c.has(b"lc ") {
                let (target, authority) = c.two_registers(true)?;
                c.byte(b' ')?;
                let offset = c.offset()?;
                let (tag, word) = c.result()?;
                Line::LoadCapability { target, authority, offset, tag, word }
            } else {
                return None;
            }
        }
        b'c' => {
            if c.has(b"cleartag ") {
                operate(&mut c, |_| Some(Operation::ClearTag))?
            } else if c.has(b"capcheck 1") {
                Line::Version(1)
            } else if c.has(b"capcheck 2") {
                Line::Version(2)
            } else {
                return None;
            }
        }
        b'a' => {
            if !c.has(b"andperm ") {
                return None;
            }
            operate(&mut c, |c| operand(c).map(Operation::AndPermissions))?
        }
        b'u' => {
            if !c.has(b"unseal ") {
                return None;
            }
            operate(&mut c, |c| third(c).map(Operation::Unseal))?
        }
        b'r' => {
            if !c.has(b"root ") {
                return None;
            }
            let code = if b[5] == b'@' {
                c.i += 1;
                let a = c.number()?;
                if a & 15 != 0 {
                    return None;
                }
                32 + (a >> 4)
            } else {
                c.target()? as u64
            };
            c.byte(b' ')?;
            Line::Root(code, c.word_digits()?)
        }
        b'e' => {
            if !c.has(b"end ") {
                return None;
            }
            Line::End(u32::try_from(c.decimal(10)?).ok()?)
        }
        _ => return None,
    };
    c.byte(b'\n')?;
    Some((line, c.i))
}

/// The same of a run log.
#[inline(always)]
pub fn read_run_line(b: &[u8; WINDOW]) -> Option<(RunLine, usize)> {
    let mut c = Cursor { b, i: 0 };
    let line = match b[0] {
        b'd' if c.has(b"derive ") => {
            let target = c.either()?;
            c.byte(b' ')?;
            let source = c.either()?;
            let (tag, word) = c.result()?;
            if target == 0 {
                return None;
            }
            RunLine::Derive { target, source, tag, word }
        }
        b'd' if c.has(b"drop ") => RunLine::Drop(c.place()?),
        b'e' if c.has(b"exchange ") => {
            let (target, source) = c.two_registers(true)?;
            c.byte(b' ')?;
            let special = c.special()?;
            let first = c.result()?;
            c.byte(b' ')?;
            let second = c.capability()?;
            RunLine::Exchange { target, source, special, first, second }
        }
        b'i' if c.has(b"invoke ") => {
            let (code, datum) = c.two_registers(false)?;
            if !c.has(b" = ") {
                return None;
            }
            let first = c.word_digits()?;
            c.byte(b' ')?;
            RunLine::Invoke { code, datum, first, second: c.word_digits()? }
        }
        b'f' if c.has(b"fill @") => {
            let address = c.number().filter(|it| it & 15 == 0)?;
            c.byte(b' ')?;
            RunLine::Fill(address >> 4, c.word_digits()?)
        }
        b'f' if c.has(b"free ") => {
            if b[c.i] == b'c' {
                RunLine::Free { register: c.target()?, number: 0 }
            } else {
                RunLine::Free { register: 0, number: c.object()? }
            }
        }
        b'o' if c.has(b"object ") => {
            let register = c.target()?;
            let number = if c.byte(b' ').is_some() { c.object()? } else { 0 };
            RunLine::Object { register, number }
        }
        b'r' if c.has(b"run 1") => RunLine::Version,
        b'r' if c.has(b"root ") => {
            let place = c.place()?;
            c.byte(b' ')?;
            RunLine::Root(place, c.word_digits()?)
        }
        _ => return read_line(b).map(|(line, count)| (RunLine::Usual(line), count)),
    };
    c.byte(b'\n')?;
    Some((line, c.i))
}

#[inline(always)]
fn operate(c: &mut Cursor, operation: impl FnOnce(&mut Cursor) -> Option<Operation>) -> Option<Line> {
    let (target, source) = c.two_registers(true)?;
    let operation = operation(c)?;
    let (tag, word) = c.result()?;
    Some(Line::Operate { operation, target, source, tag, word })
}

#[inline(always)]
fn operand(c: &mut Cursor) -> Option<u64> {
    c.byte(b' ')?;
    c.number()
}

#[inline(always)]
fn third(c: &mut Cursor) -> Option<u8> {
    c.byte(b' ')?;
    c.register()
}
