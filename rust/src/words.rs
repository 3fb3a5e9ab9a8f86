//! Words, bounds and operations.
use crate::abi::{self, Cap, Wide, Word};
use crate::permissions::{EXECUTE, LOAD, LOAD_CAPABILITY, OTYPE_SENTRY, STORE, STORE_CAPABILITY};
use crate::refusals::Refusal;
use std::{error, fmt, str};

/// A capability: its word in the register layout, and its tag. An operation on an untagged one checks nothing.
#[derive(Clone, Copy, PartialEq, Eq, Hash)]
pub struct Capability {
    word: u128,
    tag: bool,
}

/// The fields of a word, as encoded in it. `t` has the low 12 bits of T.
#[derive(Clone, Copy, Debug, PartialEq, Eq, Hash)]
#[allow(missing_docs)]
pub struct Fields {
    pub address: u64,
    pub otype: u32,
    pub perms: u16,
    pub b: u16,
    pub t: u16,
    pub e: u8,
    pub ie: bool,
    pub flag: bool,
    pub reserved: u8,
}

/// A request for bounds after rounding, with the fields that encode it.
#[derive(Clone, Copy, Debug, PartialEq, Eq, Hash)]
pub struct Rounded {
    /// The requested base, rounded down.
    pub base: u64,
    /// The requested top, rounded up; above 2^64 only if the requested top is.
    pub top: u128,
    /// Whether both bounds are the requested ones.
    pub exact: bool,
    /// Whether the word contains the exponent.
    pub ie: bool,
    /// The exponent, 0 to 52.
    pub e: u8,
    /// B: the base in units of 2^e bytes, modulo 2^14.
    pub b: u16,
    /// T: the top in units of 2^e bytes, modulo 2^14.
    pub t: u16,
}

/// A representable range: `size` addresses from `start` on, modulo 2^64.
#[derive(Clone, Copy, Debug, PartialEq, Eq, Hash)]
pub struct Range {
    /// The first address.
    pub start: u64,
    /// The number of addresses, up to 2^64.
    pub size: u128,
}

impl Range {
    /// Whether an address is in the range.
    pub fn contains(&self, address: u64) -> bool {
        u128::from(address.wrapping_sub(self.start)) < self.size
    }
}

fn halves(number: u128) -> (u64, u64) {
    ((number >> 64) as u64, number as u64)
}

fn whole(high: u64, low: u64) -> u128 {
    u128::from(high) << 64 | u128::from(low)
}

pub(crate) fn word_of(word: Word) -> u128 {
    whole(word.high, word.low)
}

pub(crate) fn to_word(word: u128) -> Word {
    let (high, low) = halves(word);
    Word { high, low }
}

fn wide(number: u128) -> Wide {
    let (high, low) = halves(number);
    Wide { high, low }
}

fn accessed(found: abi::Access) -> Result<u64, Refusal> {
    Refusal::of(found.refusal).map_or(Ok(found.address), Err)
}

fn made(found: abi::Made) -> Result<Capability, Refusal> {
    Refusal::of(found.refusal).map_or(Ok(found.cap.into()), Err)
}

impl From<Cap> for Capability {
    fn from(cap: Cap) -> Capability {
        Capability { word: word_of(cap.word), tag: cap.tag != 0 }
    }
}

impl From<Capability> for Cap {
    fn from(cap: Capability) -> Cap {
        Cap { word: to_word(cap.word), tag: cap.tag.into() }
    }
}

impl Capability {
    /// Untagged NULL.
    pub const NULL: Capability = Capability { word: 0x0000_1fff_fc01_8004 << 64, tag: false };

    /// The capability of a word and a tag.
    pub const fn new(word: u128, tag: bool) -> Capability {
        Capability { word, tag }
    }

    /// A tagged, unsealed root with the rounded bounds of `length` bytes from `base`. None if they end above 2^64, or if a
    /// bit of `permissions` isn't in [`permissions::ALL_PERMISSIONS`](crate::permissions::ALL_PERMISSIONS).
    pub fn root(base: u64, length: u128, permissions: u32) -> Option<Capability> {
        let found = unsafe { abi::capcheck_root(base, wide(length), permissions) };
        (found.present != 0).then(|| Capability::new(word_of(found.word), true))
    }

    /// The capability of 16 bytes of memory, lowest address first.
    pub fn from_memory(bytes: &[u8; 16], tag: bool) -> Capability {
        Capability::new(word_of(unsafe { abi::capcheck_from_memory(bytes.as_ptr()) }), tag)
    }

    /// The inverse of [`Capability::fields`]. None if a field is out of range.
    pub fn from_fields(fields: Fields, tag: bool) -> Option<Capability> {
        let Fields { address, otype, perms, b, t, e, ie, flag, reserved } = fields;
        let passed = abi::Fields { address, otype, perms, b, t, e, ie: ie.into(), flag: flag.into(), reserved };
        let found = unsafe { abi::capcheck_join(passed) };
        (found.present != 0).then(|| Capability::new(word_of(found.word), tag))
    }

    /// The word in the register layout.
    pub const fn word(self) -> u128 {
        self.word
    }

    /// The tag.
    pub const fn tag(self) -> bool {
        self.tag
    }

    /// The 16 bytes of the word in memory, lowest address first.
    pub fn memory(self) -> [u8; 16] {
        let mut bytes = [0; 16];
        unsafe { abi::capcheck_to_memory(to_word(self.word), bytes.as_mut_ptr()) };
        bytes
    }

    /// The fields of the word.
    pub fn fields(self) -> Fields {
        let abi::Fields { address, otype, perms, b, t, e, ie, flag, reserved } =
            unsafe { abi::capcheck_split(to_word(self.word)) };
        Fields { address, otype, perms, b, t, e, ie: ie != 0, flag: flag != 0, reserved }
    }

    /// T, the mantissa of the top: all 14 bits.
    pub fn mantissa(self) -> u16 {
        unsafe { abi::capcheck_mantissa(to_word(self.word)) }
    }

    /// Where it points.
    pub const fn address(self) -> u64 {
        self.word as u64
    }

    /// The base, and the top: the first address after the bounds, at most 2^64 if the word is sound.
    pub fn bounds(self) -> (u64, u128) {
        let found = unsafe { abi::capcheck_decode(to_word(self.word)) };
        (found.base, whole(found.top.high, found.top.low))
    }

    /// The top minus the base; 0 if the word isn't sound.
    pub fn length(self) -> u128 {
        let found = unsafe { abi::capcheck_length(to_word(self.word)) };
        whole(found.high, found.low)
    }

    /// Whether the top is the base plus the length, and at most 2^64.
    pub fn is_sound(self) -> bool {
        unsafe { abi::capcheck_sound(to_word(self.word)) }
    }

    /// The permissions in the architectural view.
    pub fn permissions(self) -> u32 {
        unsafe { abi::capcheck_perm_view(to_word(self.word)) }
    }

    /// Whether the object type isn't [`permissions::OTYPE_UNSEALED`](crate::permissions::OTYPE_UNSEALED).
    pub fn is_sealed(self) -> bool {
        unsafe { abi::capcheck_sealed(to_word(self.word)) }
    }

    /// The addresses that keep the bounds.
    pub fn representable(self) -> Range {
        let found = unsafe { abi::capcheck_reach(to_word(self.word)) };
        let size = if found.every != 0 { 1 << 64 } else { found.size.into() };
        Range { start: found.start, size }
    }

    /// Whether the word with this address has the same bounds.
    pub fn keeps_bounds(self, address: u64) -> bool {
        unsafe { abi::capcheck_keeps_bounds(to_word(self.word), address) }
    }

    /// Whether the word is sound and its bounds contain `length` bytes from `base`.
    pub fn contains(self, base: u64, length: u64) -> bool {
        unsafe { abi::capcheck_least_law(to_word(self.word), base, length) }
    }

    /// What `capcheck explain` prints of it.
    pub fn explain(self) -> String {
        let mut text = vec![0; 512];
        let length = unsafe { abi::capcheck_explain(self.into(), text.as_mut_ptr(), text.len()) };
        String::from_utf8_lossy(&text[..length as usize]).into_owned()
    }

    /// Narrows the bounds to `length` bytes from the address, rounded.
    pub fn set_bounds(self, length: u64) -> Result<Capability, Refusal> {
        made(unsafe { abi::capcheck_set_bounds(self.into(), length, 0) })
    }

    /// The same, refused if it would round.
    pub fn set_bounds_exact(self, length: u64) -> Result<Capability, Refusal> {
        made(unsafe { abi::capcheck_set_bounds(self.into(), length, 1) })
    }

    /// Sets the address, which has to be in the representable range.
    pub fn set_address(self, address: u64) -> Result<Capability, Refusal> {
        made(unsafe { abi::capcheck_set_addr(self.into(), address) })
    }

    /// Removes the permissions that the mask lacks.
    pub fn and_permissions(self, mask: u64) -> Result<Capability, Refusal> {
        made(unsafe { abi::capcheck_and_perm(self.into(), mask) })
    }

    /// Seals it with the authority's address as its object type.
    pub fn seal(self, authority: Capability) -> Result<Capability, Refusal> {
        made(unsafe { abi::capcheck_seal(self.into(), authority.into()) })
    }

    /// Unseals it by an authority whose address is its object type.
    pub fn unseal(self, authority: Capability) -> Result<Capability, Refusal> {
        made(unsafe { abi::capcheck_unseal(self.into(), authority.into()) })
    }

    /// Why a run log's `derive` of a word from this capability is refused; none if it isn't. Only into PCC a sentry opens. An
    /// untagged word is never refused.
    pub fn derive_fault(self, made: Capability, into_pcc: bool) -> Option<Refusal> {
        let made: abi::Cap = made.into();
        let number = unsafe { abi::capcheck_derive_fault(self.into(), made.word, into_pcc as u8) };
        if made.tag == 0 { None } else { Refusal::of(number) }
    }

    /// As [`Capability::set_bounds`], on a machine that clears the tag if a check fails.
    pub fn set_bounds_clear(self, length: u64) -> Capability {
        unsafe { abi::capcheck_set_bounds_clear(self.into(), length, 0) }.into()
    }

    /// As [`Capability::set_bounds_exact`], on such a machine.
    pub fn set_bounds_exact_clear(self, length: u64) -> Capability {
        unsafe { abi::capcheck_set_bounds_clear(self.into(), length, 1) }.into()
    }

    /// As [`Capability::set_address`], on such a machine.
    pub fn set_address_clear(self, address: u64) -> Capability {
        unsafe { abi::capcheck_set_addr_clear(self.into(), address) }.into()
    }

    /// As [`Capability::and_permissions`], on such a machine.
    pub fn and_permissions_clear(self, mask: u64) -> Capability {
        unsafe { abi::capcheck_and_perm_clear(self.into(), mask) }.into()
    }

    /// As [`Capability::seal`], on such a machine.
    pub fn seal_clear(self, authority: Capability) -> Capability {
        unsafe { abi::capcheck_seal_clear(self.into(), authority.into()) }.into()
    }

    /// As [`Capability::unseal`], on such a machine.
    pub fn unseal_clear(self, authority: Capability) -> Capability {
        unsafe { abi::capcheck_unseal_clear(self.into(), authority.into()) }.into()
    }

    /// The same word without the tag.
    pub fn clear_tag(self) -> Capability {
        unsafe { abi::capcheck_clear_tag(self.into()) }.into()
    }

    /// The word with the rounded bounds of a request, untagged, since nothing is checked.
    pub fn with_bounds(self, base: u64, length: u64) -> Capability {
        Capability::new(word_of(unsafe { abi::capcheck_with_bounds(to_word(self.word), base, length) }), false)
    }

    /// Checks a load of `size` bytes, 1, 2, 4 or 8, at the address plus `offset`, -2048 to 2047: the address.
    pub fn may_load(self, offset: i64, size: u64) -> Result<u64, Refusal> {
        accessed(unsafe { abi::capcheck_may_load(self.into(), offset, size) })
    }

    /// Checks a store of as many bytes.
    pub fn may_store(self, offset: i64, size: u64) -> Result<u64, Refusal> {
        accessed(unsafe { abi::capcheck_may_store(self.into(), offset, size) })
    }

    /// Checks a load of a capability.
    pub fn may_load_capability(self, offset: i64) -> Result<u64, Refusal> {
        accessed(unsafe { abi::capcheck_may_load_cap(self.into(), offset) })
    }

    /// Checks a store of this capability.
    pub fn may_store_capability(self, offset: i64, stored: Capability) -> Result<u64, Refusal> {
        accessed(unsafe { abi::capcheck_may_store_cap(self.into(), offset, stored.into()) })
    }

    /// What a load of this stored capability puts into the register.
    pub fn loaded(self, stored: Capability) -> Capability {
        unsafe { abi::capcheck_loaded(self.into(), stored.into()) }.into()
    }
}

impl fmt::Display for Capability {
    /// As CHERI's debuggers print it: `0x1000 [rwxRW,0x1000-0x1fff]`, then what is unusual about it.
    fn fmt(&self, to: &mut fmt::Formatter<'_>) -> fmt::Result {
        let ((base, top), permissions) = (self.bounds(), self.permissions());
        let letters = [('r', LOAD), ('w', STORE), ('x', EXECUTE), ('R', LOAD_CAPABILITY), ('W', STORE_CAPABILITY)];
        let letters: String = letters.iter().filter(|it| permissions & it.1 != 0).map(|it| it.0).collect();
        let sentry = self.fields().otype == OTYPE_SENTRY;
        let notes =
            [("untagged", !self.tag), ("sentry", sentry), ("sealed", self.is_sealed() && !sentry), ("unsound", !self.is_sound())];
        let notes: Vec<&str> = notes.iter().filter(|it| it.1).map(|it| it.0).collect();
        let notes = if notes.is_empty() { String::new() } else { format!(" ({})", notes.join(",")) };
        to.pad(&format!("{:#x} [{letters},{base:#x}-{top:#x}]{notes}", self.address()))
    }
}

impl fmt::Debug for Capability {
    fn fmt(&self, to: &mut fmt::Formatter<'_>) -> fmt::Result {
        write!(to, "<{} {:032x} {self}>", u8::from(self.tag), self.word)
    }
}

/// A text isn't a word of 32 lower-case hexadecimal digits.
#[derive(Clone, Copy, Debug, PartialEq, Eq)]
pub struct NoWord;

impl fmt::Display for NoWord {
    fn fmt(&self, to: &mut fmt::Formatter<'_>) -> fmt::Result {
        to.write_str("the text isn't a word of 32 lower-case hexadecimal digits")
    }
}

impl error::Error for NoWord {}

impl str::FromStr for Capability {
    type Err = NoWord;

    /// Reads a word, untagged; or a tag, 0 or 1, a space and a word, as a log has them.
    fn from_str(text: &str) -> Result<Capability, NoWord> {
        let (tag, digits) = match text.as_bytes() {
            [tag @ (b'0' | b'1'), b' ', ..] => (*tag == b'1', &text[2..]),
            _ => (false, text),
        };
        let found = unsafe { abi::capcheck_read_word(digits.as_ptr(), digits.len()) };
        if found.present == 0 {
            return Err(NoWord);
        }
        Ok(Capability::new(word_of(found.word), tag))
    }
}

/// The bounds that a request for `length` bytes from `base` gets.
pub fn round_bounds(base: u64, length: u64) -> Rounded {
    let found = unsafe { abi::capcheck_round(base, length) };
    let (top, ie, exact) = (whole(found.top.high, found.top.low), found.ie != 0, found.exact != 0);
    Rounded { base: found.base, top, exact, ie, e: found.e, b: found.b, t: found.t }
}

/// The least length, from `length` on, that bounds can have exactly (CRRL): at most 2^64.
pub fn representable_length(length: u64) -> u128 {
    let found = unsafe { abi::capcheck_round_length(length) };
    whole(found.high, found.low)
}

/// The mask that a base keeps if that length is exact there (CRAM).
pub fn alignment_mask(length: u64) -> u64 {
    unsafe { abi::capcheck_align_mask(length) }
}
