//! Capability words: fields, bounds, rounding, by shifts and comparisons.

/// The word that all-zero memory holds.
pub const NULL: u128 = 0x0000_1fff_fc01_8004_0000_0000_0000_0000;

pub const GLOBAL: u32 = 1;
pub const EXECUTE: u32 = 1 << 1;
pub const LOAD: u32 = 1 << 2;
pub const STORE: u32 = 1 << 3;
pub const LOAD_CAPABILITY: u32 = 1 << 4;
pub const STORE_CAPABILITY: u32 = 1 << 5;
pub const STORE_LOCAL: u32 = 1 << 6;
pub const SEAL: u32 = 1 << 7;
pub const INVOKE: u32 = 1 << 8;
pub const UNSEAL: u32 = 1 << 9;

pub const UNSEALED: u32 = 0x3ffff;
pub const SENTRY: u32 = 0x3fffe;
const BELOW_PERMISSIONS: u128 = (1 << 112) - 1;

#[inline(always)]
pub fn address(word: u128) -> u64 {
    word as u64
}

#[inline(always)]
pub fn permissions(word: u128) -> u32 {
    (word >> 112) as u32
}

#[inline(always)]
pub fn object_type(word: u128) -> u32 {
    (word >> 91) as u32 & UNSEALED
}

#[inline(always)]
pub fn is_sealed(word: u128) -> bool {
    object_type(word) != UNSEALED
}

struct Mantissas {
    exponent: u32,
    base: u32,
    top: u32,
}

#[inline(always)]
fn mantissas(word: u128) -> Mantissas {
    let high = (word >> 64) as u64;
    let base = high as u32 & 0x3fff;
    let top = (high >> 14) as u32 & 0xfff;
    let internal = high >> 26 & 1 != 0;
    let (exponent, base, top) = if internal { ((top & 7) << 3 | base & 7, base & !7, top & !7) } else { (0, base, top) };
    let carry = (top < base & 0xfff) as u32;
    let top = ((base >> 12) + carry + internal as u32) << 12 & 0x3000 | top;
    Mantissas { exponent: exponent.min(52), base, top }
}

/// Base and top.
#[inline(always)]
pub fn bounds(word: u128) -> (u64, u128) {
    let m = mantissas(word);
    let address = address(word) as u128;
    let limit = (m.base >> 11).wrapping_sub(1) & 7;
    let is_high = |eighth: u32| (eighth < limit) as u128;
    let high = (address >> (m.exponent + 14)).wrapping_sub(is_high((address >> (m.exponent + 11)) as u32 & 7));
    let end = |mantissa: u32| (high.wrapping_add(is_high(mantissa >> 11)) << 14 | mantissa as u128) << m.exponent & ((1 << 65) - 1);
    let (base, mut top) = (end(m.base), end(m.top));
    if m.exponent < 51 && ((top >> 63) as u32).wrapping_sub((base >> 63) as u32 & 1) & 3 > 1 {
        top ^= 1 << 64;
    }
    (base as u64, top)
}

pub fn is_sound(word: u128) -> bool {
    let m = mantissas(word);
    let (base, top) = bounds(word);
    let length = ((m.top.wrapping_sub(m.base) & 0x3fff) as u128) << m.exponent;
    base as u128 + length == top && top <= 1 << 64
}

/// Whether both addresses lie in one window.
#[inline(always)]
pub fn keeps_bounds(word: u128, to: u64) -> bool {
    let m = mantissas(word);
    if m.exponent >= 50 {
        return true;
    }
    let start = ((m.base >> 11).wrapping_sub(1) as u64 & 7) << (m.exponent + 11);
    to.wrapping_sub(start) >> (m.exponent + 14) == address(word).wrapping_sub(start) >> (m.exponent + 14)
}

/// A request's rounded bounds, and the 27 bits of a word that encode them.
pub struct Rounded {
    pub base: u64,
    pub top: u128,
    pub encoded: u32,
    pub is_exact: bool,
}

#[inline(always)]
pub fn round(base: u64, length: u64) -> Rounded {
    let top = base as u128 + length as u128;
    if length < 4096 {
        return Rounded { base, top, encoded: (top as u32 & 0xfff) << 14 | base as u32 & 0x3fff, is_exact: true };
    }
    let mut exponent = 64 - (length >> 13).leading_zeros();
    let units = |exponent: u32| (base >> (exponent + 3), ((top + (1 << (exponent + 3)) - 1) >> (exponent + 3)) as u64);
    let (mut low, mut high) = units(exponent);
    if high - low >= 1024 {
        exponent += 1;
        (low, high) = units(exponent);
    }
    let (rounded_base, rounded_top) = (low << (exponent + 3), (high as u128) << (exponent + 3));
    let encoded = 1 << 26 | ((high << 3) as u32 & 0xfff | exponent >> 3) << 14 | (low << 3) as u32 & 0x3fff | exponent & 7;
    Rounded { base: rounded_base, top: rounded_top, encoded, is_exact: rounded_base == base && rounded_top == top }
}

#[inline(always)]
pub fn with_bounds(word: u128, rounded: &Rounded) -> u128 {
    word & !(0x7ff_ffff << 64) | (rounded.encoded as u128) << 64
}

#[inline(always)]
pub fn with_address(word: u128, address: u64) -> u128 {
    word & !(u64::MAX as u128) | address as u128
}

/// With the low 18 bits of a number as object type.
#[inline(always)]
pub fn with_object_type(word: u128, number: u64) -> u128 {
    word & !(0x3ffff << 91) | (number as u128 & 0x3ffff) << 91
}

#[inline(always)]
pub fn unsealed(word: u128, keeps_global: bool) -> u128 {
    let word = word | (UNSEALED as u128) << 91;
    if keeps_global {
        word
    } else {
        word & !(1 << 112)
    }
}

/// With the permissions, in the architectural view, of a mask alone.
#[inline(always)]
pub fn with_permissions(word: u128, mask: u64) -> u128 {
    let kept = (mask & 0xfff | mask >> 3 & 0xf000) as u128;
    word & (kept << 112 | BELOW_PERMISSIONS)
}
