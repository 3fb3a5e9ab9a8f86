//! The objects that own what a run's places hold.

use crate::refusals::Refusal::{self, *};
use std::collections::{BTreeMap, HashMap};

/// The owner of a place that has none. Others are 1 more than the index of an object.
pub const NONE: u64 = 0;

/// An object that is live or held.
pub struct Object {
    pub number: u32,
    pub line: u64,
    pub base: u64,
    pub top: u128,
    pub is_live: bool,
    pub held: u64,
}

/// Extents that share no address, by their bases. Empty ones are left out.
type Extents = BTreeMap<u64, (u128, u64)>;

#[derive(Default)]
pub struct Objects {
    objects: Vec<Object>,
    unused: Vec<u64>,
    numbers: HashMap<u32, u64>,
    live: Extents,
    freed: Extents,
    pub count: u32,
    compares_freed: bool,
}

/// Whether an interval shares an address with an extent, but for that of one owner.
fn meets(extents: &Extents, base: u64, top: u128, other: u64) -> bool {
    let before = match u64::try_from(top) {
        Ok(top) => extents.range(..top),
        Err(_) => extents.range(..),
    };
    base as u128 != top && before.rev().take_while(|it| it.1 .0 > base as u128).any(|it| it.1 .1 != other)
}

impl Objects {
    pub fn new(compares_freed: bool) -> Self {
        Objects { compares_freed, ..Objects::default() }
    }

    #[inline(always)]
    pub fn is_live(&self, owner: u64) -> bool {
        self.objects[owner as usize - 1].is_live
    }

    /// Whether a live object has a byte from an address on.
    pub fn is_touched(&self, address: u64, size: u8) -> bool {
        meets(&self.live, address, address as u128 + size as u128, NONE)
    }

    /// A place that had an owner has another.
    #[inline(always)]
    pub fn pass(&mut self, from: u64, to: u64) {
        if from != to {
            self.count_over(from, to);
        }
    }

    fn count_over(&mut self, from: u64, to: u64) {
        if to != NONE {
            self.objects[to as usize - 1].held += 1;
        }
        if from != NONE {
            let object = &mut self.objects[from as usize - 1];
            object.held -= 1;
            if object.held == 0 && !object.is_live {
                self.forget(from);
            }
        }
    }

    /// A freed object that no place holds is gone.
    fn forget(&mut self, owner: u64) {
        let object = &self.objects[owner as usize - 1];
        if self.compares_freed && object.base as u128 != object.top {
            self.freed.remove(&object.base);
        }
        self.numbers.remove(&object.number);
        self.unused.push(owner);
    }

    fn check(&self, base: u64, top: u128, other: u64) -> Result<(), Refusal> {
        if meets(&self.live, base, top, other) {
            return Err(Overlaps);
        }
        if self.compares_freed && meets(&self.freed, base, top, other) {
            return Err(StillHeld);
        }
        Ok(())
    }

    fn place(&mut self, owner: u64) {
        let object = &self.objects[owner as usize - 1];
        if object.base as u128 != object.top {
            self.live.insert(object.base, (object.top, owner));
        }
    }

    /// The object with the next number, which nothing holds yet. The caller counts the step.
    pub fn add(&mut self, line: u64, base: u64, top: u128, has_room: bool) -> Result<u64, Refusal> {
        self.check(base, top, NONE)?;
        if !has_room {
            return Err(LimitPassed);
        }
        self.count += 1;
        let object = Object { number: self.count, line, base, top, is_live: true, held: 0 };
        let owner = match self.unused.pop() {
            Some(owner) => {
                self.objects[owner as usize - 1] = object;
                owner
            }
            None => {
                self.objects.push(object);
                self.objects.len() as u64
            }
        };
        self.numbers.insert(self.count, owner);
        self.place(owner);
        Ok(owner)
    }

    /// The live object with a number.
    fn live_of(&self, number: u32) -> Result<u64, Refusal> {
        match self.numbers.get(&number) {
            _ if number > self.count => Err(NoObject),
            Some(owner) if self.is_live(*owner) => Ok(*owner),
            _ => Err(AlreadyFreed),
        }
    }

    /// Widens the extent of the object with a number.
    pub fn widen(&mut self, number: u32, base: u64, top: u128, has_room: bool) -> Result<u64, Refusal> {
        let owner = self.live_of(number)?;
        let object = &self.objects[owner as usize - 1];
        let (was, base, top) = ((object.base, object.top), base.min(object.base), top.max(object.top));
        self.check(base, top, owner)?;
        if !has_room {
            return Err(LimitPassed);
        }
        if was.0 as u128 != was.1 {
            self.live.remove(&was.0);
        }
        let object = &mut self.objects[owner as usize - 1];
        (object.base, object.top) = (base, top);
        self.place(owner);
        Ok(owner)
    }

    /// Frees an object, or the one with a number if there is no owner.
    pub fn free(&mut self, owner: u64, number: u32, has_room: bool) -> Result<(), Refusal> {
        let owner = if owner == NONE { self.live_of(number)? } else { owner };
        if !self.is_live(owner) {
            return Err(AlreadyFreed);
        }
        if !has_room {
            return Err(LimitPassed);
        }
        let object = &mut self.objects[owner as usize - 1];
        object.is_live = false;
        let (base, top, held) = (object.base, object.top, object.held);
        if base as u128 != top {
            self.live.remove(&base);
            if self.compares_freed {
                self.freed.insert(base, (top, owner));
            }
        }
        if held == 0 {
            self.forget(owner);
        }
        Ok(())
    }

    /// The present objects, by number.
    pub fn present(&self) -> Vec<&Object> {
        let mut found: Vec<_> = self.numbers.values().map(|owner| &self.objects[*owner as usize - 1]).collect();
        found.sort_unstable_by_key(|object| object.number);
        found
    }

    pub fn number(&self, owner: u64) -> u32 {
        self.objects[owner as usize - 1].number
    }
}
