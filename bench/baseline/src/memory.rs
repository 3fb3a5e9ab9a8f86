//! Tagged memory: blocks of sixteen granules, found by a hash.

const SIZE: usize = 16;
const NONE: u64 = u64::MAX;

#[derive(Clone)]
struct Block {
    bytes: [u128; SIZE],
    tags: u16,
    put: u16,
}

/// What a granule holds: its tag, its bytes as a number, least significant first, and its origin.
#[derive(Clone, Copy)]
pub struct Granule {
    pub tag: bool,
    pub bytes: u128,
    pub origin: u64,
}

pub struct Memory<const ORIGINS: bool> {
    keys: Vec<u64>,
    indices: Vec<u32>,
    shift: u32,
    blocks: Vec<Block>,
    origins: Vec<[u64; SIZE]>,
    count: u32,
    last: (u64, u32),
}

impl<const ORIGINS: bool> Memory<ORIGINS> {
    pub fn new() -> Self {
        Memory { keys: vec![NONE; 64], indices: vec![0; 64], shift: 58, blocks: Vec::new(), origins: Vec::new(), count: 0, last: (NONE, 0) }
    }

    #[inline(always)]
    fn slot(&self, key: u64) -> usize {
        let mask = self.keys.len() - 1;
        let mut at = (key.wrapping_mul(0x9e37_79b9_7f4a_7c15) >> self.shift) as usize;
        while self.keys[at] != key && self.keys[at] != NONE {
            at = (at + 1) & mask;
        }
        at
    }

    #[inline(always)]
    fn find(&mut self, key: u64) -> Option<usize> {
        if self.last.0 == key {
            return Some(self.last.1 as usize);
        }
        let at = self.slot(key);
        if self.keys[at] == NONE {
            return None;
        }
        self.last = (key, self.indices[at]);
        Some(self.indices[at] as usize)
    }

    fn add(&mut self, key: u64) -> usize {
        if self.blocks.len() * 2 >= self.keys.len() {
            self.double();
        }
        let (at, index) = (self.slot(key), self.blocks.len());
        self.keys[at] = key;
        self.indices[at] = index as u32;
        self.blocks.push(Block { bytes: [0; SIZE], tags: 0, put: 0 });
        if ORIGINS {
            self.origins.push([0; SIZE]);
        }
        self.last = (key, index as u32);
        index
    }

    fn double(&mut self) {
        let length = self.keys.len() * 2;
        let keys = std::mem::replace(&mut self.keys, vec![NONE; length]);
        let indices = std::mem::replace(&mut self.indices, vec![0; length]);
        self.shift -= 1;
        for (key, index) in keys.into_iter().zip(indices).filter(|it| it.0 != NONE) {
            let at = self.slot(key);
            self.keys[at] = key;
            self.indices[at] = index;
        }
    }

    #[inline(always)]
    pub fn get(&mut self, granule: u64) -> Granule {
        match self.find(granule >> 4) {
            None => Granule { tag: false, bytes: 0, origin: 0 },
            Some(index) => {
                let (at, block) = ((granule & 15) as usize, &self.blocks[index]);
                let origin = if ORIGINS { self.origins[index][at] } else { 0 };
                Granule { tag: block.tags >> at & 1 != 0, bytes: block.bytes[at], origin }
            }
        }
    }

    /// Puts what a function makes of the bytes; false if the granule is new and the limit is reached.
    #[inline(always)]
    pub fn put(&mut self, granule: u64, limit: u32, tag: bool, origin: u64, bytes: impl FnOnce(u128) -> u128) -> bool {
        let at = (granule & 15) as usize;
        let index = match self.find(granule >> 4) {
            Some(index) => index,
            None if self.count >= limit => return false,
            None => self.add(granule >> 4),
        };
        let block = &mut self.blocks[index];
        if block.put >> at & 1 == 0 {
            if self.count >= limit {
                return false;
            }
            block.put |= 1 << at;
            self.count += 1;
        }
        block.bytes[at] = bytes(block.bytes[at]);
        block.tags = block.tags & !(1 << at) | (tag as u16) << at;
        if ORIGINS {
            self.origins[index][at] = origin;
        }
        true
    }

    /// Clears a granule's tag, and its origin.
    pub fn clear(&mut self, granule: u64) {
        if let Some(index) = self.find(granule >> 4) {
            let at = (granule & 15) as usize;
            self.blocks[index].tags &= !(1 << at);
            if ORIGINS {
                self.origins[index][at] = 0;
            }
        }
    }

    /// The tagged granules with their origins, in order.
    pub fn tagged(&self) -> Vec<(u64, u64)> {
        let mut found = Vec::new();
        for (key, index) in self.keys.iter().zip(&self.indices).filter(|it| *it.0 != NONE) {
            let block = &self.blocks[*index as usize];
            let tagged = (0..SIZE).filter(|at| block.tags >> at & 1 != 0);
            found.extend(tagged.map(|at| (*key << 4 | at as u64, self.origins[*index as usize][at])));
        }
        found.sort_unstable();
        found
    }
}
