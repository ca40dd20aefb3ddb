//! An ordered map of keys and values whose widths are known when the program runs, with a journal of the writes of a
//! run, in plain Rust; the yardsticks of maps and of helpers share it.
//!
//! The map is that of std, from keys to slots in one list of values. The journal is a list that is used again, and so are
//! the keys that are removed: only a node of the map takes memory.

use std::collections::BTreeMap;
use std::ops::Bound;

/// The most writes of a run.
pub const WRITES: u32 = 64;

/// Octets of one width, one after another.
struct Row {
    octets: Vec<u8>,
    width: usize,
}

impl Row {
    fn new(width: usize, count: u32) -> Row {
        Row {
            octets: vec![0; width * count as usize],
            width,
        }
    }

    fn at(&self, index: usize) -> &[u8] {
        &self.octets[index * self.width..][..self.width]
    }

    fn set(&mut self, index: usize, value: &[u8]) {
        self.octets[index * self.width..][..self.width].copy_from_slice(value);
    }
}

/// A map with a journal of at most `WRITES` writes.
pub struct Map {
    slots: BTreeMap<Box<[u8]>, u32>,
    values: Row,
    /// The slots that are free, each with memory for a key.
    free: Vec<(Box<[u8]>, u32)>,
    /// Whether the key of each write was there before, and with which value.
    were_there: Vec<bool>,
    keys: Row,
    olds: Row,
}

impl Map {
    pub fn new(key: usize, value: usize, entries: u32) -> Map {
        Map {
            slots: BTreeMap::new(),
            values: Row::new(value, entries),
            free: (0..entries)
                .rev()
                .map(|slot| (vec![0; key].into(), slot))
                .collect(),
            were_there: Vec::with_capacity(WRITES as usize),
            keys: Row::new(key, WRITES),
            olds: Row::new(value, WRITES),
        }
    }

    pub fn get(&self, key: &[u8]) -> Option<&[u8]> {
        self.slots
            .get(key)
            .map(|slot| self.values.at(*slot as usize))
    }

    fn is_spent(&self) -> bool {
        self.were_there.len() >= WRITES as usize
    }

    fn note(&mut self, key: &[u8], slot: Option<u32>) {
        let write = self.were_there.len();
        self.keys.set(write, key);
        if let Some(slot) = slot {
            self.olds.set(write, self.values.at(slot as usize));
        }
        self.were_there.push(slot.is_some());
    }

    /// The slot of a new key, if there is room for one.
    fn insert(&mut self, key: &[u8]) -> Option<u32> {
        let (mut own, slot) = self.free.pop()?;
        own.copy_from_slice(key);
        self.slots.insert(own, slot);
        Some(slot)
    }

    fn take_out(&mut self, key: &[u8]) -> Option<u32> {
        let (own, slot) = self.slots.remove_entry(key)?;
        self.free.push((own, slot));
        Some(slot)
    }

    pub fn put(&mut self, key: &[u8], value: &[u8]) -> bool {
        if self.is_spent() {
            return false;
        }
        let there = self.slots.get(key).copied();
        let Some(slot) = there.or_else(|| self.insert(key)) else {
            return false;
        };
        self.note(key, there);
        self.values.set(slot as usize, value);
        true
    }

    pub fn remove(&mut self, key: &[u8]) -> bool {
        if self.is_spent() {
            return false;
        }
        let slot = self.take_out(key);
        if slot.is_some() {
            self.note(key, slot);
        }
        slot.is_some()
    }

    pub fn undo(&mut self) {
        while let Some(was_there) = self.were_there.pop() {
            let write = self.were_there.len();
            let key = self.keys.at(write);
            if was_there {
                let slot = match self.slots.get(key) {
                    Some(slot) => *slot,
                    None => {
                        let (mut own, slot) = self.free.pop().expect("a slot was free before");
                        own.copy_from_slice(key);
                        self.slots.insert(own, slot);
                        slot
                    }
                };
                self.values.set(slot as usize, self.olds.at(write));
            } else if let Some((own, slot)) = self.slots.remove_entry(key) {
                self.free.push((own, slot));
            }
        }
    }

    pub fn commit(&mut self) {
        self.were_there.clear();
    }

    pub fn key_after(&self, key: &[u8]) -> Option<&[u8]> {
        let after = (Bound::Excluded(key), Bound::Unbounded);
        let (key, _) = self.slots.range::<[u8], _>(after).next()?;
        Some(key)
    }
}
