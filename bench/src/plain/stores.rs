//! Two stores: 16 slots of one size with a volume behind them, and pages.

use std::collections::HashMap;

pub const SLOTS: usize = 16;
const NAMES: usize = 32;
const MOST_NAME: usize = 128;
const PAGE: usize = 4096;
const TRAILER: usize = 16;

/// The store refused; it is as it was.
#[derive(Debug, PartialEq, Eq)]
pub struct Refusal;

pub trait Store {
    /// How many more bytes a slot takes.
    fn room(&self, slot: usize) -> usize;
    fn published_length(&self, name: &[u8]) -> Option<usize>;
    fn can_publish(&self, slot: usize, name: &[u8]) -> bool;
    fn add(&mut self, slot: usize, bytes: &[u8]) -> Result<(), Refusal>;
    fn clear(&mut self, slot: usize);
    fn publish(&mut self, slot: usize, name: &[u8]) -> Result<(), Refusal>;
    /// What stands under a name.
    fn read(&self, name: &[u8]) -> Option<Vec<u8>>;
}

fn is_name(name: &[u8]) -> bool {
    (1..=MOST_NAME).contains(&name.len())
}

/// 16 slots of `capacity` bytes at the front of a region, and a volume of `used` bytes behind them.
pub struct VolumeStore {
    region: Vec<u8>,
    capacity: usize,
    lengths: [usize; SLOTS],
    used: usize,
}

/// The last bundle of a volume.
struct Bundle<'a> {
    entity: &'a [u8],
    name: &'a [u8],
    before: &'a [u8],
}

fn last_bundle(volume: &[u8]) -> Option<Bundle<'_>> {
    let (joined, trailer) = volume.split_at(volume.len().checked_sub(TRAILER)?);
    let distance = u64::from_be_bytes(trailer[..8].try_into().ok()?);
    let name_length = u16::from_be_bytes(trailer[8..10].try_into().ok()?);
    if trailer[10..] != *b"\0\0HALL" || !(1..=MOST_NAME as u16).contains(&name_length) {
        return None;
    }
    if distance <= u64::from(name_length) {
        return None;
    }
    let start = joined.len().checked_sub(usize::try_from(distance).ok()?)?;
    let name_start = joined.len() - usize::from(name_length);
    Some(Bundle {
        entity: &joined[start..name_start],
        name: &joined[name_start..],
        before: &joined[..start],
    })
}

fn is_volume(mut volume: &[u8]) -> bool {
    while let Some(bundle) = last_bundle(volume) {
        volume = bundle.before;
    }
    volume.is_empty()
}

impl VolumeStore {
    pub fn new(region: Vec<u8>, capacity: usize, used: usize) -> Option<VolumeStore> {
        let base = capacity.checked_mul(SLOTS)?;
        let volume = region.get(base..)?.get(..used)?;
        if capacity == 0 || !is_volume(volume) {
            return None;
        }
        Some(VolumeStore { region, capacity, lengths: [0; SLOTS], used })
    }

    fn base(&self) -> usize {
        SLOTS * self.capacity
    }

    fn find(&self, name: &[u8]) -> Option<&[u8]> {
        let mut volume = &self.region[self.base()..self.base() + self.used];
        while let Some(bundle) = last_bundle(volume) {
            if bundle.name == name {
                return Some(bundle.entity);
            }
            volume = bundle.before;
        }
        None
    }
}

impl Store for VolumeStore {
    fn room(&self, slot: usize) -> usize {
        self.capacity - self.lengths[slot]
    }

    fn published_length(&self, name: &[u8]) -> Option<usize> {
        self.find(name).map(<[u8]>::len)
    }

    fn can_publish(&self, slot: usize, name: &[u8]) -> bool {
        let length = self.lengths[slot];
        let left = self.region.len() - self.base() - self.used;
        is_name(name) && length > 0 && length + name.len() + TRAILER <= left
    }

    fn add(&mut self, slot: usize, bytes: &[u8]) -> Result<(), Refusal> {
        if bytes.len() > self.room(slot) {
            return Err(Refusal);
        }
        let at = slot * self.capacity + self.lengths[slot];
        self.region[at..at + bytes.len()].copy_from_slice(bytes);
        self.lengths[slot] += bytes.len();
        Ok(())
    }

    fn clear(&mut self, slot: usize) {
        self.lengths[slot] = 0;
    }

    fn publish(&mut self, slot: usize, name: &[u8]) -> Result<(), Refusal> {
        if !self.can_publish(slot, name) {
            return Err(Refusal);
        }
        let start = slot * self.capacity;
        let length = self.lengths[slot];
        let mut at = self.base() + self.used;
        self.region.copy_within(start..start + length, at);
        at += length;
        let mut put = |bytes: &[u8]| {
            self.region[at..at + bytes.len()].copy_from_slice(bytes);
            at += bytes.len();
        };
        put(name);
        put(&((length + name.len()) as u64).to_be_bytes());
        put(&(name.len() as u16).to_be_bytes());
        put(b"\0\0HALL");
        self.used += length + name.len() + TRAILER;
        self.lengths[slot] = 0;
        Ok(())
    }

    fn read(&self, name: &[u8]) -> Option<Vec<u8>> {
        self.find(name).map(<[u8]>::to_vec)
    }
}

/// Pages in order, and how many bytes they hold.
#[derive(Default)]
struct Chain {
    pages: Vec<usize>,
    length: usize,
}

/// A region cut into pages of 4,096 bytes: each slot and each name owns as few as it needs.
pub struct PageStore {
    region: Vec<u8>,
    free: Vec<usize>,
    slots: [Chain; SLOTS],
    names: HashMap<Vec<u8>, Chain>,
}

impl PageStore {
    pub fn new(region: Vec<u8>) -> Option<PageStore> {
        let pages = region.len() / PAGE;
        if region.len() % PAGE != 0 || !(1..=1024).contains(&pages) {
            return None;
        }
        Some(PageStore {
            region,
            free: (0..pages).rev().collect(),
            slots: Default::default(),
            names: HashMap::new(),
        })
    }
}

impl Store for PageStore {
    fn room(&self, slot: usize) -> usize {
        let chain = &self.slots[slot];
        PAGE * (chain.pages.len() + self.free.len()) - chain.length
    }

    fn published_length(&self, name: &[u8]) -> Option<usize> {
        self.names.get(name).map(|chain| chain.length)
    }

    fn can_publish(&self, slot: usize, name: &[u8]) -> bool {
        is_name(name)
            && self.slots[slot].length > 0
            && (self.names.contains_key(name) || self.names.len() < NAMES)
    }

    fn add(&mut self, slot: usize, mut bytes: &[u8]) -> Result<(), Refusal> {
        if bytes.len() > self.room(slot) {
            return Err(Refusal);
        }
        let chain = &mut self.slots[slot];
        while !bytes.is_empty() {
            let offset = chain.length % PAGE;
            if offset == 0 {
                chain.pages.push(self.free.pop().ok_or(Refusal)?);
            }
            let page = chain.pages[chain.length / PAGE];
            let (now, later) = bytes.split_at(bytes.len().min(PAGE - offset));
            let at = page * PAGE + offset;
            self.region[at..at + now.len()].copy_from_slice(now);
            chain.length += now.len();
            bytes = later;
        }
        Ok(())
    }

    fn clear(&mut self, slot: usize) {
        let chain = &mut self.slots[slot];
        self.free.append(&mut chain.pages);
        chain.length = 0;
    }

    fn publish(&mut self, slot: usize, name: &[u8]) -> Result<(), Refusal> {
        if !self.can_publish(slot, name) {
            return Err(Refusal);
        }
        let chain = std::mem::take(&mut self.slots[slot]);
        if let Some(mut old) = self.names.insert(name.to_vec(), chain) {
            self.free.append(&mut old.pages);
        }
        Ok(())
    }

    fn read(&self, name: &[u8]) -> Option<Vec<u8>> {
        let chain = self.names.get(name)?;
        let mut bytes = Vec::with_capacity(chain.length);
        for page in &chain.pages {
            let n = (chain.length - bytes.len()).min(PAGE);
            bytes.extend_from_slice(&self.region[page * PAGE..page * PAGE + n]);
        }
        Some(bytes)
    }
}
