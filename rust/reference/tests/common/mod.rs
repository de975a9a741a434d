//! What the tests share: a generator of numbers, a table whose bytes can be
//! set by hand, and the offsets written out again from document 01.
#![allow(dead_code)]

pub mod bill;
pub mod call;
pub mod carry;
pub mod oracle;
pub mod plain;
pub mod tally;

use reference::{Geometry, Lookup, Place, Refusal};

/// The geometry of the worked session.
pub const G: Geometry = Geometry::new([0, 64, 1, 2, 64, 3, 1]);

/// The largest geometry that is allowed.
pub const LARGEST: Geometry = Geometry::new([8, 4096, 64, 32, 65536, 8, 1024]);

/// A geometry of two partitions, two pages and three batches.
pub const WIDE: Geometry = Geometry::new([1, 64, 2, 3, 64, 2, 3]);

/// A key of WIDE's page 1: the mixing takes its bit 18 to bit 48. Bits below
/// that have no say in the page, so a smaller key belongs to page 0.
pub const PAGE_1: u64 = 1 << 18;

/// A call, told only as accepted or refused.
pub type Made = fn(&mut Table) -> Result<(), Refusal>;

/// Every call but format, of partition 0, with arguments that are in range.
pub const CALLS: [Made; 10] = [
    |t| t.put(PAGE_1, 2).map(drop),
    |t| t.get(1).map(drop),
    |t| t.get(PAGE_1).map(drop),
    |t| t.del(PAGE_1),
    |t| t.flush(0).map(drop),
    |t| t.view(0, 0, 0).map(drop),
    |t| t.view(0, 0, 1).map(drop),
    |t| t.count(0).map(drop),
    |t| t.text(0).map(drop),
    |t| t.drop_oldest(0),
];

/// Splitmix: every run of the tests draws the same numbers.
pub struct Rng(pub u64);

impl Rng {
    pub fn next(&mut self) -> u64 {
        self.0 = self.0.wrapping_add(0x9e37_79b9_7f4a_7c15);
        let mut z = self.0;
        z = (z ^ z >> 30).wrapping_mul(0xbf58_476d_1ce4_e5b9);
        z = (z ^ z >> 27).wrapping_mul(0x94d0_49bb_1331_11eb);
        z ^ z >> 31
    }

    pub fn below(&mut self, bound: usize) -> usize {
        (self.next() % bound as u64) as usize
    }

    pub fn one_in(&mut self, bound: usize) -> bool {
        self.below(bound) == 0
    }

    pub fn pick<T: Copy>(&mut self, from: &[T]) -> T {
        from[self.below(from.len())]
    }

    /// A geometry whose batches are soon full and soon gone.
    pub fn small_geometry(&mut self) -> Geometry {
        Geometry::new([
            self.below(4) as u32,
            self.pick(&[64, 64, 128, 256]),
            self.pick(&[1, 1, 2, 4]),
            1 + self.below(5) as u32,
            self.pick(&[64, 64, 128, 1024]),
            1 + self.below(8) as u32,
            1 + self.below(6) as u32,
        ])
    }

    /// Keys that meet in partitions, pages and filter bits, keys of one stream
    /// and any keys.
    pub fn keys(&mut self, number: usize) -> Vec<u64> {
        let mut keys = vec![0, u64::MAX];
        while keys.len() < number {
            let key = match self.below(4) {
                0 => self.below(32) as u64,
                1 => self.next() & 0xe000_0000_001c_0000,
                2 => self.next() << 16 | 7,
                _ => self.next(),
            };
            keys.push(key);
        }
        keys.truncate(number);
        keys
    }

    /// A value, now and then 0, which no put takes.
    pub fn value(&mut self) -> u64 {
        if self.one_in(12) {
            0
        } else {
            self.next()
        }
    }

    pub fn bytes(&mut self, number: usize) -> Vec<u8> {
        (0..number).map(|_| self.next() as u8).collect()
    }
}

pub fn word(bytes: &[u8], at: usize) -> u32 {
    u32::from_le_bytes(bytes[at..at + 4].try_into().unwrap())
}

pub fn set_word(bytes: &mut [u8], at: usize, number: u32) {
    bytes[at..at + 4].copy_from_slice(&number.to_le_bytes());
}

/// A record of a key and the 8 bytes after it.
pub fn record(key: u64, rest: u64) -> [u8; 16] {
    let mut bytes = [0; 16];
    bytes[..8].copy_from_slice(&key.to_le_bytes());
    bytes[8..].copy_from_slice(&rest.to_le_bytes());
    bytes
}

pub fn partition_bytes(g: Geometry) -> usize {
    (16 + 16 * g.list + g.kept * g.bits / 8 + g.pages * g.page) as usize
}

pub fn memory_need(g: Geometry) -> usize {
    32 + (1 << g.parts) * partition_bytes(g)
}

pub fn flash_need(g: Geometry) -> usize {
    (1 << g.parts) * (g.kept * g.pages * g.page) as usize
}

/// A refusal's number and reads.
pub fn refused<T>(answer: Result<T, Refusal>) -> (u32, u32) {
    match answer {
        Ok(_) => panic!("accepted"),
        Err(refusal) => (refusal.number(), refusal.reads()),
    }
}

/// A get that found the value, in the buffer for batch 0.
pub fn found(value: u64, reads: u32, comparisons: u32, batch: u32) -> Result<Lookup, Refusal> {
    let place = match batch {
        0 => Place::Buffer,
        number => Place::Batch(number),
    };
    Ok(Lookup::Found {
        value,
        reads,
        comparisons,
        place,
    })
}

pub fn none(reads: u32, comparisons: u32) -> Result<Lookup, Refusal> {
    Ok(Lookup::None { reads, comparisons })
}

/// Two areas of exactly the need, with all their bytes within reach.
#[derive(Clone, PartialEq, Eq, Debug)]
pub struct Table {
    pub g: Geometry,
    pub memory: Vec<u8>,
    pub flash: Vec<u8>,
}

impl Table {
    /// A formatted table.
    pub fn new(g: Geometry) -> Table {
        let mut table = Table {
            g,
            memory: vec![0xa5; memory_need(g)],
            flash: vec![0xa5; flash_need(g)],
        };
        assert_eq!(
            reference::format(&mut table.memory, &table.flash, g),
            Ok(())
        );
        table
    }

    pub fn put(&mut self, key: u64, value: u64) -> Result<u32, Refusal> {
        reference::put(&mut self.memory, &mut self.flash, key, value)
    }

    pub fn get(&self, key: u64) -> Result<Lookup, Refusal> {
        call::index_get(&self.memory, &self.flash, key)
    }

    pub fn del(&mut self, key: u64) -> Result<(), Refusal> {
        reference::del(&mut self.memory, &self.flash, key)
    }

    pub fn flush(&mut self, partition: u32) -> Result<u32, Refusal> {
        reference::flush(&mut self.memory, &mut self.flash, partition)
    }

    pub fn view(&self, partition: u32, page: u32, number: u32) -> Result<&[u8], Refusal> {
        reference::view(&self.memory, &self.flash, partition, page, number)
    }

    pub fn count(&self, partition: u32) -> Result<u32, Refusal> {
        reference::count(&self.memory, &self.flash, partition)
    }

    pub fn drop_oldest(&mut self, partition: u32) -> Result<(), Refusal> {
        reference::drop_oldest(&mut self.memory, &self.flash, partition)
    }

    /// The partition's text, with room for any.
    pub fn text(&self, partition: u32) -> Result<String, Refusal> {
        // A line is at most 48 bytes long, for an entry of 16.
        let mut area = vec![0; 3 * (self.memory.len() + self.flash.len())];
        let length = reference::text(&self.memory, &self.flash, partition, &mut area)?;
        area.truncate(length);
        Ok(String::from_utf8(area).expect("a text of ASCII bytes"))
    }

    fn partition_at(&self, t: usize) -> usize {
        32 + t * partition_bytes(self.g)
    }

    pub fn head(&mut self, t: usize) -> &mut [u8] {
        let at = self.partition_at(t);
        &mut self.memory[at..at + 16]
    }

    pub fn flushes(&mut self, t: usize) -> u32 {
        word(self.head(t), 0)
    }

    /// Sets F, and the live number to what so many flushes leave without a drop.
    pub fn set_flushes(&mut self, t: usize, number: u32) {
        set_word(self.head(t), 0, number);
        self.set_live(t, number.min(self.g.kept));
    }

    pub fn live(&mut self, t: usize) -> u32 {
        word(self.head(t), 12)
    }

    pub fn set_live(&mut self, t: usize, number: u32) {
        set_word(self.head(t), 12, number);
    }

    pub fn listed(&mut self, t: usize) -> u32 {
        word(self.head(t), 4)
    }

    pub fn set_listed(&mut self, t: usize, number: u32) {
        set_word(self.head(t), 4, number);
    }

    pub fn set_total(&mut self, t: usize, number: u32) {
        set_word(self.head(t), 8, number);
    }

    /// Sets the total to the sum of the page counts.
    pub fn recount(&mut self, t: usize) {
        let sum = plain::sum_of_counts(self.g, &self.memory, &self.flash, t);
        self.set_total(t, sum as u32);
    }

    pub fn list_place(&mut self, t: usize, i: usize) -> &mut [u8] {
        let at = self.partition_at(t) + 16 + 16 * i;
        &mut self.memory[at..at + 16]
    }

    pub fn set_list(&mut self, t: usize, places: &[(u64, u64)]) {
        for (i, &(key, rest)) in places.iter().enumerate() {
            self.list_place(t, i).copy_from_slice(&record(key, rest));
        }
        self.set_listed(t, places.len() as u32);
    }

    /// The listed keys with the 8 bytes after each.
    pub fn list(&mut self, t: usize) -> Vec<(u64, u64)> {
        let number = self.listed(t) as usize;
        (0..number).map(|i| pair(self.list_place(t, i))).collect()
    }

    pub fn filter(&mut self, t: usize, slot: usize) -> &mut [u8] {
        let length = self.g.bits as usize / 8;
        let at = self.partition_at(t) + 16 + 16 * self.g.list as usize + slot * length;
        &mut self.memory[at..at + length]
    }

    pub fn buffer(&mut self, t: usize, q: usize) -> &mut [u8] {
        let at = self.partition_at(t + 1) - ((self.g.pages as usize - q) * self.g.page as usize);
        &mut self.memory[at..at + self.g.page as usize]
    }

    pub fn batch(&mut self, t: usize, slot: usize, q: usize) -> &mut [u8] {
        let (k, pages, p) = (self.g.kept, self.g.pages, self.g.page as usize);
        let at = ((t * k as usize + slot) * pages as usize + q) * p;
        &mut self.flash[at..at + p]
    }

    /// Has the partition done so many flushes, each of a buffer without entries,
    /// and no drop: the pages of its live batches are in order.
    pub fn set_batches(&mut self, t: usize, flushes: u32) {
        self.set_flushes(t, flushes);
        let live = self.live(t);
        for (number, slot) in plain::live(self.g, flushes.into(), live.into()) {
            for q in 0..self.g.pages as usize {
                let page = self.batch(t, slot, q);
                page.fill(0);
                (page[2], page[4]) = (q as u8, t as u8);
                set_word(page, 8, number as u32);
            }
        }
    }

    /// Fills a page with a count and entries by hand. The total stays.
    pub fn fill_buffer(&mut self, t: usize, q: usize, entries: &[(u64, u64)]) {
        let page = self.buffer(t, q);
        page[0] = entries.len() as u8;
        page[1] = 0;
        for (i, &(key, value)) in entries.iter().enumerate() {
            page[16 + 16 * i..][..16].copy_from_slice(&record(key, value));
        }
    }

    /// Makes the call on a copy: the call is refused and changed no byte.
    pub fn refuses<T>(&self, call: impl Fn(&mut Table) -> Result<T, Refusal>) -> (u32, u32) {
        let mut copy = self.clone();
        let numbers = refused(call(&mut copy));
        assert!(copy == *self, "a refused call changed a byte");
        numbers
    }
}

/// A record's key and the 8 bytes after it.
pub fn pair(record: &[u8]) -> (u64, u64) {
    let half = |at: usize| u64::from_le_bytes(record[at..at + 8].try_into().unwrap());
    (half(0), half(8))
}
