//! Partitions and pages as plain lists of numbers, taken apart and put
//! together again. Numbers are so wide that none can wrap.

use reference::Geometry;

#[derive(Clone)]
pub struct Page {
    pub count: u64,
    pub page: u64,
    pub partition: u64,
    pub zero: u64,
    pub flush: u64,
    pub last: u64,
    pub entries: Vec<(u64, u64)>,
}

pub struct Partition {
    pub flushes: i128,
    pub listed: u64,
    pub total: i128,
    pub live: i128,
    pub list: Vec<(u64, u64)>,
    pub filters: Vec<Vec<bool>>,
    pub buffer: Vec<Page>,
}

pub fn number(bytes: &[u8]) -> u64 {
    bytes
        .iter()
        .rev()
        .fold(0, |n, &byte| n << 8 | u64::from(byte))
}

pub fn push(bytes: &mut Vec<u8>, number: u64, length: usize) {
    bytes.extend_from_slice(&number.to_le_bytes()[..length]);
}

pub fn records(bytes: &[u8]) -> Vec<(u64, u64)> {
    let split = |r: &[u8]| (number(&r[..8]), number(&r[8..]));
    bytes.chunks(16).map(split).collect()
}

pub fn read_page(bytes: &[u8]) -> Page {
    Page {
        count: number(&bytes[0..2]),
        page: number(&bytes[2..4]),
        partition: number(&bytes[4..6]),
        zero: number(&bytes[6..8]),
        flush: number(&bytes[8..12]),
        last: number(&bytes[12..16]),
        entries: records(&bytes[16..]),
    }
}

pub fn page_bytes(page: &Page) -> Vec<u8> {
    let mut bytes = Vec::new();
    for number in [page.count, page.page, page.partition, page.zero] {
        push(&mut bytes, number, 2);
    }
    push(&mut bytes, page.flush, 4);
    push(&mut bytes, page.last, 4);
    for &(key, value) in &page.entries {
        push(&mut bytes, key, 8);
        push(&mut bytes, value, 8);
    }
    bytes
}

pub fn empty_page(g: Geometry, partition: u64, page: u64) -> Page {
    Page {
        count: 0,
        page,
        partition,
        zero: 0,
        flush: 0,
        last: 0,
        entries: vec![(0, 0); g.page as usize / 16 - 1],
    }
}

pub fn length(g: Geometry) -> usize {
    (16 + 16 * g.list + g.kept * g.bits / 8 + g.pages * g.page) as usize
}

pub fn read_partition(g: Geometry, memory: &[u8], t: usize) -> Partition {
    let bytes = &memory[32 + t * length(g)..32 + (t + 1) * length(g)];
    let filters_at = 16 + 16 * g.list as usize;
    let buffer_at = filters_at + (g.kept * g.bits / 8) as usize;
    let bit = |filter: &[u8], b: usize| filter[b / 8] >> (b % 8) & 1 == 1;
    Partition {
        flushes: i128::from(number(&bytes[0..4])),
        listed: number(&bytes[4..8]),
        total: i128::from(number(&bytes[8..12])),
        live: i128::from(number(&bytes[12..16])),
        list: records(&bytes[16..filters_at]),
        filters: bytes[filters_at..buffer_at]
            .chunks(g.bits as usize / 8)
            .map(|filter| (0..g.bits as usize).map(|b| bit(filter, b)).collect())
            .collect(),
        buffer: bytes[buffer_at..]
            .chunks(g.page as usize)
            .map(read_page)
            .collect(),
    }
}

pub fn write_partition(g: Geometry, memory: &mut [u8], t: usize, partition: &Partition) {
    let mut bytes = Vec::new();
    push(&mut bytes, partition.flushes as u64, 4);
    push(&mut bytes, partition.listed, 4);
    push(&mut bytes, partition.total as u64, 4);
    push(&mut bytes, partition.live as u64, 4);
    for &(key, rest) in &partition.list {
        push(&mut bytes, key, 8);
        push(&mut bytes, rest, 8);
    }
    for filter in &partition.filters {
        for eight in filter.chunks(8) {
            bytes.push(eight.iter().rev().fold(0, |n, &set| n << 1 | u8::from(set)));
        }
    }
    for page in &partition.buffer {
        bytes.extend(page_bytes(page));
    }
    memory[32 + t * length(g)..32 + (t + 1) * length(g)].copy_from_slice(&bytes);
}

pub fn allowed(g: Geometry) -> bool {
    g.parts <= 8
        && [64, 128, 256, 512, 1024, 2048, 4096].contains(&g.page)
        && [1, 2, 4, 8, 16, 32, 64].contains(&g.pages)
        && (1..=32).contains(&g.kept)
        && (6..=16).any(|power| g.bits == 1 << power)
        && (1..=8).contains(&g.hashes)
        && (1..=1024).contains(&g.list)
}

pub fn mixed(key: u64) -> u64 {
    let mut mixed = key;
    mixed ^= mixed << 13;
    mixed ^= mixed >> 7;
    mixed ^= mixed << 17;
    mixed
}

pub fn home(g: Geometry, key: u64) -> (usize, usize) {
    let partition = (u128::from(key) << g.parts) >> 64;
    let page = (mixed(key) >> 48) % u64::from(g.pages);
    (partition as usize, page as usize)
}

pub fn bits(g: Geometry, key: u64) -> Vec<usize> {
    let mixed = mixed(key);
    let (low, high) = (u128::from(mixed % (1 << 32)), u128::from(mixed >> 32 | 1));
    let place = |i: u32| (low + u128::from(i) * high) % u128::from(g.bits);
    (0..g.hashes).map(|i| place(i) as usize).collect()
}

pub fn find(records: &[(u64, u64)], used: u64, key: u64) -> Option<usize> {
    records[..used as usize].iter().position(|r| r.0 == key)
}

/// The value of the page's first entry of the key, with one counted for each
/// entry that is compared on the way (02, job 8).
pub fn search(page: &Page, key: u64, compared: &mut u32) -> Option<u64> {
    for i in 0..page.count as usize {
        *compared += 1;
        if page.entries[i].0 == key {
            return Some(page.entries[i].1);
        }
    }
    None
}

/// Takes out the records at the places, which lie below `used`: the number left.
pub fn take_out(records: &mut [(u64, u64)], used: u64, places: &[usize]) -> u64 {
    let stay: Vec<_> = (0..used as usize)
        .filter(|i| !places.contains(i))
        .map(|i| records[i])
        .collect();
    records[..used as usize].fill((0, 0));
    records[..stay.len()].copy_from_slice(&stay);
    stay.len() as u64
}

pub fn fits(g: Geometry, page: &Page) -> bool {
    let most = u64::from(g.page) / 16 - 1;
    page.count <= most
}

/// The entries that fit a partition's live batches and its buffer.
pub fn most_entries(g: Geometry) -> u32 {
    (g.kept + 1) * g.pages * (g.page / 16 - 1)
}

/// Whether a total is one that a partition may have.
pub fn total_fits(g: Geometry, total: i128) -> bool {
    (0..=i128::from(most_entries(g))).contains(&total)
}

/// Whether so many batches may be live after so many flushes.
pub fn live_fits(g: Geometry, flushes: i128, live: i128) -> bool {
    live <= flushes && live <= g.kept.into()
}

/// Whether the head counts no more than fits.
pub fn head_fits(g: Geometry, partition: &Partition) -> bool {
    partition.listed <= g.list.into()
        && total_fits(g, partition.total)
        && live_fits(g, partition.flushes, partition.live)
}

/// The slot of the batch with this number.
pub fn slot(g: Geometry, number: i128) -> usize {
    ((number - 1) % i128::from(g.kept)) as usize
}

/// The latest so many batches of so many flushes, youngest first, with their slots.
pub fn live(g: Geometry, flushes: i128, live: i128) -> impl Iterator<Item = (i128, usize)> {
    (flushes - live + 1..=flushes)
        .rev()
        .map(move |number| (number, slot(g, number)))
}

/// The live batches whose filter passes, youngest first, with their slots.
pub fn passing(g: Geometry, partition: &Partition, key: u64) -> Vec<(i128, usize)> {
    live(g, partition.flushes, partition.live)
        .filter(|&(_, slot)| bits(g, key).iter().all(|&b| partition.filters[slot][b]))
        .collect()
}

/// The sum of the counts of a partition's buffer pages and of the pages of its
/// live batches, as they stand in the areas.
pub fn sum_of_counts(g: Geometry, memory: &[u8], flash: &[u8], t: usize) -> u64 {
    let (pages, size) = (g.pages as usize, g.page as usize);
    let end = 32 + (t + 1) * length(g);
    let counts = |bytes: &[u8]| -> u64 { bytes.chunks(size).map(|page| number(&page[..2])).sum() };
    let head = &memory[end - length(g)..][..16];
    let batches = live(g, number(&head[..4]).into(), number(&head[12..]).into());
    let batches = batches.map(|(_, slot)| &flash[flash_at(g, t, slot, 0)..][..pages * size]);
    counts(&memory[end - pages * size..end]) + batches.map(counts).sum::<u64>()
}

pub fn flash_at(g: Geometry, t: usize, slot: usize, q: usize) -> usize {
    ((t * g.kept as usize + slot) * g.pages as usize + q) * g.page as usize
}

pub fn expected(g: Geometry, page: &Page, t: usize, q: usize, number: i128) -> bool {
    fits(g, page)
        && page.page == q as u64
        && page.partition == t as u64
        && page.zero == 0
        && i128::from(page.flush) == number
}
