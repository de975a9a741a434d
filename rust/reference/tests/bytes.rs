//! The bytes that each call leaves, and the bytes that it leaves alone.

mod common;

use common::{flash_need, found, memory_need, none, partition_bytes};
use common::{record, word, Rng, Table, G, PAGE_1, WIDE};
use reference::{del, drop_oldest, flush, format, get, put, view, view_part};

#[test]
fn format_writes_the_whole_need_and_nothing_else() {
    let mut rng = Rng(1);
    for _ in 0..200 {
        let g = rng.small_geometry();
        let need = memory_need(g);
        // Room for another partition, which must not be written all the same.
        let mut memory = rng.bytes(need + partition_bytes(g) + 40);
        let flash = rng.bytes(flash_need(g) + 40);
        let (surplus, before) = (memory[need..].to_vec(), flash.clone());
        assert_eq!(format(&mut memory, &flash, g), Ok(()));
        assert_eq!(flash, before);
        assert_eq!(memory[need..], surplus);
        let mut expected = vec![0; 32];
        let numbers = [
            g.parts, g.page, g.pages, g.kept, g.bits, g.hashes, g.list, 0,
        ];
        for (place, number) in numbers.into_iter().enumerate() {
            common::set_word(&mut expected, 4 * place, number);
        }
        for t in 0..1u8 << g.parts {
            let other = 16 + 16 * g.list + g.kept * g.bits / 8;
            expected.resize(expected.len() + other as usize, 0);
            for q in 0..g.pages as u8 {
                expected.extend([0, 0, q, 0, t, 0, 0, 0]);
                expected.resize(expected.len() + g.page as usize - 8, 0);
            }
        }
        assert!(memory[..need] == expected, "{g:?}");
    }
}

#[test]
fn surplus_bytes_stay() {
    let mut rng = Rng(2);
    let (memory_need, flash_need) = (memory_need(WIDE), flash_need(WIDE));
    let mut memory = rng.bytes(memory_need + 64);
    let mut flash = rng.bytes(flash_need + 64);
    let surplus = (memory[memory_need..].to_vec(), flash[flash_need..].to_vec());
    format(&mut memory, &flash, WIDE).unwrap();
    for step in 1..=2000 {
        let key = rng.next() & 0x8000_0000_0000_000f;
        match rng.below(16) {
            0..=3 => drop(del(&mut memory, &flash, key)),
            4..=7 => drop(flush(&mut memory, &mut flash, rng.below(2) as u32)),
            8 => drop(drop_oldest(&mut memory, &flash, rng.below(2) as u32)),
            _ => drop(put(&mut memory, &mut flash, key, step)),
        }
        get(&memory, &flash, key).unwrap();
        assert_eq!(memory[memory_need..], surplus.0);
        assert_eq!(flash[flash_need..], surplus.1);
    }
}

#[test]
fn put_and_del_touch_only_count_and_entries() {
    let mut table = Table::new(G);
    table.buffer(0, 0)[2..].fill(0xee);
    let mut page = table.buffer(0, 0).to_vec();
    table.put(1, 2).unwrap();
    page[0] = 1;
    page[16..32].copy_from_slice(&record(1, 2));
    assert_eq!(table.buffer(0, 0), page);
    table.put(3, u64::MAX).unwrap();
    page[0] = 2;
    page[32..48].copy_from_slice(&record(3, u64::MAX));
    assert_eq!(table.buffer(0, 0), page);
    table.put(1, 4).unwrap();
    page[16..32].copy_from_slice(&record(1, 4));
    assert_eq!(table.buffer(0, 0), page);
    table.del(1).unwrap();
    page[0] = 1;
    page[16..32].copy_from_slice(&record(3, u64::MAX));
    page[32..48].fill(0);
    assert_eq!(table.buffer(0, 0), page);
    table.del(3).unwrap();
    page[0] = 0;
    page[16..32].fill(0);
    assert_eq!(table.buffer(0, 0), page);
}

#[test]
fn flush_writes_buffer_pages_byte_for_byte() {
    let mut rng = Rng(3);
    for partition in 0..2 {
        let mut table = Table::new(WIDE);
        let mut pages = Vec::new();
        for q in 0..2 {
            // Garbage everywhere, but the counts are in order.
            let mut page = rng.bytes(64);
            page[..2].copy_from_slice(&[q as u8 + 2, 0]);
            table.buffer(partition, q).copy_from_slice(&page);
            pages.push(page);
        }
        table.set_batches(partition, 5);
        let before = table.clone();
        assert_eq!(table.flush(partition as u32), Ok(2));
        // Batch 6 lies in slot 2.
        let mut flash = before.clone().flash;
        for (q, page) in pages.iter_mut().enumerate() {
            page[8..12].copy_from_slice(&6u32.to_le_bytes());
            let at = ((partition * 3 + 2) * 2 + q) * 64;
            flash[at..at + 64].copy_from_slice(page);
        }
        assert_eq!(table.flash, flash);
        for q in 0..2 {
            let mut empty = [0; 64];
            (empty[2], empty[4]) = (q as u8, partition as u8);
            assert_eq!(table.buffer(partition, q), empty);
        }
        assert_eq!(table.flushes(partition), 6);
        // The other partition's bytes are as before.
        let other = 1 - partition;
        let mut before = before;
        assert_eq!(table.head(other), before.head(other));
        assert_eq!(table.buffer(other, 0), before.buffer(other, 0));
        assert_eq!(table.filter(partition, 0), before.filter(partition, 0));
    }
}

#[test]
fn the_filter_of_a_flush_is_made_new() {
    let mut table = Table::new(G);
    for slot in 0..2 {
        table.filter(0, slot).fill(0xff);
    }
    table.put(1, 1).unwrap();
    table.flush(0).unwrap();
    assert_eq!(table.filter(0, 0), [0b1110, 0, 0, 0, 0, 0, 0, 0]);
    assert_eq!(table.filter(0, 1), [0xff; 8]);
    // Used entries count wherever they stand, unused ones do not.
    let mut table = Table::new(WIDE);
    table.fill_buffer(0, 0, &[(1, 0), (u64::MAX, 0)]);
    table.fill_buffer(0, 1, &[(0, 0), (2, 0), (77, 0)]);
    table.buffer(0, 1)[0] = 2;
    table.flush(0).unwrap();
    let bits = |key: u64| common::plain::bits(WIDE, key);
    let mut filter = [0u8; 8];
    for bit in [1, u64::MAX, 0, 2].into_iter().flat_map(bits) {
        filter[bit / 8] |= 1 << (bit % 8);
    }
    assert_eq!(table.filter(0, 0), filter);
}

#[test]
fn the_last_four_head_bytes_are_the_live_number() {
    let mut table = Table::new(G);
    // Every third put from the fourth on flushes. K is 2.
    for key in 0..10 {
        table.put(key, 7).unwrap();
        let live = [0, 1, 2, 2][key as usize / 3];
        assert_eq!(table.head(0)[12..], [live, 0, 0, 0]);
    }
    // Neither a del nor a put without a flush changes it.
    table.set_live(0, 1);
    table.del(8).unwrap();
    assert_eq!((table.listed(0), table.live(0)), (1, 1));
    table.put(8, 1).unwrap();
    assert_eq!((table.listed(0), table.live(0)), (0, 1));
    for live in [2, 2] {
        table.put(8, 2).unwrap();
        table.flush(0).unwrap();
        assert_eq!(table.head(0)[12..], [live, 0, 0, 0]);
    }
    let flash = table.flash.clone();
    format(&mut table.memory, &flash, G).unwrap();
    assert_eq!(table.head(0)[8..], [0; 8]);
}

#[test]
fn view_shows_the_bytes_where_they_lie() {
    let mut table = Table::new(WIDE);
    for key in [PAGE_1, 2, 1 << 63] {
        table.put(key, 7).unwrap();
    }
    for _ in 0..4 {
        table.put(PAGE_1, 7).unwrap();
        table.flush(0).unwrap();
    }
    let before = table.clone();
    for (partition, page) in [(0, 0), (0, 1), (1, 0), (1, 1)] {
        let shown = table.view(partition, page, 0).unwrap();
        let mut copy = before.clone();
        assert_eq!(shown, copy.buffer(partition as usize, page as usize));
        let range = table.memory.as_ptr_range();
        assert!(range.contains(&shown.as_ptr()));
    }
    for (number, slot) in [(2, 1), (3, 2), (4, 0)] {
        let shown = view(&table.memory, &table.flash, 0, 1, number).unwrap();
        assert_eq!(shown, before.clone().batch(0, slot, 1));
        assert_eq!(word(shown, 8), number);
        assert!(table.flash.as_ptr_range().contains(&shown.as_ptr()));
    }
    let part = view_part(&table.memory, &table.flash, 0, 1, 5);
    assert!(part.is_empty());
    assert!(table.memory.as_ptr_range().contains(&part.as_ptr()));
    assert_eq!(table, before);
}

#[test]
fn live_batches_go_by_number_and_not_by_slot() {
    let mut table = Table::new(WIDE);
    for value in 1..=7u64 {
        table.put(PAGE_1, value).unwrap();
        table.flush(0).unwrap();
        assert_eq!(table.get(PAGE_1), found(value, 1, 1, value as u32));
    }
    // Batches 5, 6 and 7 lie in slots 1, 2 and 0.
    table.batch(0, 0, 1)[0] = 0;
    assert_eq!(table.get(PAGE_1), found(6, 2, 1, 6));
    table.batch(0, 2, 1)[0] = 0;
    assert_eq!(table.get(PAGE_1), found(5, 3, 1, 5));
    table.batch(0, 1, 1)[0] = 0;
    assert_eq!(table.get(PAGE_1), none(3, 0));
}
