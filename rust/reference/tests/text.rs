//! Document 02, job 5: a partition written as session lines.

mod common;

use common::call::{index_text, BLANK};
use common::plain::home;
use common::{record, refused, set_word, Rng, Table, G, PAGE_1, WIDE};
use reference::session::Form;
use reference::{Geometry, Refusal};

/// The bit that makes a key one of WIDE's partition 1.
const PART_1: u64 = 1 << 63;

/// WIDE after so many flushes of partition 0: its live batches are empty, and
/// their filters pass every key.
fn flushed(flushes: u32) -> Table {
    let mut table = Table::new(WIDE);
    table.set_batches(0, flushes);
    for slot in 0..3 {
        table.filter(0, slot).fill(0xff);
    }
    table
}

/// Fills a page of one of partition 0's batches by hand.
fn fill_batch(table: &mut Table, number: u32, q: usize, entries: &[(u64, u64)]) {
    let slot = (number - 1) % table.g.kept;
    let page = table.batch(0, slot as usize, q);
    page[0] = entries.len() as u8;
    for (i, &(key, value)) in entries.iter().enumerate() {
        page[16 + 16 * i..][..16].copy_from_slice(&record(key, value));
    }
}

fn lines(entries: &[(u64, u64)]) -> Result<String, Refusal> {
    let line = |&(key, value): &(u64, u64)| format!("(put {key} {value})\n");
    Ok(entries.iter().map(line).collect())
}

#[test]
fn the_worked_session() {
    let mut table = Table::new(G);
    assert_eq!(table.text(0), Ok(String::new()));
    for (key, value) in [(1, 10), (2, 20), (3, 30), (0, 40)] {
        table.put(key, value).unwrap();
    }
    table.del(2).unwrap();
    let expected = Ok("(put 1 10)\n(put 3 30)\n(put 0 40)\n".to_string());
    assert_eq!(table.text(0), expected);
    table.flush(0).unwrap();
    assert_eq!(table.text(0), expected);
}

#[test]
fn the_order_is_batch_page_and_place() {
    // Batches 5, 6 and 7 lie in the slots 1, 2 and 0.
    let mut table = flushed(7);
    fill_batch(&mut table, 7, 0, &[(1, 10), (2, 20)]);
    fill_batch(&mut table, 7, 1, &[(PAGE_1 + 1, 11), (PAGE_1, 12)]);
    fill_batch(&mut table, 5, 0, &[(9, 13), (8, 14)]);
    fill_batch(&mut table, 6, 1, &[(PAGE_1 + 7, 15)]);
    table.fill_buffer(0, 0, &[(7, 16), (6, 17), (5, 18)]);
    table.fill_buffer(0, 1, &[(PAGE_1 + 5, 19)]);
    let expected = [
        (9, 13),
        (8, 14),
        (PAGE_1 + 7, 15),
        (1, 10),
        (2, 20),
        (PAGE_1 + 1, 11),
        (PAGE_1, 12),
        (7, 16),
        (6, 17),
        (5, 18),
        (PAGE_1 + 5, 19),
    ];
    assert_eq!(table.text(0), lines(&expected));
    assert_eq!(table.text(1), lines(&[]));
}

#[test]
fn a_superseded_entry_has_no_line() {
    let mut table = flushed(3);
    fill_batch(&mut table, 1, 0, &[(1, 10), (2, 20), (3, 30)]);
    fill_batch(&mut table, 2, 0, &[(4, 40), (2, 21)]);
    assert_eq!(table.text(0), lines(&[(1, 10), (3, 30), (4, 40), (2, 21)]));
    fill_batch(&mut table, 3, 0, &[(3, 31), (2, 22)]);
    table.fill_buffer(0, 0, &[(3, 32)]);
    assert_eq!(table.text(0), lines(&[(1, 10), (4, 40), (2, 22), (3, 32)]));
    // Entries behind the count supersede nothing.
    table.buffer(0, 0)[0] = 0;
    assert_eq!(table.text(0), lines(&[(1, 10), (4, 40), (3, 31), (2, 22)]));
}

#[test]
fn a_listed_key_has_no_line() {
    let mut table = flushed(1);
    fill_batch(&mut table, 1, 0, &[(1, 10), (2, 20)]);
    table.fill_buffer(0, 0, &[(3, 30), (2, 21)]);
    table.set_list(0, &[(2, 1), (3, 1)]);
    assert_eq!(table.text(0), lines(&[(1, 10)]));
    // Places from L on list nothing.
    table.set_listed(0, 1);
    assert_eq!(table.text(0), lines(&[(1, 10), (3, 30)]));
    table.set_listed(0, 0);
    assert_eq!(table.text(0), lines(&[(1, 10), (3, 30), (2, 21)]));
}

#[test]
fn a_batch_that_is_gone_has_no_line() {
    let mut table = Table::new(G);
    for key in 1..=4 {
        table.put(key, 10 * key).unwrap();
        table.flush(0).unwrap();
        let live: Vec<_> = (key.max(2) - 1..=key).map(|key| (key, 10 * key)).collect();
        assert_eq!(table.text(0), lines(&live), "after {key} flushes");
    }
    // Before a first flush whatever flash holds is nobody's.
    table.set_flushes(0, 0);
    assert_eq!(table.text(0), lines(&[]));
}

#[test]
fn a_filter_that_does_not_pass_hides_its_batch() {
    let mut table = flushed(3);
    fill_batch(&mut table, 1, 0, &[(1, 10), (2, 20)]);
    fill_batch(&mut table, 3, 0, &[(1, 11), (3, 30)]);
    assert_eq!(table.text(0), lines(&[(2, 20), (1, 11), (3, 30)]));
    // The older entry answers in its stead.
    table.filter(0, 2).fill(0);
    assert_eq!(table.text(0), lines(&[(1, 10), (2, 20)]));
    // Whether the batch between them passes or not, it lacks the keys.
    table.filter(0, 1).fill(0);
    assert_eq!(table.text(0), lines(&[(1, 10), (2, 20)]));
    table.filter(0, 0).fill(0);
    assert_eq!(table.text(0), lines(&[]));
    // The buffer has no filter.
    table.fill_buffer(0, 0, &[(1, 12)]);
    assert_eq!(table.text(0), lines(&[(1, 12)]));
}

#[test]
fn of_a_key_twice_in_a_page_the_first_has_the_line() {
    let mut table = flushed(1);
    fill_batch(&mut table, 1, 0, &[(5, 1), (7, 2), (5, 3)]);
    table.fill_buffer(0, 1, &[(PAGE_1, 4), (PAGE_1, 5), (PAGE_1, 4)]);
    assert_eq!(table.text(0), lines(&[(5, 1), (7, 2), (PAGE_1, 4)]));
}

#[test]
fn a_key_of_another_page_or_partition_has_no_line() {
    let mut table = flushed(2);
    fill_batch(&mut table, 1, 0, &[(PAGE_1, 1), (PART_1, 2), (1, 3)]);
    fill_batch(&mut table, 2, 1, &[(1, 4), (PAGE_1 + 1, 5)]);
    table.fill_buffer(0, 0, &[(PART_1 | 1, 6), (2, 7)]);
    table.fill_buffer(0, 1, &[(2, 8), (PART_1 | PAGE_1, 9)]);
    assert_eq!(table.text(0), lines(&[(1, 3), (PAGE_1 + 1, 5), (2, 7)]));
    assert_eq!(table.text(1), lines(&[]));
}

#[test]
fn figures_of_every_length() {
    let mut table = Table::new(Geometry::new([0, 4096, 1, 1, 64, 1, 1]));
    let mut entries = vec![(0, 0), (u64::MAX, u64::MAX)];
    for power in 1..20 {
        let ten = 10u64.pow(power);
        entries.extend([(ten - 1, ten), (ten, ten - 1)]);
    }
    table.fill_buffer(0, 0, &entries);
    assert_eq!(table.text(0), lines(&entries));
    let longest = format!("(put {0} {0})\n", u64::MAX);
    assert_eq!(longest.len(), 48);
    assert!(table.text(0).unwrap().contains(&longest));
}

#[test]
fn refusal_22_below_the_length() {
    let mut table = flushed(1);
    fill_batch(&mut table, 1, 0, &[(1, 10), (2, 20)]);
    table.fill_buffer(0, 0, &[(3, 30)]);
    let expected = "(put 1 10)\n(put 2 20)\n(put 3 30)\n";
    let text = |t: u32, room: usize| index_text(&table.memory, &table.flash, t, room);
    for room in 0..33 {
        let (answer, area) = text(0, room);
        assert_eq!(refused(answer), (22, 0), "{room} bytes");
        assert_eq!(area, vec![BLANK; room]);
    }
    for room in [33, 34, 100] {
        let (answer, area) = text(0, room);
        assert_eq!(answer, Ok(33));
        assert_eq!(&area[..33], expected.as_bytes());
        assert_eq!(&area[33..], vec![BLANK; room - 33]);
    }
    assert_eq!(text(1, 0), (Ok(0), vec![]));
    assert_eq!(text(1, 5), (Ok(0), vec![BLANK; 5]));
}

#[test]
fn refusals_2_11_3_and_4() {
    let table = flushed(1);
    let text = |memory: usize, flash: usize, t: u32| {
        let (memory, flash) = (&table.memory[..memory], &table.flash[..flash]);
        refused(index_text(memory, flash, t, 0).0)
    };
    let (memory, flash) = (table.memory.len(), table.flash.len());
    for length in [0, 31, 32, memory - 1] {
        assert_eq!(text(length, 0, 9), (2, 0));
    }
    assert_eq!(text(memory, flash - 1, 9), (3, 0));
    for partition in [2, 3, u32::MAX] {
        assert_eq!(text(memory, flash, partition), (4, 0));
    }
    let mut table = table.clone();
    set_word(&mut table.memory, 28, 1);
    table.memory.truncate(32);
    assert_eq!(table.refuses(|t| t.text(9)), (11, 0));
}

#[test]
fn refusal_12_for_the_head_and_every_buffer_page() {
    let table = flushed(1);
    for (at, number) in [(4, 4), (4, u32::MAX), (8, 25), (8, u32::MAX)] {
        let mut damaged = table.clone();
        set_word(damaged.head(0), at, number);
        assert_eq!(damaged.refuses(|t| t.text(0)), (12, 0));
        assert_eq!(damaged.text(1), lines(&[]));
        set_word(damaged.head(0), at, if at == 4 { 3 } else { 24 });
        assert!(damaged.text(0).is_ok());
    }
    for page in 0..2 {
        for count in [4, 255, 256, 65535u16] {
            let mut damaged = table.clone();
            damaged.buffer(0, page)[..2].copy_from_slice(&count.to_le_bytes());
            assert_eq!(damaged.refuses(|t| t.text(0)), (12, 0));
            assert_eq!(damaged.text(1), lines(&[]));
        }
        // Of a buffer page's head the count alone is judged.
        let mut other = table.clone();
        other.buffer(0, page)[2..16].fill(0xee);
        assert_eq!(other.text(0), lines(&[]));
    }
}

#[test]
fn refusal_13_for_every_page_of_a_live_batch() {
    // Of the five batches 3, 4 and 5 are live, and 2 has been written over.
    let mut table = flushed(5);
    for slot in 0..3 {
        // Also where no filter passes, so that no get would read the page.
        table.filter(0, slot).fill(0);
        for page in 0..2 {
            for byte in 0..12 {
                let mut damaged = table.clone();
                damaged.batch(0, slot, page)[byte] ^= 4;
                assert_eq!(damaged.refuses(|t| t.text(0)), (13, 0), "byte {byte}");
                assert_eq!(damaged.text(1), lines(&[]));
            }
            table.batch(0, slot, page)[12..].fill(0xee);
            table.batch(0, slot, page)[0] = 3;
            assert_eq!(table.text(0), lines(&[]));
        }
    }
    // A slot that has not been written is nobody's.
    let mut table = flushed(2);
    table.batch(0, 2, 0).fill(0xee);
    table.batch(0, 2, 1).fill(0xee);
    assert_eq!(table.text(0), lines(&[]));
    table.set_flushes(0, 3);
    assert_eq!(table.refuses(|t| t.text(0)), (13, 0));
}

#[test]
fn the_refusals_come_in_order() {
    let mut table = flushed(3);
    table.fill_buffer(0, 0, &[(1, 10)]);
    let text = |table: &Table| refused(index_text(&table.memory, &table.flash, 0, 10).0);
    assert_eq!(text(&table), (22, 0));
    table.batch(0, 2, 1)[8] = 9;
    assert_eq!(text(&table), (13, 0));
    table.buffer(0, 1)[0] = 4;
    assert_eq!(text(&table), (12, 0));
    assert_eq!(table.refuses(|t| t.text(2)), (4, 0));
    table.flash.pop();
    assert_eq!(text(&table), (3, 0));
}

#[test]
fn live_batches_of_the_last_numbers() {
    let mut table = flushed(u32::MAX);
    for age in 0..3 {
        fill_batch(&mut table, u32::MAX - age, 0, &[(age.into(), 7)]);
    }
    assert_eq!(table.text(0), lines(&[(2, 7), (1, 7), (0, 7)]));
}

/// Reads the text line by line as the session does, and makes its puts.
fn read(text: &str, table: &mut Table) {
    for line in text.lines() {
        match Form::read(line.as_bytes()) {
            Some(Form::Put(key, value)) => table.put(key, value).map(drop).unwrap(),
            other => panic!("{line}: {other:?}"),
        }
    }
}

fn value(table: &Table, key: u64) -> Option<u64> {
    match table.get(key).unwrap() {
        reference::Lookup::Found { value, .. } => Some(value),
        reference::Lookup::None { .. } => None,
    }
}

/// A table that calls have made since a format, with the keys that they are about.
fn random_table(rng: &mut Rng) -> (Table, Vec<u64>) {
    let number = rng.pick(&[3, 12, 40, 150]);
    let (mut table, keys) = (Table::new(rng.small_geometry()), rng.keys(number));
    for _ in 0..rng.below(400) {
        let key = rng.pick(&keys);
        let t = home(table.g, key).0 as u32;
        match rng.below(24) {
            0..=15 => drop(table.put(key, rng.value())),
            16..=21 => drop(table.del(key)),
            22 => drop(table.flush(t)),
            _ => drop(table.drop_oldest(t)),
        }
    }
    (table, keys)
}

#[test]
fn a_text_moves_its_partition() {
    for seed in 0..4000 {
        println!("seed {seed}");
        let mut rng = Rng(seed);
        let (table, keys) = random_table(&mut rng);
        let mut together = Table::new(table.g);
        for t in 0..1 << table.g.parts {
            let text = table.text(t).unwrap();
            let exact = index_text(&table.memory, &table.flash, t, text.len());
            assert_eq!(exact, (Ok(text.len()), text.clone().into_bytes()));
            if let Some(less) = text.len().checked_sub(1) {
                let (answer, _) = index_text(&table.memory, &table.flash, t, less);
                assert_eq!(refused(answer), (22, 0));
            }
            let mut moved = Table::new(table.g);
            read(&text, &mut moved);
            read(&text, &mut together);
            for &key in keys
                .iter()
                .filter(|&&key| home(table.g, key).0 == t as usize)
            {
                assert_eq!(value(&moved, key), value(&table, key), "key {key}");
                assert_eq!(value(&together, key), value(&table, key), "key {key}");
            }
            let found = keys.iter().filter(|&&key| value(&moved, key).is_some());
            let mut found: Vec<_> = found.collect();
            found.sort_unstable();
            found.dedup();
            assert_eq!(text.lines().count(), found.len());
        }
    }
}
