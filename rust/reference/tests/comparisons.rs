//! Document 02, job 8: the entries that a get compares. Here too every get of a
//! table is held against a count one by one.

mod common;

use common::call::{call_index, Answer, Call};
use common::oracle::call_oracle;
use common::plain::home;
use common::{flash_need, found, memory_need, none, pair, record, Rng, Table, G, PAGE_1, WIDE};
use reference::session::{self, Session, AREA_BYTES};
use reference::{Geometry, Lookup};

/// One partition of one page, three batches, three list places.
const THREE: Geometry = Geometry::new([0, 64, 1, 3, 64, 3, 3]);

/// Three batches, of the keys 1 to 3, of 4 and 5 and of 6 in slots 0 to 2, with
/// 7 and 8 in the buffer. All filters pass.
fn three_batches() -> Table {
    let mut table = Table::new(THREE);
    for keys in [1..4, 4..6, 6..7] {
        for key in keys {
            table.put(key, 10 * key).unwrap();
        }
        table.flush(0).unwrap();
    }
    table.put(7, 70).unwrap();
    table.put(8, 80).unwrap();
    set_filters(&mut table, [true; 3]);
    table
}

/// Has the filter of each slot pass every key or none.
fn set_filters(table: &mut Table, passing: [bool; 3]) {
    for (slot, passes) in passing.into_iter().enumerate() {
        table.filter(0, slot).fill(if passes { 0xff } else { 0 });
    }
}

#[test]
fn every_place_of_a_page_of_every_size() {
    for shift in 0..7 {
        let g = Geometry {
            page: 64 << shift,
            ..G
        };
        let most = g.page / 16 - 1;
        let mut table = Table::new(g);
        for place in 0..most {
            // Before its put the key is absent: all entries are compared.
            assert_eq!(table.get(place.into()), none(0, place));
            assert_eq!(table.put(place.into(), 7), Ok(0));
            assert_eq!(table.get(0), found(7, 0, 1, 0));
            assert_eq!(table.get(place.into()), found(7, 0, place + 1, 0));
        }
        assert_eq!(table.get(most.into()), none(0, most));
        table.flush(0).unwrap();
        table.filter(0, 0).fill(0xff);
        for place in 0..most {
            assert_eq!(table.get(place.into()), found(7, 1, place + 1, 1));
        }
        assert_eq!(table.get(most.into()), none(1, most));
    }
}

#[test]
fn each_page_read_counts_and_no_other() {
    let mut table = three_batches();
    assert_eq!(table.get(6), found(60, 1, 2 + 1, 3));
    assert_eq!(table.get(4), found(40, 2, 2 + 1 + 1, 2));
    assert_eq!(table.get(5), found(50, 2, 2 + 1 + 2, 2));
    assert_eq!(table.get(1), found(10, 3, 2 + 1 + 2 + 1, 1));
    assert_eq!(table.get(3), found(30, 3, 2 + 1 + 2 + 3, 1));
    assert_eq!(table.get(9), none(3, 2 + 1 + 2 + 3));
    set_filters(&mut table, [true, false, true]);
    assert_eq!(table.get(3), found(30, 2, 2 + 1 + 3, 1));
    assert_eq!(table.get(9), none(2, 2 + 1 + 3));
    // Its batch is passed over.
    assert_eq!(table.get(5), none(2, 2 + 1 + 3));
    set_filters(&mut table, [true, false, false]);
    assert_eq!(table.get(3), found(30, 1, 2 + 3, 1));
    assert_eq!(table.get(6), none(1, 2 + 3));
    set_filters(&mut table, [false; 3]);
    assert_eq!(table.get(3), none(0, 2));
    // Nor is a dropped batch read, whose filter passes.
    set_filters(&mut table, [true; 3]);
    table.drop_oldest(0).unwrap();
    assert_eq!(table.get(3), none(2, 2 + 1 + 2));
}

#[test]
fn a_key_in_the_buffer_costs_the_buffer_page_alone() {
    let mut table = three_batches();
    assert_eq!(table.get(7), found(70, 0, 1, 0));
    assert_eq!(table.get(8), found(80, 0, 2, 0));
    table.put(3, 33).unwrap();
    assert_eq!(table.get(3), found(33, 0, 3, 0));
    // Another page or partition of the buffer costs nothing.
    let mut table = Table::new(WIDE);
    for key in [2, 4, 6] {
        table.put(key, 1).unwrap();
    }
    assert_eq!(table.get(PAGE_1), none(0, 0));
    table.put(PAGE_1, 1).unwrap();
    assert_eq!(table.get(PAGE_1), found(1, 0, 1, 0));
    assert_eq!(table.get(PAGE_1 + 1), none(0, 1));
    assert_eq!(table.get(1 << 63), none(0, 0));
    assert_eq!(table.get(6), found(1, 0, 3, 0));
}

#[test]
fn a_listed_key_costs_nothing_and_the_list_neither() {
    let mut table = three_batches();
    for key in [3, 5, 7] {
        table.del(key).unwrap();
        assert_eq!(table.get(key), none(0, 0));
    }
    // Of the buffer 8 is left. The full list was searched for these.
    assert_eq!(table.get(8), found(80, 0, 1, 0));
    assert_eq!(table.get(2), found(20, 3, 1 + 1 + 2 + 2, 1));
    assert_eq!(table.get(9), none(3, 1 + 1 + 2 + 3));
    // Off the list again it is found in the buffer.
    table.put(3, 33).unwrap();
    assert_eq!(table.get(3), found(33, 0, 2, 0));
    // Garbage: a key both listed and buffered.
    table.set_list(0, &[(5, 2), (8, 3)]);
    assert_eq!(table.get(8), none(0, 0));
}

/// The line of a refused get: it has the number and the reads, and no more.
fn refused_line(table: &Table, key: u64) -> String {
    let refusal = table.get(key).expect_err("a refusal");
    session::Answer::Refused(refusal).to_string()
}

#[test]
fn a_refusal_shows_no_comparisons() {
    let mut table = three_batches();
    table.batch(0, 0, 0)[8] = 9;
    for key in [1, 3, 9] {
        assert_eq!(refused_line(&table, key), "(refused 13 3)");
    }
    // What is found before that page costs as ever.
    assert_eq!(table.get(5), found(50, 2, 2 + 1 + 2, 2));
    table.batch(0, 1, 0)[0] = 4;
    assert_eq!(refused_line(&table, 5), "(refused 13 2)");
    table.batch(0, 2, 0)[2] = 1;
    assert_eq!(refused_line(&table, 6), "(refused 13 1)");
    assert_eq!(table.get(8), found(80, 0, 2, 0));
    table.buffer(0, 0)[0] = 4;
    assert_eq!(refused_line(&table, 8), "(refused 12 0)");
    table.memory[4] = 1;
    assert_eq!(refused_line(&table, 8), "(refused 11 0)");
    table.memory.truncate(31);
    assert_eq!(refused_line(&table, 8), "(refused 2 0)");
}

/// A table with these entries and this count in the page of its buffer, and one
/// with the same page in a batch.
fn with_page(entries: [(u64, u64); 3], count: u8) -> [Table; 2] {
    let mut table = Table::new(G);
    table.fill_buffer(0, 0, &entries);
    table.buffer(0, 0)[0] = count;
    let mut flushed = Table::new(G);
    flushed.set_batches(0, 1);
    flushed.filter(0, 0).fill(0xff);
    for (i, &(key, value)) in entries.iter().enumerate() {
        let place = &mut flushed.batch(0, 0, 0)[16 + 16 * i..][..16];
        place.copy_from_slice(&record(key, value));
    }
    flushed.batch(0, 0, 0)[0] = count;
    [table, flushed]
}

#[test]
fn pages_that_no_calls_make() {
    let twice = with_page([(7, 1), (5, 2), (5, 3)], 3);
    let behind = with_page([(5, 1), (6, 2), (7, 3)], 2);
    // The count takes in two entries that nobody put.
    let zeros = with_page([(5, 1), (0, 0), (0, 0)], 3);
    let none_used = with_page([(5, 1), (6, 2), (7, 3)], 0);
    for reads in 0..2 {
        let at = reads as usize;
        assert_eq!(twice[at].get(5), found(2, reads, 2, reads));
        assert_eq!(twice[at].get(6), none(reads, 3));
        assert_eq!(behind[at].get(6), found(2, reads, 2, reads));
        assert_eq!(behind[at].get(7), none(reads, 2));
        assert_eq!(zeros[at].get(5), found(1, reads, 1, reads));
        assert_eq!(zeros[at].get(0), found(0, reads, 2, reads));
        assert_eq!(zeros[at].get(6), none(reads, 3));
        assert_eq!(none_used[at].get(5), none(reads, 0));
    }
}

/// What a page held of a key that was looked up.
#[derive(Default)]
struct Seen {
    /// More than one entry.
    twice: u32,
    /// An entry behind the used ones, and none among these.
    behind: u32,
    /// Used entries of zeros.
    zeros: u32,
}

impl Seen {
    fn page(&mut self, page: &[u8], key: u64) {
        let count = usize::from(page[0]);
        let entries: Vec<_> = page[16..].chunks(16).map(pair).collect();
        let (used, rest) = entries.split_at(count);
        let number = used.iter().filter(|entry| entry.0 == key).count();
        self.twice += u32::from(number > 1);
        self.behind += u32::from(number == 0 && rest.iter().any(|entry| entry.0 == key));
        self.zeros += u32::from(used.contains(&(0, 0)));
    }
}

/// Fills a page's entries with a few keys, the last ones with zeros, and has it
/// use any number of them.
fn scribble(rng: &mut Rng, page: &mut [u8], keys: &[u64]) {
    let most = page.len() / 16 - 1;
    let filled = rng.below(most + 1);
    page[16..].fill(0);
    for entry in page[16..].chunks_mut(16).take(filled) {
        entry.copy_from_slice(&record(rng.pick(keys), rng.next()));
    }
    (page[0], page[1]) = (rng.below(most + 1) as u8, 0);
}

#[test]
fn random_pages_that_no_calls_make() {
    let mut seen = Seen::default();
    for seed in 0..1500 {
        println!("seed {seed}");
        let mut rng = Rng(seed);
        let mut table = Table::new(rng.small_geometry());
        let number = rng.pick(&[3, 6, 20]);
        let (g, keys) = (table.g, rng.keys(number));
        for t in 0..1 << g.parts {
            let flushes = rng.below(2 * g.kept as usize + 1) as u32;
            table.set_batches(t, flushes);
            for slot in 0..g.kept as usize {
                let fill = rng.pick(&[0xff, 0xff, 0xfe, 0]);
                table.filter(t, slot).fill(fill);
                for q in 0..g.pages as usize {
                    scribble(&mut rng, table.batch(t, slot, q), &keys);
                }
            }
            for q in 0..g.pages as usize {
                scribble(&mut rng, table.buffer(t, q), &keys);
            }
        }
        for &key in &keys {
            let (t, q) = home(g, key);
            seen.page(table.buffer(t, q), key);
            let (memory, flash) = (&mut table.memory[..], &mut table.flash[..]);
            let expected = call_oracle(Call::Get(key), memory, flash);
            assert!(!matches!(expected, Answer::Refused(..)), "get of {key}");
            assert_eq!(call_index(Call::Get(key), memory, flash), expected);
        }
    }
    assert!(seen.twice > 1000 && seen.behind > 1000 && seen.zeros > 1000);
}

/// Makes a random call that changes the table, or tries to.
fn change(rng: &mut Rng, table: &mut Table, keys: &[u64]) {
    let key = rng.pick(keys);
    let t = home(table.g, key).0 as u32;
    match rng.below(24) {
        0..=15 => drop(table.put(key, 1 + rng.below(1000) as u64)),
        16..=20 => drop(table.del(key)),
        21..=22 => drop(table.flush(t)),
        _ => drop(table.drop_oldest(t)),
    }
}

#[test]
fn never_more_than_fits_the_buffer_page_and_the_pages_read() {
    let (mut listed, mut full) = (0, 0);
    for seed in 0..600 {
        println!("seed {seed}");
        let mut rng = Rng(seed);
        let mut table = Table::new(rng.small_geometry());
        let number = rng.pick(&[6, 20, 80]);
        let (g, keys) = (table.g, rng.keys(number));
        let entries = g.page / 16 - 1;
        for _ in 0..400 {
            change(&mut rng, &mut table, &keys);
            let key = rng.pick(&keys);
            let (reads, comparisons) = match table.get(key).expect("a get") {
                Lookup::Found {
                    reads, comparisons, ..
                } => (reads, comparisons),
                Lookup::None { reads, comparisons } => (reads, comparisons),
            };
            assert!(comparisons <= entries + reads * entries);
            assert!(comparisons <= entries * (g.kept + 1));
            full += u32::from(reads > 0 && comparisons == entries + reads * entries);
            let list = table.list(home(g, key).0);
            if list.iter().any(|place| place.0 == key) {
                assert_eq!((reads, comparisons), (0, 0));
                listed += 1;
            }
        }
    }
    assert!(listed > 1000 && full > 1000, "{listed} {full}");
}

/// The line that asks for a call.
fn asked(call: Call) -> String {
    match call {
        Call::Put(key, value) => format!("(put {key} {value})"),
        Call::Get(key) => format!("(get {key})"),
        Call::Del(key) => format!("(del {key})"),
        Call::Flush(t) => format!("(flush {t})"),
        Call::Count(t) => format!("(count {t})"),
        Call::Drop(t) => format!("(drop {t})"),
        other => panic!("no line for {other:?}"),
    }
}

/// The line that an answer is told with.
fn told(answer: Answer) -> String {
    match answer {
        Answer::Found(value, reads, compared, _) => format!("(found {value} {reads} {compared})"),
        Answer::None(reads, compared) => format!("(none {reads} {compared})"),
        Answer::Refused(number, reads) => format!("(refused {number} {reads})"),
        Answer::Done(number) | Answer::Counted(number) => format!("(ok {number})"),
        Answer::Dropped(_) => "(ok 0)".to_owned(),
        other => panic!("no line for {other:?}"),
    }
}

#[test]
fn lines_of_random_sessions() {
    for seed in 0..200 {
        println!("seed {seed}");
        let mut rng = Rng(seed);
        let mut g = rng.small_geometry();
        while memory_need(g).max(flash_need(g)) > AREA_BYTES {
            g = rng.small_geometry();
        }
        let keys = rng.keys(20);
        let (mut memory, mut flash) = (vec![0; AREA_BYTES], vec![0; AREA_BYTES]);
        call_oracle(Call::Format(g), &mut memory, &mut flash);
        let mut session = Session::new();
        let format = format!(
            "(format (parts {}) (page {}) (pages {}) (kept {}) (bits {}) (hashes {}) (list {}))",
            g.parts, g.page, g.pages, g.kept, g.bits, g.hashes, g.list
        );
        assert_eq!(session.line(format.as_bytes()).to_string(), "(ok 0)");
        for _ in 0..300 {
            let (key, t) = (rng.pick(&keys), rng.below(1 << g.parts) as u32);
            let call = match rng.below(24) {
                0..=10 => Call::Put(key, rng.value()),
                11..=18 => Call::Get(key),
                19..=20 => Call::Del(key),
                21 => Call::Flush(t),
                22 => Call::Count(t),
                _ => Call::Drop(t),
            };
            let expected = told(call_oracle(call, &mut memory, &mut flash));
            let line = session.line(asked(call).as_bytes()).to_string();
            assert_eq!(line, expected, "{call:?}");
        }
    }
}
