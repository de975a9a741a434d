//! Where two refusals hold at once, the earlier one is given.

mod common;

use common::{set_word, Table, G, PAGE_1, WIDE};
use reference::{format, Geometry, Refusal};

type Call = fn(&mut Table) -> Result<(), Refusal>;

const PUT: Call = |t| t.put(PAGE_1, 1).map(drop);
const PUT_0: Call = |t| t.put(PAGE_1, 0).map(drop);
const GET: Call = |t| t.get(PAGE_1).map(drop);
const DEL: Call = |t| t.del(PAGE_1);
const FLUSH: Call = |t| t.flush(0).map(drop);
const VIEW: Call = |t| t.view(0, 0, 9).map(drop);
const COUNT: Call = |t| t.count(0).map(drop);
const TEXT: Call = |t| t.text(0).map(drop);
const DROP: Call = |t| t.drop_oldest(0);
const ALL: [Call; 9] = [PUT, PUT_0, GET, DEL, FLUSH, VIEW, COUNT, TEXT, DROP];

#[test]
fn format_checks_1_2_3() {
    let bad = Geometry { kept: 0, ..G };
    let none = Table {
        g: G,
        memory: vec![0; 10],
        flash: vec![],
    };
    assert_eq!(
        none.refuses(|t| format(&mut t.memory, &t.flash, bad)),
        (1, 0)
    );
    assert_eq!(none.refuses(|t| format(&mut t.memory, &t.flash, G)), (2, 0));
    let mut flashless = Table::new(G);
    flashless.flash.clear();
    assert_eq!(
        flashless.refuses(|t| format(&mut t.memory, &t.flash, bad)),
        (1, 0)
    );
    assert_eq!(
        flashless.refuses(|t| format(&mut t.memory, &t.flash, G)),
        (3, 0)
    );
}

#[test]
fn short_of_32_bytes_comes_before_the_opening_numbers() {
    // What is there of the opening numbers is not allowed either.
    let table = Table {
        g: G,
        memory: vec![0xff; 31],
        flash: vec![],
    };
    for call in ALL {
        assert_eq!(table.refuses(call), (2, 0));
    }
}

#[test]
fn the_opening_numbers_come_before_the_need() {
    let mut table = Table::new(G);
    table.memory.truncate(40);
    table.flash.clear();
    for call in ALL {
        assert_eq!(table.refuses(call), (2, 0));
    }
    set_word(&mut table.memory, 28, 1);
    for call in ALL {
        assert_eq!(table.refuses(call), (11, 0));
    }
}

#[test]
fn memory_comes_before_flash() {
    let mut table = Table::new(G);
    table.memory.truncate(143);
    table.flash.truncate(127);
    for call in ALL {
        assert_eq!(table.refuses(call), (2, 0));
    }
}

#[test]
fn flash_comes_before_the_arguments_and_the_state() {
    let mut table = Table::new(G);
    table.flash.truncate(127);
    table.set_listed(0, 2);
    for call in ALL {
        assert_eq!(table.refuses(call), (3, 0));
    }
    assert_eq!(table.refuses(|t| t.flush(1)), (3, 0));
    assert_eq!(table.refuses(|t| t.count(1)), (3, 0));
    assert_eq!(table.refuses(|t| t.text(1)), (3, 0));
    assert_eq!(table.refuses(|t| t.drop_oldest(1)), (3, 0));
    assert_eq!(table.refuses(|t| t.view(1, 0, 0).map(drop)), (3, 0));
    assert_eq!(table.refuses(|t| t.view(0, 1, 0).map(drop)), (3, 0));
}

#[test]
fn the_arguments_come_before_the_counts() {
    let mut table = Table::new(WIDE);
    for t in 0..2 {
        table.set_listed(t, 4);
        table.buffer(t, 0)[0] = 4;
    }
    assert_eq!(table.refuses(|t| t.flush(2)), (4, 0));
    assert_eq!(table.refuses(|t| t.count(2)), (4, 0));
    assert_eq!(table.refuses(|t| t.text(2)), (4, 0));
    assert_eq!(table.refuses(|t| t.drop_oldest(2)), (4, 0));
    assert_eq!(table.refuses(|t| t.view(2, 0, 0).map(drop)), (4, 0));
    assert_eq!(table.refuses(|t| t.view(0, 2, 0).map(drop)), (4, 0));
    assert_eq!(table.refuses(|t| t.flush(1)), (12, 0));
    assert_eq!(table.refuses(|t| t.count(1)), (12, 0));
    assert_eq!(table.refuses(|t| t.text(1)), (12, 0));
    assert_eq!(table.refuses(|t| t.drop_oldest(1)), (12, 0));
    assert_eq!(table.refuses(|t| t.view(0, 1, 0).map(drop)), (12, 0));
}

#[test]
fn the_total_and_the_live_number_come_where_l_does() {
    // Of the head's four bytes from 8 and from 12 on.
    for at in [8, 12] {
        let mut table = Table::new(WIDE);
        for t in 0..2 {
            set_word(table.head(t), at, u32::MAX);
        }
        assert_eq!(table.refuses(PUT_0), (21, 0));
        assert_eq!(table.refuses(|t| t.view(0, 2, 0).map(drop)), (4, 0));
        // No page is there for the view, and nothing for the flush.
        for call in [PUT, GET, DEL, FLUSH, VIEW, COUNT, TEXT, DROP] {
            assert_eq!(table.refuses(call), (12, 0));
        }
        table.flash.pop();
        for call in ALL {
            assert_eq!(table.refuses(call), (3, 0));
        }
    }
}

#[test]
fn del_the_counts_come_before_the_full_list() {
    let mut table = Table::new(G);
    table.set_flushes(0, 1);
    table.filter(0, 0).fill(0xff);
    table.set_listed(0, 1);
    assert_eq!(table.refuses(DEL), (14, 0));
    table.buffer(0, 0)[0] = 4;
    assert_eq!(table.refuses(DEL), (12, 0));
    table.buffer(0, 0)[0] = 0;
    table.set_listed(0, 2);
    assert_eq!(table.refuses(DEL), (12, 0));
}

#[test]
fn del_checks_14_before_the_total_at_its_end() {
    let mut table = Table::new(G);
    table.set_batches(0, 1);
    table.filter(0, 0).fill(0xff);
    table.fill_buffer(0, 0, &[(PAGE_1, 1)]);
    table.set_listed(0, 1);
    assert_eq!(table.refuses(DEL), (14, 0));
    table.set_listed(0, 0);
    assert_eq!(table.refuses(DEL), (12, 0));
    table.set_total(0, 1);
    assert_eq!(DEL(&mut table), Ok(()));
}

#[test]
fn flush_checks_12_15_16() {
    let mut table = Table::new(WIDE);
    table.set_flushes(0, u32::MAX);
    assert_eq!(table.refuses(FLUSH), (15, 0));
    table.set_listed(0, 4);
    assert_eq!(table.refuses(FLUSH), (12, 0));
    table.set_listed(0, 0);
    table.buffer(0, 0)[0] = 1;
    assert_eq!(table.refuses(FLUSH), (16, 0));
    table.buffer(0, 1)[0] = 4;
    assert_eq!(table.refuses(FLUSH), (12, 0));
}

#[test]
fn flush_checks_15_16_13_and_the_total_at_its_end() {
    let mut table = Table::new(WIDE);
    table.set_flushes(0, u32::MAX);
    assert_eq!(table.refuses(FLUSH), (15, 0));
    table.fill_buffer(0, 0, &[(1, 1)]);
    assert_eq!(table.refuses(FLUSH), (16, 0));
    // Batch 1 goes with flush 4, and no page of it is in order.
    table.set_flushes(0, 3);
    assert_eq!(table.refuses(FLUSH), (13, 1));
    table.set_batches(0, 3);
    table.batch(0, 0, 0)[0] = 3;
    table.batch(0, 0, 1)[6] = 1;
    assert_eq!(table.refuses(FLUSH), (13, 2));
    table.batch(0, 0, 1)[6] = 0;
    assert_eq!(table.refuses(FLUSH), (12, 0));
    table.set_total(0, 3);
    assert_eq!(FLUSH(&mut table), Ok(()));
}

#[test]
fn put_checks_12_16_13_and_the_total_at_its_end() {
    let mut table = Table::new(WIDE);
    table.fill_buffer(0, 1, &[1, 2, 3].map(|i| (PAGE_1 + i, 1)));
    table.set_flushes(0, u32::MAX);
    assert_eq!(table.refuses(PUT), (16, 0));
    table.set_flushes(0, 3);
    assert_eq!(table.refuses(PUT), (13, 1));
    table.buffer(0, 0)[0] = 4;
    assert_eq!(table.refuses(PUT), (12, 0));
    table.buffer(0, 0)[0] = 0;
    table.set_batches(0, 3);
    table.batch(0, 0, 0)[0] = 3;
    table.batch(0, 0, 1)[6] = 1;
    assert_eq!(table.refuses(PUT), (13, 2));
    assert_eq!(table.refuses(PUT_0), (21, 0));
    table.batch(0, 0, 1)[6] = 0;
    assert_eq!(table.refuses(PUT), (12, 0));
    assert_eq!(table.refuses(PUT_0), (21, 0));
    table.set_total(0, 2);
    assert_eq!(PUT(&mut table), Ok(()));
}

#[test]
fn put_checks_12_before_16() {
    let mut table = Table::new(WIDE);
    table.set_flushes(0, u32::MAX);
    table.fill_buffer(0, 1, &[1, 2, 3].map(|i| (PAGE_1 + i, 1)));
    assert_eq!(table.refuses(PUT), (16, 0));
    // Another page's count, which only the flush that is due reads.
    table.buffer(0, 0)[0] = 4;
    assert_eq!(table.refuses(PUT), (12, 0));
    table.buffer(0, 0)[0] = 0;
    table.set_listed(0, 4);
    assert_eq!(table.refuses(PUT), (12, 0));
}

#[test]
fn put_checks_21_before_12_and_16() {
    // A list or a page that counts too much.
    let mut table = Table::new(WIDE);
    table.set_listed(0, 4);
    assert_eq!(table.refuses(PUT), (12, 0));
    assert_eq!(table.refuses(PUT_0), (21, 0));
    table.set_listed(0, 0);
    table.buffer(0, 1)[0] = 4;
    assert_eq!(table.refuses(PUT), (12, 0));
    assert_eq!(table.refuses(PUT_0), (21, 0));
    // No flush number is left, and then another page counts too much.
    table.fill_buffer(0, 1, &[1, 2, 3].map(|i| (PAGE_1 + i, 1)));
    table.set_flushes(0, u32::MAX);
    assert_eq!(table.refuses(PUT), (16, 0));
    assert_eq!(table.refuses(PUT_0), (21, 0));
    table.buffer(0, 0)[0] = 4;
    assert_eq!(table.refuses(PUT), (12, 0));
    assert_eq!(table.refuses(PUT_0), (21, 0));
}

#[test]
fn view_checks_12_17_13() {
    let mut table = Table::new(G);
    table.set_flushes(0, 4);
    table.flash.fill(0xff);
    // 3 and 4 are live, but no such pages lie there.
    assert_eq!(table.refuses(|t| t.view(0, 0, 4).map(drop)), (13, 1));
    assert_eq!(table.refuses(|t| t.view(0, 0, 3).map(drop)), (13, 1));
    assert_eq!(table.refuses(|t| t.view(0, 0, 2).map(drop)), (17, 0));
    assert_eq!(table.refuses(|t| t.view(0, 0, 5).map(drop)), (17, 0));
    table.set_listed(0, 2);
    for number in [0, 2, 4, 5] {
        assert_eq!(table.refuses(|t| t.view(0, 0, number).map(drop)), (12, 0));
    }
}

#[test]
fn get_checks_12_before_13() {
    let mut table = Table::new(G);
    table.set_flushes(0, 1);
    table.filter(0, 0).fill(0xff);
    assert_eq!(table.refuses(GET), (13, 1));
    table.buffer(0, 0)[0] = 4;
    assert_eq!(table.refuses(GET), (12, 0));
    table.buffer(0, 0)[0] = 0;
    table.set_listed(0, 2);
    assert_eq!(table.refuses(GET), (12, 0));
}

#[test]
fn drop_checks_12_23_13_and_the_total_at_its_end() {
    let mut table = Table::new(WIDE);
    table.set_flushes(0, 3);
    table.set_live(0, 0);
    assert_eq!(table.refuses(DROP), (23, 0));
    table.set_listed(0, 4);
    assert_eq!(table.refuses(DROP), (12, 0));
    table.set_listed(0, 0);
    table.set_total(0, 25);
    assert_eq!(table.refuses(DROP), (12, 0));
    table.set_total(0, 0);
    // No page of batch 2, the older one, is in order.
    table.set_live(0, 2);
    assert_eq!(table.refuses(DROP), (13, 1));
    table.set_batches(0, 3);
    table.set_live(0, 2);
    table.batch(0, 1, 0)[0] = 3;
    table.batch(0, 1, 1)[6] = 1;
    assert_eq!(table.refuses(DROP), (13, 2));
    table.batch(0, 1, 1)[6] = 0;
    assert_eq!(table.refuses(DROP), (12, 0));
    table.set_total(0, 3);
    assert_eq!(DROP(&mut table), Ok(()));
}
