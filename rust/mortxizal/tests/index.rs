//! The library as a Rust user meets it.

use std::error::Error;
use std::thread;

use mortxizal::{raw, Geometry, Index, Lookup, Place, Refused};

/// The geometry of the worked session of document 01.
const G: Geometry = geometry([0, 64, 1, 2, 64, 3, 1]);

const LARGEST: Geometry = geometry([8, 4096, 64, 32, 65536, 8, 1024]);

const fn geometry(n: [u32; 7]) -> Geometry {
    Geometry::DEFAULT
        .with_parts(n[0])
        .with_page(n[1])
        .with_pages(n[2])
        .with_kept(n[3])
        .with_bits(n[4])
        .with_hashes(n[5])
        .with_list(n[6])
}

fn areas(geometry: Geometry) -> (Vec<u8>, Vec<u8>) {
    let memory = geometry.memory_need().unwrap();
    (
        vec![0xa5; memory],
        vec![0x5a; geometry.flash_need().unwrap()],
    )
}

fn found(value: u64, reads: u32, comparisons: u32, place: Place) -> Result<Lookup, Refused> {
    Ok(Lookup::found(value, reads, comparisons, place))
}

#[test]
fn worked_session() {
    let (mut memory, mut flash) = areas(G);
    let mut index = Index::format(&mut memory, &mut flash, G).unwrap();
    assert_eq!(index.put(1, 10), Ok(0));
    assert_eq!(index.put(2, 20), Ok(0));
    assert_eq!(index.put(3, 30), Ok(0));
    assert_eq!(index.put(0, 40), Ok(1));
    assert_eq!(index.get(2), found(20, 1, 3, Place::Batch(1)));
    assert_eq!(index.del(2), Ok(()));
    assert_eq!(index.get(2), Ok(Lookup::none(0, 0)));
    assert_eq!(index.del(3), Err(Refused::ListFull));
    assert_eq!(index.get(3), found(30, 1, 4, Place::Batch(1)));
    assert_eq!(index.get(0), found(40, 0, 1, Place::Buffer));
    assert_eq!(index.flush(0), Ok(1));
    assert_eq!(index.get(0), found(40, 1, 1, Place::Batch(2)));
    assert_eq!(index.count(0), Ok(4));
    let text = text_of(&index, 0);
    assert_eq!(text, Ok("(put 1 10)\n(put 3 30)\n(put 0 40)\n".into()));
}

/// The text of a partition, in an area that every text of G fits.
fn text_of(index: &Index, partition: u32) -> Result<String, Refused> {
    let mut text = [0; 48 * 9];
    let length = index.text(partition, &mut text)?;
    Ok(String::from_utf8(text[..length].to_vec()).unwrap())
}

#[test]
fn a_text_area_of_any_length() {
    let (mut memory, mut flash) = areas(G);
    let mut index = Index::format(&mut memory, &mut flash, G).unwrap();
    assert_eq!(index.text(0, &mut []), Ok(0));
    index.put(5, 50).unwrap();
    index.flush(0).unwrap();
    index.put(u64::MAX, u64::MAX).unwrap();
    let expected = format!("(put 5 50)\n(put {0} {0})\n", u64::MAX);
    assert_eq!(expected.len(), 59);
    for length in [0, 1, 11, 58] {
        let mut text = vec![7; length];
        assert_eq!(index.text(0, &mut text), Err(Refused::ShortText));
        assert_eq!(text, vec![7; length]);
    }
    for length in [59, 60, 500] {
        let mut text = vec![7; length];
        assert_eq!(index.text(0, &mut text), Ok(59));
        assert_eq!(&text[..59], expected.as_bytes());
        assert_eq!(&text[59..], vec![7; length - 59]);
    }
    let answer = raw::text(index.memory(), index.flash(), 0, &mut [0; 59]);
    let told = (answer.status, answer.number, answer.reads);
    assert_eq!(told, (raw::DONE, 0, 0));
    assert_eq!((answer.batch, answer.value), (0, 59));
}

#[test]
fn a_text_of_a_damaged_table() {
    let g = G.with_pages(2);
    let (mut memory, mut flash) = areas(g);
    let mut index = Index::format(&mut memory, &mut flash, g).unwrap();
    index.put(1, 10).unwrap();
    index.flush(0).unwrap();
    // Small keys belong to page 0, but both pages of the batch are looked at.
    flash[64 + 4] = 1;
    let index = Index::attach(&mut memory, &mut flash);
    assert_eq!(text_of(&index, 0), Err(Refused::BatchPage { reads: 0 }));
    assert_eq!(text_of(&index, 1), Err(Refused::OutOfRange));
    // The second page of the buffer is memory's last 64 bytes.
    let at = memory.len() - 64;
    memory[at] = 4;
    let index = Index::attach(&mut memory, &mut flash);
    assert_eq!(text_of(&index, 0), Err(Refused::Overfull));
}

#[test]
fn counts_of_a_partition() {
    let (mut memory, mut flash) = areas(G);
    let mut index = Index::format(&mut memory, &mut flash, G).unwrap();
    assert_eq!(index.count(0), Ok(0));
    for key in 1..=3 {
        index.put(key, 1).unwrap();
    }
    index.put(3, 2).unwrap();
    assert_eq!(index.count(0), Ok(3));
    index.del(3).unwrap();
    assert_eq!(index.count(0), Ok(2));
    // Two entries, then one, then one: the third flush pushes the two out.
    for (key, count) in [(1, 2), (4, 3), (4, 2)] {
        index.put(key, 3).unwrap();
        assert_eq!(index.flush(0), Ok(1));
        assert_eq!(index.count(0), Ok(count));
    }
    assert_eq!(index.count(1), Err(Refused::OutOfRange));
    let answer = raw::count(index.memory(), index.flash(), 0);
    let told = (answer.status, answer.number, answer.reads);
    assert_eq!(told, (raw::DONE, 2, 0));
    assert_eq!((answer.batch, answer.value), (0, 0));
}

#[test]
fn a_total_that_cannot_be() {
    let (mut memory, mut flash) = areas(G);
    let mut index = Index::format(&mut memory, &mut flash, G).unwrap();
    index.put(5, 50).unwrap();
    // The total is in memory's bytes 40 to 43. Nine entries fit the partition.
    memory[40] = 10;
    let mut index = Index::attach(&mut memory, &mut flash);
    assert_eq!(index.count(0), Err(Refused::Overfull));
    assert_eq!(index.put(5, 50), Err(Refused::Overfull));
    assert_eq!(index.get(5), Err(Refused::Overfull));
    assert_eq!(index.del(5), Err(Refused::Overfull));
    assert_eq!(index.flush(0), Err(Refused::Overfull));
    assert_eq!(index.view(0, 0, 0), Err(Refused::Overfull));
    assert_eq!(text_of(&index, 0), Err(Refused::Overfull));
    assert_eq!(index.drop_oldest(0), Err(Refused::Overfull));
    memory[40] = 9;
    let mut index = Index::attach(&mut memory, &mut flash);
    assert_eq!(index.count(0), Ok(9));
    assert_eq!(index.put(6, 60), Err(Refused::Overfull));
    assert_eq!(index.put(5, 51), Ok(0));
    memory[40] = 0;
    let mut index = Index::attach(&mut memory, &mut flash);
    assert_eq!(index.del(5), Err(Refused::Overfull));
    assert_eq!(index.del(6), Ok(()));
    assert_eq!(index.count(0), Ok(0));
}

#[test]
fn a_batch_that_is_pushed_out_is_looked_at() {
    let g = G.with_pages(2);
    let (mut memory, mut flash) = areas(g);
    let mut index = Index::format(&mut memory, &mut flash, g).unwrap();
    for key in 1..=2 {
        index.put(key, 1).unwrap();
        index.flush(0).unwrap();
    }
    for key in 3..=5 {
        assert_eq!(index.put(key, 1), Ok(0));
    }
    // Small keys belong to page 0. The second page of batch 1 is damaged.
    flash[64 + 4] = 1;
    let mut index = Index::attach(&mut memory, &mut flash);
    let refused = Refused::BatchPage { reads: 2 };
    assert_eq!(index.put(6, 1), Err(refused));
    assert_eq!(index.flush(0), Err(refused));
    assert_eq!((index.put(5, 2), index.count(0)), (Ok(0), Ok(5)));
    flash[64 + 4] = 0;
    let mut index = Index::attach(&mut memory, &mut flash);
    assert_eq!((index.put(6, 1), index.count(0)), (Ok(2), Ok(5)));
}

#[test]
fn an_index_is_taken_up_again() {
    let (mut memory, mut flash) = areas(G);
    let mut index = Index::format(&mut memory, &mut flash, G).unwrap();
    index.put(5, 50).unwrap();
    index.flush(0).unwrap();
    index.put(6, 60).unwrap();
    let (first, second) = index.into_areas();
    let (mut memory, mut flash) = (first.to_vec(), second.to_vec());
    let index = Index::attach(&mut memory, &mut flash);
    assert_eq!(index.get(5), found(50, 1, 2, Place::Batch(1)));
    assert_eq!(index.get(6), found(60, 0, 1, Place::Buffer));
    assert_eq!(index.memory().len(), 144);
    assert_eq!(index.flash().len(), 128);
}

#[test]
fn a_view_is_the_page_itself() {
    let (mut memory, mut flash) = areas(G);
    let mut index = Index::format(&mut memory, &mut flash, G).unwrap();
    index.put(5, 50).unwrap();
    index.flush(0).unwrap();
    assert_eq!(index.view(0, 0, 0), Ok(&index.memory()[80..]));
    let page = index.view(0, 0, 1).unwrap();
    assert_eq!(page, &index.flash()[..64]);
    assert_eq!(page[..12], [1, 0, 0, 0, 0, 0, 0, 0, 1, 0, 0, 0]);
    assert_eq!(
        page[16..32],
        [5, 0, 0, 0, 0, 0, 0, 0, 50, 0, 0, 0, 0, 0, 0, 0]
    );
    assert_eq!(index.view(0, 0, 2), Err(Refused::NotLive));
    assert_eq!(index.view(0, 1, 0), Err(Refused::OutOfRange));
    assert_eq!(index.view(1, 0, 0), Err(Refused::OutOfRange));
}

#[test]
fn a_damaged_table_refuses() {
    let (mut memory, mut flash) = areas(G);
    let mut index = Index::format(&mut memory, &mut flash, G).unwrap();
    index.put(5, 50).unwrap();
    index.flush(0).unwrap();
    flash[8] ^= 1;
    let index = Index::attach(&mut memory, &mut flash);
    let refused = Refused::BatchPage { reads: 1 };
    assert_eq!(index.get(5), Err(refused));
    assert_eq!(index.view(0, 0, 1), Err(refused));
    assert_eq!((refused.number(), refused.reads()), (13, 1));
    memory[36] = 2;
    let mut index = Index::attach(&mut memory, &mut flash);
    assert_eq!(index.put(1, 1), Err(Refused::Overfull));
    memory[0] = 9;
    let mut index = Index::attach(&mut memory, &mut flash);
    assert_eq!(index.flush(0), Err(Refused::Opening));
}

#[test]
fn value_0_is_no_position() {
    let (mut memory, mut flash) = areas(G);
    let mut index = Index::attach(&mut memory, &mut flash);
    assert_eq!(index.put(5, 0), Err(Refused::Opening));
    let mut index = Index::format(&mut memory, &mut flash, G).unwrap();
    for key in 1..=3 {
        assert_eq!(index.put(key, 1), Ok(0));
    }
    // A key that its page has, and one for which the full page would be flushed.
    assert_eq!(index.put(3, 0), Err(Refused::NoPosition));
    assert_eq!(index.put(4, 0), Err(Refused::NoPosition));
    assert_eq!(index.get(3), found(1, 0, 3, Place::Buffer));
    assert_eq!(index.get(4), Ok(Lookup::none(0, 3)));
    memory[36] = 2;
    let mut index = Index::attach(&mut memory, &mut flash);
    assert_eq!(index.put(5, 1), Err(Refused::Overfull));
    assert_eq!(index.put(5, 0), Err(Refused::NoPosition));
}

#[test]
fn areas_of_no_bytes() {
    let mut index = Index::attach(&mut [], &mut []);
    let short = Refused::ShortMemory;
    assert_eq!(index.put(1, 1), Err(short));
    assert_eq!(index.get(1), Err(short));
    assert_eq!(index.del(1), Err(short));
    assert_eq!(index.flush(0), Err(short));
    assert_eq!(index.view(0, 0, 0), Err(short));
    assert_eq!(index.count(0), Err(short));
    assert_eq!(index.text(0, &mut []), Err(short));
    assert_eq!(index.drop_oldest(0), Err(short));
    assert_eq!(Index::format(&mut [], &mut [], G).unwrap_err(), short);
}

#[test]
fn needs_are_those_of_format() {
    assert_eq!(G.memory_need(), Ok(144));
    assert_eq!(G.flash_need(), Ok(128));
    assert_eq!(LARGEST.memory_need(), Ok(138_416_160));
    assert_eq!(LARGEST.flash_need(), Ok(2_147_483_648));
    for shift in 0..=8 {
        let geometry = geometry([
            shift % 3,
            64 << (shift % 7),
            1 << (shift % 5),
            1 + 3 * shift,
            64 << shift,
            1 + shift % 8,
            1 + 100 * shift,
        ]);
        let (mut memory, mut flash) = areas(geometry);
        let mut refused = |m: usize, f: usize| {
            let (memory, flash) = (&mut memory[m..], &mut flash[f..]);
            Index::format(memory, flash, geometry).err()
        };
        assert_eq!(refused(1, 0), Some(Refused::ShortMemory), "{geometry:?}");
        assert_eq!(refused(0, 1), Some(Refused::ShortFlash), "{geometry:?}");
        assert_eq!(refused(0, 0), None, "{geometry:?}");
    }
}

#[test]
fn geometries_outside_the_ranges() {
    assert!(G.is_allowed() && LARGEST.is_allowed() && Geometry::default().is_allowed());
    let wrong = [
        G.with_parts(9),
        G.with_page(32),
        G.with_page(96),
        G.with_page(8192),
        G.with_pages(0),
        G.with_pages(3),
        G.with_pages(128),
        G.with_kept(0),
        G.with_kept(33),
        G.with_bits(32),
        G.with_bits(100),
        G.with_bits(131_072),
        G.with_hashes(0),
        G.with_hashes(9),
        G.with_list(0),
        G.with_list(1025),
        LARGEST.with_parts(u32::MAX),
    ];
    for geometry in wrong {
        assert!(!geometry.is_allowed(), "{geometry:?}");
        assert_eq!(geometry.memory_need(), Err(Refused::Geometry));
        assert_eq!(geometry.flash_need(), Err(Refused::Geometry));
        let refused = Index::format(&mut [0; 400], &mut [0; 400], geometry).err();
        assert_eq!(refused, Some(Refused::Geometry), "{geometry:?}");
    }
}

#[test]
fn several_threads_read() {
    let (mut memory, mut flash) = areas(Geometry::default());
    let mut index = Index::format(&mut memory, &mut flash, Geometry::default()).unwrap();
    for key in 0..10_000 {
        index.put(key << 50 | key, key + 1).unwrap();
    }
    let index = &index;
    thread::scope(|scope| {
        for _ in 0..4 {
            scope.spawn(move || {
                for key in 0..10_000 {
                    assert_eq!(index.get(key << 50 | key).unwrap().value(), Some(key + 1));
                }
            });
        }
    });
    let answer = raw::get(index.memory(), index.flash(), 7 << 50 | 7);
    assert_eq!((answer.status, answer.value), (raw::FOUND, 8));
}

#[test]
fn a_refusal_is_an_error() {
    let refused: Box<dyn Error> = Box::new(Refused::ListFull);
    assert_eq!(
        refused.to_string(),
        "the list of deleted keys is full (refusal 14)"
    );
}
