//! Drops of the oldest batch, as a Rust user meets them.

use mortxizal::{raw, Geometry, Index, Lookup, Place, Refused};

/// The geometry of the worked session of document 01: two batches are kept.
const G: Geometry = Geometry::DEFAULT
    .with_parts(0)
    .with_page(64)
    .with_pages(1)
    .with_kept(2)
    .with_bits(64)
    .with_hashes(3)
    .with_list(1);

fn areas(geometry: Geometry) -> (Vec<u8>, Vec<u8>) {
    let memory = geometry.memory_need().unwrap();
    (
        vec![0xa5; memory],
        vec![0x5a; geometry.flash_need().unwrap()],
    )
}

/// Has each key alone in a batch of its own.
fn flush_each(index: &mut Index, keys: &[u64]) {
    for &key in keys {
        index.put(key, 10 * key).unwrap();
        index.flush(0).unwrap();
    }
}

fn in_batch(value: u64, number: u32) -> Result<Lookup, Refused> {
    Ok(Lookup::found(value, 1, 1, Place::Batch(number)))
}

#[test]
fn the_oldest_batch_goes() {
    let (mut memory, mut flash) = areas(G);
    let mut index = Index::format(&mut memory, &mut flash, G).unwrap();
    assert_eq!(index.drop_oldest(0), Err(Refused::NoBatch));
    assert_eq!(index.drop_oldest(1), Err(Refused::OutOfRange));
    flush_each(&mut index, &[5, 9]);
    index.del(5).unwrap();
    // The list has one place, which key 5 has until its batch goes.
    assert_eq!(index.del(9), Err(Refused::ListFull));
    assert_eq!(index.drop_oldest(0), Ok(()));
    assert_eq!(index.get(5), Ok(Lookup::none(0, 0)));
    assert_eq!(index.get(9), in_batch(90, 2));
    assert_eq!(index.view(0, 0, 1), Err(Refused::NotLive));
    assert_eq!(index.count(0), Ok(1));
    assert_eq!(index.del(9), Ok(()));
    assert_eq!(index.drop_oldest(0), Ok(()));
    assert_eq!((index.count(0), index.text(0, &mut [])), (Ok(0), Ok(0)));
    assert_eq!(index.drop_oldest(0), Err(Refused::NoBatch));
    assert_eq!(Refused::NoBatch.number(), 23);
}

#[test]
fn a_flush_after_a_drop_pushes_nothing_out() {
    let (mut memory, mut flash) = areas(G);
    let mut index = Index::format(&mut memory, &mut flash, G).unwrap();
    flush_each(&mut index, &[5, 9, 20]);
    assert_eq!(index.drop_oldest(0), Ok(()));
    flush_each(&mut index, &[40]);
    assert_eq!((index.get(20), index.count(0)), (in_batch(200, 3), Ok(2)));
    flush_each(&mut index, &[5]);
    assert_eq!(index.get(20), Ok(Lookup::none(0, 0)));
    assert_eq!((index.get(5), index.count(0)), (in_batch(50, 5), Ok(2)));
}

#[test]
fn the_answer_in_all_its_fields() {
    let (mut memory, mut flash) = areas(G);
    let mut index = Index::format(&mut memory, &mut flash, G).unwrap();
    flush_each(&mut index, &[5]);
    let kept = flash.clone();
    for (status, number) in [(raw::DONE, 0), (raw::REFUSED, 23)] {
        let answer = raw::drop_oldest(&mut memory, &flash, 0);
        let expected = raw::Answer {
            status,
            number,
            reads: 0,
            batch: 0,
            value: 0,
            comparisons: 0,
        };
        assert_eq!(answer, expected);
    }
    assert_eq!(flash, kept);
}

#[test]
fn a_damaged_batch_is_not_dropped() {
    let g = G.with_pages(2);
    let (mut memory, mut flash) = areas(g);
    let mut index = Index::format(&mut memory, &mut flash, g).unwrap();
    flush_each(&mut index, &[1, 2]);
    // Small keys belong to page 0. The second page of batch 1 is damaged.
    flash[64 + 4] = 1;
    let mut index = Index::attach(&mut memory, &mut flash);
    assert_eq!(index.drop_oldest(0), Err(Refused::BatchPage { reads: 2 }));
    assert_eq!((index.get(1), index.count(0)), (in_batch(10, 1), Ok(2)));
    flash[64 + 4] = 0;
    // The total is in memory's bytes 40 to 43.
    memory[40] = 0;
    let mut index = Index::attach(&mut memory, &mut flash);
    assert_eq!(index.drop_oldest(0), Err(Refused::Overfull));
    memory[40] = 2;
    let mut index = Index::attach(&mut memory, &mut flash);
    assert_eq!((index.drop_oldest(0), index.count(0)), (Ok(()), Ok(1)));
}

#[test]
fn a_live_number_that_cannot_be() {
    let (mut memory, mut flash) = areas(G);
    let mut index = Index::format(&mut memory, &mut flash, G).unwrap();
    flush_each(&mut index, &[5]);
    // The live number is in memory's bytes 44 to 47. One flush was done.
    assert_eq!(memory[44..48], [1, 0, 0, 0]);
    for live in [2, 3, 255] {
        memory[44] = live;
        let mut index = Index::attach(&mut memory, &mut flash);
        assert_eq!(index.put(5, 50), Err(Refused::Overfull));
        assert_eq!(index.get(5), Err(Refused::Overfull));
        assert_eq!(index.del(5), Err(Refused::Overfull));
        assert_eq!(index.flush(0), Err(Refused::Overfull));
        assert_eq!(index.view(0, 0, 0), Err(Refused::Overfull));
        assert_eq!(index.count(0), Err(Refused::Overfull));
        assert_eq!(index.text(0, &mut [0; 99]), Err(Refused::Overfull));
        assert_eq!(index.drop_oldest(0), Err(Refused::Overfull));
    }
    memory[44] = 0;
    let mut index = Index::attach(&mut memory, &mut flash);
    assert_eq!(index.get(5), Ok(Lookup::none(0, 0)));
    assert_eq!(index.drop_oldest(0), Err(Refused::NoBatch));
}
