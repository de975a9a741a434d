//! A box is replaced: its partitions are written as text, the session program
//! reads the lines as the new box does, and every key is looked up in both.

use mortxizal::{Geometry, Index, Refused};
use programs::random::Rng;
use programs::run;

/// Four partitions. Both areas fit the session's of 32,768 bytes.
const GEOMETRY: Geometry = Geometry::DEFAULT
    .with_parts(2)
    .with_page(128)
    .with_pages(4)
    .with_kept(6)
    .with_bits(512)
    .with_hashes(4)
    .with_list(8);

const FORMAT: &str =
    "(format (parts 2) (page 128) (pages 4) (kept 6) (bits 512) (hashes 4) (list 8))\n";

/// So many random puts, dels, flushes and drops.
fn fill(index: &mut Index, keys: &[u64], calls: u64, rng: &mut Rng) {
    for _ in 0..calls {
        let key = rng.pick(keys);
        let partition = (key >> 62) as u32;
        let answer = match rng.below(80) {
            0..=1 => index.flush(partition).map(drop),
            2 => index.drop_oldest(partition),
            3..=10 => index.del(key),
            _ => index.put(key, rng.number()).map(drop),
        };
        let usual = matches!(
            answer,
            Ok(()) | Err(Refused::ListFull | Refused::BufferEmpty | Refused::NoBatch)
        );
        assert!(usual, "{answer:?}");
    }
}

/// The partition's text, in an area that is just long enough for the longest
/// lines of all its entries.
fn text(index: &Index, partition: u32) -> Vec<u8> {
    let mut text = vec![0; 48 * index.count(partition).unwrap() as usize];
    let length = index.text(partition, &mut text).unwrap();
    text.truncate(length);
    text
}

/// The value that an answer of the session tells, if the key has one.
fn value(answer: &str) -> Option<u64> {
    let words: Vec<&str> = answer.split(' ').collect();
    match words[..] {
        ["(found", value, _, _] => Some(value.parse().unwrap()),
        ["(none", _, _] => None,
        _ => panic!("{answer}"),
    }
}

/// Feeds the texts of the partitions to a fresh session: the values that it then
/// tells of the keys.
fn moved(index: &Index, partitions: &[u32], keys: &[u64]) -> Vec<Option<u64>> {
    let texts = partitions.iter().flat_map(|&t| text(index, t));
    let texts = String::from_utf8(texts.collect()).unwrap();
    let gets: String = keys.iter().map(|key| format!("(get {key})\n")).collect();
    let printed = run(format!("{FORMAT}{texts}{gets}").as_bytes());
    let printed = String::from_utf8(printed).unwrap();
    let answers: Vec<&str> = printed.lines().collect();
    let (read, told) = answers.split_at(1 + texts.lines().count());
    let ok = |answer: &&str| answer.starts_with("(ok ");
    assert_eq!(read.iter().find(|answer| !ok(answer)), None);
    told.iter().map(|answer| value(answer)).collect()
}

#[test]
fn every_key_says_the_same_in_the_new_box() {
    let (mut found, mut none) = (0, 0);
    for seed in 1..=40 {
        let mut rng = Rng(seed << 40 | seed);
        let keys: Vec<u64> = (0..400).map(|_| rng.number()).collect();
        let mut memory = vec![0; GEOMETRY.memory_need().unwrap()];
        let mut flash = vec![0; GEOMETRY.flash_need().unwrap()];
        let mut index = Index::format(&mut memory, &mut flash, GEOMETRY).unwrap();
        let calls = 100 * rng.below(30);
        fill(&mut index, &keys, calls, &mut rng);
        let values: Vec<_> = keys
            .iter()
            .map(|&k| index.get(k).unwrap().value())
            .collect();
        assert_eq!(moved(&index, &[0, 1, 2, 3], &keys), values, "seed {seed}");
        // The order of the partitions does not matter, and one may move alone.
        assert_eq!(moved(&index, &[2, 0, 3, 1], &keys), values, "seed {seed}");
        let own = keys.iter().zip(&values);
        let own: Vec<_> = own.map(|(k, v)| v.filter(|_| k >> 62 == 1)).collect();
        assert_eq!(moved(&index, &[1], &keys), own, "seed {seed}");
        found += values.iter().flatten().count();
        none += values.iter().filter(|value| value.is_none()).count();
    }
    assert!(found > 1000 && none > 1000, "{found} found, {none} not");
}
