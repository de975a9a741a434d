//! The figures of a card held against what calls do to a fresh table, whichever
//! index makes them (02, job 7).

use std::collections::HashMap;

use reference::Geometry;

use super::call::{Answer, Call};
use super::{flash_need, memory_need, partition_bytes, word, Rng, G};

/// An index: its calls, and what it tells of a geometry and so many puts.
#[derive(Clone, Copy)]
pub struct Maker {
    pub call: fn(Call, &mut [u8], &mut [u8]) -> Answer,
    /// The most flushes and the first lost put.
    pub figures: fn(Geometry, u32) -> (u64, u64),
}

/// A table from its format on, with what was put in it.
struct Carrying {
    maker: Maker,
    g: Geometry,
    memory: Vec<u8>,
    flash: Vec<u8>,
    /// The puts, with those that were refused.
    puts: u32,
    /// The values of the keys that were put and not deleted since.
    values: HashMap<u64, u64>,
}

impl Carrying {
    fn new(maker: Maker, g: Geometry) -> Carrying {
        let mut table = Carrying {
            maker,
            g,
            memory: vec![0xa5; memory_need(g)],
            flash: vec![0xa5; flash_need(g)],
            puts: 0,
            values: HashMap::new(),
        };
        assert_eq!(table.call(Call::Format(g)), Answer::Done(0));
        table
    }

    fn call(&mut self, call: Call) -> Answer {
        let answer = (self.maker.call)(call, &mut self.memory, &mut self.flash);
        let accepted = !matches!(answer, Answer::Refused(..));
        if let Call::Put(..) = call {
            self.puts += 1;
        }
        match call {
            Call::Put(key, value) if accepted => drop(self.values.insert(key, value)),
            Call::Del(key) if accepted => drop(self.values.remove(&key)),
            _ => {}
        }
        answer
    }

    /// The most flushes that the puts so far may have caused, and the first lost put.
    fn figures(&self) -> (u64, u64) {
        (self.maker.figures)(self.g, self.puts)
    }

    /// The flushes done, of all partitions together: F opens a partition's head.
    fn flushes(&self) -> u64 {
        let heads = self.memory[32..].chunks_exact(partition_bytes(self.g));
        heads.map(|head| u64::from(word(head, 0))).sum()
    }

    /// Whether the key is lost: put, not deleted since and not found. What a get
    /// finds is the value that was put last, and never that of a deleted key.
    fn is_lost(&mut self, key: u64) -> bool {
        let last = self.values.get(&key).copied();
        match self.call(Call::Get(key)) {
            Answer::None(..) => last.is_some(),
            Answer::Found(value, ..) => {
                assert_eq!(Some(value), last, "get of {key}");
                false
            }
            other => panic!("get of {key}: {other:?}"),
        }
    }

    /// How many of the keys are lost.
    fn lost(&mut self, keys: impl IntoIterator<Item = u64>) -> usize {
        keys.into_iter().filter(|&key| self.is_lost(key)).count()
    }
}

/// How often random lists came to the figures.
#[derive(Debug, Default)]
struct Reached {
    /// Puts that flushed, after which there were as many flushes as there may be.
    most_flushes: usize,
    /// Lists that lost a key with the first put that can lose one.
    first_lost: usize,
}

/// Keys of one page of one partition, or any. In the mixing bit 18 is the lowest
/// that reaches bit 48, where page numbers begin.
fn keys(rng: &mut Rng, number: usize) -> Vec<u64> {
    if rng.one_in(3) {
        rng.keys(number)
    } else {
        let first = rng.below(1 << 17) as u64;
        (first..first + number as u64).collect()
    }
}

/// Every call but format, flush and drop: puts, and of 30 so many others.
fn draw(rng: &mut Rng, g: Geometry, keys: &[u64], others: usize) -> Call {
    let partition = rng.below(1 << g.parts) as u32;
    if rng.below(30) >= others {
        return Call::Put(rng.pick(keys), 1 + rng.below(1000) as u64);
    }
    match rng.below(9) {
        0 => Call::View(partition, rng.below(g.pages as usize) as u32, 0),
        1 => Call::View(partition, 0, 1 + rng.below(2 * g.kept as usize) as u32),
        2 => Call::Count(partition),
        3 => Call::Text(partition, rng.pick(&[0, 1000, 50_000])),
        4 => Call::Get(rng.pick(keys)),
        // It is refused, and counts as a put.
        5 => Call::Put(rng.pick(keys), 0),
        _ => Call::Del(rng.pick(keys)),
    }
}

/// Makes a random list of calls on a fresh table: after each of them there are
/// no more flushes than the figure says, and before the first lost put no key
/// that was put and not deleted since is lost.
fn stay_within(rng: &mut Rng, maker: Maker, g: Geometry, reached: &mut Reached) {
    let mut table = Carrying::new(maker, g);
    let first_lost = table.figures().1;
    let number = 2 + rng.below(8 * first_lost as usize);
    let (keys, others) = (keys(rng, number), rng.below(12));
    while u64::from(table.puts) < 2 * first_lost {
        let before = table.puts;
        let answer = table.call(draw(rng, g, &keys, others));
        let (most, _) = table.figures();
        let flushes = table.flushes();
        assert!(flushes <= most, "{flushes} flushes in {} puts", table.puts);
        let flushed = matches!(answer, Answer::Done(pages) if table.puts > before && pages > 0);
        reached.most_flushes += usize::from(flushed && flushes == most);
        let puts = u64::from(table.puts);
        if puts < first_lost && (flushed || rng.one_in(1 + first_lost as usize / 10)) {
            let lost = table.lost(keys.iter().copied());
            assert_eq!(lost, 0, "after {puts} puts");
        }
        if flushed && puts == first_lost {
            let lost = table.lost(keys.iter().copied());
            reached.first_lost += usize::from(lost > 0);
        }
    }
}

/// Random lists of calls stay within the figures, and many come to them.
pub fn check_lists(maker: Maker, first_seed: u64) {
    let mut reached = Reached::default();
    for seed in first_seed..first_seed + 4000 {
        let mut rng = Rng(seed);
        let g = rng.small_geometry();
        println!("seed {seed}, {g:?}");
        stay_within(&mut rng, maker, g, &mut reached);
    }
    println!("{reached:?}");
    assert!(reached.most_flushes > 10_000 && reached.first_lost > 500);
}

/// The same in some larger geometries, where few lists come to a figure.
pub fn check_long_lists(maker: Maker, first_seed: u64) {
    let geometries = [
        Geometry::new([0, 4096, 2, 3, 4096, 4, 100]),
        Geometry::new([0, 1024, 1, 32, 1024, 2, 1024]),
        Geometry::new([8, 64, 1, 32, 64, 8, 1]),
        Geometry::new([3, 256, 64, 16, 512, 5, 40]),
    ];
    for seed in first_seed..first_seed + 64 {
        let mut rng = Rng(seed);
        let g = rng.pick(&geometries);
        println!("seed {seed}, {g:?}");
        stay_within(&mut rng, maker, g, &mut Reached::default());
    }
}

/// Makes so many puts of the sequence that reaches both figures, put i with the
/// key i mod 2^18, i from 0: all are accepted, each leaves as many flushes as the
/// figure says, and key 0 is found up to the first lost put, where it is lost.
fn reaches(maker: Maker, g: Geometry, puts: u32) {
    let mut table = Carrying::new(maker, g);
    let first_lost = table.figures().1;
    assert_eq!((table.flushes(), table.figures().0), (0, 0));
    for i in 0..puts {
        let n = u64::from(i) + 1;
        let answer = table.call(Call::Put(u64::from(i % (1 << 18)), 1));
        assert!(matches!(answer, Answer::Done(_)), "put {n}: {answer:?}");
        assert_eq!(table.flushes(), table.figures().0, "after {n} puts");
        // Put 2^18 + 1 has key 0 again.
        if i < 1 << 18 {
            assert_eq!(table.is_lost(0), n >= first_lost, "after {n} puts");
        }
        if n == first_lost - 1 {
            assert_eq!(table.lost(0..n), 0, "after {n} puts");
        }
    }
    assert!(
        u64::from(table.puts) >= first_lost,
        "{puts} puts are too few"
    );
}

/// The sequence reaches the figures in every page size with every number of batches.
pub fn check_sequences(maker: Maker) {
    for (shift, kept) in (0..7).flat_map(|shift| (1..=32).map(move |kept| (shift, kept))) {
        let (parts, page, pages) = (kept % 4, 64 << shift, 1 << (kept % 7));
        let g = Geometry::new([parts, page, pages, kept, 64, 1 + kept % 8, 1]);
        println!("{g:?}");
        reaches(maker, g, (kept + 3) * (page / 16 - 1));
    }
}

/// It does also when its keys come round.
pub fn check_long_sequence(maker: Maker) {
    reaches(maker, G, (1 << 18) + 1000);
}
