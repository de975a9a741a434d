//! The history rule: whatever the list of calls, a get answers what the calls
//! before it say, within the reads and the page writes that are allowed and the
//! comparisons that its pages have room for, and a count tells the sum of the
//! page counts.

mod common;

use std::collections::HashMap;
use std::ops::Range;

use common::call::{call_index, Answer, Call};
use common::plain::sum_of_counts;
use common::{flash_need, memory_need, partition_bytes, word, Rng};
use reference::Geometry;

/// What document 01 holds of a list of calls, fed from the arguments, the
/// refusals and the pages that puts wrote, and from nothing else.
struct History {
    g: Geometry,
    keys: HashMap<u64, (u64, u32)>,
    live: HashMap<u64, u32>,
    puts: u64,
    put_pages: u64,
}

impl History {
    fn new(g: Geometry) -> History {
        History {
            g,
            keys: HashMap::new(),
            live: HashMap::new(),
            puts: 0,
            put_pages: 0,
        }
    }

    fn partition(&self, key: u64) -> u64 {
        if self.g.parts == 0 {
            0
        } else {
            key >> (64 - self.g.parts)
        }
    }

    fn flush(&mut self, partition: u64) {
        let (parts, kept) = (self.g.parts, self.g.kept);
        self.keys.retain(|&key, (_, age)| {
            if parts == 0 || key >> (64 - parts) == partition {
                *age += 1;
            }
            *age <= kept
        });
        let live = self.live.entry(partition).or_default();
        *live = (*live + 1).min(kept);
    }

    fn drop_oldest(&mut self, partition: u64) {
        let (parts, live) = (self.g.parts, self.live(partition));
        assert!(live > 0, "a drop of {partition} without a live batch");
        self.keys.retain(|&key, &mut (_, age)| {
            let own = parts == 0 || key >> (64 - parts) == partition;
            !own || age != live
        });
        self.live.insert(partition, live - 1);
    }

    fn live(&self, partition: u64) -> u32 {
        self.live.get(&partition).copied().unwrap_or(0)
    }

    fn call(&mut self, call: Call, answer: Answer) {
        let pages = match answer {
            Answer::Done(pages) => pages,
            Answer::Dropped(_) => 0,
            _ => return,
        };
        match call {
            Call::Format(g) => *self = History::new(g),
            Call::Put(key, value) => {
                if pages > 0 {
                    self.flush(self.partition(key));
                }
                self.keys.insert(key, (value, 0));
                self.puts += 1;
                self.put_pages += u64::from(pages);
            }
            Call::Del(key) => drop(self.keys.remove(&key)),
            Call::Flush(partition) => self.flush(partition.into()),
            Call::Drop(partition) => self.drop_oldest(partition.into()),
            Call::Get(_) | Call::View(..) | Call::Count(_) | Call::Text(..) => unreachable!(),
        }
    }

    fn check_get(&self, key: u64, answer: Answer) {
        let (value, reads, comparisons) = match answer {
            Answer::Found(value, reads, comparisons, _) => (Some(value), reads, comparisons),
            Answer::None(reads, comparisons) => (None, reads, comparisons),
            other => panic!("get of {key}: {other:?}"),
        };
        assert_eq!(
            value,
            self.keys.get(&key).map(|held| held.0),
            "get of {key}"
        );
        assert_ne!(value, Some(0), "get of {key}");
        let live = self.live(self.partition(key));
        assert!(reads <= live, "get of {key}: {reads} reads");
        let room = (1 + reads) * (self.g.page / 16 - 1);
        assert!(comparisons <= room, "get of {key}: {comparisons}");
    }

    /// A drop is refused with 23 only where no batch is live.
    fn check_drop(&self, partition: u32, answer: Answer) {
        let live = self.live(partition.into());
        assert!(answer != Answer::Refused(23, 0) || live == 0);
    }

    /// A partition's head has its live number.
    fn check_live(&self, memory: &[u8], partition: u32) {
        let head = 32 + partition as usize * partition_bytes(self.g);
        let live = self.live(partition.into());
        assert_eq!(word(memory, head + 12), live, "partition {partition}");
    }

    fn check_totals(&self) {
        let entries = u64::from(self.g.page / 16 - 1);
        assert!(self.put_pages * entries <= u64::from(self.g.pages) * self.puts);
    }
}

/// How often each kind of call comes.
struct Weights {
    put: usize,
    del: usize,
    flush: usize,
    drop: usize,
}

fn random_call(rng: &mut Rng, g: Geometry, keys: &[u64], weights: &Weights) -> Call {
    let Weights {
        put,
        del,
        flush,
        drop,
    } = *weights;
    let kind = rng.below(put + del + flush + drop + 4);
    let partition = |rng: &mut Rng| rng.below((1 << g.parts) + 1) as u32;
    if kind < put {
        return Call::Put(rng.pick(keys), rng.value());
    } else if kind < put + del {
        return Call::Del(rng.pick(keys));
    } else if kind < put + del + flush {
        return Call::Flush(partition(rng));
    } else if kind < put + del + flush + drop {
        return Call::Drop(partition(rng));
    }
    match kind - (put + del + flush + drop) {
        0 => {
            let number = rng.below(2 * g.kept as usize);
            Call::View(rng.below(1 << g.parts) as u32, 0, number as u32)
        }
        1 => Call::Count(partition(rng)),
        2 => {
            let room = rng.pick(&[0, 100, 1000, 10_000, 100_000]);
            Call::Text(partition(rng), room)
        }
        _ => Call::Get(rng.pick(keys)),
    }
}

/// The numbers that a call is refused with in a table that only calls made.
fn check_refusal(call: Call, answer: Answer) {
    if let Answer::Refused(number, reads) = answer {
        let expected: &[u32] = match call {
            Call::Del(_) => &[14],
            Call::Flush(_) => &[4, 15],
            Call::View(..) => &[17],
            Call::Count(_) => &[4],
            Call::Text(..) => &[4, 22],
            Call::Drop(_) => &[4, 23],
            Call::Format(_) => &[1],
            Call::Put(_, 0) => &[21],
            Call::Put(..) | Call::Get(_) => &[],
        };
        assert!(
            expected.contains(&number) && reads == 0,
            "{call:?}: {number}"
        );
    }
}

/// Of each of the partitions a count tells what stands in its pages.
fn check_counts(g: Geometry, memory: &mut [u8], flash: &mut [u8], partitions: Range<u32>) {
    for t in partitions {
        let sum = sum_of_counts(g, memory, flash, t as usize) as u32;
        let answer = call_index(Call::Count(t), memory, flash);
        assert_eq!(answer, Answer::Counted(sum), "count of {t}");
    }
}

/// One long list of calls in a geometry.
fn run(rng: &mut Rng, g: Geometry, steps: usize, memory: &mut [u8], flash: &mut [u8]) {
    let held = (g.pages * (g.page / 16 - 1) * (g.kept + 1)) << g.parts;
    let number = 2 + rng.below(2 * held as usize);
    let keys = rng.keys(number);
    let weights = Weights {
        put: 1 + rng.below(30),
        del: rng.below(12),
        flush: rng.below(3),
        drop: rng.below(3),
    };
    let mut history = History::new(g);
    for step in 0..steps {
        let call = match step {
            0 => Call::Format(g),
            _ if rng.one_in(4000) => Call::Format(Geometry { kept: 0, ..g }),
            _ => random_call(rng, g, &keys, &weights),
        };
        let answer = call_index(call, memory, flash);
        check_refusal(call, answer);
        history.call(call, answer);
        history.check_totals();
        if let Some(t) = call.partition(g).filter(|&t| t < 1 << g.parts) {
            history.check_drop(t, answer);
            history.check_live(memory, t);
            check_counts(g, memory, flash, t..t + 1);
        }
        for _ in 0..2 {
            let key = rng.pick(&keys);
            history.check_get(key, call_index(Call::Get(key), memory, flash));
        }
        if step % 256 == 0 || step + 1 == steps {
            check_counts(g, memory, flash, 0..1 << g.parts);
            for &key in &keys {
                history.check_get(key, call_index(Call::Get(key), memory, flash));
            }
        }
    }
}

#[test]
fn long_lists_of_calls_in_small_geometries() {
    for seed in 0..600 {
        println!("seed {seed}");
        let mut rng = Rng(seed);
        let mut memory = rng.bytes(40_000);
        let mut flash = rng.bytes(50_000);
        // Two tables in turn over the same areas.
        for _ in 0..2 {
            let g = rng.small_geometry();
            assert!(memory_need(g) <= memory.len() && flash_need(g) <= flash.len());
            println!("{g:?}");
            run(&mut rng, g, 2000, &mut memory, &mut flash);
        }
    }
}

#[test]
fn long_lists_of_calls_in_larger_geometries() {
    let geometries = [
        Geometry::new([8, 64, 1, 32, 64, 8, 1]),
        Geometry::new([0, 4096, 64, 2, 65536, 8, 1024]),
        Geometry::new([2, 1024, 8, 32, 8192, 5, 64]),
        Geometry::new([5, 256, 4, 7, 1024, 6, 20]),
        Geometry::new([0, 64, 64, 32, 512, 1, 1000]),
    ];
    for (seed, g) in geometries.into_iter().enumerate() {
        println!("seed {seed}, {g:?}");
        let mut rng = Rng(9000 + seed as u64);
        let (mut memory, mut flash) = (vec![0xff; memory_need(g)], vec![0xff; flash_need(g)]);
        run(&mut rng, g, 60_000, &mut memory, &mut flash);
    }
}
