//! Other stores, where their packages are installed: the same keys and the
//! same work as a table's, in a folder that is in memory.

#[cfg(berkeley)]
mod berkeley;
#[cfg(lmdb)]
mod lmdb;
#[cfg(rocksdb)]
mod rocks;

use crate::fill;
use crate::tables::Tables;
use crate::work::{Kind, Work};
use std::path::Path;
use std::time::Instant;

pub trait Store {
    fn put(&mut self, key: u64, value: u64);
    fn get(&mut self, key: u64) -> Option<u64>;
    fn del(&mut self, key: u64);
}

/// Opens a store in a folder.
pub type Open = fn(&Path) -> Box<dyn Store>;

/// A store that may be installed: its name, its package, and how it is used.
pub struct Rival {
    pub name: &'static str,
    pub package: &'static str,
    pub setting: &'static str,
    pub open: Option<Open>,
}

#[cfg(berkeley)]
const BERKELEY: Option<Open> = Some(|folder| Box::new(berkeley::Berkeley::open(folder)));
#[cfg(not(berkeley))]
const BERKELEY: Option<Open> = None;

#[cfg(lmdb)]
const LMDB: Option<Open> = Some(|folder| Box::new(lmdb::Lmdb::open(folder)));
#[cfg(not(lmdb))]
const LMDB: Option<Open> = None;

#[cfg(rocksdb)]
const ROCKS: Option<Open> = Some(|folder| Box::new(rocks::Rocks::open(folder)));
#[cfg(not(rocksdb))]
const ROCKS: Option<Open> = None;

pub const ALL: [Rival; 3] = [
    Rival {
        name: "Berkeley DB hash",
        package: "libdb5.3-dev",
        setting: "cache of 512 MiB, no log, no transactions",
        open: BERKELEY,
    },
    Rival {
        name: "LMDB",
        package: "liblmdb-dev",
        setting: "integer keys, writable map, no syncing, no locks, a transaction for every 1,000 changes",
        open: LMDB,
    },
    Rival {
        name: "RocksDB",
        package: "librocksdb-dev",
        setting: "default options, no write-ahead log",
        open: ROCKS,
    },
];

/// Operations a second of each row but flushes, texts and drops, one pass each. The rows that
/// change the store come last, so the others meet what the tables hold.
pub fn rates(store: &mut dyn Store, tables: &Tables, works: &[Work]) -> Vec<Option<f64>> {
    fill::each_entry(tables, |op| store.put(op.key, op.value));
    let mut rates = vec![None; works.len()];
    let order = [Kind::Get, Kind::Del, Kind::GetThenPut, Kind::Put];
    for kind in order {
        for (work, rate) in works.iter().zip(&mut rates) {
            if work.kind == kind && work.name != crate::work::DELETED {
                *rate = Some(pass(store, work));
            }
        }
        if kind == Kind::Del {
            let deleted = works.iter().position(|w| w.name == crate::work::DELETED);
            if let Some(place) = deleted {
                rates[place] = Some(pass(store, &works[place]));
            }
        }
    }
    rates
}

fn pass(store: &mut dyn Store, work: &Work) -> f64 {
    let clock = Instant::now();
    let mut found = 0;
    for op in &work.ops {
        match work.kind {
            Kind::Put => store.put(op.key, op.value),
            Kind::Get => found += usize::from(store.get(op.key).is_some()),
            Kind::GetThenPut => {
                found += usize::from(store.get(op.key).is_some());
                store.put(op.key, op.value);
            }
            Kind::Del => store.del(op.key),
            Kind::Flush | Kind::Text | Kind::Drop => {}
        }
    }
    std::hint::black_box(found);
    work.ops.len() as f64 / clock.elapsed().as_secs_f64()
}
