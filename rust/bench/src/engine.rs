//! The proved engine through its C interface (crates/mortxizal).

use crate::index::{Done, Got, Index};
use mortxizal::raw::{self, Answer};
use reference::Geometry;

pub struct Engine;

#[inline]
fn done(answer: Answer) -> Done {
    if answer.status == raw::DONE {
        Ok(answer.number)
    } else {
        Err(answer.number)
    }
}

impl Index for Engine {
    fn format(memory: &mut [u8], flash: &[u8], g: Geometry) -> Done {
        let geometry = mortxizal::Geometry::default()
            .with_parts(g.parts)
            .with_page(g.page)
            .with_pages(g.pages)
            .with_kept(g.kept)
            .with_bits(g.bits)
            .with_hashes(g.hashes)
            .with_list(g.list);
        done(raw::format(memory, flash, geometry))
    }

    #[inline]
    fn put(memory: &mut [u8], flash: &mut [u8], key: u64, value: u64) -> Done {
        done(raw::put(memory, flash, key, value))
    }

    #[inline]
    fn get(memory: &[u8], flash: &[u8], key: u64) -> Result<Got, u32> {
        let answer = raw::get(memory, flash, key);
        if answer.status == raw::REFUSED {
            return Err(answer.number);
        }
        Ok(Got {
            found: answer.status == raw::FOUND,
            value: answer.value,
            reads: answer.reads,
            comparisons: answer.comparisons,
            batch: answer.batch,
        })
    }

    #[inline]
    fn del(memory: &mut [u8], flash: &[u8], key: u64) -> Done {
        done(raw::del(memory, flash, key))
    }

    #[inline]
    fn flush(memory: &mut [u8], flash: &mut [u8], partition: u32) -> Done {
        done(raw::flush(memory, flash, partition))
    }

    #[inline]
    fn text(memory: &[u8], flash: &[u8], partition: u32, text: &mut [u8]) -> Done {
        let answer = raw::text(memory, flash, partition, text);
        done(answer).map(|_| answer.value as u32)
    }

    #[inline]
    fn drop_oldest(memory: &mut [u8], flash: &[u8], partition: u32) -> Done {
        done(raw::drop_oldest(memory, flash, partition))
    }
}
