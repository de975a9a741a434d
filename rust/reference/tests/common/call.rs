//! The calls with their arguments and answers as plain data.

use reference::{Geometry, Lookup, Place, Refusal};

use super::bill::bill;
use super::plain::{home, length, number};

/// A call with its arguments.
#[derive(Clone, Copy, Debug, PartialEq, Eq)]
pub enum Call {
    Format(Geometry),
    Put(u64, u64),
    Get(u64),
    Del(u64),
    Flush(u32),
    View(u32, u32, u32),
    Count(u32),
    /// Of a partition, with a text area of so many bytes.
    Text(u32, usize),
    Drop(u32),
}

impl Call {
    /// The partition that the call is about, in a table of this geometry.
    pub fn partition(self, g: Geometry) -> Option<u32> {
        match self {
            Call::Format(_) => None,
            Call::Put(key, _) | Call::Get(key) | Call::Del(key) => Some(home(g, key).0 as u32),
            Call::Flush(t) | Call::View(t, ..) | Call::Count(t) => Some(t),
            Call::Text(t, _) | Call::Drop(t) => Some(t),
        }
    }
}

/// A call's answer. A get tells the value, if it found one, reads, comparisons
/// and, if found, the batch, 0 for the buffer. A view tells where its part begins
/// and how long it is, a text how long it is and a digest of the whole text area
/// behind the call, a drop how many keys left the list.
#[derive(Clone, Copy, Debug, PartialEq, Eq)]
pub enum Answer {
    Refused(u32, u32),
    Done(u32),
    Counted(u32),
    Found(u64, u32, u32, u32),
    None(u32, u32),
    InMemory(usize, usize),
    InFlash(usize, usize),
    Text(usize, u64),
    Dropped(u32),
}

/// What a text area is filled with before a call.
pub const BLANK: u8 = 7;

/// Makes the call with the index.
pub fn call_index(call: Call, memory: &mut [u8], flash: &mut [u8]) -> Answer {
    let refused = |refusal: Refusal| Answer::Refused(refusal.number(), refusal.reads());
    match call {
        Call::Format(g) => reference::format(memory, flash, g).map(|()| Answer::Done(0)),
        Call::Put(key, value) => reference::put(memory, flash, key, value).map(Answer::Done),
        Call::Get(key) => index_get(memory, flash, key).map(lookup),
        Call::Del(key) => reference::del(memory, flash, key).map(|()| Answer::Done(0)),
        Call::Flush(t) => reference::flush(memory, flash, t).map(Answer::Done),
        Call::Count(t) => reference::count(memory, flash, t).map(Answer::Counted),
        Call::Text(t, room) => {
            let (answer, area) = index_text(memory, flash, t, room);
            answer.map(|length| Answer::Text(length, digest(&area)))
        }
        Call::Drop(t) => {
            let before = listed(memory, t);
            let answer = reference::drop_oldest(memory, flash, t);
            answer.map(|()| Answer::Dropped(before - listed(memory, t)))
        }
        Call::View(t, q, n) => {
            let part = reference::view_part(memory, flash, t, q, n);
            let place = offset(part, memory, flash);
            let answer = reference::view(memory, flash, t, q, n);
            match answer {
                Ok(page) => assert_eq!(offset(page, memory, flash), place),
                Err(_) => assert_eq!(place, Answer::InMemory(0, 0)),
            }
            answer.map(|_| place)
        }
    }
    .unwrap_or_else(refused)
}

/// L of a partition, or 0 where there is none.
fn listed(memory: &[u8], t: u32) -> u32 {
    let opening = memory.first_chunk().and_then(Geometry::from_opening);
    let Some(g) = opening.filter(Geometry::is_allowed) else {
        return 0;
    };
    let at = 36 + t as usize * length(g);
    let listed = memory.get(at..at + 4).map_or(0, number);
    listed as u32
}

/// What get answers: an accepted one has the reads and the comparisons that are
/// counted one by one.
pub fn index_get(memory: &[u8], flash: &[u8], key: u64) -> Result<Lookup, Refusal> {
    let answer = reference::get(memory, flash, key);
    if let Ok(
        Lookup::Found {
            reads, comparisons, ..
        }
        | Lookup::None { reads, comparisons },
    ) = answer
    {
        let told = (reads, comparisons);
        assert_eq!(told, bill(memory, flash, key), "get of {key}");
    }
    answer
}

/// What text answers and leaves in an area of so many bytes: a refused one has
/// written nothing, an accepted one nothing behind the text.
pub fn index_text(
    memory: &[u8],
    flash: &[u8],
    t: u32,
    room: usize,
) -> (Result<usize, Refusal>, Vec<u8>) {
    let mut area = vec![BLANK; room];
    let answer = reference::text(memory, flash, t, &mut area);
    let behind = &area[answer.unwrap_or(0)..];
    assert!(behind.iter().all(|&byte| byte == BLANK), "text of {t}");
    (answer, area)
}

/// FNV-1a.
pub fn digest(bytes: &[u8]) -> u64 {
    let mix = |sum: u64, &byte: &u8| (sum ^ u64::from(byte)).wrapping_mul(0x100_0000_01b3);
    bytes.iter().fold(0xcbf2_9ce4_8422_2325, mix)
}

fn lookup(lookup: Lookup) -> Answer {
    match lookup {
        Lookup::None { reads, comparisons } => Answer::None(reads, comparisons),
        Lookup::Found {
            value,
            reads,
            comparisons,
            place,
        } => match place {
            Place::Buffer => Answer::Found(value, reads, comparisons, 0),
            Place::Batch(number) => Answer::Found(value, reads, comparisons, number),
        },
    }
}

/// Which area the part lies in, and where.
fn offset(part: &[u8], memory: &[u8], flash: &[u8]) -> Answer {
    let at = part.as_ptr() as usize;
    let (in_memory, in_flash) = (memory.as_ptr() as usize, flash.as_ptr() as usize);
    if (in_memory..=in_memory + memory.len()).contains(&at)
        && at + part.len() <= in_memory + memory.len()
    {
        Answer::InMemory(at - in_memory, part.len())
    } else {
        assert!(at >= in_flash && at + part.len() <= in_flash + flash.len());
        Answer::InFlash(at - in_flash, part.len())
    }
}
