//! The same two areas twice: for the proved library and for the Rust index.

use mortxizal::raw;
use mortxizal::{Index, Lookup, Place, Refused};
use reference::Geometry;

use crate::common::call::{call_index, digest, index_text, Answer, Call, BLANK};
use crate::common::tally::Tally;
use crate::common::{Rng, Table};
use crate::engine::{call_raw, geometry};

const GUARD: u8 = 0xe7;
const GUARDS: usize = 16;

/// An area that begins anywhere, between bytes that nobody may write.
struct Area {
    bytes: Vec<u8>,
    start: usize,
    length: usize,
}

impl Area {
    fn new(rng: &mut Rng, content: &[u8]) -> Area {
        let start = GUARDS + rng.below(16);
        let length = content.len();
        let mut bytes = vec![GUARD; start + length + GUARDS];
        bytes[start..start + length].copy_from_slice(content);
        Area {
            bytes,
            start,
            length,
        }
    }

    fn lend(&mut self) -> &mut [u8] {
        &mut self.bytes[self.start..self.start + self.length]
    }

    fn is(&self, content: &[u8]) -> bool {
        let (before, rest) = self.bytes.split_at(self.start);
        let (area, behind) = rest.split_at(self.length);
        let guards = before.iter().chain(behind);
        area == content && guards.copied().all(|byte| byte == GUARD)
    }
}

pub struct Pair {
    memory: Area,
    flash: Area,
    /// The areas of the Rust index. Its geometry is the last one formatted, and
    /// tells where things stand in them.
    pub plain: Table,
    /// Both areas before the call.
    before: Table,
}

impl Pair {
    pub fn new(rng: &mut Rng, plain: Table) -> Pair {
        Pair {
            memory: Area::new(rng, &plain.memory),
            flash: Area::new(rng, &plain.flash),
            before: plain.clone(),
            plain,
        }
    }

    /// Areas of random bytes.
    pub fn random(rng: &mut Rng, g: Geometry, memory: usize, flash: usize) -> Pair {
        let mut bytes = |length: usize| {
            let words = (0..length.div_ceil(8)).flat_map(|_| rng.next().to_le_bytes());
            words.take(length).collect::<Vec<u8>>()
        };
        let (memory, flash) = (bytes(memory), bytes(flash));
        Pair::new(rng, Table { g, memory, flash })
    }

    /// Changes the bytes of both sides.
    pub fn change(&mut self, change: impl FnOnce(&mut Table)) {
        change(&mut self.plain);
        self.before.clone_from(&self.plain);
        self.memory.lend().copy_from_slice(&self.plain.memory);
        self.flash.lend().copy_from_slice(&self.plain.flash);
    }

    /// Makes the call on both sides. They agree on everything, and a refused
    /// call has changed nothing.
    pub fn call(&mut self, rng: &mut Rng, call: Call) -> Answer {
        let expected = call_index(call, &mut self.plain.memory, &mut self.plain.flash);
        let (memory, flash) = (self.memory.lend(), self.flash.lend());
        match call {
            Call::Text(t, room) => {
                let (_, area) = index_text(&self.plain.memory, &self.plain.flash, t, room);
                check_text(rng, memory, flash, t, &area, expected);
            }
            Call::Get(_) | Call::View(..) | Call::Count(_) => {
                let answer = call_raw(call, memory, flash);
                assert_eq!(answer, told(expected), "{call:?}");
                check_comparisons(answer, memory);
                check_library(call, memory, flash, expected);
            }
            _ if rng.one_in(2) => {
                assert_eq!(call_raw(call, memory, flash), told(expected), "{call:?}");
            }
            _ => check_library(call, memory, flash, expected),
        }
        assert!(self.memory.is(&self.plain.memory), "{call:?}: memory");
        assert!(self.flash.is(&self.plain.flash), "{call:?}: flash");
        if let Answer::Refused(..) = expected {
            let same = self.before.memory == self.plain.memory;
            assert!(
                same && self.before.flash == self.plain.flash,
                "{call:?}: refused"
            );
        } else {
            if let Call::Format(g) = call {
                self.plain.g = g;
            }
            self.before.clone_from(&self.plain);
        }
        expected
    }

    /// The same, and counts what the call came to.
    pub fn counted(&mut self, rng: &mut Rng, tally: &mut Tally, call: Call) {
        let answer = self.call(rng, call);
        tally.count(call, answer, &self.plain.memory, &self.plain.flash);
    }
}

/// An answer in all its fields, as `include/mortxizal.h` tells it.
fn told(answer: Answer) -> raw::Answer {
    let (status, number, reads, batch, value, comparisons) = match answer {
        Answer::Done(number) | Answer::Counted(number) => (raw::DONE, number, 0, 0, 0, 0),
        Answer::Dropped(_) => (raw::DONE, 0, 0, 0, 0, 0),
        Answer::Found(value, reads, comparisons, batch) => {
            (raw::FOUND, 0, reads, batch, value, comparisons)
        }
        Answer::None(reads, comparisons) => (raw::NONE, 0, reads, 0, 0, comparisons),
        Answer::InMemory(at, size) => (raw::DONE, size as u32, 0, 0, at as u64, 0),
        Answer::InFlash(at, size) => (raw::DONE, size as u32, 1, 1, at as u64, 0),
        Answer::Text(length, _) => (raw::DONE, 0, 0, 0, length as u64, 0),
        Answer::Refused(number, reads) => (raw::REFUSED, number, reads, 0, 0, 0),
    };
    raw::Answer {
        status,
        number,
        reads,
        batch,
        value,
        comparisons,
    }
}

/// A get compares at most the entries that fit its buffer page and each page that
/// it reads.
fn check_comparisons(answer: raw::Answer, memory: &[u8]) {
    if answer.comparisons > 0 {
        let opening = memory.first_chunk().and_then(Geometry::from_opening);
        let entries = opening.expect("pages were searched").page / 16 - 1;
        assert!(
            answer.comparisons <= entries * (answer.reads + 1),
            "{answer:?}"
        );
    }
}

/// Has the library write the text by both ways, each in a text area of its own:
/// the answer is the expected one, and the area is left as the Rust index left
/// its own, also by a refusal.
fn check_text(
    rng: &mut Rng,
    memory: &mut [u8],
    flash: &mut [u8],
    t: u32,
    left: &[u8],
    expected: Answer,
) {
    let blank = vec![BLANK; left.len()];
    let mut area = Area::new(rng, &blank);
    let answer = raw::text(memory, flash, t, area.lend());
    assert_eq!(answer, told(expected), "text of {t}");
    assert!(area.is(left), "text of {t}: the text area");
    let mut area = Area::new(rng, &blank);
    let answer = Index::attach(memory, flash).text(t, area.lend());
    assert!(area.is(left), "text of {t}: the text area");
    let answer = answer.map(|length| Answer::Text(length, digest(left)));
    assert_eq!(answer.unwrap_or_else(refused), expected, "text of {t}");
}

/// Makes the call with the library's `Index`, whose answer is the expected one.
fn check_library(call: Call, memory: &mut [u8], flash: &mut [u8], expected: Answer) {
    let answer = match call {
        Call::Format(g) => Index::format(memory, flash, geometry(g)).map(|_| Answer::Done(0)),
        Call::Put(key, value) => Index::attach(memory, flash)
            .put(key, value)
            .map(Answer::Done),
        Call::Get(key) => Index::attach(memory, flash).get(key).map(lookup),
        Call::Del(key) => Index::attach(memory, flash)
            .del(key)
            .map(|()| Answer::Done(0)),
        Call::Flush(partition) => Index::attach(memory, flash)
            .flush(partition)
            .map(Answer::Done),
        Call::View(partition, page, flush) => {
            let index = Index::attach(memory, flash);
            let shown = index.view(partition, page, flush);
            shown.map(|shown| check_part(shown, &index, expected))
        }
        Call::Count(partition) => Index::attach(memory, flash)
            .count(partition)
            .map(Answer::Counted),
        Call::Drop(partition) => Index::attach(memory, flash)
            .drop_oldest(partition)
            .map(|()| dropped(expected)),
        Call::Text(..) => unreachable!("a text has its own check"),
    };
    assert_eq!(answer.unwrap_or_else(refused), expected, "{call:?}");
}

/// An accepted drop is the expected one: the memory tells which keys left the
/// list, and is compared.
fn dropped(expected: Answer) -> Answer {
    match expected {
        Answer::Dropped(_) => expected,
        _ => Answer::Dropped(0),
    }
}

fn refused(refused: Refused) -> Answer {
    Answer::Refused(refused.number(), refused.reads())
}

fn lookup(lookup: Lookup) -> Answer {
    match lookup {
        Lookup::Found {
            value,
            reads,
            comparisons,
            place,
            ..
        } => match place {
            Place::Buffer => Answer::Found(value, reads, comparisons, 0),
            Place::Batch(number) => Answer::Found(value, reads, comparisons, number),
        },
        Lookup::None {
            reads, comparisons, ..
        } => Answer::None(reads, comparisons),
        other => panic!("{other:?}"),
    }
}

/// The part that is shown is the expected one, where it stands.
fn check_part(shown: &[u8], index: &Index, expected: Answer) -> Answer {
    let part = match expected {
        Answer::InMemory(at, size) => &index.memory()[at..at + size],
        Answer::InFlash(at, size) => &index.flash()[at..at + size],
        _ => panic!("a page is shown, not {expected:?}"),
    };
    assert!(std::ptr::eq(shown, part), "another part than {expected:?}");
    expected
}
