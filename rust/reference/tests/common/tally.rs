//! What calls have come to, counted.

use std::collections::BTreeMap;
use std::fmt;

use reference::Geometry;

use super::call::{call_index, Answer, Call};
use super::plain::{fits, live_fits, read_partition, total_fits};

#[derive(Clone, Copy, Debug, PartialEq, Eq, PartialOrd, Ord)]
pub enum Outcome {
    /// Done without a page written.
    Changed,
    /// Done with pages written.
    Wrote,
    Counted,
    FoundInBuffer,
    FoundInBatch,
    NoneAtOnce,
    /// None, after reads.
    NoneRead,
    InMemory,
    InFlash,
    /// A text of at least one line.
    Lines,
    EmptyText,
    /// A drop with which no key left the list.
    Dropped,
    /// A drop with which some key left the list.
    Unlisted,
    Refused(u32),
    /// Refused with 12 for a total above what fits, and for nothing else.
    Overcounted,
    /// Refused with 12 for a live number above K, and for nothing else.
    AboveKept,
    /// The same, above F but not above K.
    AboveFlushes,
    /// Refused with 12 for the total at the call's end, above what fits.
    EndsAbove,
    /// The same, below 0.
    EndsBelow,
}

impl Outcome {
    /// Whether it is a refusal with 12 that is told apart from the others.
    pub fn is_overfull(self) -> bool {
        HEAD.contains(&self) || matches!(self, EndsAbove | EndsBelow)
    }
}

use Outcome::*;

/// What each call may come to: accepted, refused for the total at its end, and
/// refused otherwise. A put of 0 is counted by what another value would have
/// come to.
const OUTCOMES: [(&str, &[Outcome], &[u32]); 10] = [
    ("format", &[Changed], &[1, 2, 3]),
    ("put", PUT, &[2, 3, 11, 12, 13, 16]),
    ("put of 0", PUT, &[2, 3, 11, 12, 13, 16]),
    (
        "get",
        &[FoundInBuffer, FoundInBatch, NoneAtOnce, NoneRead],
        &[2, 3, 11, 12, 13],
    ),
    ("del", &[Changed, EndsBelow], &[2, 3, 11, 12, 14]),
    ("flush", &[Wrote, EndsBelow], &[2, 3, 4, 11, 12, 13, 15, 16]),
    ("view", &[InMemory, InFlash], &[2, 3, 4, 11, 12, 13, 17]),
    ("count", &[Counted], &[2, 3, 4, 11, 12]),
    ("text", &[Lines, EmptyText], &[2, 3, 4, 11, 12, 13, 22]),
    (
        "drop",
        &[Dropped, Unlisted, EndsBelow],
        &[2, 3, 4, 11, 12, 13, 23],
    ),
];

const PUT: &[Outcome] = &[Changed, Wrote, EndsAbove, EndsBelow];

/// What every call that checks 12 may come to besides.
const HEAD: [Outcome; 3] = [Overcounted, AboveKept, AboveFlushes];

fn outcomes() -> impl Iterator<Item = (&'static str, Outcome)> {
    OUTCOMES.iter().flat_map(|&(call, outcomes, refused)| {
        let head = if refused.contains(&12) {
            &HEAD[..]
        } else {
            &[]
        };
        let refused = refused.iter().map(|&number| Refused(number));
        let all = outcomes.iter().chain(head).copied().chain(refused);
        all.map(move |outcome| (call, outcome))
    })
}

/// What a call came to, on a memory that a refused call has left as it was.
fn outcome(call: Call, answer: Answer, memory: &[u8]) -> Outcome {
    match answer {
        Answer::Done(0) => Changed,
        Answer::Done(_) => Wrote,
        Answer::Counted(_) => Counted,
        Answer::Found(_, _, _, 0) => FoundInBuffer,
        Answer::Found(..) => FoundInBatch,
        Answer::None(0, _) => NoneAtOnce,
        Answer::None(..) => NoneRead,
        Answer::InMemory(..) => InMemory,
        Answer::InFlash(..) => InFlash,
        Answer::Text(0, _) => EmptyText,
        Answer::Text(..) => Lines,
        Answer::Dropped(0) => Dropped,
        Answer::Dropped(_) => Unlisted,
        Answer::Refused(12, _) => overfull(call, memory),
        Answer::Refused(number, _) => Refused(number),
    }
}

/// Why the call was refused with 12. Where the list or some buffer page of the
/// partition counts too much, or the head twice, it is not told apart.
fn overfull(call: Call, memory: &[u8]) -> Outcome {
    let opening = memory.first_chunk().and_then(Geometry::from_opening);
    let g = opening.expect("12 comes behind 11");
    let t = call.partition(g).expect("12 is about a partition");
    let partition = read_partition(g, memory, t as usize);
    let total = total_fits(g, partition.total);
    let live = live_fits(g, partition.flushes, partition.live);
    let listed = partition.listed <= g.list.into();
    if !listed || !(total || live) || !partition.buffer.iter().all(|page| fits(g, page)) {
        Refused(12)
    } else if !total {
        Overcounted
    } else if !live && partition.live > g.kept.into() {
        AboveKept
    } else if !live {
        AboveFlushes
    } else if !total_fits(g, partition.total + 1) {
        EndsAbove
    } else {
        EndsBelow
    }
}

/// What a put of 1 comes to, tried on a copy of the areas. A put of 0 is refused
/// with 21 whatever that is, unless the areas hold no table.
fn beside_zero(key: u64, answer: Answer, memory: &[u8], flash: &[u8]) -> Outcome {
    let other = Call::Put(key, 1);
    let came_to = call_index(other, &mut memory.to_vec(), &mut flash.to_vec());
    let expected = match came_to {
        Answer::Refused(2 | 3 | 11, _) => came_to,
        _ => Answer::Refused(21, 0),
    };
    assert_eq!(answer, expected, "put of {key} 0");
    outcome(other, came_to, memory)
}

fn name(call: Call) -> &'static str {
    match call {
        Call::Format(_) => "format",
        Call::Put(_, 0) => "put of 0",
        Call::Put(..) => "put",
        Call::Get(_) => "get",
        Call::Del(_) => "del",
        Call::Flush(_) => "flush",
        Call::View(..) => "view",
        Call::Count(_) => "count",
        Call::Text(..) => "text",
        Call::Drop(_) => "drop",
    }
}

#[derive(Default)]
pub struct Tally {
    calls: u64,
    seen: BTreeMap<(&'static str, Outcome), u64>,
}

impl Tally {
    pub fn calls(&self) -> u64 {
        self.calls
    }

    /// Counts a call that was made, given the areas as it left them.
    pub fn count(&mut self, call: Call, answer: Answer, memory: &[u8], flash: &[u8]) {
        let outcome = match call {
            Call::Put(key, 0) => beside_zero(key, answer, memory, flash),
            _ => outcome(call, answer, memory),
        };
        self.calls += 1;
        *self.seen.entry((name(call), outcome)).or_default() += 1;
    }

    /// What must come up has come up, and nothing that may not, nor anything
    /// that the papers do not have the call come to.
    pub fn check(&self, must: impl Fn(&str, Outcome) -> bool, may: impl Fn(&str, Outcome) -> bool) {
        for (call, outcome) in outcomes() {
            let seen = self.seen.contains_key(&(call, outcome));
            assert!(
                seen || !must(call, outcome),
                "{call} never came to {outcome:?}"
            );
        }
        for &(call, outcome) in self.seen.keys() {
            let known = outcomes().any(|known| known == (call, outcome));
            assert!(known && may(call, outcome), "{call} came to {outcome:?}");
        }
    }
}

impl fmt::Display for Tally {
    fn fmt(&self, output: &mut fmt::Formatter<'_>) -> fmt::Result {
        write!(output, "{} calls", self.calls)?;
        for ((call, outcome), number) in &self.seen {
            write!(output, "\n  {call} {outcome:?} {number}")?;
        }
        Ok(())
    }
}
