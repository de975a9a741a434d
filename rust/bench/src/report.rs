//! The page docs/BENCHMARKS.md.

use crate::batches::{Batches, FLUSHES};
use crate::machine;
use crate::rivals::ALL;
use crate::shape;
use crate::Part;
use std::fmt::Write;

/// What is said by hand: where the engine was below, what was done, what is left.
const NOTES: &str = include_str!("../notes.md");

pub fn page(parts: &[Part], batches: &Batches, kit: &str) -> String {
    let mut page = String::new();
    opening(&mut page, kit);
    for part in parts {
        geometry(&mut page, part);
    }
    reads(&mut page, parts);
    entries(&mut page, batches);
    for part in parts {
        rivals(&mut page, part);
    }
    page.push_str(NOTES);
    page
}

fn opening(page: &mut String, kit: &str) {
    let kit = if kit.is_empty() { "unknown" } else { kit };
    let _ = write!(
        page,
        "# Benchmarks

Made by `./bench`; this page is written anew by every run.

| | |
|---|---|
| date | {} |
| processor | {} |
| memory | {} |
| kernel | {} |
| Rust | {} |
| Rattle kit | {} |

![The engine's speed as a multiple of the Rust index's](benchmarks.svg)

## How it is measured

- **Engine**: the proved engine, through its C interface (`crates/mortxizal_c`), as `./library` builds it. **Rust index**: `rust/reference`, built for release with link-time optimization. Neither is built for this processor in particular. Each operation is one call that is not inlined, on areas lent as slices; every call opens the table anew.
- Both work by turns on the same areas: a row's work is cut into 64 pieces or so, which the two do alternately, and from pass to pass they change places. So each piece is done by both, from the same bytes. Before each pass of a row that changes them the areas are put back as they were (not the largest table's flash: its passes only write slots that are not live). A piece's time is the median over its passes, a row's time the sum over its pieces. Before that, both do the whole row once, and all answers and all bytes of both areas, and of the text area, are compared.
- **Areas**: both are cleared first and each of their pages is touched, then the table is formatted and filled with fresh random keys; so no pass pays for a page that the kernel hands out. Keys are random 64-bit numbers, the same in every run. Caches are not cleared.
- **Instructions** per operation, and of a text per line, are counted by valgrind (callgrind), as the difference between all operations of a row and the first half of them. They do not depend on the load of the machine. memcpy and memset count as the C library's code that valgrind's processor picks.
- **Floors**: for lookups a `HashMap` of the standard library with all entries of the table; for a flush, memcpy from the buffers to a slot.

",
        machine::date(),
        machine::processor(),
        machine::memory_size(),
        machine::kernel(),
        env!("BENCH_RUSTC"),
        kit,
    );
}

fn geometry(page: &mut String, part: &Part) {
    let shape = &part.shape;
    let layout = shape.geometry.layout().expect("an allowed geometry");
    let title = match shape.name {
        "G" => "The session's geometry, G",
        "middle" => "A middle geometry",
        _ => "The largest geometry that fits",
    };
    let tables = match shape.tables {
        1 => "One table of".to_string(),
        count => format!("{} tables side by side, each of", grouped(count)),
    };
    let _ = write!(
        page,
        "## {title}

{}. {tables} {} bytes of memory and {} of flash, {} flushes of each partition done, {} entries in all. {} passes of each index.

Millions of operations a second; a flush alone and a text in millions of bytes a second. The instructions of a text are those of one line.

| work | engine | Rust index | ratio | floor | instructions: engine | Rust index | ratio |
|---|--:|--:|--:|--:|--:|--:|--:|
",
        shape::numbers(&shape.geometry),
        grouped(layout.memory_need()),
        grouped(layout.flash_need()),
        shape.flushes,
        grouped(part.entries),
        shape.passes,
    );
    for row in &part.rows {
        let bytes = row.bytes.unwrap_or(1.0);
        let floor = row.floor.map_or(String::new(), millions);
        let (engine, rust, ratio) = match row.count {
            Some(count) => (
                format!("{:.0}", count.engine),
                format!("{:.0}", count.rust),
                format!("{:.2}", count.engine / count.rust),
            ),
            None => (String::new(), String::new(), String::new()),
        };
        let _ = writeln!(
            page,
            "| {} | {} | {} | **{:.2}** | {floor} | {engine} | {rust} | {ratio} |",
            row.name,
            millions(row.timing.engine * bytes),
            millions(row.timing.rust * bytes),
            row.timing.ratio,
        );
    }
    if part.rows.iter().all(|row| row.count.is_none()) {
        let reason = if shape.counted {
            "valgrind is not installed"
        } else {
            "areas of this size are too slow under valgrind"
        };
        let _ = writeln!(page, "\nInstructions were not counted: {reason}.");
    }
    page.push('\n');
}

fn reads(page: &mut String, parts: &[Part]) {
    page.push_str(
        "## Flash pages read per lookup

The Bloom formula gives (1 − (1 − 1/M)^(h n))^h as the share of keys that a filter of n entries lets pass though its batch does not hold them. Predicted is its sum over the live batches that the lookup goes through, and 1 for the page with the key. For M = 64 it is too low: a key whose h bits stand in the same row as another's, or in that row read backwards, passes at once, and the formula takes the bits as independent.

| geometry | lookup | measured | predicted |
|---|---|--:|--:|
",
    );
    for part in parts {
        for row in &part.rows {
            if let Some(reads) = row.reads {
                let _ = writeln!(
                    page,
                    "| {} | {} | {:.4} | {:.4} |",
                    part.shape.name, row.name, reads.measured, reads.predicted
                );
            }
        }
    }
    page.push('\n');
}

fn entries(page: &mut String, batches: &Batches) {
    let layout = shape::MIDDLE.layout().expect("an allowed geometry");
    let most = layout.pages() * layout.entries();
    let _ = write!(
        page,
        "## Entries of a flushed batch

A batch goes out when one of its Q pages is full and has to take another key, so a flush writes Q pages for as many entries as the pages hold by then. Once a key's page number was its low 16 bits mod Q: a chunker that keeps its stream number there filled one page, and each batch went out with E entries and Q − 1 empty pages. Since then it is bits 48 to 63 of the mixed key mod Q. Keys that are random throughout spread alike by either rule. Counted in flash, the mean of {} batches of fresh keys in the middle geometry, Q = {} and E = {}, where a batch has room for {}:

| keys | by the low 16 bits, on paper | now |
|---|--:|--:|
| random, with one stream number in the low 16 bits | {} | {} |
| random throughout | as now | {} |

",
        FLUSHES << shape::MIDDLE.parts,
        layout.pages(),
        layout.entries(),
        grouped(most),
        layout.entries(),
        grouped(batches.one_stream.round() as usize),
        grouped(batches.random.round() as usize),
    );
}

fn rivals(page: &mut String, part: &Part) {
    if part.shape.name != "middle" {
        return;
    }
    page.push_str("## Other stores\n\nThe same keys and the same work as in the middle geometry, in a folder in memory. They are general stores that also keep order, crash safety or room for more: the figures say what the box would pay, not which program is better. Millions of operations a second, one pass each.\n\n");
    let absent = ALL.iter().filter(|rival| rival.open.is_none());
    for rival in absent {
        let _ = writeln!(
            page,
            "- {} is not installed (package {}); `./bench --install` installs it.",
            rival.name, rival.package
        );
    }
    for (place, _) in &part.rivals {
        let rival = &ALL[*place];
        let version = machine::package(rival.package);
        let _ = writeln!(page, "- {} {version}: {}.", rival.name, rival.setting);
    }
    if part.rivals.is_empty() {
        page.push('\n');
        return;
    }
    page.push_str("\n| work | engine |");
    for (place, _) in &part.rivals {
        let _ = write!(page, " {} |", ALL[*place].name);
    }
    page.push_str("\n|---|--:|");
    page.push_str(&"--:|".repeat(part.rivals.len()));
    page.push('\n');
    for (place, row) in part.rows.iter().enumerate() {
        // Of the other stores none has a flush like it, nor a text or a drop.
        if part.rivals.iter().all(|(_, rates)| rates[place].is_none()) {
            continue;
        }
        let _ = write!(page, "| {} | {} |", row.name, millions(row.timing.engine));
        for (_, rates) in &part.rivals {
            let rate = rates[place].map_or(String::new(), millions);
            let _ = write!(page, " {rate} |");
        }
        page.push('\n');
    }
    page.push('\n');
}

/// A rate in millions, with three figures.
fn millions(rate: f64) -> String {
    let rate = rate / 1e6;
    match rate {
        _ if rate >= 100.0 => grouped(rate.round() as usize),
        _ if rate >= 10.0 => format!("{rate:.1}"),
        _ if rate >= 1.0 => format!("{rate:.2}"),
        _ => format!("{rate:.3}"),
    }
}

fn grouped(number: usize) -> String {
    let figures = number.to_string();
    let mut grouped = String::new();
    for (place, figure) in figures.chars().enumerate() {
        if place > 0 && (figures.len() - place).is_multiple_of(3) {
            grouped.push(',');
        }
        grouped.push(figure);
    }
    grouped
}
