//! A first program over the index: `cargo run --release --offline --example first`.

use std::io::{self, Write};

use mortxizal::{Geometry, Index, Lookup, Place, Refused};

/// One partition, pages of 64 bytes with three entries, one page in a batch,
/// two batches kept, one place for a deleted key.
const GEOMETRY: Geometry = Geometry::DEFAULT
    .with_parts(0)
    .with_page(64)
    .with_pages(1)
    .with_kept(2)
    .with_bits(64)
    .with_hashes(3)
    .with_list(1);

fn pages(written: Result<u32, Refused>) -> String {
    tell(written.map(|pages| format!("done, pages written {pages}")))
}

fn lookup(found: Result<Lookup, Refused>) -> String {
    tell(found.map(|lookup| {
        let told = match lookup {
            Lookup::Found { value, place, .. } => match place {
                Place::Buffer => format!("{value} from the buffer"),
                Place::Batch(number) => format!("{value} from batch {number}"),
            },
            _ => "none".into(),
        };
        let (reads, comparisons) = (lookup.reads(), lookup.comparisons());
        format!("{told}, reads {reads}, comparisons {comparisons}")
    }))
}

fn entries(count: Result<u32, Refused>) -> String {
    tell(count.map(|entries| format!("entries {entries}")))
}

fn page(page: Result<&[u8], Refused>) -> String {
    match page {
        Ok(page) => {
            let entries = u16::from_le_bytes([page[0], page[1]]);
            format!("bytes {}, entries {entries}", page.len())
        }
        Err(refused) => format!("refused with {}", refused.number()),
    }
}

fn tell(answer: Result<String, Refused>) -> String {
    answer.unwrap_or_else(|refused| {
        let (number, reads) = (refused.number(), refused.reads());
        format!("refused with {number}, reads {reads}")
    })
}

/// What a get finds: two of the batch, then that of the buffer.
fn write_text(output: &mut impl Write, index: &Index) -> Result<(), Box<dyn std::error::Error>> {
    // A line is at most 48 bytes long, and no key has two.
    let mut text = vec![0; 48 * index.count(0)? as usize];
    let length = index.text(0, &mut text)?;
    writeln!(output, "text: bytes {length}")?;
    output.write_all(&text[..length])?;
    Ok(())
}

/// Batch 1 goes, and key 2 leaves the list with it; then batch 2, and no batch is left.
fn write_drops(output: &mut impl Write, index: &mut Index) -> io::Result<()> {
    let dropped = |index: &mut Index| pages(index.drop_oldest(0).map(|()| 0));
    writeln!(output, "drop: {}", dropped(index))?;
    for key in [1, 4] {
        writeln!(output, "get {key}: {}", lookup(index.get(key)))?;
    }
    writeln!(output, "count: {}", entries(index.count(0)))?;
    for _ in 0..2 {
        writeln!(output, "drop: {}", dropped(index))?;
    }
    Ok(())
}

/// Writes what `first.c` writes.
pub fn run(output: &mut impl Write) -> Result<(), Box<dyn std::error::Error>> {
    let mut memory = vec![0; GEOMETRY.memory_need()?];
    let mut flash = vec![0; GEOMETRY.flash_need()?];
    let (m, f) = (memory.len(), flash.len());
    writeln!(output, "{m} bytes of memory, {f} of flash")?;

    let index = Index::attach(&mut memory, &mut flash);
    writeln!(output, "get 1: {}", lookup(index.get(1)))?;

    let mut index = Index::format(&mut memory, &mut flash, GEOMETRY)?;
    writeln!(output, "format: {}", pages(Ok(0)))?;
    // With the fourth put the page is full: a flush, then the put.
    for key in 1..=4 {
        writeln!(output, "put {key}: {}", pages(index.put(key, 10 * key)))?;
    }
    // The sound store has nothing at position 0.
    writeln!(output, "put 5: {}", pages(index.put(5, 0)))?;
    // The get of 2 compares the one entry of the buffer page, then two of the batch's
    // page; that of 5 compares that one entry, and no filter passes.
    for key in [2, 4, 5] {
        writeln!(output, "get {key}: {}", lookup(index.get(key)))?;
    }
    writeln!(output, "del 2: {}", pages(index.del(2).map(|()| 0)))?;
    writeln!(output, "get 2: {}", lookup(index.get(2)))?;
    // The list has one place, which key 2 has.
    writeln!(output, "del 3: {}", pages(index.del(3).map(|()| 0)))?;
    // Three in the batch, where key 2 still is, and one in the buffer.
    writeln!(output, "count: {}", entries(index.count(0)))?;
    write_text(output, &index)?;
    for flush in 0..3 {
        writeln!(output, "view {flush}: {}", page(index.view(0, 0, flush)))?;
    }
    for _ in 0..2 {
        writeln!(output, "flush: {}", pages(index.flush(0)))?;
    }
    write_drops(output, &mut index)?;
    Ok(())
}

#[allow(dead_code)]
fn main() -> Result<(), Box<dyn std::error::Error>> {
    run(&mut io::stdout().lock())
}
