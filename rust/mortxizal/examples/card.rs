//! What some cards carry, told before one is ordered:
//! `cargo run --release --offline --example card`.

use std::io::{self, Write};

use mortxizal::Geometry;

const PUTS: u32 = 1_000_000;

/// Cards that may be ordered, with the numbers that their tables would have.
fn offers() -> [(&'static str, Geometry); 4] {
    let middle = Geometry::default();
    let small = Geometry::default()
        .with_parts(0)
        .with_page(64)
        .with_pages(1)
        .with_kept(2)
        .with_bits(64)
        .with_hashes(3)
        .with_list(1);
    let largest = middle
        .with_parts(8)
        .with_pages(64)
        .with_kept(32)
        .with_list(1024);
    // At most 32 batches are kept.
    let none_such = largest.with_kept(33);
    [
        ("small", small),
        ("middle", middle),
        ("largest", largest),
        ("none such", none_such),
    ]
}

/// Writes what `card.c` writes.
pub fn run(output: &mut impl Write) -> io::Result<()> {
    writeln!(output, "in {PUTS} puts")?;
    let (memory, flash, flushes, lost) = ("memory", "flash", "flushes", "first lost");
    let head = format!("{memory:>10} {flash:>11} {flushes:>8} {lost:>11}");
    writeln!(output, "{:<10} {head}", "card")?;
    for (name, geometry) in offers() {
        let told = match geometry.figures(PUTS) {
            Ok(card) => format!(
                "{:>10} {:>11} {:>8} {:>11}",
                card.memory, card.flash, card.flushes, card.first_lost
            ),
            Err(refused) => format!("refused with {}", refused.number()),
        };
        writeln!(output, "{name:<10} {told}")?;
    }
    Ok(())
}

#[allow(dead_code)]
fn main() -> io::Result<()> {
    run(&mut io::stdout().lock())
}
