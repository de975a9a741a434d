//! Runs session forms from standard input on the Rust index, and prints the
//! bytes that memory and flash hold then: the example of docs/FORMAT.md.

use reference::session::Session;
use reference::Layout;
use std::io::{self, BufRead};

fn main() -> io::Result<()> {
    let mut session = Session::new();
    for line in io::stdin().lock().lines() {
        let line = line?;
        println!("{line}  {}", session.line(line.as_bytes()));
    }
    match Layout::open(session.memory(), session.flash()) {
        Ok(layout) => {
            dump("memory", &session.memory()[..layout.memory_need()]);
            dump("flash", &session.flash()[..layout.flash_need()]);
        }
        Err(refusal) => println!("no table: refusal {}", refusal.number()),
    }
    Ok(())
}

/// Sixteen bytes a line, behind their offset.
fn dump(name: &str, bytes: &[u8]) {
    println!("{name}, {} bytes", bytes.len());
    for (line, bytes) in bytes.chunks(16).enumerate() {
        let bytes: Vec<String> = bytes.iter().map(|byte| format!("{byte:02x}")).collect();
        println!("{:6}  {}", 16 * line, bytes.join(" "));
    }
}
