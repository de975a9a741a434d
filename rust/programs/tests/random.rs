//! Many random lines against the index in plain Rust.
//!
//! `PROGRAMS_SEED` and `PROGRAMS_LINES` choose another seed and more lines.

use std::fmt::Write;

use programs::random::Rng;
use programs::{difference, run};
use reference::session::answer_text;

/// Draws lines.
struct Lines(Rng);

impl Lines {
    /// Small keys in a few partitions, and now and then any key.
    fn key(&mut self) -> u64 {
        match self.0.below(50) {
            0 => self.0.number(),
            1 => u64::MAX,
            _ => self.0.below(40) | self.0.below(4) << 62,
        }
    }

    /// Mostly geometries that fit both areas; some do not, and some are not allowed.
    fn format(&mut self) -> String {
        let page = self.0.pick(&[64, 64, 128, 256, 512, 4096, 100]);
        format!(
            "(format (parts {}) (page {page}) (pages {}) (kept {}) (bits {}) (hashes {}) (list {}))",
            self.0.pick(&[0, 0, 1, 2, 3, 8, 9]),
            self.0.pick(&[1, 1, 2, 4, 8, 64, 3]),
            self.0.pick(&[1, 2, 3, 4, 8, 32, 0, 33]),
            self.0.pick(&[64, 64, 128, 1024, 65536, 63]),
            self.0.pick(&[1, 2, 3, 8, 9]),
            self.0.pick(&[1, 2, 4, 16, 1024, 0]),
        )
    }

    fn line(&mut self) -> String {
        match self.0.below(1_000) {
            0..=2 => self.format(),
            3..=399 => format!(
                "(put {} {})",
                self.key(),
                self.0.pick(&[0, 1, 2, 3, 10, 1 << 32, u64::MAX, 12_345])
            ),
            400..=699 => format!("(get {})", self.key()),
            700..=899 => format!("(del {})", self.key()),
            900..=949 => format!("(flush {})", self.0.below(5)),
            950..=959 => self.damaged(),
            960..=969 => "x".repeat(self.0.below(400) as usize),
            970..=984 => format!("(count {})", self.0.below(5)),
            985..=992 => format!("(drop {})", self.0.below(5)),
            _ => format!("(get {})", self.key()),
        }
    }

    /// A good line with one byte changed, lost or doubled.
    fn damaged(&mut self) -> String {
        let mut line = format!("(put {} {})", self.key(), self.key());
        let at = self.0.below(line.len() as u64) as usize;
        match self.0.below(3) {
            0 => line.replace_range(at..=at, self.0.pick(&[" ", "0", "(", ")", "p"])),
            1 => drop(line.remove(at)),
            _ => line.insert(at, char::from(line.as_bytes()[at])),
        }
        line
    }
}

fn setting(name: &str, otherwise: u64) -> u64 {
    let read = |text: String| {
        text.parse()
            .unwrap_or_else(|_| panic!("{name} is a number"))
    };
    std::env::var(name).map_or(otherwise, read)
}

#[test]
fn random_lines() {
    let seed = setting("PROGRAMS_SEED", 20_240_117);
    let lines = setting("PROGRAMS_LINES", 200_000);
    let mut drawn = Lines(Rng(seed.wrapping_mul(0x9e37_79b9_7f4a_7c15) | 1));
    let mut input = String::from(
        "(format (parts 1) (page 64) (pages 2) (kept 3) (bits 64) (hashes 2) (list 3))\n",
    );
    for _ in 0..lines {
        writeln!(input, "{}", drawn.line()).unwrap();
    }
    let printed = run(input.as_bytes());
    let expected = answer_text(input.as_bytes());
    for kind in [
        "(ok",
        "(found",
        "(none",
        "(bad)",
        "(refused 1 ",
        "(refused 2 ",
        "(refused 3 ",
        "(refused 4 ",
        "(refused 14 ",
        "(refused 15 ",
        "(refused 21 ",
        "(refused 23 ",
    ] {
        assert!(lines < 10_000 || expected.contains(kind), "no line {kind}");
    }
    if let Some(difference) = difference(&printed, expected.as_bytes()) {
        panic!("PROGRAMS_SEED={seed} PROGRAMS_LINES={lines}: {difference}");
    }
}
