//! Instructions per operation under callgrind: the work is run with half of
//! its operations and with all of them, and the difference is taken, so that
//! whatever comes before and after falls out. A text counts by its lines.

use crate::fill::Op;
use crate::measure::{self, Which};
use crate::tables::Tables;
use crate::work::{self, Kind, Work};
use reference::Geometry;
use std::fs;
use std::io;
use std::path::Path;
use std::process::{Child, Command, Stdio};

#[derive(Clone, Copy)]
pub struct Count {
    pub engine: f64,
    pub rust: f64,
}

const KINDS: [(&str, Kind); 7] = [
    ("put", Kind::Put),
    ("get", Kind::Get),
    ("get-put", Kind::GetThenPut),
    ("del", Kind::Del),
    ("flush", Kind::Flush),
    ("text", Kind::Text),
    ("drop", Kind::Drop),
];

pub fn is_there() -> bool {
    let asked = Command::new("valgrind").arg("--version").output();
    asked.is_ok_and(|output| output.status.success())
}

fn words_of(op: &Op) -> [u64; 3] {
    [op.table, op.key, op.value]
}

/// Writes tables and work to files in the folder.
fn save(folder: &Path, tables: &Tables, work: &Work) -> io::Result<()> {
    let count = (tables.count as u64).to_le_bytes();
    fs::write(folder.join("count"), count)?;
    fs::write(folder.join("memory"), &tables.memory)?;
    fs::write(folder.join("flash"), &tables.flash)?;
    let words = work.ops.iter().flat_map(words_of);
    let bytes: Vec<u8> = words.flat_map(u64::to_le_bytes).collect();
    fs::write(folder.join("ops"), bytes)
}

fn load(folder: &Path) -> io::Result<(Tables, Vec<Op>)> {
    let words = |bytes: Vec<u8>| -> Vec<u64> {
        let words = bytes.chunks_exact(8);
        let word = |word: &[u8]| u64::from_le_bytes(word.try_into().expect("8 bytes"));
        words.map(word).collect()
    };
    let count = words(fs::read(folder.join("count"))?)[0] as usize;
    let memory = fs::read(folder.join("memory"))?;
    let flash = fs::read(folder.join("flash"))?;
    let opening = memory.first_chunk().expect("32 bytes");
    let geometry = Geometry::from_opening(opening).expect("opening numbers");
    let words = words(fs::read(folder.join("ops"))?);
    let op = |words: &[u64]| Op {
        table: words[0],
        key: words[1],
        value: words[2],
    };
    let ops = words.chunks_exact(3).map(op).collect();
    Ok((Tables::with(geometry, count, memory, flash), ops))
}

/// The counted process: `--count OPERATION ENGINE N FOLDER`.
pub fn counted(operation: &str, engine: &str, n: &str, folder: &str) -> Result<(), String> {
    let kind = KINDS.iter().find(|kind| kind.0 == operation);
    let kind = kind.ok_or("no such operation")?.1;
    let which = match engine {
        "engine" => Which::Engine,
        "rust" => Which::Rust,
        _ => return Err("the engine is 'engine' or 'rust'".into()),
    };
    let n: usize = n.parse().map_err(|_| "no number")?;
    let (mut tables, ops) = load(Path::new(folder)).map_err(|e| e.to_string())?;
    let ops = ops.get(..n).ok_or("not so many operations")?;
    println!("{}", measure::run(which, kind, &mut tables, ops));
    Ok(())
}

fn start(folder: &Path, kind: Kind, engine: &str, n: usize) -> io::Result<Child> {
    let name = KINDS.iter().find(|each| each.1 == kind).expect("a kind").0;
    Command::new("valgrind")
        .args(["--tool=callgrind", "--callgrind-out-file=/dev/null"])
        .arg(std::env::current_exe()?)
        .args(["--count", name, engine, &n.to_string()])
        .arg(folder)
        .stdout(Stdio::null())
        .stderr(Stdio::piped())
        .spawn()
}

/// The instructions that callgrind collected.
fn collected(child: Child) -> Option<f64> {
    let output = child.wait_with_output().ok()?;
    let text = String::from_utf8_lossy(&output.stderr).into_owned();
    let line = text.lines().find(|line| line.contains("Collected :"))?;
    line.split_whitespace().last()?.parse().ok()
}

/// Per operation, and of a text per line, over the second half of the work.
pub fn row(folder: &Path, tables: &mut Tables, work: &Work) -> Option<Count> {
    save(folder, tables, work).ok()?;
    let (half, all) = (work.ops.len() / 2, work.ops.len());
    let divisor = match work.kind {
        Kind::Text => work::text_sizes(tables, &work.ops[half..]).1,
        _ => all - half,
    };
    let of = |engine: &str| -> Option<f64> {
        let first = start(folder, work.kind, engine, half).ok()?;
        let second = start(folder, work.kind, engine, all).ok()?;
        let (first, second) = (collected(first), collected(second));
        Some((second? - first?) / divisor as f64)
    };
    Some(Count {
        engine: of("engine")?,
        rust: of("rust")?,
    })
}
