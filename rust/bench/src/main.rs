//! The benchmark: the proved engine against the independent Rust index, other
//! stores and floors. `./bench` at the root of the repository runs it.

mod batches;
mod count;
mod engine;
mod fill;
mod floors;
mod index;
mod machine;
mod measure;
mod plot;
mod random;
mod reads;
mod report;
mod rivals;
mod shape;
mod tables;
mod work;

use batches::Batches;
use engine::Engine;
use index::RustIndex;
use random::Random;
use shape::Shape;
use std::fs;
use std::path::{Path, PathBuf};
use std::process::exit;
use tables::{Start, Tables};
use work::{Kind, State, Work};

const USAGE: &str = "bench --docs FOLDER [--folder FOLDER] [--kit TEXT] [--only G|middle|largest]
bench --count put|get|get-put|del|flush|text|drop engine|rust N FOLDER";

/// One row of a geometry's table.
pub struct Row {
    pub name: &'static str,
    /// Mean bytes of an operation, where bytes are counted and not operations.
    pub bytes: Option<f64>,
    pub timing: measure::Timing,
    pub floor: Option<f64>,
    pub reads: Option<reads::Reads>,
    pub count: Option<count::Count>,
}

/// All that was measured of a geometry.
pub struct Part {
    pub shape: Shape,
    pub entries: usize,
    pub rows: Vec<Row>,
    pub rivals: Vec<(usize, Vec<Option<f64>>)>,
}

struct Settings {
    docs: PathBuf,
    folder: PathBuf,
    kit: String,
    only: Option<String>,
}

fn main() {
    let words: Vec<String> = std::env::args().skip(1).collect();
    let words: Vec<&str> = words.iter().map(String::as_str).collect();
    if let ["--count", operation, engine, n, folder] = words[..] {
        if let Err(said) = count::counted(operation, engine, n, folder) {
            eprintln!("bench: {said}");
            exit(2);
        }
        return;
    }
    let Some(settings) = settings(&words) else {
        eprintln!("{USAGE}");
        exit(2);
    };
    let folder = settings
        .folder
        .join(format!("mortxizal-bench-{}", std::process::id()));
    fs::create_dir_all(&folder).expect("a folder to work in");
    let counting = count::is_there();
    let wanted = |shape: &Shape| settings.only.as_ref().is_none_or(|name| name == shape.name);
    let shapes = shape::all().into_iter().filter(wanted);
    let parts: Vec<Part> = shapes.map(|shape| part(shape, counting, &folder)).collect();
    fs::remove_dir_all(&folder).expect("the folder is removed");
    let batches = batches::measured();
    print_batches(&batches);

    let page = settings.docs.join("BENCHMARKS.md");
    fs::write(&page, report::page(&parts, &batches, &settings.kit)).expect("the page is written");
    let picture = settings.docs.join("benchmarks.svg");
    fs::write(&picture, plot::picture(&parts)).expect("the picture is written");
    println!("bench: wrote {} and {}", page.display(), picture.display());
}

fn settings(words: &[&str]) -> Option<Settings> {
    let mut settings = Settings {
        docs: PathBuf::new(),
        folder: PathBuf::from("/dev/shm"),
        kit: String::new(),
        only: None,
    };
    for pair in words.chunks(2) {
        match *pair {
            ["--docs", folder] => settings.docs = PathBuf::from(folder),
            ["--folder", folder] => settings.folder = PathBuf::from(folder),
            ["--kit", kit] => settings.kit = kit.to_string(),
            ["--only", name] => settings.only = Some(name.to_string()),
            _ => return None,
        }
    }
    settings.docs.is_dir().then_some(settings)
}

/// Fills tables of a geometry, then goes through all rows.
fn part(shape: Shape, counting: bool, folder: &Path) -> Part {
    println!(
        "bench: {} ({})",
        shape.name,
        shape::numbers(&shape.geometry)
    );
    let mut tables = Tables::new(shape.geometry, shape.tables);
    tables.format::<RustIndex>();
    fill::fill::<RustIndex>(&mut tables, shape.flushes, &mut Random::new(1));
    if shape.flash_back {
        check_same_fill(&tables, &shape);
    }
    let mut random = Random::new(2);
    let works = work::all(&mut tables, &shape, &mut random);
    let filled = Start::of(&tables, shape.flash_back);
    let map = floors::map(&tables);
    let mut rows = Vec::new();
    for place in 0..works.len() {
        let row = row(
            &mut tables,
            &filled,
            &works,
            place,
            &map,
            &shape,
            counting.then_some(folder),
        );
        print_row(&row);
        rows.push(row);
    }
    let mut rivals = Vec::new();
    if shape.name == "middle" {
        for (place, rival) in rivals::ALL.iter().enumerate() {
            match rival.open {
                Some(open) => {
                    println!("  {}", rival.name);
                    let rates = rivals::rates(&mut *open(folder), &tables, &works);
                    rivals.push((place, rates));
                }
                None => println!("  {}: not installed ({})", rival.name, rival.package),
            }
        }
    }
    Part {
        shape,
        entries: map.len(),
        rows,
        rivals,
    }
}

/// One row: brings the tables into its state, measures, and puts them back.
fn row(
    tables: &mut Tables,
    filled: &Start,
    works: &[Work],
    place: usize,
    map: &std::collections::HashMap<u64, u64>,
    shape: &Shape,
    counted_in: Option<&Path>,
) -> Row {
    let work = &works[place];
    let dels = works.iter().find(|work| work.kind == Kind::Del);
    let dels = dels.map_or(&[][..], |work| &work.ops);
    work::bring(tables, work, dels, &mut Random::new(3));
    let own = (work.state != State::Filled).then(|| Start::of(tables, shape.flash_back));
    let start = own.as_ref().unwrap_or(filled);
    let timing = measure::row(tables, start, work, shape.passes);
    let reads = reads::of(tables, work);
    let count = counted_in
        .filter(|_| shape.counted)
        .and_then(|folder| count::row(folder, tables, work));
    let floor = match work.kind {
        Kind::Get if work.state == State::Filled => Some(floors::lookups(map, work, shape.passes)),
        Kind::Flush => Some(floors::copies(tables, work, shape.passes)),
        _ => None,
    };
    filled.restore(tables);
    Row {
        name: work.name,
        bytes: bytes_each(tables, work),
        timing,
        floor,
        reads,
        count,
    }
}

/// A flush alone counts as the bytes of its batch, a text as its own.
fn bytes_each(tables: &mut Tables, work: &Work) -> Option<f64> {
    let layout = tables.geometry.layout().expect("an allowed geometry");
    match work.kind {
        Kind::Flush => Some(layout.batch_bytes() as f64),
        Kind::Text => {
            let (bytes, _) = work::text_sizes(tables, &work.ops);
            Some(bytes as f64 / work.ops.len() as f64)
        }
        _ => None,
    }
}

/// The engine, given the same puts, leaves the same bytes.
fn check_same_fill(tables: &Tables, shape: &Shape) {
    let mut other = Tables::new(shape.geometry, shape.tables);
    other.format::<Engine>();
    fill::fill::<Engine>(&mut other, shape.flushes, &mut Random::new(1));
    assert!(tables.memory == other.memory, "the memory areas differ");
    assert!(tables.flash == other.flash, "the flash areas differ");
}

fn print_batches(batches: &Batches) {
    println!(
        "  entries of a batch: {:.0} of one stream, {:.0} at random",
        batches.one_stream, batches.random
    );
}

fn print_row(row: &Row) {
    let timing = row.timing;
    let mut line = format!(
        "  {:36} engine {:>12.0}/s  Rust index {:>12.0}/s  ratio {:.2}",
        row.name, timing.engine, timing.rust, timing.ratio
    );
    if let Some(bytes) = row.bytes {
        line += &format!("  bytes each {bytes:.0}");
    }
    if let Some(count) = row.count {
        line += &format!("  instructions {:.0} : {:.0}", count.engine, count.rust);
    }
    if let Some(reads) = row.reads {
        line += &format!("  reads {:.4} ({:.4})", reads.measured, reads.predicted);
    }
    println!("{line}");
}
