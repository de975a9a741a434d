//! The geometries that are measured, and how much work each gets.

use crate::machine;
use reference::Geometry;

#[derive(Clone, Copy)]
pub struct Shape {
    pub name: &'static str,
    pub geometry: Geometry,
    /// Tables side by side.
    pub tables: usize,
    /// Flushes of each partition before anything is measured.
    pub flushes: u32,
    /// Whether flash is put back before each pass. It need not be where no slot of a live batch is written again.
    pub flash_back: bool,
    /// Operations in a pass: gets, and puts.
    pub gets: usize,
    pub puts: usize,
    /// Deleted keys in each partition.
    pub dels: usize,
    /// Passes of each index over a row's work.
    pub passes: usize,
    /// Whether instructions are counted.
    pub counted: bool,
}

const SMALL: Geometry = Geometry::new([0, 64, 1, 2, 64, 3, 1]);

pub const MIDDLE: Geometry = Geometry::new([4, 4096, 16, 16, 65536, 4, 256]);

const LARGEST: Geometry = Geometry::new([8, 4096, 64, 32, 65536, 8, 1024]);

pub fn all() -> Vec<Shape> {
    let small = Shape {
        name: "G",
        geometry: SMALL,
        tables: 1024,
        flushes: 4,
        flash_back: true,
        gets: 65536,
        puts: 12288,
        dels: 1,
        passes: 15,
        counted: true,
    };
    let middle = Shape {
        name: "middle",
        geometry: MIDDLE,
        tables: 1,
        flushes: 18,
        flash_back: true,
        gets: 65536,
        puts: 114688,
        dels: 256,
        passes: 11,
        counted: true,
    };
    let largest = Shape {
        name: "largest",
        geometry: largest_that_fits(),
        tables: 1,
        flushes: 4,
        flash_back: false,
        gets: 65536,
        puts: 131072,
        dels: 64,
        passes: 5,
        counted: false,
    };
    vec![small, middle, largest]
}

/// The largest geometry of the table, with fewer partitions where memory is
/// short: the areas, one copy of memory, and a map of the entries beside them.
fn largest_that_fits() -> Geometry {
    let mut geometry = LARGEST;
    loop {
        let layout = geometry.layout().expect("an allowed geometry");
        let bytes = 4 * layout.memory_need() + layout.flash_need() + layout.flash_need() / 2;
        if bytes < machine::free_bytes() || geometry.parts == 0 {
            return geometry;
        }
        geometry.parts -= 1;
    }
}

/// "s=0, P=64, ..."
pub fn numbers(g: &Geometry) -> String {
    format!(
        "s = {}, P = {}, Q = {}, K = {}, M = {}, h = {}, D = {}",
        g.parts, g.page, g.pages, g.kept, g.bits, g.hashes, g.list
    )
}
