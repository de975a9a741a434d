//! Tables of one geometry side by side, with their areas in two stretches of
//! memory. One table is enough for a large geometry; a small one takes many,
//! so that a pass has work that a clock can see.

use crate::index::Index;
use reference::Geometry;

pub struct Tables {
    pub geometry: Geometry,
    pub count: usize,
    pub memory: Vec<u8>,
    pub flash: Vec<u8>,
    /// A text area that the lines of any partition fit.
    pub text: Vec<u8>,
    memory_size: usize,
    flash_size: usize,
}

/// The longest line of a text.
const LINE_BYTES: usize = b"(put 18446744073709551615 18446744073709551615)\n".len();

impl Tables {
    /// Areas of zeros, each page of them touched.
    pub fn new(geometry: Geometry, count: usize) -> Tables {
        let layout = geometry.layout().expect("an allowed geometry");
        let (memory_size, flash_size) = (layout.memory_need(), layout.flash_need());
        let mut memory = vec![0; count * memory_size];
        let mut flash = vec![0; count * flash_size];
        touch(&mut memory);
        touch(&mut flash);
        Tables::with(geometry, count, memory, flash)
    }

    /// Tables with these bytes.
    pub fn with(geometry: Geometry, count: usize, memory: Vec<u8>, flash: Vec<u8>) -> Tables {
        let layout = geometry.layout().expect("an allowed geometry");
        let mut text = vec![0; LINE_BYTES * layout.most_entries() as usize];
        touch(&mut text);
        Tables {
            geometry,
            count,
            memory_size: memory.len() / count,
            flash_size: flash.len() / count,
            memory,
            flash,
            text,
        }
    }

    #[inline]
    pub fn areas(&self, table: usize) -> (&[u8], &[u8]) {
        (
            &self.memory[table * self.memory_size..][..self.memory_size],
            &self.flash[table * self.flash_size..][..self.flash_size],
        )
    }

    #[inline]
    pub fn areas_mut(&mut self, table: usize) -> (&mut [u8], &mut [u8]) {
        (
            &mut self.memory[table * self.memory_size..][..self.memory_size],
            &mut self.flash[table * self.flash_size..][..self.flash_size],
        )
    }

    /// The areas of a table that is only read, and the text area.
    #[inline]
    pub fn areas_and_text(&mut self, table: usize) -> (&[u8], &[u8], &mut [u8]) {
        (
            &self.memory[table * self.memory_size..][..self.memory_size],
            &self.flash[table * self.flash_size..][..self.flash_size],
            &mut self.text,
        )
    }

    pub fn format<I: Index>(&mut self) {
        let geometry = self.geometry;
        for table in 0..self.count {
            let (memory, flash) = self.areas_mut(table);
            I::format(memory, flash, geometry).expect("areas as long as the need");
        }
    }
}

/// Writes one byte of each page of the machine, so that its first use is over.
fn touch(bytes: &mut [u8]) {
    for byte in bytes.iter_mut().step_by(4096) {
        // A write of the 0 that it holds, which the compiler must not leave out.
        unsafe { std::ptr::write_volatile(byte, 0) };
    }
}

/// The bytes that passes begin with. Flash is kept too, unless the work only
/// writes slots that the kept memory does not count as live.
pub struct Start {
    memory: Vec<u8>,
    flash: Option<Vec<u8>>,
}

impl Start {
    pub fn of(tables: &Tables, with_flash: bool) -> Start {
        Start {
            memory: tables.memory.clone(),
            flash: with_flash.then(|| tables.flash.clone()),
        }
    }

    pub fn restore(&self, tables: &mut Tables) {
        tables.memory.copy_from_slice(&self.memory);
        if let Some(flash) = &self.flash {
            tables.flash.copy_from_slice(flash);
        }
    }
}
