//! RocksDB with its default options, but no write-ahead log: the index has none either.

use super::Store;
use std::ffi::{c_char, c_int, c_uchar, c_void, CStr, CString};
use std::path::Path;
use std::ptr;

extern "C" {
    fn rocksdb_options_create() -> *mut c_void;
    fn rocksdb_options_set_create_if_missing(options: *mut c_void, value: c_uchar);
    fn rocksdb_open(
        options: *const c_void,
        name: *const c_char,
        error: *mut *mut c_char,
    ) -> *mut c_void;
    fn rocksdb_close(db: *mut c_void);
    fn rocksdb_writeoptions_create() -> *mut c_void;
    fn rocksdb_writeoptions_disable_WAL(options: *mut c_void, disable: c_int);
    fn rocksdb_readoptions_create() -> *mut c_void;
    fn rocksdb_put(
        db: *mut c_void,
        options: *const c_void,
        key: *const u8,
        key_size: usize,
        value: *const u8,
        value_size: usize,
        error: *mut *mut c_char,
    );
    fn rocksdb_get(
        db: *mut c_void,
        options: *const c_void,
        key: *const u8,
        key_size: usize,
        value_size: *mut usize,
        error: *mut *mut c_char,
    ) -> *mut u8;
    fn rocksdb_delete(
        db: *mut c_void,
        options: *const c_void,
        key: *const u8,
        key_size: usize,
        error: *mut *mut c_char,
    );
    fn rocksdb_free(value: *mut c_void);
}

pub struct Rocks {
    db: *mut c_void,
    write: *mut c_void,
    read: *mut c_void,
}

fn check(error: *mut c_char) {
    if !error.is_null() {
        panic!("RocksDB: {:?}", unsafe { CStr::from_ptr(error) });
    }
}

impl Rocks {
    pub fn open(folder: &Path) -> Rocks {
        let name = folder.join("rocksdb");
        let name = CString::new(name.to_str().expect("a plain path")).expect("a plain path");
        let mut error = ptr::null_mut();
        unsafe {
            let options = rocksdb_options_create();
            rocksdb_options_set_create_if_missing(options, 1);
            let db = rocksdb_open(options, name.as_ptr(), &mut error);
            check(error);
            let write = rocksdb_writeoptions_create();
            rocksdb_writeoptions_disable_WAL(write, 1);
            let read = rocksdb_readoptions_create();
            Rocks { db, write, read }
        }
    }
}

impl Store for Rocks {
    fn put(&mut self, key: u64, value: u64) {
        let (key, value) = (key.to_be_bytes(), value.to_le_bytes());
        let mut error = ptr::null_mut();
        let (k, v) = (key.as_ptr(), value.as_ptr());
        unsafe { rocksdb_put(self.db, self.write, k, 8, v, 8, &mut error) };
        check(error);
    }

    fn get(&mut self, key: u64) -> Option<u64> {
        let key = key.to_be_bytes();
        let (mut size, mut error) = (0, ptr::null_mut());
        let value =
            unsafe { rocksdb_get(self.db, self.read, key.as_ptr(), 8, &mut size, &mut error) };
        check(error);
        if value.is_null() {
            return None;
        }
        assert_eq!(size, 8);
        let number = u64::from_le(unsafe { value.cast::<u64>().read_unaligned() });
        unsafe { rocksdb_free(value.cast()) };
        Some(number)
    }

    fn del(&mut self, key: u64) {
        let key = key.to_be_bytes();
        let mut error = ptr::null_mut();
        unsafe { rocksdb_delete(self.db, self.write, key.as_ptr(), 8, &mut error) };
        check(error);
    }
}

impl Drop for Rocks {
    fn drop(&mut self) {
        unsafe { rocksdb_close(self.db) };
    }
}
