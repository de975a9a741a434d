//! Berkeley DB's hash, by way of `berkeley.c`.

use super::Store;
use std::ffi::{c_char, c_int, c_void, CString};
use std::path::Path;
use std::ptr;

extern "C" {
    fn berkeley_open(file: *const c_char, cache: u32, db: *mut *mut c_void) -> c_int;
    fn berkeley_put(db: *mut c_void, key: u64, value: u64) -> c_int;
    fn berkeley_get(db: *mut c_void, key: u64, value: *mut u64) -> c_int;
    fn berkeley_del(db: *mut c_void, key: u64) -> c_int;
    fn berkeley_close(db: *mut c_void) -> c_int;
}

pub struct Berkeley {
    db: *mut c_void,
}

impl Berkeley {
    /// With a cache of 512 MiB, and no environment, log or transactions.
    pub fn open(folder: &Path) -> Berkeley {
        let file = folder.join("berkeley");
        let file = CString::new(file.to_str().expect("a plain path")).expect("a plain path");
        let mut db = ptr::null_mut();
        let failed = unsafe { berkeley_open(file.as_ptr(), 512 << 20, &mut db) };
        assert_eq!(failed, 0, "Berkeley DB opens");
        Berkeley { db }
    }
}

impl Store for Berkeley {
    fn put(&mut self, key: u64, value: u64) {
        assert_eq!(unsafe { berkeley_put(self.db, key, value) }, 0);
    }

    fn get(&mut self, key: u64) -> Option<u64> {
        let mut value = 0;
        match unsafe { berkeley_get(self.db, key, &mut value) } {
            0 => Some(value),
            1 => None,
            failed => panic!("Berkeley DB's get gave {failed}"),
        }
    }

    fn del(&mut self, key: u64) {
        assert_eq!(unsafe { berkeley_del(self.db, key) }, 0);
    }
}

impl Drop for Berkeley {
    fn drop(&mut self) {
        unsafe { berkeley_close(self.db) };
    }
}
