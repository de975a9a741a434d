//! LMDB, with one transaction for every thousand changes.

use super::Store;
use std::ffi::{c_char, c_int, c_uint, c_void, CString};
use std::path::Path;
use std::ptr;

#[repr(C)]
struct Value {
    size: usize,
    data: *mut c_void,
}

extern "C" {
    fn mdb_env_create(env: *mut *mut c_void) -> c_int;
    fn mdb_env_set_mapsize(env: *mut c_void, size: usize) -> c_int;
    fn mdb_env_open(env: *mut c_void, path: *const c_char, flags: c_uint, mode: c_uint) -> c_int;
    fn mdb_env_close(env: *mut c_void);
    fn mdb_txn_begin(
        env: *mut c_void,
        parent: *mut c_void,
        flags: c_uint,
        txn: *mut *mut c_void,
    ) -> c_int;
    fn mdb_txn_commit(txn: *mut c_void) -> c_int;
    fn mdb_dbi_open(
        txn: *mut c_void,
        name: *const c_char,
        flags: c_uint,
        dbi: *mut c_uint,
    ) -> c_int;
    fn mdb_put(
        txn: *mut c_void,
        dbi: c_uint,
        key: *mut Value,
        value: *mut Value,
        flags: c_uint,
    ) -> c_int;
    fn mdb_get(txn: *mut c_void, dbi: c_uint, key: *mut Value, value: *mut Value) -> c_int;
    fn mdb_del(txn: *mut c_void, dbi: c_uint, key: *mut Value, value: *mut Value) -> c_int;
}

const NOSUBDIR: c_uint = 0x4000;
const NOSYNC: c_uint = 0x1_0000;
const WRITEMAP: c_uint = 0x8_0000;
const NOLOCK: c_uint = 0x40_0000;
const INTEGERKEY: c_uint = 0x08;
const NOTFOUND: c_int = -30798;

pub struct Lmdb {
    env: *mut c_void,
    txn: *mut c_void,
    dbi: c_uint,
    changes: u32,
}

fn value_of(number: &mut u64) -> Value {
    Value {
        size: 8,
        data: ptr::from_mut(number).cast(),
    }
}

impl Lmdb {
    /// A writable map of 4 GiB, no syncing, no locks, integer keys.
    pub fn open(folder: &Path) -> Lmdb {
        let file = folder.join("lmdb");
        let file = CString::new(file.to_str().expect("a plain path")).expect("a plain path");
        let (mut env, mut txn, mut dbi) = (ptr::null_mut(), ptr::null_mut(), 0);
        let flags = NOSUBDIR | NOSYNC | WRITEMAP | NOLOCK;
        unsafe {
            assert_eq!(mdb_env_create(&mut env), 0);
            assert_eq!(mdb_env_set_mapsize(env, 4 << 30), 0);
            assert_eq!(mdb_env_open(env, file.as_ptr(), flags, 0o600), 0);
            assert_eq!(mdb_txn_begin(env, ptr::null_mut(), 0, &mut txn), 0);
            assert_eq!(mdb_dbi_open(txn, ptr::null(), INTEGERKEY, &mut dbi), 0);
        }
        Lmdb {
            env,
            txn,
            dbi,
            changes: 0,
        }
    }

    fn changed(&mut self) {
        self.changes += 1;
        if self.changes.is_multiple_of(1000) {
            unsafe {
                assert_eq!(mdb_txn_commit(self.txn), 0);
                assert_eq!(
                    mdb_txn_begin(self.env, ptr::null_mut(), 0, &mut self.txn),
                    0
                );
            }
        }
    }
}

impl Store for Lmdb {
    fn put(&mut self, mut key: u64, mut value: u64) {
        let (mut key, mut value) = (value_of(&mut key), value_of(&mut value));
        let failed = unsafe { mdb_put(self.txn, self.dbi, &mut key, &mut value, 0) };
        assert_eq!(failed, 0);
        self.changed();
    }

    fn get(&mut self, mut key: u64) -> Option<u64> {
        let mut key = value_of(&mut key);
        let mut value = Value {
            size: 0,
            data: ptr::null_mut(),
        };
        match unsafe { mdb_get(self.txn, self.dbi, &mut key, &mut value) } {
            0 => Some(unsafe { value.data.cast::<u64>().read_unaligned() }),
            NOTFOUND => None,
            failed => panic!("LMDB's get gave {failed}"),
        }
    }

    fn del(&mut self, mut key: u64) {
        let mut key = value_of(&mut key);
        let failed = unsafe { mdb_del(self.txn, self.dbi, &mut key, ptr::null_mut()) };
        assert_eq!(failed, 0);
        self.changed();
    }
}

impl Drop for Lmdb {
    fn drop(&mut self) {
        unsafe {
            mdb_txn_commit(self.txn);
            mdb_env_close(self.env);
        }
    }
}
