//! SQLite in WAL mode on the same page writes: a table of 500 rows, each with
//! a blob that has a page of the file to itself. One connection owns the
//! files, a commit flushes the log once (`synchronous=FULL`), and there is
//! no checkpoint but when it is asked for.

use std::ffi::{CString, c_char, c_int, c_void};
use std::path::Path;
use std::ptr;

use crate::files::{Differs, PAGES, Pool};
use crate::side::Page;

/// A row of such a blob fills its page so far that no other row joins it, and
/// no byte of it stands in another page.
const BLOB: usize = 4_000;

const ROW: c_int = 100;
const DONE: c_int = 101;

#[repr(C)]
struct Db(c_void);
#[repr(C)]
struct Statement(c_void);

unsafe extern "C" {
    fn sqlite3_open(name: *const c_char, db: *mut *mut Db) -> c_int;
    fn sqlite3_close(db: *mut Db) -> c_int;
    fn sqlite3_exec(
        db: *mut Db,
        sql: *const c_char,
        row: *const c_void,
        of_row: *const c_void,
        message: *const c_void,
    ) -> c_int;
    fn sqlite3_prepare_v2(
        db: *mut Db,
        sql: *const c_char,
        len: c_int,
        statement: *mut *mut Statement,
        rest: *const c_void,
    ) -> c_int;
    fn sqlite3_bind_int64(statement: *mut Statement, index: c_int, value: i64) -> c_int;
    fn sqlite3_bind_blob(
        statement: *mut Statement,
        index: c_int,
        blob: *const u8,
        len: c_int,
        free: *const c_void,
    ) -> c_int;
    fn sqlite3_step(statement: *mut Statement) -> c_int;
    fn sqlite3_reset(statement: *mut Statement) -> c_int;
    fn sqlite3_finalize(statement: *mut Statement) -> c_int;
    fn sqlite3_column_blob(statement: *mut Statement, column: c_int) -> *const u8;
    fn sqlite3_column_bytes(statement: *mut Statement, column: c_int) -> c_int;
}

const SETTINGS: &str = "PRAGMA page_size=4096; PRAGMA locking_mode=EXCLUSIVE; \
    PRAGMA journal_mode=WAL; PRAGMA synchronous=FULL; PRAGMA wal_autocheckpoint=0; \
    CREATE TABLE pages(id INTEGER PRIMARY KEY, body BLOB); \
    CREATE TABLE checkpoints(count INTEGER); INSERT INTO checkpoints VALUES(0)";

// Every `unsafe` below hands over what this connection made, and blobs that
// outlive the step that reads them.
pub struct Sqlite {
    db: *mut Db,
    update: *mut Statement,
    select: *mut Statement,
}

impl Sqlite {
    pub fn new(folder: &Path) -> Self {
        let file = folder.join("sqlite");
        for name in ["sqlite", "sqlite-wal"] {
            // At first there is none.
            let _ = std::fs::remove_file(folder.join(name));
        }
        let name = CString::new(file.to_str().expect("a plain name")).expect("a plain name");
        let mut db = ptr::null_mut();
        assert_eq!(unsafe { sqlite3_open(name.as_ptr(), &mut db) }, 0);
        let mut sqlite = Self {
            db,
            update: ptr::null_mut(),
            select: ptr::null_mut(),
        };
        sqlite.run(SETTINGS);
        sqlite.fill();
        sqlite.update = sqlite.prepare("UPDATE pages SET body = ?1 WHERE id = ?2");
        sqlite.select = sqlite.prepare("SELECT body FROM pages WHERE id = ?1");
        sqlite
    }

    fn fill(&mut self) {
        let insert = self.prepare("INSERT INTO pages(body, id) VALUES(?1, ?2)");
        self.run("BEGIN");
        for page_num in 1..=PAGES {
            self.write(insert, page_num, &[0; BLOB]);
        }
        self.run("COMMIT");
        unsafe { sqlite3_finalize(insert) };
        self.checkpoint_and_commit();
    }

    fn run(&self, sql: &str) {
        let sql = CString::new(sql).expect("a plain statement");
        let none = ptr::null();
        let answer = unsafe { sqlite3_exec(self.db, sql.as_ptr(), none, none, none) };
        assert_eq!(answer, 0, "{sql:?}");
    }

    fn prepare(&self, sql: &str) -> *mut Statement {
        let sql = CString::new(sql).expect("a plain statement");
        let mut statement = ptr::null_mut();
        let answer =
            unsafe { sqlite3_prepare_v2(self.db, sql.as_ptr(), -1, &mut statement, ptr::null()) };
        assert_eq!(answer, 0, "{sql:?}");
        statement
    }

    fn write(&self, statement: *mut Statement, page_num: u32, blob: &[u8]) {
        unsafe {
            let len = blob.len() as c_int;
            assert_eq!(
                sqlite3_bind_blob(statement, 1, blob.as_ptr(), len, ptr::null()),
                0
            );
            assert_eq!(sqlite3_bind_int64(statement, 2, page_num.into()), 0);
            assert_eq!(sqlite3_step(statement), DONE);
            assert_eq!(sqlite3_reset(statement), 0);
        }
    }

    /// Updates so many rows in a transaction.
    pub fn commit(&mut self, pool: &mut Pool, pages: usize) {
        self.run("BEGIN");
        for _ in 0..pages {
            let differs = pool.differs;
            let (page_num, page) = pool.next();
            self.write(self.update, page_num, blob(page, differs));
        }
        self.run("COMMIT");
    }

    /// Moves the log into the main file and cuts it to nothing.
    pub fn checkpoint(&mut self) {
        self.run("PRAGMA wal_checkpoint(TRUNCATE)");
    }

    /// The same, and a first commit of one page, which flushes the log's
    /// header too: those behind it flush once.
    pub fn checkpoint_and_commit(&mut self) {
        self.checkpoint();
        self.run("UPDATE checkpoints SET count = count + 1");
    }

    /// The row last written has the page's bytes.
    pub fn assert_holds(&self, pool: &Pool) {
        let (page_num, page) = pool.last();
        unsafe {
            assert_eq!(sqlite3_bind_int64(self.select, 1, page_num.into()), 0);
            assert_eq!(sqlite3_step(self.select), ROW);
            let first = sqlite3_column_blob(self.select, 0);
            let len = sqlite3_column_bytes(self.select, 0) as usize;
            let row = std::slice::from_raw_parts(first, len);
            assert!(row == blob(page, pool.differs), "SQLite has other bytes");
            assert_eq!(sqlite3_reset(self.select), 0);
        }
    }
}

/// The part of a page that differs.
fn blob(page: &Page, differs: Differs) -> &[u8] {
    match differs {
        Differs::FromTheFirst | Differs::InTheMiddle => &page[..BLOB],
        Differs::AtTheLast => &page[page.len() - BLOB..],
    }
}

impl Drop for Sqlite {
    fn drop(&mut self) {
        unsafe {
            sqlite3_finalize(self.update);
            sqlite3_finalize(self.select);
            sqlite3_close(self.db);
        }
    }
}
