//! SQLite in memory: the unshared lists as one table keyed by term and device, a prepared statement for each shape of query.
use crate::paper::{Levels, Query};
use crate::plain;
use crate::unshared::Unshared;
use std::collections::HashMap;
use std::ffi::{c_char, c_int, c_void, CString};

#[repr(C)]
struct Handle {
    _opaque: [u8; 0],
}

extern "C" {
    fn sqlite3_open_v2(path: *const c_char, db: *mut *mut Handle, flags: c_int, vfs: *const c_char) -> c_int;
    fn sqlite3_close(db: *mut Handle) -> c_int;
    fn sqlite3_exec(
        db: *mut Handle, sql: *const c_char, each: *const c_void, with: *const c_void, error: *mut *mut c_char,
    ) -> c_int;
    fn sqlite3_prepare_v2(
        db: *mut Handle, sql: *const c_char, length: c_int, statement: *mut *mut Handle, rest: *mut *const c_char,
    ) -> c_int;
    fn sqlite3_bind_int64(statement: *mut Handle, at: c_int, value: i64) -> c_int;
    fn sqlite3_step(statement: *mut Handle) -> c_int;
    fn sqlite3_column_int(statement: *mut Handle, at: c_int) -> c_int;
    fn sqlite3_reset(statement: *mut Handle) -> c_int;
    fn sqlite3_finalize(statement: *mut Handle) -> c_int;
}

const ROW: c_int = 100;

/// To read and write, to create, and without locks: one thread alone uses it.
const FLAGS: c_int = 0x2 | 0x4 | 0x8000;

/// How many required terms, how many forbidden, and whether levels are read.
type Shape = (usize, usize, bool);

pub struct Database {
    db: *mut Handle,
    statements: HashMap<Shape, *mut Handle>,
    /// how many devices carry each term, by its number
    sizes: Vec<usize>,
}

impl Database {
    pub fn new(unshared: &Unshared, level: &[u8]) -> Database {
        let mut db = std::ptr::null_mut();
        let path = CString::new(":memory:").unwrap();
        assert_eq!(unsafe { sqlite3_open_v2(path.as_ptr(), &mut db, FLAGS, std::ptr::null()) }, 0);
        let sizes = unshared.lists.iter().map(Vec::len).collect();
        let database = Database { db, statements: HashMap::new(), sizes };
        database.run("CREATE TABLE device (number INTEGER PRIMARY KEY, level INTEGER NOT NULL)");
        database.run("CREATE TABLE carries (term INTEGER, device INTEGER, PRIMARY KEY (term, device)) WITHOUT ROWID");
        database.run("BEGIN");
        let devices = level.iter().enumerate().map(|(i, &code)| [i as i64 + 1, code as i64]);
        database.fill("INSERT INTO device VALUES (?1, ?2)", devices);
        let terms = unshared.lists.iter().enumerate();
        let rows = terms.flat_map(|(term, list)| list.iter().map(move |&d| [term as i64, d as i64]));
        database.fill("INSERT INTO carries VALUES (?1, ?2)", rows);
        database.run("COMMIT");
        database.run("ANALYZE");
        database
    }

    fn run(&self, sql: &str) {
        let text = CString::new(sql).unwrap();
        let none = std::ptr::null();
        let done = unsafe { sqlite3_exec(self.db, text.as_ptr(), none, none, std::ptr::null_mut()) };
        assert_eq!(done, 0, "{sql}");
    }

    fn prepare(&self, sql: &str) -> *mut Handle {
        let text = CString::new(sql).unwrap();
        let mut statement = std::ptr::null_mut();
        let done = unsafe { sqlite3_prepare_v2(self.db, text.as_ptr(), -1, &mut statement, std::ptr::null_mut()) };
        assert_eq!(done, 0, "{sql}");
        statement
    }

    fn fill(&self, sql: &str, rows: impl Iterator<Item = [i64; 2]>) {
        let statement = self.prepare(sql);
        for row in rows {
            unsafe {
                sqlite3_bind_int64(statement, 1, row[0]);
                sqlite3_bind_int64(statement, 2, row[1]);
                sqlite3_step(statement);
                sqlite3_reset(statement);
            }
        }
        unsafe { sqlite3_finalize(statement) };
    }

    fn sql((required, forbidden, levels): Shape) -> String {
        let mut sql = String::from("SELECT c1.device FROM carries c1");
        for k in 2..=required {
            sql += &format!(" JOIN carries c{k} ON c{k}.term = ?{k} AND c{k}.device = c1.device");
        }
        let mut next = required + 1;
        if levels {
            sql += &format!(" JOIN device d ON d.number = c1.device AND d.level BETWEEN ?{next} AND ?{}", next + 1);
            next += 2;
        }
        sql += " WHERE c1.term = ?1";
        for k in next..next + forbidden {
            sql += &format!(" AND NOT EXISTS (SELECT 1 FROM carries WHERE term = ?{k} AND device = c1.device)");
        }
        sql + " ORDER BY c1.device"
    }

    /// The shortest required list is given first: from its devices the others are looked up.
    pub fn search(&mut self, q: &Query, answer: &mut [u16]) -> usize {
        let (low, high) = plain::codes(q.levels);
        let levels = (q.levels != Levels::Any).then_some([low as u32, high as u32]);
        let shape = (q.required.len(), q.forbidden.len(), levels.is_some());
        let statement = match self.statements.get(&shape) {
            Some(&statement) => statement,
            None => {
                let statement = self.prepare(&Database::sql(shape));
                self.statements.insert(shape, statement);
                statement
            }
        };
        let mut required = q.required.clone();
        required.sort_by_key(|&term| self.sizes[term as usize]);
        let values = required.iter().chain(levels.iter().flatten()).chain(&q.forbidden);
        let mut count = 0;
        unsafe {
            for (i, &value) in values.enumerate() {
                sqlite3_bind_int64(statement, i as c_int + 1, value as i64);
            }
            while sqlite3_step(statement) == ROW {
                answer[count] = sqlite3_column_int(statement, 0) as u16;
                count += 1;
            }
            sqlite3_reset(statement);
        }
        count
    }
}

impl Drop for Database {
    fn drop(&mut self) {
        unsafe {
            for &statement in self.statements.values() {
                sqlite3_finalize(statement);
            }
            sqlite3_close(self.db);
        }
    }
}
