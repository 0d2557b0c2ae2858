//! The stock list as a Rust program over SQLite would do it, to compare with: `tools/rates PROGRAM --beside peer`.
//!
//! Build it with `rustc -O tools/peer/peer.rs -l sqlite3` (Debian's package libsqlite3-dev). It takes `--db FILE`,
//! `--station IATA`, and `init` or `stock`, and prints the same lines; it gives no reasons and does nothing else. Rows
//! of `stock` are runs of numbers, statements are prepared once, and a row is one transaction.
use std::collections::HashMap;
use std::ffi::{c_char, c_int, c_void, CString};
use std::io::{self, BufRead, BufWriter, Write};
use std::ptr::null_mut;

#[link(name = "sqlite3")]
unsafe extern "C" {
    fn sqlite3_open(path: *const c_char, db: *mut *mut c_void) -> c_int;
    fn sqlite3_close(db: *mut c_void) -> c_int;
    fn sqlite3_exec(
        db: *mut c_void,
        sql: *const c_char,
        f: *const c_void,
        a: *const c_void,
        e: *mut *mut c_char,
    ) -> c_int;
    fn sqlite3_prepare_v3(
        db: *mut c_void,
        sql: *const c_char,
        n: c_int,
        flags: u32,
        st: *mut *mut c_void,
        tail: *mut *const c_char,
    ) -> c_int;
    fn sqlite3_bind_int64(st: *mut c_void, i: c_int, v: i64) -> c_int;
    fn sqlite3_bind_text(
        st: *mut c_void,
        i: c_int,
        t: *const c_char,
        n: c_int,
        d: *const c_void,
    ) -> c_int;
    fn sqlite3_step(st: *mut c_void) -> c_int;
    fn sqlite3_reset(st: *mut c_void) -> c_int;
    fn sqlite3_finalize(st: *mut c_void) -> c_int;
    fn sqlite3_column_int64(st: *mut c_void, i: c_int) -> i64;
    fn sqlite3_column_text(st: *mut c_void, i: c_int) -> *const u8;
    fn sqlite3_column_bytes(st: *mut c_void, i: c_int) -> c_int;
}

const ROW: c_int = 100;
const DONE: c_int = 101;

/// A prepared statement.
struct Statement(*mut c_void);
impl Statement {
    fn int(&self, i: c_int, v: i64) -> &Self {
        unsafe { sqlite3_bind_int64(self.0, i, v) };
        self
    }

    fn text(&self, i: c_int, v: &str) -> &Self {
        // SQLITE_TRANSIENT: SQLite keeps a copy
        unsafe {
            sqlite3_bind_text(
                self.0,
                i,
                v.as_ptr().cast(),
                v.len() as c_int,
                -1isize as *const c_void,
            )
        };
        self
    }

    fn next(&self) -> bool {
        match unsafe { sqlite3_step(self.0) } {
            ROW => true,
            DONE => false,
            other => panic!("sqlite: {}", other),
        }
    }

    fn run(&self) {
        while self.next() {}
        self.reset();
    }

    fn reset(&self) {
        unsafe { sqlite3_reset(self.0) };
    }

    fn int_at(&self, i: c_int) -> i64 {
        unsafe { sqlite3_column_int64(self.0, i) }
    }

    fn text_at(&self, i: c_int) -> String {
        unsafe {
            let n = sqlite3_column_bytes(self.0, i) as usize;
            String::from_utf8_unchecked(
                std::slice::from_raw_parts(sqlite3_column_text(self.0, i), n).to_vec(),
            )
        }
    }
}

/// Who has a number.
#[derive(Clone, PartialEq)]
enum Holder {
    Desk,
    Agent(String),
    Used,
    Void,
}

impl Holder {
    fn code(&self) -> (i64, &str) {
        match self {
            Holder::Desk => (0, ""),
            Holder::Agent(name) => (1, name),
            Holder::Used => (2, ""),
            Holder::Void => (3, ""),
        }
    }
}

/// The numbers from low to high, which one holder has.
#[derive(Clone)]
struct Run {
    low: i64,
    high: i64,
    holder: Holder,
}

/// The database, and the statements of a row.
struct Desk {
    db: *mut c_void,
    kept: Statement,
    keep: Statement,
    before: Statement,
    within: Statement,
    delete: Statement,
    insert: Statement,
    begin: Statement,
    commit: Statement,
}

/// What a row is answered: a count, or a refusal and perhaps the lowest number that fails.
enum Answer {
    Ok(i64),
    Refused(u16, Option<i64>),
}

impl Desk {
    fn open(path: &str) -> Desk {
        let mut db = null_mut();
        let name = CString::new(path).unwrap();
        assert_eq!(unsafe { sqlite3_open(name.as_ptr(), &mut db) }, 0);
        exec(db, "PRAGMA journal_mode=WAL; PRAGMA synchronous=FULL;
            CREATE TABLE IF NOT EXISTS stock(prefix INTEGER NOT NULL, low INTEGER NOT NULL, high INTEGER NOT NULL, code INTEGER NOT NULL, agent TEXT NOT NULL, PRIMARY KEY(prefix, low)) STRICT;
            CREATE TABLE IF NOT EXISTS kept_key(id TEXT NOT NULL PRIMARY KEY, command TEXT NOT NULL, count INTEGER NOT NULL) STRICT;");
        let p = |sql: &str| prepare(db, sql);
        Desk {
            db,
            kept: p("SELECT command, count FROM kept_key WHERE id = ?1"),
            keep: p("INSERT INTO kept_key VALUES (?1, ?2, ?3)"),
            before: p("SELECT low, high, code, agent FROM stock WHERE prefix = ?1 AND low < ?2 ORDER BY low DESC LIMIT 1"),
            within: p("SELECT low, high, code, agent FROM stock WHERE prefix = ?1 AND low >= ?2 AND low <= ?3 ORDER BY low"),
            delete: p("DELETE FROM stock WHERE prefix = ?1 AND low = ?2"),
            insert: p("INSERT INTO stock VALUES (?1, ?2, ?3, ?4, ?5)"),
            begin: p("BEGIN IMMEDIATE"),
            commit: p("COMMIT"),
        }
    }

    fn run_of(st: &Statement) -> Run {
        let holder = match st.int_at(2) {
            0 => Holder::Desk,
            1 => Holder::Agent(st.text_at(3)),
            2 => Holder::Used,
            _ => Holder::Void,
        };
        Run {
            low: st.int_at(0),
            high: st.int_at(1),
            holder,
        }
    }

    /// The runs that touch the numbers from low to high, and those next to them.
    fn near(&self, prefix: i64, low: i64, high: i64) -> Vec<Run> {
        let mut runs = Vec::new();
        self.before.int(1, prefix).int(2, low);
        if self.before.next() {
            let run = Desk::run_of(&self.before);
            if run.high >= low - 1 {
                runs.push(run);
            }
        }
        self.before.reset();
        self.within.int(1, prefix).int(2, low).int(3, high + 1);
        while self.within.next() {
            runs.push(Desk::run_of(&self.within));
        }
        self.within.reset();
        runs
    }

    /// Carries an order out, once under its key.
    fn order(
        &self,
        key: &str,
        verb: &str,
        prefix: i64,
        low: i64,
        count: i64,
        agent: &str,
    ) -> Answer {
        let command = format!("{verb},{prefix:03},{low:07},{count},{agent}");
        self.kept.text(1, key);
        let known = self
            .kept
            .next()
            .then(|| (self.kept.text_at(0), self.kept.int_at(1)));
        self.kept.reset();
        if let Some((kept, count)) = known {
            return if kept == command {
                Answer::Ok(count)
            } else {
                Answer::Refused(501, None)
            };
        }
        if count < 1 || count > 1_000_000 || low + count - 1 > 9_999_999 {
            return Answer::Refused(105, None);
        }
        let high = low + count - 1;
        let runs = self.near(prefix, low, high);
        let agent = agent.to_string();
        let (to, refusal) = match verb {
            "take-in" => (Holder::Desk, 101),
            "issue" => (Holder::Agent(agent.clone()), 102),
            "return" => (Holder::Desk, 103),
            _ => (Holder::Void, 104),
        };
        let passes = |holder: Option<&Holder>| match (verb, holder) {
            ("take-in", None) => true,
            ("issue", Some(Holder::Desk)) => true,
            ("return", Some(Holder::Agent(name))) => *name == agent,
            ("void", Some(Holder::Desk | Holder::Agent(_))) => true,
            _ => false,
        };
        // the lowest number that fails
        let mut at = low;
        for run in &runs {
            if run.high < low || run.low > high {
                continue;
            }
            if run.low > at && !passes(None) {
                return Answer::Refused(refusal, Some(at));
            }
            if !passes(Some(&run.holder)) {
                return Answer::Refused(refusal, Some(run.low.max(low)));
            }
            at = run.high + 1;
        }
        if at <= high && !passes(None) {
            return Answer::Refused(refusal, Some(at));
        }
        self.begin.run();
        let mut new = Run {
            low,
            high,
            holder: to,
        };
        for run in &runs {
            let same = run.holder == new.holder;
            if (run.high < low || run.low > high) && !same {
                continue;
            }
            self.delete.int(1, prefix).int(2, run.low).run();
            if same {
                new.low = new.low.min(run.low);
                new.high = new.high.max(run.high);
                continue;
            }
            if run.low < low {
                self.put(
                    prefix,
                    &Run {
                        high: low - 1,
                        ..run.clone()
                    },
                );
            }
            if run.high > high {
                self.put(
                    prefix,
                    &Run {
                        low: high + 1,
                        ..run.clone()
                    },
                );
            }
        }
        self.put(prefix, &new);
        self.keep.text(1, key).text(2, &command).int(3, count).run();
        self.commit.run();
        Answer::Ok(count)
    }

    /// Inserts a run.
    fn put(&self, prefix: i64, run: &Run) {
        let (code, agent) = run.holder.code();
        self.insert
            .int(1, prefix)
            .int(2, run.low)
            .int(3, run.high)
            .int(4, code)
            .text(5, agent)
            .run();
    }
}

/// Runs statements that take nothing.
fn exec(db: *mut c_void, sql: &str) {
    let sql = CString::new(sql).unwrap();
    assert_eq!(
        unsafe { sqlite3_exec(db, sql.as_ptr(), null_mut(), null_mut(), null_mut()) },
        0
    );
}

/// Prepares a statement that stays until the end.
fn prepare(db: *mut c_void, sql: &str) -> Statement {
    let mut st = null_mut();
    let sql = CString::new(sql).unwrap();
    assert_eq!(
        unsafe { sqlite3_prepare_v3(db, sql.as_ptr(), -1, 1, &mut st, null_mut()) },
        0
    );
    Statement(st)
}

/// So many digits, as a number.
fn field_count(text: &str, digits: usize) -> Option<i64> {
    (text.len() == digits && text.bytes().all(|b| b.is_ascii_digit()))
        .then(|| text.parse().unwrap())
}

/// The fields of a row, or `None` if it is malformed.
fn read_row(row: &str) -> Option<(&str, &str, i64, i64, i64, &str)> {
    let fields: Vec<&str> = row.split(',').collect();
    let [key, verb, prefix, serial, count, agent] = fields[..] else {
        return None;
    };
    if key.is_empty() || key.len() > 32 || !matches!(verb, "take-in" | "issue" | "return" | "void")
    {
        return None;
    }
    if agent.is_empty() == matches!(verb, "issue" | "return") {
        return None;
    }
    let prefix = field_count(prefix, 3)?;
    let serial = field_count(serial, 7)?;
    if count.is_empty() || count.len() > 9 || !count.bytes().all(|b| b.is_ascii_digit()) {
        return None;
    }
    Some((key, verb, prefix, serial, count.parse().ok()?, agent))
}

fn main() -> io::Result<()> {
    let words: Vec<String> = std::env::args().skip(1).collect();
    let mut options = HashMap::new();
    let mut rest = Vec::new();
    let mut words = words.into_iter();
    while let Some(word) = words.next() {
        match word.as_str() {
            "--db" | "--station" => {
                options.insert(word, words.next().unwrap());
            }
            _ => rest.push(word),
        }
    }
    let desk = Desk::open(options.get("--db").map_or(":memory:", |p| p));
    let direct = options.contains_key("--db");
    if rest[0] == "init" {
        println!("ok {}", options["--station"]);
    } else {
        let mut out = BufWriter::new(io::stdout().lock());
        let mut input = io::stdin().lock();
        let mut line = String::new();
        let mut number = 0;
        while {
            line.clear();
            input.read_line(&mut line)?
        } > 0
        {
            number += 1;
            match read_row(line.trim_end_matches(['\r', '\n'])) {
                None => writeln!(out, "row {number} bad")?,
                Some((key, verb, prefix, low, count, agent)) => {
                    match desk.order(key, verb, prefix, low, count, agent) {
                        Answer::Ok(n) => writeln!(out, "{key} ok {n}")?,
                        Answer::Refused(code, None) => writeln!(out, "{key} refused {code}")?,
                        Answer::Refused(code, Some(n)) => {
                            writeln!(out, "{key} refused {code} {prefix:03}-{n:07}{}", n % 7)?
                        }
                    }
                }
            }
            if direct {
                out.flush()?;
            }
        }
        out.flush()?;
    }
    for st in [
        &desk.kept,
        &desk.keep,
        &desk.before,
        &desk.within,
        &desk.delete,
        &desk.insert,
        &desk.begin,
        &desk.commit,
    ] {
        unsafe { sqlite3_finalize(st.0) };
    }
    unsafe { sqlite3_close(desk.db) };
    Ok(())
}
