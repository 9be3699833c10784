//! durable serve PROGRAM DATABASE WINDOW COUNT [--fast]: COUNT transactions at `PROGRAM serve [--fast] DATABASE`, WINDOW of
//! them at a time.
//! durable whole PROGRAM DATABASE WINDOW COUNT [--fast]: the same by `do`, a line for each transaction.
//! durable serve-keys .. and whole-keys ..: the same, each under a key of its own.
//! durable fill PROGRAM DATABASE COUNT: the same, 1,000 at a time, and then the service is killed.
//! durable open PROGRAM DATABASE: how long it takes to be greeted; the service is killed then.
//! durable epoch PROGRAM DATABASE COUNT [OPTIONS]: COUNT transactions, 1,000 at a time, and one that aborts, by which the epoch
//! is full: how long the next request waits, while another epoch begins, and how long one waited before.
//! durable loop FILE GROUP COUNT: COUNT times a write of GROUP pages and an fdatasync, over a file that is there.
//! durable sqlite FILE COUNT: COUNT transactions of one UPDATE each, by SQLite's C library (WAL, synchronous=FULL).
//!
//! Each prints the seconds that it took, and `serve` how many reads of its answers there were.
use std::env::args;
use std::ffi::{CString, c_char, c_int, c_void};
use std::fs::OpenOptions;
use std::io::{Read, Seek, SeekFrom, Write};
use std::process::{Child, ChildStdin, ChildStdout, Command, Stdio};
use std::time::Instant;

#[link(name = "sqlite3")]
unsafe extern "C" {
    fn sqlite3_open(path: *const c_char, db: *mut *mut c_void) -> c_int;
    fn sqlite3_exec(db: *mut c_void, sql: *const c_char, f: *const c_void, x: *const c_void, e: *const c_void) -> c_int;
    fn sqlite3_prepare_v2(db: *mut c_void, sql: *const c_char, n: c_int, s: *mut *mut c_void, tail: *const c_void) -> c_int;
    fn sqlite3_step(s: *mut c_void) -> c_int;
    fn sqlite3_reset(s: *mut c_void) -> c_int;
}

/// A service that has greeted, and its pipe.
fn greeted(program: &str, database: &str, options: &[String]) -> (Child, ChildStdin, ChildStdout) {
    let mut child = Command::new(program).args(["serve", database]).args(options).stderr(Stdio::null()).stdin(Stdio::piped()).stdout(Stdio::piped()).spawn().unwrap();
    let (input, mut output) = (child.stdin.take().unwrap(), child.stdout.take().unwrap());
    let mut line = [0; 64];
    let length = output.read(&mut line).unwrap();
    assert!(line[..length].starts_with(b"colock 5 "));
    (child, input, output)
}

/// A key that no other transaction of the database has: it may have been served before.
fn key(number: usize) -> String {
    format!("order:{}:{number}", std::process::id())
}

/// `count` transactions, `window` at a time: each begins, makes a call and commits. How many reads of the answers there were.
fn transactions(input: &mut ChildStdin, output: &mut ChildStdout, window: usize, count: usize) -> usize {
    transactions_by(input, output, window, count, |_| String::new())
}

/// The same, each under a key.
fn keyed_transactions(input: &mut ChildStdin, output: &mut ChildStdout, window: usize, count: usize) -> usize {
    transactions_by(input, output, window, count, |number| format!(" {}", key(number)))
}

/// The same, with what comes behind the name of the transaction that begins as so many before it.
fn transactions_by(input: &mut ChildStdin, output: &mut ChildStdout, window: usize, count: usize, behind: impl Fn(usize) -> String) -> usize {
    let mut buffer = vec![0; 1 << 16];
    let (mut begun, mut ended, mut reads) = (0, 0, 0);
    let (mut asked, mut half) = (String::new(), String::new());
    while begun < window.min(count) {
        asked.push_str(&format!("b{begun} begin\n"));
        begun += 1;
    }
    while ended < count {
        input.write_all(asked.as_bytes()).unwrap();
        asked.clear();
        let read = output.read(&mut buffer).unwrap();
        assert!(read > 0, "the service is gone");
        reads += 1;
        half.push_str(std::str::from_utf8(&buffer[..read]).unwrap());
        let whole = half.rfind('\n').map_or(0, |at| at + 1);
        let lines: String = half.drain(..whole).collect();
        for line in lines.lines() {
            let (tag, answer) = line.split_once(' ').unwrap();
            match &tag[..1] {
                "b" => {
                    let t = answer.strip_prefix("ok ").unwrap();
                    asked.push_str(&format!("c call {t} 0 inc:1\nd commit {t}{}\n", behind(tag[1..].parse().unwrap())));
                }
                "c" => assert!(answer == "reply ok", "{line}"),
                _ => {
                    assert!(answer == "ok", "{line}");
                    ended += 1;
                    if begun < count {
                        asked.push_str(&format!("b{begun} begin\n"));
                        begun += 1;
                    }
                }
            }
        }
    }
    reads
}

/// `count` transactions of one line each, `window` at a time. How many reads of the answers there were.
fn whole_transactions(input: &mut ChildStdin, output: &mut ChildStdout, window: usize, count: usize) -> usize {
    whole_transactions_by(input, output, window, count, |_| String::new())
}

/// The same, each under a key.
fn keyed_whole_transactions(input: &mut ChildStdin, output: &mut ChildStdout, window: usize, count: usize) -> usize {
    whole_transactions_by(input, output, window, count, |number| format!(" ={}", key(number)))
}

/// The same, with what comes behind the verb of the transaction behind so many others.
fn whole_transactions_by(input: &mut ChildStdin, output: &mut ChildStdout, window: usize, count: usize, behind: impl Fn(usize) -> String) -> usize {
    let mut buffer = vec![0; 1 << 16];
    let (mut begun, mut ended, mut reads, mut half) = (window.min(count), 0, 0, String::new());
    let mut asked: String = (0..begun).map(|number| format!("d do{} 0 inc:1\n", behind(number))).collect();
    while ended < count {
        input.write_all(asked.as_bytes()).unwrap();
        asked.clear();
        let read = output.read(&mut buffer).unwrap();
        assert!(read > 0, "the service is gone");
        reads += 1;
        half.push_str(std::str::from_utf8(&buffer[..read]).unwrap());
        let whole = half.rfind('\n').map_or(0, |at| at + 1);
        let lines: String = half.drain(..whole).collect();
        for line in lines.lines() {
            assert!(line == "d done ok", "{line}");
            ended += 1;
            if begun < count {
                asked.push_str(&format!("d do{} 0 inc:1\n", behind(begun)));
                begun += 1;
            }
        }
    }
    reads
}

/// Makes transactions, so many at a time, in one way or the other.
type Way = fn(&mut ChildStdin, &mut ChildStdout, usize, usize) -> usize;

fn serve(way: Way, program: &str, database: &str, options: &[String], window: usize, count: usize) {
    let (mut child, mut input, mut output) = greeted(program, database, options);
    let start = Instant::now();
    let reads = way(&mut input, &mut output, window, count);
    let seconds = start.elapsed().as_secs_f64();
    input.write_all(b"e end\n").unwrap();
    drop(input);
    let mut rest = String::new();
    output.read_to_string(&mut rest).unwrap();
    assert!(rest == "e ok\n" && child.wait().unwrap().success());
    println!("{seconds} {reads}");
}

fn kill(mut child: Child) {
    child.kill().unwrap();
    child.wait().unwrap();
}

fn fill(program: &str, database: &str, count: usize) {
    let (child, mut input, mut output) = greeted(program, database, &[]);
    transactions(&mut input, &mut output, 1000, count);
    kill(child);
}

fn open(program: &str, database: &str) {
    let start = Instant::now();
    let (child, _input, _output) = greeted(program, database, &[]);
    println!("{}", start.elapsed().as_secs_f64());
    kill(child);
}

/// What a request of one line is answered, without its tag, and the seconds that it waited.
fn asked(input: &mut ChildStdin, output: &mut ChildStdout, request: &str) -> (String, f64) {
    let (start, mut line) = (Instant::now(), [0; 64]);
    input.write_all(format!("a {request}\n").as_bytes()).unwrap();
    let length = output.read(&mut line).unwrap();
    let seconds = start.elapsed().as_secs_f64();
    (std::str::from_utf8(&line[..length]).unwrap().trim_end()[2..].to_string(), seconds)
}

fn epoch(program: &str, database: &str, count: usize, options: &[String]) {
    let (child, mut input, mut output) = greeted(program, database, options);
    transactions(&mut input, &mut output, 1000, count);
    let (begun, _) = asked(&mut input, &mut output, "begin");
    let name = begun.strip_prefix("ok ").unwrap();
    for _ in 0..3 {
        assert!(asked(&mut input, &mut output, &format!("call {name} 0 inc:1")).0 == "reply ok");
    }
    let (_, before) = asked(&mut input, &mut output, "kept 0");
    assert!(asked(&mut input, &mut output, &format!("abort {name}")).0 == "ok");
    let (_, waited) = asked(&mut input, &mut output, "kept 0");
    let life: usize = name.split_once('.').unwrap().0.parse().unwrap();
    assert!(asked(&mut input, &mut output, "begin").0 == format!("ok {}.0", life + 1), "no other epoch has begun");
    println!("{waited} {before}");
    kill(child);
}

fn write_loop(path: &str, group: usize, count: usize) {
    let mut file = OpenOptions::new().read(true).write(true).create(true).truncate(true).open(path).unwrap();
    let page = vec![7; 4096 * group.div_ceil(32)];
    for _ in 0..256 {
        file.write_all(&page).unwrap();
    }
    file.sync_all().unwrap();
    let start = Instant::now();
    for turn in 0..count {
        file.seek(SeekFrom::Start((turn % 256 * page.len()) as u64)).unwrap();
        file.write_all(&page).unwrap();
        file.sync_data().unwrap();
    }
    println!("{}", start.elapsed().as_secs_f64());
}

fn sqlite(path: &str, count: usize) {
    let text = |s: &str| CString::new(s).unwrap();
    let none = std::ptr::null();
    unsafe {
        let (mut db, mut update) = (std::ptr::null_mut(), std::ptr::null_mut());
        assert!(sqlite3_open(text(path).as_ptr(), &mut db) == 0);
        let made = "pragma journal_mode=wal; pragma synchronous=full; create table stock(id integer primary key, n); insert into stock values(0, 0)";
        assert!(sqlite3_exec(db, text(made).as_ptr(), none, none, none) == 0);
        assert!(sqlite3_prepare_v2(db, text("update stock set n = n + 1 where id = 0").as_ptr(), -1, &mut update, none) == 0);
        let start = Instant::now();
        for _ in 0..count {
            assert!(sqlite3_step(update) == 101 && sqlite3_reset(update) == 0);
        }
        println!("{}", start.elapsed().as_secs_f64());
    }
}

fn main() {
    let words: Vec<String> = args().skip(1).collect();
    let number = |at: usize| words[at].parse().unwrap();
    match words[0].as_str() {
        "serve" => serve(transactions, &words[1], &words[2], &words[5..], number(3), number(4)),
        "whole" => serve(whole_transactions, &words[1], &words[2], &words[5..], number(3), number(4)),
        "serve-keys" => serve(keyed_transactions, &words[1], &words[2], &words[5..], number(3), number(4)),
        "whole-keys" => serve(keyed_whole_transactions, &words[1], &words[2], &words[5..], number(3), number(4)),
        "fill" => fill(&words[1], &words[2], number(3)),
        "epoch" => epoch(&words[1], &words[2], number(3), &words[4..]),
        "open" => open(&words[1], &words[2]),
        "loop" => write_loop(&words[1], number(2), number(3)),
        "sqlite" => sqlite(&words[1], number(2)),
        other => panic!("no {other}"),
    }
}
