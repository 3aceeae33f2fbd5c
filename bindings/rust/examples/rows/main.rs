//! For the tests of the bindings (bindings/rows.py has the format of the files):
//!
//!     rows rows FILE [THREADS]      makes the calls of a file and prints what each gives
//!     rows random FILE COUNT SEED   makes COUNT broken texts of the queries of such a file, and calls with each
//!     rows trees FILE               makes trees of such queries, and texts of these again (bindings/trees.py says more)
//!     rows changed FILE COUNT SEED  changes COUNT of these trees at random
//!
//! In THREADS threads each call is made again, and is to give the same.

mod random;
mod trees;

use promql_proved::{Error, Layout, Target, canonical, check, enforce, format, json, placed_json, set_limits, set_target};
use random::Random;
use std::io::{self, BufWriter, Write};
use std::{env, fs, str, thread};

struct Call<'a> {
    call: u32,
    mode: u32,
    level: u16,
    width: usize,
    query: &'a [u8],
    matcher: &'a [u8],
}

/// The calls of a file.
fn calls(mut bytes: &[u8]) -> Vec<Call<'_>> {
    let mut found = Vec::new();
    while let Some(end) = bytes.iter().position(|byte| *byte == b'\n') {
        let numbers = str::from_utf8(&bytes[..end]).expect("a line of numbers");
        let numbers: Vec<usize> = numbers.split(' ').map(|word| word.parse().expect("a number")).collect();
        let (call, mode, level, width, matcher_length, length) = match numbers[..] {
            [call, mode, level, width, _, matcher_length, length] => (call, mode, level, width, matcher_length, length),
            _ => panic!("a line has {} numbers", numbers.len()),
        };
        let (text, rest) = bytes[end + 1..].split_at(length);
        let (query, matcher) = text.split_at(length - matcher_length);
        found.push(Call { call: call as u32, mode: mode as u32, level: level as u16, width, query, matcher });
        bytes = &rest[1..];
    }
    found
}

/// What a call gives, as `rows.py` reads it.
fn answer(call: &Call<'_>) -> Vec<u8> {
    let query = match str::from_utf8(call.query) {
        Ok(query) => query,
        Err(_) => return line(3, [0; 4], "input is not UTF-8"),
    };
    if call.call == 7 {
        return explanation(query);
    }
    let text = match (call.call, call.mode) {
        (2, _) => check(query).map(|()| String::new()),
        (4, _) => enforce(query, str::from_utf8(call.matcher).expect("a matcher of a row is UTF-8")),
        (1, _) | (0, 0) => canonical(query),
        (0, 1) => format(query, Layout { width: call.width, level: call.level }),
        (0, 3) => placed_json(query),
        _ => json(query),
    };
    match text {
        Ok(text) => line(0, [0; 4], &text),
        Err(Error::TooLarge(it)) => line(14, [it.range.start, it.range.end, it.line, it.column], &it.message),
        Err(Error::Rejected(it)) => line(4, [it.range.start, it.range.end, it.line, it.column], &it.message),
        Err(error @ Error::NumberTooWide) => line(6, [0; 4], &error.to_string()),
        Err(error @ (Error::NotAMatcher(_) | Error::MetricName)) => line(11, [0; 4], &error.to_string()),
        Err(error @ Error::BareInfo) => line(13, [0; 4], &error.to_string()),
        Err(Error::LargeEnforced(message)) => line(16, [0; 4], &message),
        Err(Error::LongOutput(message)) => line(18, [0; 4], &message),
        Err(error) => line(1, [0; 4], &error.to_string()),
    }
}

/// What is said of a query, as the library has it: nothing where it is accepted.
fn explanation(query: &str) -> Vec<u8> {
    let (code, it) = match check(query) {
        Ok(()) => return line(0, [0; 4], ""),
        Err(Error::TooLarge(it)) => (14, it),
        Err(Error::Rejected(it)) => (4, it),
        Err(error) => return line(1, [0; 4], &error.to_string()),
    };
    let told = it.explain(query);
    let names: Vec<String> = told.expected.iter().map(|name| quoted(name)).collect();
    let found = told.found.map(|found| format!(r#","expected":[{}],"found":{}"#, names.join(","), quoted(&found)));
    let place = format!(r#""start":{},"end":{},"line":{},"column":{}"#, it.range.start, it.range.end, it.line, it.column);
    let (error, found) = (quoted(&told.message), found.unwrap_or_default());
    line(0, [0; 4], &format!(r#"{{"code":{code},"error":{error},{place}{found}}}"#))
}

/// A string of JSON, each unit of UTF-16 as an escape.
fn quoted(text: &str) -> String {
    let units: String = text.encode_utf16().map(|it| format!("\\u{it:04x}")).collect();
    format!("\"{units}\"")
}

fn line(status: u32, [start, end, line, column]: [usize; 4], text: &str) -> Vec<u8> {
    format!("{status} {start} {end} {line} {column} {}\n{text}\n", text.len()).into_bytes()
}

fn rows(calls: &[Call<'_>], threads: usize) {
    let answers: Vec<_> = calls.iter().map(answer).collect();
    thread::scope(|scope| {
        for _ in 0..threads {
            scope.spawn(|| assert!(calls.iter().map(answer).eq(answers.iter().cloned()), "another answer in a thread"));
        }
    });
    let mut out = BufWriter::new(io::stdout().lock());
    for it in &answers {
        out.write_all(it).expect("standard output takes the answers");
    }
    out.flush().expect("standard output takes the answers");
}

/// Random bytes, or a query that is cut short or changed at some bytes.
fn broken(random: &mut Random, calls: &[Call<'_>]) -> Vec<u8> {
    let mut text = match random.next(4) {
        0 => (0..random.next(64)).map(|_| random.next(256) as u8).collect(),
        _ => calls[random.next(calls.len())].query.to_vec(),
    };
    if random.next(3) == 0 {
        text.truncate(random.next(text.len() + 1));
    }
    for _ in 0..random.next(4) {
        if !text.is_empty() {
            let at = random.next(text.len());
            text[at] = random.next(256) as u8;
        }
    }
    text
}

fn broken_texts(calls: &[Call<'_>], count: usize, seed: u64) {
    let mut random = Random::new(seed);
    for _ in 0..count {
        let text = broken(&mut random, calls);
        let query = String::from_utf8_lossy(&text);
        match canonical(&query) {
            Ok(line) => assert_eq!(canonical(&line).as_ref(), Ok(&line)),
            Err(Error::Rejected(it) | Error::TooLarge(it)) => {
                assert!(query.get(it.range.clone()).is_some(), "{query:?}: {it:?}");
                it.snippet(&query);
            }
            Err(error) => panic!("{query:?}: {error}"),
        }
        let layout = Layout { width: random.next(100), level: random.next(10) as u16 };
        assert_eq!(format(&query, layout).is_ok(), check(&query).is_ok(), "{query:?}");
    }
    println!("{count} passed, 0 failed");
}

/// The queries of the calls of a file.
fn queries(bytes: &[u8]) -> Vec<&str> {
    calls(bytes).iter().map(|call| str::from_utf8(call.query).expect("a query is UTF-8")).collect()
}

fn main() {
    let words: Vec<String> = env::args().skip(1).collect();
    let words: Vec<&str> = words.iter().map(String::as_str).collect();
    let number = |word: &str| word.parse().expect("a number");
    // Those of the stored run, whose queries have no target.
    set_limits(1_048_576, 32_000);
    set_target(Target::Rules);
    let bytes = fs::read(words.get(1).expect("a file of calls")).expect("the file is read");
    match words[..] {
        ["rows", _] => rows(&calls(&bytes), 0),
        ["rows", _, threads] => rows(&calls(&bytes), number(threads)),
        ["random", _, count, seed] => broken_texts(&calls(&bytes), number(count), number(seed) as u64),
        ["trees", _] => trees::trees(&queries(&bytes)),
        ["changed", _, count, seed] => trees::changed(&queries(&bytes), number(count), number(seed) as u64),
        _ => panic!("unknown arguments"),
    }
}
