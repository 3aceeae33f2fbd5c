//! The calls of libpromql: promql.h says what each does.

use std::ptr;

/// `struct promql_result`.
#[repr(C)]
#[derive(Default)]
pub struct Answer {
    pub status: u32,
    pub length: usize,
    pub start: usize,
    pub end: usize,
    pub line: usize,
    pub column: usize,
}

pub const OK: u32 = 0;
pub const OUT_OF_MEMORY: u32 = 1;
pub const REJECTED: u32 = 4;
pub const NUMBER_TOO_WIDE: u32 = 6;
pub const UNKNOWN_MODE: u32 = 9;
pub const BAD_MATCHER: u32 = 11;
pub const UNFAITHFUL: u32 = 12;
pub const BARE_INFO: u32 = 13;
pub const TOO_LARGE: u32 = 14;
pub const SMALL_STACK: u32 = 15;
pub const LARGE_ENFORCED: u32 = 16;
pub const NOT_A_TREE: u32 = 17;
pub const LONG_OUTPUT: u32 = 18;
pub const NOT_A_NAME: u32 = 20;
pub const METRIC_LABEL: u32 = 21;
pub const CLASH: u32 = 22;
pub const READ_OTHERWISE: u32 = 23;
pub const REFUSED: u32 = 24;
pub const TIME_OVERFLOW: u32 = 25;
pub const GRID_FUNCTION: u32 = 26;

/// `struct promql_times`.
#[repr(C)]
pub struct CallTimes {
    pub start: i64,
    pub end: i64,
    pub step: u64,
    pub lookback: u64,
    pub default_step: u64,
    pub left_open: u32,
}

/// `enum promql_named`.
#[derive(Clone, Copy)]
pub enum Named {
    Metric = 0,
    Label = 1,
}

/// `enum promql_mode`.
#[derive(Clone, Copy)]
pub enum Mode {
    Line = 0,
    Pretty = 1,
    Json = 2,
    PlacedJson = 3,
}

// The first buffer has FIRST_SIZE bytes, and ROOM_PER_BYTE more for each byte of the query, or FORM_ROOM_PER_BYTE for its form: most texts
// have fewer, so a call is made once.
const FIRST_SIZE: usize = 1024;
const ROOM_PER_BYTE: usize = 4;
const FORM_ROOM_PER_BYTE: usize = 10;

extern "C" {
    fn promql_print(
        query: *const u8,
        query_length: usize,
        mode: u32,
        level: u32,
        width: usize,
        buffer: *mut u8,
        buffer_size: usize,
        result: *mut Answer,
    ) -> u32;
    fn promql_canonical(query: *const u8, query_length: usize, buffer: *mut u8, buffer_size: usize, result: *mut Answer) -> u32;
    fn promql_enforce(
        query: *const u8,
        query_length: usize,
        matcher: *const u8,
        matcher_length: usize,
        buffer: *mut u8,
        buffer_size: usize,
        result: *mut Answer,
    ) -> u32;
    fn promql_rename(
        query: *const u8,
        query_length: usize,
        kind: u32,
        from: *const u8,
        from_length: usize,
        to: *const u8,
        to_length: usize,
        buffer: *mut u8,
        buffer_size: usize,
        result: *mut Answer,
    ) -> u32;
    fn promql_collect(query: *const u8, query_length: usize, buffer: *mut u8, buffer_size: usize, result: *mut Answer) -> u32;
    fn promql_places(query: *const u8, query_length: usize, buffer: *mut u8, buffer_size: usize, result: *mut Answer) -> u32;
    fn promql_parts(query: *const u8, query_length: usize, buffer: *mut u8, buffer_size: usize, result: *mut Answer) -> u32;
    fn promql_differences(query: *const u8, query_length: usize, buffer: *mut u8, buffer_size: usize, result: *mut Answer) -> u32;
    fn promql_tokens(text: *const u8, text_length: usize, buffer: *mut u8, buffer_size: usize, result: *mut Answer) -> u32;
    fn promql_windows(
        query: *const u8,
        query_length: usize,
        times: *const CallTimes,
        buffer: *mut u8,
        buffer_size: usize,
        result: *mut Answer,
    ) -> u32;
    fn promql_reaches(
        query: *const u8,
        query_length: usize,
        times: *const CallTimes,
        buffer: *mut u8,
        buffer_size: usize,
        result: *mut Answer,
    ) -> u32;
    fn promql_last_read(
        query: *const u8,
        query_length: usize,
        time: i64,
        times: *const CallTimes,
        buffer: *mut u8,
        buffer_size: usize,
        result: *mut Answer,
    ) -> u32;
    fn promql_pinned(
        query: *const u8,
        query_length: usize,
        start: i64,
        end: i64,
        buffer: *mut u8,
        buffer_size: usize,
        result: *mut Answer,
    ) -> u32;
    fn promql_is_constant(query: *const u8, query_length: usize, buffer: *mut u8, buffer_size: usize, result: *mut Answer) -> u32;
    fn promql_may_read(
        query: *const u8,
        query_length: usize,
        labels: *const u8,
        labels_length: usize,
        buffer: *mut u8,
        buffer_size: usize,
        result: *mut Answer,
    ) -> u32;
    fn promql_check(query: *const u8, query_length: usize, buffer: *mut u8, buffer_size: usize, result: *mut Answer) -> u32;
    fn promql_explain(query: *const u8, query_length: usize, as_json: u32, buffer: *mut u8, buffer_size: usize, result: *mut Answer)
    -> u32;
    fn promql_snippet(
        query: *const u8,
        query_length: usize,
        start: usize,
        end: usize,
        buffer: *mut u8,
        buffer_size: usize,
        result: *mut Answer,
    ) -> u32;
    fn promql_print_tree(
        tree: *const u8,
        tree_length: usize,
        mode: u32,
        level: u32,
        width: usize,
        parentheses: u32,
        buffer: *mut u8,
        buffer_size: usize,
        result: *mut Answer,
    ) -> u32;
    fn promql_format_query(
        query: *const u8,
        query_length: usize,
        width: usize,
        indent_width: usize,
        spelling: u32,
        buffer: *mut u8,
        buffer_size: usize,
        result: *mut Answer,
    ) -> u32;
    fn promql_set_limits(max_len: usize, max_pattern_size: usize);
    fn promql_set_max_output(bytes: usize);
    fn promql_set_max_tree(bytes: usize);
    fn promql_set_target(number: u32) -> u32;
    fn promql_version(buffer: *mut u8, buffer_size: usize, result: *mut Answer) -> u32;
}

/// A call's buffer, its size and its result.
type Buffer = (*mut u8, usize, *mut Answer);

/// Makes a call about a query of that length, with a buffer that is large enough, and returns the text and the result.
fn call(query_len: usize, function: impl Fn(Buffer)) -> (String, Answer) {
    call_with_room(ROOM_PER_BYTE * query_len, function)
}

/// Makes a call with a buffer that has so much room at first beside `FIRST_SIZE`.
fn call_with_room(room: usize, function: impl Fn(Buffer)) -> (String, Answer) {
    let mut text = Vec::with_capacity(FIRST_SIZE + room);
    loop {
        let mut answer = Answer::default();
        function((text.as_mut_ptr(), text.capacity(), ptr::addr_of_mut!(answer)));
        if answer.length <= text.capacity() {
            // SAFETY: the call wrote that many bytes at the start of the buffer.
            unsafe { text.set_len(answer.length) };
            let text = String::from_utf8(text).expect("the library writes UTF-8");
            return (text, answer);
        }
        text.reserve_exact(answer.length);
    }
}

// SAFETY of each call below: the pointers are those of slices that live through the call, and the buffer and the result are
// borrowed alone.

pub fn print(query: &str, mode: Mode, level: u16, width: usize) -> (String, Answer) {
    let room_per_byte = if mode as u32 >= Mode::Json as u32 { FORM_ROOM_PER_BYTE } else { ROOM_PER_BYTE };
    call_with_room(room_per_byte * query.len(), |(buffer, size, answer)| unsafe {
        promql_print(query.as_ptr(), query.len(), mode as u32, level.into(), width, buffer, size, answer);
    })
}

pub fn canonical(query: &str) -> (String, Answer) {
    call(query.len(), |(buffer, size, answer)| unsafe {
        promql_canonical(query.as_ptr(), query.len(), buffer, size, answer);
    })
}

pub fn format_query(query: &str, width: usize, indent_width: usize, spelling: u32) -> (String, Answer) {
    call(query.len(), |(buffer, size, answer)| unsafe {
        promql_format_query(query.as_ptr(), query.len(), width, indent_width, spelling, buffer, size, answer);
    })
}

pub fn enforce(query: &str, matcher: &str) -> (String, Answer) {
    call(query.len(), |(buffer, size, answer)| unsafe {
        promql_enforce(query.as_ptr(), query.len(), matcher.as_ptr(), matcher.len(), buffer, size, answer);
    })
}

pub fn rename(query: &str, kind: Named, from: &str, to: &str) -> (String, Answer) {
    call(query.len(), |(buffer, size, answer)| unsafe {
        let (start, length) = (query.as_ptr(), query.len());
        promql_rename(start, length, kind as u32, from.as_ptr(), from.len(), to.as_ptr(), to.len(), buffer, size, answer);
    })
}

pub fn places(query: &str) -> (String, Answer) {
    call(query.len(), |(buffer, size, answer)| unsafe {
        promql_places(query.as_ptr(), query.len(), buffer, size, answer);
    })
}

pub fn parts(query: &str) -> (String, Answer) {
    call(query.len(), |(buffer, size, answer)| unsafe {
        promql_parts(query.as_ptr(), query.len(), buffer, size, answer);
    })
}

pub fn differences(query: &str) -> (String, Answer) {
    call(query.len(), |(buffer, size, answer)| unsafe {
        promql_differences(query.as_ptr(), query.len(), buffer, size, answer);
    })
}

pub fn tokens(text: &str) -> (String, Answer) {
    call(text.len(), |(buffer, size, answer)| unsafe {
        promql_tokens(text.as_ptr(), text.len(), buffer, size, answer);
    })
}

pub fn collect(query: &str) -> (String, Answer) {
    call(query.len(), |(buffer, size, answer)| unsafe {
        promql_collect(query.as_ptr(), query.len(), buffer, size, answer);
    })
}

pub fn windows(query: &str, times: &CallTimes) -> (String, Answer) {
    call(query.len(), |(buffer, size, answer)| unsafe {
        promql_windows(query.as_ptr(), query.len(), times, buffer, size, answer);
    })
}

pub fn reaches(query: &str, times: &CallTimes) -> (String, Answer) {
    call(query.len(), |(buffer, size, answer)| unsafe {
        promql_reaches(query.as_ptr(), query.len(), times, buffer, size, answer);
    })
}

pub fn last_read(query: &str, time: i64, times: &CallTimes) -> (String, Answer) {
    call(query.len(), |(buffer, size, answer)| unsafe {
        promql_last_read(query.as_ptr(), query.len(), time, times, buffer, size, answer);
    })
}

pub fn pinned(query: &str, start: i64, end: i64) -> (String, Answer) {
    call(query.len(), |(buffer, size, answer)| unsafe {
        promql_pinned(query.as_ptr(), query.len(), start, end, buffer, size, answer);
    })
}

pub fn is_constant(query: &str) -> (String, Answer) {
    call(query.len(), |(buffer, size, answer)| unsafe {
        promql_is_constant(query.as_ptr(), query.len(), buffer, size, answer);
    })
}

pub fn may_read(query: &str, labels: &str) -> (String, Answer) {
    call(query.len(), |(buffer, size, answer)| unsafe {
        promql_may_read(query.as_ptr(), query.len(), labels.as_ptr(), labels.len(), buffer, size, answer);
    })
}

pub fn check(query: &str) -> (String, Answer) {
    call(query.len(), |(buffer, size, answer)| unsafe {
        promql_check(query.as_ptr(), query.len(), buffer, size, answer);
    })
}

/// As JSON.
pub fn explain(query: &str) -> (String, Answer) {
    call(query.len(), |(buffer, size, answer)| unsafe {
        promql_explain(query.as_ptr(), query.len(), 1, buffer, size, answer);
    })
}

pub fn snippet(query: &str, start: usize, end: usize) -> (String, Answer) {
    call(query.len(), |(buffer, size, answer)| unsafe {
        promql_snippet(query.as_ptr(), query.len(), start, end, buffer, size, answer);
    })
}

pub fn print_tree(form: &str, mode: Mode, level: u16, width: usize, parentheses: bool) -> (String, Answer) {
    let (tree, length) = (form.as_ptr(), form.len());
    call_with_room(length, |(buffer, size, answer)| unsafe {
        promql_print_tree(tree, length, mode as u32, level.into(), width, parentheses.into(), buffer, size, answer);
    })
}

pub fn set_limits(max_len: usize, max_pattern_size: usize) {
    // SAFETY: the call takes numbers alone.
    unsafe { promql_set_limits(max_len, max_pattern_size) }
}

pub fn set_max_output(bytes: usize) {
    // SAFETY: the call takes a number alone.
    unsafe { promql_set_max_output(bytes) }
}

pub fn set_max_tree(bytes: usize) {
    // SAFETY: the call takes a number alone.
    unsafe { promql_set_max_tree(bytes) }
}

pub fn set_target(number: u32) {
    // SAFETY: the call takes a number alone. It has a target of each number that `Target` has.
    unsafe { promql_set_target(number) };
}

pub fn version() -> (String, Answer) {
    call(0, |(buffer, size, answer)| unsafe {
        promql_version(buffer, size, answer);
    })
}
