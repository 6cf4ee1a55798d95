//! pressclip in Rust: the calls of `include/pressclip.h` over `libpressclip.a`, behind a type that closes its engine.
//!
//! Each call looks at the status, and reads a pointer only where that is 0 and the pointer isn't null. No call panics.

// The program beside this file doesn't make every call.
#![allow(dead_code)]

use std::error::Error;
use std::ffi::CStr;
use std::fmt;
use std::ops::Range;
use std::os::raw::{c_char, c_int};
use std::ptr::{self, NonNull};
use std::slice;

/// What `include/pressclip.h` declares.
mod raw {
    use std::os::raw::{c_char, c_int, c_void};

    /// An engine, seen by its address alone.
    #[repr(C)]
    pub struct Engine {
        private: [u8; 0],
    }

    /// What was found of an article, seen by its address alone.
    #[repr(C)]
    pub struct Result {
        private: [u8; 0],
    }

    /// A field of an article.
    #[repr(C)]
    pub struct Field {
        pub name: *const c_char,
        pub name_length: usize,
        pub text: *const c_char,
        pub text_length: usize,
    }

    extern "C" {
        pub fn pressclip_word(status: c_int) -> *const c_char;
        pub fn pressclip_open(hits: bool, engine: *mut *mut Engine) -> c_int;
        pub fn pressclip_close(engine: *mut *mut Engine);
        pub fn pressclip_line(
            engine: *mut Engine,
            line: *const c_char,
            length: usize,
            reply: *mut *mut c_char,
            reply_length: *mut usize,
        ) -> c_int;
        pub fn pressclip_free(answer: *mut c_void);
        pub fn pressclip_register(
            engine: *mut Engine,
            id: *const c_char,
            id_length: usize,
            query: *const c_char,
            query_length: usize,
            listener: *const c_char,
            listener_length: usize,
        ) -> c_int;
        pub fn pressclip_delete(
            engine: *mut Engine,
            id: *const c_char,
            id_length: usize,
            deleted: *mut u64,
        ) -> c_int;
        pub fn pressclip_count(engine: *mut Engine, count: *mut u64) -> c_int;
        pub fn pressclip_match(
            engine: *mut Engine,
            id: *const c_char,
            id_length: usize,
            fields: *const Field,
            count: usize,
            result: *mut *mut Result,
        ) -> c_int;
        pub fn pressclip_next_id(
            result: *mut Result,
            id: *mut *const c_char,
            length: *mut usize,
        ) -> bool;
        pub fn pressclip_next_hit(
            result: *mut Result,
            field: *mut *const c_char,
            length: *mut usize,
            position: *mut u64,
        ) -> bool;
        pub fn pressclip_result_free(result: *mut Result);
        pub fn pressclip_explain(
            query: *const c_char,
            length: usize,
            reply: *mut *mut c_char,
            reply_length: *mut usize,
        ) -> c_int;
        pub fn pressclip_explain_line(
            line: *const c_char,
            length: usize,
            reply: *mut *mut c_char,
            reply_length: *mut usize,
        ) -> c_int;
        pub fn pressclip_words(
            text: *const c_char,
            length: usize,
            spans: *mut *mut u64,
            count: *mut usize,
        ) -> c_int;
    }
}

/// Why a call was refused, as `pressclip_status` has it. It is shown as the word of `pressclip_word`.
#[derive(Clone, Copy, Debug, PartialEq, Eq)]
#[repr(i32)]
pub enum Refused {
    /// An id is not 1 to 256 bytes, there are over 16 fields, or a field's name is bad or there twice.
    Limit = 1,
    /// The text is no query.
    Query = 2,
    /// The listener is neither `mail` nor `feed`.
    Listener = 3,
    /// The registry has no room.
    Full = 4,
    /// An allocation failed.
    NoMemory = 5,
    /// A text is not UTF-8. No call here is refused so, as a `str` is.
    Utf8 = 6,
    /// A line has a line feed.
    Feed = 7,
    /// The count of lines is at its end.
    Lines = 8,
    /// The engine is closed. No call here is refused so, as a monitor's engine is not closed before it is dropped.
    Closed = 9,
    /// Another pointer is null. No call here is refused so.
    Null = 10,
    /// There are over 1,000,000 fields.
    Size = 11,
    /// The library answered a number that is none of these.
    Unknown = -1,
}

/// Each refusal that has a number.
const ALL: [Refused; 11] = [
    Refused::Limit,
    Refused::Query,
    Refused::Listener,
    Refused::Full,
    Refused::NoMemory,
    Refused::Utf8,
    Refused::Feed,
    Refused::Lines,
    Refused::Closed,
    Refused::Null,
    Refused::Size,
];

/// What a status says.
fn check(status: c_int) -> Result<(), Refused> {
    if status == 0 {
        return Ok(());
    }
    Err(ALL
        .into_iter()
        .find(|&refused| refused as c_int == status)
        .unwrap_or(Refused::Unknown))
}

impl fmt::Display for Refused {
    fn fmt(&self, out: &mut fmt::Formatter<'_>) -> fmt::Result {
        let word = unsafe { raw::pressclip_word(*self as c_int) };
        if word.is_null() {
            return out.write_str("unknown");
        }
        out.write_str(&unsafe { CStr::from_ptr(word) }.to_string_lossy())
    }
}

impl Error for Refused {}

/// Where a query holds: a word of a field, counted from 0.
#[derive(Clone, Debug, PartialEq, Eq)]
pub struct Hit {
    pub field: String,
    pub position: u64,
}

/// A query that holds of an article, and where; nowhere of a monitor without hits.
#[derive(Clone, Debug, PartialEq, Eq)]
pub struct Found {
    pub query: String,
    pub hits: Vec<Hit>,
}

/// Registered queries, which articles are matched with. It closes its engine when it is dropped. It may go from thread
/// to thread, and only one at a time can use it.
#[derive(Debug)]
pub struct Monitor {
    engine: NonNull<raw::Engine>,
}

// The header says that an engine may go from thread to thread. It isn't `Sync`, so no two are in its calls.
unsafe impl Send for Monitor {}

impl Monitor {
    /// A monitor with no query, which shows hits or not. `NoMemory`.
    pub fn open(hits: bool) -> Result<Monitor, Refused> {
        let mut engine = ptr::null_mut();
        check(unsafe { raw::pressclip_open(hits, &mut engine) })?;
        let engine = NonNull::new(engine).ok_or(Refused::Null)?;
        Ok(Monitor { engine })
    }

    /// The reply to a line of the protocol, with its line feed, or nothing to a blank one. The protocol's refusals are
    /// replies. `Feed`, `Lines`, `NoMemory`.
    pub fn line(&mut self, line: &[u8]) -> Result<Vec<u8>, Refused> {
        let (mut reply, mut length) = (ptr::null_mut(), 0);
        check(unsafe {
            raw::pressclip_line(
                self.engine.as_ptr(),
                line.as_ptr().cast(),
                line.len(),
                &mut reply,
                &mut length,
            )
        })?;
        Ok(unsafe { taken(reply.cast(), length) })
    }

    /// Registers a query in the place of the one with its id. `Limit`, `Query`, `Listener`, `Full`, `NoMemory`.
    pub fn register(
        &mut self,
        id: &str,
        query: &str,
        listener: Option<&str>,
    ) -> Result<(), Refused> {
        let (listener, listener_length) =
            listener.map_or((ptr::null(), 0), |name| (chars(name), name.len()));
        check(unsafe {
            raw::pressclip_register(
                self.engine.as_ptr(),
                chars(id),
                id.len(),
                chars(query),
                query.len(),
                listener,
                listener_length,
            )
        })
    }

    /// Takes the query with this id out, and says whether there was one. `Limit`, `Full`, `NoMemory`.
    pub fn delete(&mut self, id: &str) -> Result<bool, Refused> {
        let mut deleted = 0;
        check(unsafe {
            raw::pressclip_delete(self.engine.as_ptr(), chars(id), id.len(), &mut deleted)
        })?;
        Ok(deleted != 0)
    }

    /// How many queries are registered. `NoMemory`.
    pub fn count(&self) -> Result<u64, Refused> {
        let mut count = 0;
        check(unsafe { raw::pressclip_count(self.engine.as_ptr(), &mut count) })?;
        Ok(count)
    }

    /// The queries that hold of an article of these fields, pairs of a name and a text, in the byte order of their ids.
    /// `Limit`, `NoMemory`.
    pub fn match_article(&self, id: &str, fields: &[(&str, &str)]) -> Result<Vec<Found>, Refused> {
        let fields: Vec<raw::Field> = fields
            .iter()
            .map(|&(name, text)| field(name, text))
            .collect();
        let mut result = ptr::null_mut();
        check(unsafe {
            raw::pressclip_match(
                self.engine.as_ptr(),
                chars(id),
                id.len(),
                fields.as_ptr(),
                fields.len(),
                &mut result,
            )
        })?;
        Ok(Walk { result }.collect())
    }
}

impl Drop for Monitor {
    fn drop(&mut self) {
        let mut engine = self.engine.as_ptr();
        unsafe { raw::pressclip_close(&mut engine) };
    }
}

/// A result that is read from its first query to its last, and freed when it is dropped. Null reads as one of no query.
struct Walk {
    result: *mut raw::Result,
}

impl Walk {
    /// The next hit of the query that was read last.
    fn next_hit(&mut self) -> Option<Hit> {
        let (mut field, mut length, mut position) = (ptr::null(), 0, 0);
        let is_one =
            unsafe { raw::pressclip_next_hit(self.result, &mut field, &mut length, &mut position) };
        is_one.then(|| Hit {
            field: unsafe { text(field, length) },
            position,
        })
    }
}

impl Iterator for Walk {
    type Item = Found;

    fn next(&mut self) -> Option<Found> {
        let (mut id, mut length) = (ptr::null(), 0);
        if !unsafe { raw::pressclip_next_id(self.result, &mut id, &mut length) } {
            return None;
        }
        let query = unsafe { text(id, length) };
        let hits = std::iter::from_fn(|| self.next_hit()).collect();
        Some(Found { query, hits })
    }
}

impl Drop for Walk {
    fn drop(&mut self) {
        unsafe { raw::pressclip_result_free(self.result) };
    }
}

/// How a text is read as a query, or its fault and the byte at which it is: JSON. `NoMemory`.
pub fn explain(query: &str) -> Result<String, Refused> {
    let (mut reply, mut length) = (ptr::null_mut(), 0);
    check(unsafe { raw::pressclip_explain(chars(query), query.len(), &mut reply, &mut length) })?;
    Ok(unsafe { taken_text(reply, length) })
}

/// What a line of the protocol would be refused for, whatever is registered: JSON. `Feed`, `NoMemory`.
pub fn explain_line(line: &[u8]) -> Result<String, Refused> {
    let (mut reply, mut length) = (ptr::null_mut(), 0);
    check(unsafe {
        raw::pressclip_explain_line(line.as_ptr().cast(), line.len(), &mut reply, &mut length)
    })?;
    Ok(unsafe { taken_text(reply, length) })
}

/// The bytes of a text in which its words stand; the n-th word, from 0, is the one at position n of a hit. `NoMemory`.
pub fn words(text: &str) -> Result<Vec<Range<usize>>, Refused> {
    let (mut spans, mut count) = (ptr::null_mut(), 0);
    check(unsafe { raw::pressclip_words(chars(text), text.len(), &mut spans, &mut count) })?;
    let places = unsafe { taken(spans, 2 * count) };
    Ok(places
        .chunks_exact(2)
        .map(|ends| ends[0] as usize..ends[1] as usize)
        .collect())
}

/// Where the bytes of a text are.
fn chars(text: &str) -> *const c_char {
    text.as_ptr().cast()
}

/// A field as C sees it, which may be read as long as its name and its text are there.
fn field(name: &str, text: &str) -> raw::Field {
    raw::Field {
        name: chars(name),
        name_length: name.len(),
        text: chars(text),
        text_length: text.len(),
    }
}

/// The items at an address, none at null. So many are there, and stay while they are read.
unsafe fn items<'a, T>(at: *const T, count: usize) -> &'a [T] {
    if at.is_null() {
        return &[];
    }
    slice::from_raw_parts(at, count)
}

/// A copy of the text at an address, empty at null. So many bytes are there, and stay while they are read.
unsafe fn text(at: *const c_char, length: usize) -> String {
    String::from_utf8_lossy(items(at.cast(), length)).into_owned()
}

/// A copy of what a call handed out, so many items, none at null. What was handed out is freed.
unsafe fn taken<T: Copy>(at: *mut T, count: usize) -> Vec<T> {
    let copy = items(at, count).to_vec();
    raw::pressclip_free(at.cast());
    copy
}

/// A copy of a text that a call handed out, so many bytes. What was handed out is freed.
unsafe fn taken_text(at: *mut c_char, length: usize) -> String {
    String::from_utf8_lossy(&taken(at.cast(), length)).into_owned()
}
