//! What the tests of several libraries need: tables of cases, lists of few items, long texts, texts by
//! their chunks, random numbers, and writers that refuse texts.

use lit_model::{ChunkKind, ChunkedString, StringChunk};
use std::alloc::Global;
use std::fmt;
use std::process::Abort;

/// Asserts the answers to the cases of a table: ` =>` is between what is asked and what is wanted, and
/// spaces around these do not count. A line that begins with a space goes on with the case before it,
/// and one that begins with `#` is a comment.
pub(crate) fn assert_cases<F: Fn(&str) -> String>(
    rt: &impl Abort,
    alloc: Global,
    table: &str,
    answer: &F,
) {
    let mut case = String::new(alloc);
    for line in table.lines() {
        if !line.starts_with(' ') && !line.starts_with('#') {
            assert_case(rt, case.as_str(), answer);
            case.clear();
        }
        if !line.starts_with('#') {
            case.push(' ').expect(rt, "memory");
            case.push_str(line.trim_start()).expect(rt, "memory");
        }
    }
    assert_case(rt, case.as_str(), answer);
}

/// Asserts the answer to a case, if it is not empty.
fn assert_case<F: Fn(&str) -> String>(rt: &impl Abort, case: &str, answer: &F) {
    if !case.trim().is_empty() {
        let (asked, wanted) = case.split_once(" =>").expect(rt, "a case");
        let came = answer(asked.trim());
        assert_eq!(rt; came.as_str().trim(), wanted.trim(), "of {asked}");
    }
}

/// A copy of a text.
pub(crate) fn string(rt: &impl Abort, alloc: Global, text: &str) -> String {
    String::from_str(alloc, text).expect(rt, "memory")
}

/// A text so many times.
pub(crate) fn repeated(rt: &impl Abort, alloc: Global, text: &str, count: usize) -> String {
    let mut all = String::new(alloc);
    for _ in 0..count {
        all.push_str(text).expect(rt, "memory");
    }
    all
}

/// A list of one item.
pub(crate) fn alone<T: Drop>(rt: &impl Abort, alloc: Global, item: T) -> Vec<T> {
    let mut items = Vec::new(alloc);
    put(rt, &mut items, item);
    items
}

/// Appends an item to a list.
pub(crate) fn put<T: Drop>(rt: &impl Abort, items: &mut Vec<T>, item: T) {
    items.push(item).expect(rt, "memory");
}

/// The text of the chunks that `+` separates. A backtick before a chunk means `Verbatim`, and `$`
/// means `Math`.
pub(crate) fn chunks(rt: &impl Abort, alloc: Global, text: &str) -> ChunkedString {
    let mut chunks = Vec::new(alloc);
    for chunk in text.split('+') {
        let (kind, chunk) = kind_of(chunk);
        let value = String::from_str(alloc, chunk).expect(rt, "memory");
        put(rt, &mut chunks, StringChunk { value, kind });
    }
    ChunkedString(chunks)
}

/// The kind of a chunk, and the chunk without the mark of its kind.
fn kind_of(chunk: &str) -> (ChunkKind, &str) {
    if let Some(verbatim) = chunk.strip_prefix('`') {
        return (ChunkKind::Verbatim, verbatim);
    }
    if let Some(math) = chunk.strip_prefix('$') {
        return (ChunkKind::Math, math);
    }
    (ChunkKind::Normal, chunk)
}

/// A generator of numbers: that of Knuth's MMIX.
#[derive(Drop)]
pub(crate) struct Numbers(u64);

impl Numbers {
    pub(crate) fn from(seed: u64) -> Numbers {
        Numbers(seed)
    }

    /// The next number below a bound.
    pub(crate) fn below(&mut self, bound: u64) -> u64 {
        self.0 = self
            .0
            .wrapping_mul(6_364_136_223_846_793_005)
            .wrapping_add(1_442_695_040_888_963_407);
        (self.0 >> 33) % bound
    }
}

/// A writer that takes the given number of texts and refuses those after them.
#[derive(Drop)]
pub(crate) struct Few {
    left: usize,
    pub(crate) took: String,
}

impl Few {
    pub(crate) fn of(alloc: Global, texts: usize) -> Few {
        Few {
            left: texts,
            took: String::new(alloc),
        }
    }
}

impl fmt::Write for Few {
    fn write_str(&mut self, s: &str) -> fmt::Result {
        if self.left == 0 {
            return Err(fmt::Error);
        }
        self.left -= 1;
        match self.took.push_str(s) {
            Ok(()) => Ok(()),
            Err(_) => Err(fmt::Error),
        }
    }
}

/// Asserts that a call returns an error of its writer if that refuses a text, for each text in turn,
/// and else writes the wanted text.
pub(crate) fn assert_written<F: Fn(&mut Few) -> fmt::Result>(
    rt: &impl Abort,
    alloc: Global,
    write: &F,
    wanted: &str,
) {
    for texts in 0..200 {
        let mut out = Few::of(alloc, texts);
        if write(&mut out).is_ok() {
            assert_eq!(rt; out.took.as_str(), wanted);
            assert!(rt; texts > 0, "a text is written");
            return;
        }
    }
    panic!(rt; "fewer texts are written");
}
