//! Tests of the program's words: its status and the texts that it writes. `tools/test_script` reads
//! the rows, too.

use crate::csl_cli_tests::shared::{assert_status, assert_text};
use crate::shared::{assert_cases, put, string};
use csl_cli::run::{run, run_into};
use csl_common::TrackingWriter;
use std::alloc::Global;
use std::process::Abort;

/// The words, the status, the answer and the fault.
pub(crate) type Row = (&'static [&'static str], u8, &'static str, &'static str);

pub(crate) const NATURE: &str = "(Title: <span style=\"font-style: italic;\">Nature</span>)\n";

const ESCAPED: &str =
    "(Title: <span style=\"font-style: italic;\">é 📚 &lt;b&gt; &amp; \n&quot;</span>)\n";

const AND: &str = "(Title: <span style=\"font-style: italic;\">R&amp;D</span>)\n";

static ROWS: [Row; 21] = [
    // A title in a format.
    (&["title", "Nature", "html"], 0, NATURE, ""),
    (&["title", "Nature", "plain"], 0, "(Title: Nature)\n", ""),
    (&["title", "", "html"], 0, "\n", ""),
    (&["title", "", "plain"], 0, "\n", ""),
    (
        &["title", "é 📚 <b> & \n\"", "plain"],
        0,
        "(Title: é 📚 <b> & \n\")\n",
        "",
    ),
    (&["title", "é 📚 <b> & \n\"", "html"], 0, ESCAPED, ""),
    (&["title", "R&D", "html"], 0, AND, ""),
    (&["title", "R&D", "plain"], 0, "(Title: R&D)\n", ""),
    (&[], 0, NATURE, ""),
    // The leaf text of HTML. Rows have more of them (`tests/rows`).
    (&["leaf", "<span style=\"\">x</span>"], 0, "x\n", ""),
    (&["leaf", "a&b"], 5, "", "not html\n"),
    // The label of an entry.
    (&["label", "crazy-rich"], 0, "Kwa14\n", ""),
    (&["label", "dependence"], 0, "FOW87\n", ""),
    (&["label", "feminism"], 0, "Ung15\n", ""),
    (&["label", "quantized-vortex"], 0, "Gro61\n", ""),
    // Whether an entry is of a kind: an article of a journal, a book, a blog post.
    (
        &["kind", "quantized-vortex", "article-journal"],
        0,
        "true\n",
        "",
    ),
    (&["kind", "crazy-rich", "book"], 0, "true\n", ""),
    (&["kind", "crazy-rich", "periodical"], 0, "false\n", ""),
    (&["kind", "feminism", "post-weblog"], 0, "true\n", ""),
    (&["kind", "feminism", "webpage"], 0, "false\n", ""),
    (&["kind", "feminism", "article"], 0, "false\n", ""),
];

/// Words that are refused with status 2, and the fault. A word is missing, unknown, or one too many.
/// Words are parsed from the left.
const REFUSALS: &str = "
title => missing word
title Nature => missing word
label => missing word
kind => missing word
kind feminism => missing word
leaf => missing word
title Nature pdf => unknown: pdf
title Nature html now => unknown: now
title Nature pdf now => unknown: pdf
labels x => unknown: labels
label nobody => unknown: nobody
label crazy-rich now => unknown: now
kind nobody => unknown: nobody
kind crazy-rich comic => unknown: comic
kind crazy-rich book now => unknown: now
leaf x now => unknown: now
leaf a&b x => unknown: x
cite => missing word
cite crazy-rich => missing word
cite crazy-rich reference => missing word
cite nobody => unknown: nobody
cite nobody author-date plain => unknown: nobody
cite nobody nostyle pdf => unknown: nobody
cite crazy-rich nostyle => unknown: nostyle
cite crazy-rich nostyle plain => unknown: nostyle
cite crazy-rich author-date pdf => unknown: pdf
cite crazy-rich reference pdf now => unknown: pdf
cite crazy-rich reference html now => unknown: now
";

/// The words as the program takes them.
pub(crate) fn strings(rt: &impl Abort, alloc: Global, words: &[&str]) -> Vec<String> {
    let mut strings = Vec::new(alloc);
    for word in words {
        let string = String::from_str(alloc, word).expect(rt, "memory");
        put(rt, &mut strings, string);
    }
    strings
}

/// Asserts the status and the texts of a run with these words.
pub(crate) fn assert_run(
    rt: &impl Abort,
    alloc: Global,
    of: &[&str],
    status: u8,
    out: &str,
    fault: &str,
) {
    let words = strings(rt, alloc, of);
    let mut wrote = String::new(alloc);
    let mut said = String::new(alloc);
    let answered = run(alloc, words.as_slice(), &mut wrote, &mut said);
    assert_status(rt, answered, status, of);
    assert_text(rt, wrote.as_str(), out, of);
    assert_text(rt, said.as_str(), fault, of);
}

#[test]
fn words_and_what_they_give(rt: HostRuntime) {
    let rows: &[Row] = &ROWS;
    for (of, status, out, fault) in rows {
        assert_run(&rt, rt.alloc(), *of, *status, *out, *fault);
    }
}

#[test]
fn words_that_are_refused(rt: HostRuntime) {
    let alloc = rt.alloc();
    let answer = |line: &str| {
        let words = line.split(' ').map(|word| string(&rt, alloc, word));
        let words: Vec<String> = words.collect(alloc).ok().expect(&rt, "memory");
        let (mut wrote, mut said) = (String::new(alloc), String::new(alloc));
        let status = run(alloc, words.as_slice(), &mut wrote, &mut said);
        assert_status(&rt, status, 2, &[line]);
        assert_text(&rt, wrote.as_str(), "", &[line]);
        said
    };
    assert_cases(&rt, alloc, REFUSALS, &answer);
}

#[test]
fn no_words_are_a_title(rt: HostRuntime) {
    let alloc = rt.alloc();
    let (mut wrote, mut said) = (String::new(alloc), String::new(alloc));
    let mut out = TrackingWriter::new(&mut wrote);
    let mut fault = TrackingWriter::new(&mut said);
    let status = run_into(alloc, &[], &mut out, &mut fault);
    out.into_inner();
    fault.into_inner();
    assert_status(&rt, status, 0, &[]);
    assert_text(&rt, wrote.as_str(), NATURE, &["no words"]);
    assert_text(&rt, said.as_str(), "", &["no words"]);
}
