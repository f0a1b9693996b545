//! The program over writers that refuse a text, for each text in turn.

use crate::csl_cli_tests::cites::{THREE, VORTEX_HTML};
use crate::csl_cli_tests::shared::{assert_status, assert_text};
use crate::csl_cli_tests::words::{NATURE, Row, strings};
use crate::shared::Few;
use csl_cli::run::run;
use std::alloc::Global;
use std::process::Abort;

/// Runs the words of a row over writers that take `texts` texts each. Asserts the row or, at status
/// 4, that nothing is written as the answer to words that have none. Returns whether it was the
/// row.
fn is_row(rt: &impl Abort, alloc: Global, words: &[String], row: &Row, texts: usize) -> bool {
    let (of, status, out, fault) = row;
    let mut wrote = Few::of(alloc, texts);
    let mut said = Few::of(alloc, texts);
    let answered = run(alloc, words, &mut wrote, &mut said);
    if answered == 4 {
        if *status != 0 {
            assert_text(rt, wrote.took.as_str(), "", *of);
        }
        return false;
    }
    assert_status(rt, answered, *status, *of);
    assert_text(rt, wrote.took.as_str(), *out, *of);
    assert_text(rt, said.took.as_str(), *fault, *of);
    true
}

static ROWS: [Row; 9] = [
    (&["title", "Nature", "html"], 0, NATURE, ""),
    (
        &["cite", "quantized-vortex", "reference", "html"],
        0,
        VORTEX_HTML,
        "",
    ),
    (
        &["cite", "dependence", "author-date", "plain"],
        0,
        THREE,
        "",
    ),
    (&["label", "crazy-rich"], 0, "Kwa14\n", ""),
    (&["kind", "crazy-rich", "book"], 0, "true\n", ""),
    (&["leaf", "<div>x</div>"], 0, "x\n", ""),
    (&["title"], 2, "", "missing word\n"),
    (&["labels"], 2, "", "unknown: labels\n"),
    (&["leaf", "<b>x</b>"], 5, "", "not html\n"),
];

/// The status is 4 until both writers take all texts.
#[test]
fn a_refused_text_is_status_four(rt: HostRuntime) {
    for row in &ROWS {
        let words = strings(&rt, rt.alloc(), row.0);
        let mut texts = 0;
        while !is_row(&rt, rt.alloc(), words.as_slice(), row, texts) {
            texts += 1;
        }
        assert!(rt; texts > 0, "a text is written");
    }
}
