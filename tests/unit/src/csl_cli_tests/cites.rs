//! Tests of the command `cite`, with the built-in entries and styles. `tools/test_script` reads the
//! rows, too.

use crate::csl_cli_tests::words::assert_run;
use std::alloc::Global;
use std::process::Abort;

pub(crate) const VORTEX: &str = "Gross, E. P., “Structure of a Quantized Vortex in Boson Systems”, \
    Il Nuovo Cimento, vol. 20, pp. 454–477, May 1961. https://doi.org/10.1007/BF02731494\n";

pub(crate) const VORTEX_HTML: &str =
    "Gross, E. P., “Structure of a Quantized Vortex in Boson Systems”, \
    <span style=\"font-style: italic;\">Il Nuovo Cimento</span>, vol. 20, pp. 454–477, May 1961. \
    <a href=\"https://doi.org/10.1007/BF02731494\">https://doi.org/10.1007/BF02731494</a>\n";

pub(crate) const DEPENDENCE: &str = "Ferrante, Jeanne, Karl J. Ottenstein, and Joe D. Warren, \
    “The program dependence graph and its use in optimization”, \
    ACM Transactions on Programming Languages and Systems, vol. 9, July 1987. \
    https://doi.org/10.1145/24039.24041\n";

pub(crate) const DEPENDENCE_HTML: &str = "Ferrante, Jeanne, Karl J. Ottenstein, and Joe D. Warren, \
    “The program dependence graph and its use in optimization”, \
    <span style=\"font-style: italic;\">ACM Transactions on Programming Languages and Systems\
    </span>, vol. 9, July 1987. \
    <a href=\"https://doi.org/10.1145/24039.24041\">https://doi.org/10.1145/24039.24041</a>\n";

pub(crate) const BOOK: &str = "Kwan, Kevin, “Crazy Rich Asians”, 2014.\n";

pub(crate) const ESSAY: &str =
    "Ungard-Sargon, Batya, “She swoons to conquer”, Aeon, September 2015.\n";

pub(crate) const ESSAY_HTML: &str = "Ungard-Sargon, Batya, “She swoons to conquer”, \
    <span style=\"font-style: italic;\">Aeon</span>, September 2015.\n";

pub(crate) const THREE: &str = "(Ferrante, Ottenstein, and Warren, 1987)\n";

pub(crate) const BOOK_BRIEF: &str = "(Kwan, 2014)\n";

pub(crate) const ESSAY_BRIEF: &str = "(Ungard-Sargon, 2015)\n";

pub(crate) const VORTEX_BRIEF: &str = "(Gross, 1961)\n";

/// An entry, a style, and the cite as plain text and as HTML.
type CiteRow = (&'static str, &'static str, &'static str, &'static str);

static CITES: [CiteRow; 8] = [
    ("crazy-rich", "author-date", BOOK_BRIEF, BOOK_BRIEF),
    (
        "quantized-vortex",
        "author-date",
        VORTEX_BRIEF,
        VORTEX_BRIEF,
    ),
    ("dependence", "author-date", THREE, THREE),
    ("feminism", "author-date", ESSAY_BRIEF, ESSAY_BRIEF),
    ("crazy-rich", "reference", BOOK, BOOK),
    ("quantized-vortex", "reference", VORTEX, VORTEX_HTML),
    ("dependence", "reference", DEPENDENCE, DEPENDENCE_HTML),
    ("feminism", "reference", ESSAY, ESSAY_HTML),
];

/// Asserts both texts of a cite, and that the leaf text of its HTML is its plain text.
fn assert_cite(rt: &impl Abort, alloc: Global, &(key, style, plain, html): &CiteRow) {
    assert_run(rt, alloc, &["cite", key, style, "plain"], 0, plain, "");
    assert_run(rt, alloc, &["cite", key, style, "html"], 0, html, "");
    let line = html.strip_suffix('\n').unwrap_or(html);
    assert_run(rt, alloc, &["leaf", line], 0, plain, "");
}

#[test]
fn cites_and_their_leaf_texts(rt: HostRuntime) {
    let cites: &[CiteRow] = &CITES;
    for row in cites {
        assert_cite(&rt, rt.alloc(), row);
    }
}
