//! Pairs on a given set. Rows have the other pairs (`tests/rows`).

use crate::assertions::assert_same;
use csl_entry::{CiteProperties, DisambiguateState};
use csl_render::cite_pair_with;
use csl_samples::{BuiltIn, BuiltInStyle};
use csl_style::named_by;
use std::test::Fail;

#[test]
fn pairs_on_a_set(rt: HostRuntime) -> Result<(), Fail> {
    let alloc = rt.alloc();
    let (book, article) = (
        BuiltIn::CrazyRich.entry(alloc)?,
        BuiltIn::QuantizedVortex.entry(alloc)?,
    );
    let style = BuiltInStyle::AuthorDate.style(alloc)?;
    let first = CiteProperties::first(DisambiguateState::None);
    let named = named_by(alloc, &style, style.citation())?;
    for (right, is_alike, html) in [
        (&book, true, "(Kwan, 2014)"),
        (&article, false, "(Gross, 1961)"),
    ] {
        let pair = cite_pair_with(alloc, &style, &first, &named, &book, right)?;
        let is_same = pair.left.content == pair.right.content;
        assert_same(&rt, &(pair.alike, is_same), &(is_alike, is_alike));
        assert_same(&rt, &pair.left_html.as_str(), &"(Kwan, 2014)");
        assert_same(&rt, &pair.right_html.as_str(), &html);
    }
    Ok(())
}
