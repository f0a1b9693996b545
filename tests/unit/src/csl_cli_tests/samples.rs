//! The built-in entries and styles, and an entry with a title alone.

use crate::assertions::assert_same;
use csl_entry::{CiteProperties, DisambiguateState, EntryLike};
use csl_render::cite;
use csl_samples::{BuiltIn, BuiltInStyle, TitleOnly, title_style};
use csl_style::{Kind, StandardVariable};
use lit_model::{ChunkedString, LongShortForm};
use std::test::Fail;

#[test]
fn labels_kinds_and_punctuation(rt: HostRuntime) -> Result<(), Fail> {
    let alloc = rt.alloc();
    assert_same(&rt, &BuiltIn::Feminism.label(alloc)?.as_str(), &"Ung15");
    let is_post = BuiltIn::Feminism.is_of_kind(alloc, Kind::PostWeblog)?;
    assert!(rt; is_post, "an article of a blog");
    for style in [BuiltInStyle::AuthorDate, BuiltInStyle::Reference] {
        assert!(rt;
            style.style(alloc)?.is_punctuation_in_quote(),
            "as in American English"
        );
    }
    Ok(())
}

#[test]
fn an_entry_without_a_title_answers_none(rt: HostRuntime) -> Result<(), Fail> {
    let alloc = rt.alloc();
    let (form, variable) = (LongShortForm::Long, StandardVariable::Title);
    let none = TitleOnly { title: None };
    let found = none.resolve_standard_variable(alloc, form, variable)?;
    assert!(rt; found.is_none(), "no title");
    let title = TitleOnly {
        title: Some(ChunkedString::plain(alloc, "T")?),
    };
    let found = title.resolve_standard_variable(alloc, form, variable)?;
    assert!(rt; found.is_some(), "a title");
    let first = CiteProperties::first(DisambiguateState::None);
    let rendered = cite(alloc, &title_style(alloc)?, &title, &first)?;
    let text = format!(in alloc; "{}", rendered.content)?;
    assert_same(&rt, &text.as_str(), &"(Title: T)");
    Ok(())
}
