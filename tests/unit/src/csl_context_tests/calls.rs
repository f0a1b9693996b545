//! The calls of a context, with their results and with what they write.

use crate::assertions::{assert_of, assert_same, assert_text};
use crate::csl_context_tests::setup::{Setup, assert_html, italic};
use csl_context::{BodyDressing, RenderError};
use csl_laws::calls::push_quoted;
use csl_style::{
    Affixes, DateVariable, Display, FontWeight, Formatting, GrammarGender, NameVariable,
    NumberVariable, PageVariable, StandardVariable, Term, Variable,
};
use csl_tree::{BufWriteFormat, ElemChild, ElemMeta};
use lit_model::{LongShortForm, Memory};
use std::test::Fail;

#[test]
fn texts_and_parts_are_written(rt: HostRuntime) -> Result<(), Fail> {
    let setup = Setup::new(&rt, rt.alloc())?;
    let mut ctx = setup.context()?;
    assert_same(&rt, &ctx.ensure_live(), &Ok(()));
    ctx.ensure_space()?;
    assert_same(&rt, &ctx.open_part_is_empty(), &true);
    ctx.push_str("a")?;
    ctx.ensure_space()?;
    ctx.ensure_space()?;
    ctx.push_str("b")?;
    // An element with content, and one without, which is dropped.
    let outer = ctx.push_elem()?;
    ctx.push_str("c")?;
    let inner = ctx.push_elem()?;
    ctx.push_str("d")?;
    ctx.commit_elem(inner, Some(Display::Block), Some(ElemMeta::Date))?;
    let empty = ctx.push_elem()?;
    ctx.commit_elem(empty, Some(Display::Block), Some(ElemMeta::Date))?;
    ctx.commit_elem(outer, None, None)?;
    // A part with a place for the caller alone is not empty, but has no text.
    let place = ctx.push_elem()?;
    ctx.push_transparent(0)?;
    let flags = (ctx.open_part_is_empty(), ctx.open_part_has_text());
    assert_same(&rt, &flags, &(false, false));
    ctx.discard_elem(place);
    let spliced = ctx.push_elem()?;
    ctx.push_str("e")?;
    ctx.splice(spliced)?;
    let between = ctx.push_elem()?;
    ctx.push_str("f")?;
    ctx.splice_affixed(between, Some("<"), Some(">"))?;
    let middle = ctx.apply_prefix()?;
    ctx.push_str("g")?;
    ctx.apply_suffix(&setup.affixes, middle, false)?;
    let content = ctx.finish()?.content;
    let html = content.to_text(rt.alloc(), BufWriteFormat::Html)?;
    assert_eq!(&rt; html.as_str(), "a bc<div>d</div>e&lt;f&gt;(g, ");
    let Some(ElemChild::Elem(outer)) = content.0.get(1) else {
        panic!(rt; "no element after the first text");
    };
    assert_same(&rt, &outer.children.0.len(), &2);
    Ok(())
}

#[test]
fn quotes_nest_and_take_punctuation(rt: HostRuntime) -> Result<(), Fail> {
    let setup = Setup::new(&rt, rt.alloc())?;
    let mut ctx = setup.context()?;
    // The comma of the suffix is inside the quotes, and the rest of the suffix is after them.
    push_quoted(&mut ctx, &setup.affixes, "A")?;
    // A colon does not move, a period does.
    let outer = ctx.push_quotes()?;
    let inner = ctx.push_quotes()?;
    ctx.push_str("B")?;
    assert_same(&rt, &ctx.pop_quotes(inner, Some(": "))?, &false);
    assert_same(&rt, &ctx.pop_quotes(outer, Some(". "))?, &true);
    // Quotes after both are outer ones again. Nothing moves into empty quotes.
    let other = ctx.push_quotes()?;
    ctx.push_str("C")?;
    assert_same(&rt, &ctx.pop_quotes(other, None)?, &false);
    let nothing = ctx.push_quotes()?;
    assert_same(&rt, &ctx.pop_quotes(nothing, Some(". "))?, &false);
    assert_html(&rt, rt.alloc(), ctx, "(“A,” “‘B’.”“C”")
}

#[test]
fn a_body_restores_what_is_around_it(rt: HostRuntime) -> Result<(), Fail> {
    let setup = Setup::new(&rt, rt.alloc())?;
    let mut ctx = setup.context()?;
    let bare = Affixes::default();
    for (formatting, affixes, is_quoted, text) in [
        (italic(), &setup.affixes, true, "a.b."),
        (Formatting::default(), &bare, false, "c."),
    ] {
        let around = BodyDressing {
            formatting,
            affixes,
            quotes: is_quoted,
            strip_periods: is_quoted,
        };
        let before = ctx.open_body(around)?;
        ctx.push_str(text)?;
        ctx.close_body(around, before)?;
    }
    let wanted = "<span style=\"font-style: italic;\">(“ab,” </span>c.";
    assert_html(&rt, rt.alloc(), ctx, wanted)
}

#[test]
fn formats_nest(rt: HostRuntime) -> Result<(), Fail> {
    let setup = Setup::new(&rt, rt.alloc())?;
    let bold = Formatting {
        font_weight: Some(FontWeight::Bold),
        ..Formatting::default()
    };
    let mut ctx = setup.context()?;
    ctx.push_format(italic())?;
    ctx.push_str("a")?;
    ctx.push_format(bold)?;
    ctx.push_str("b")?;
    ctx.pop_format();
    ctx.push_str("c")?;
    ctx.pop_format();
    let base = ctx.enter_format(italic())?;
    ctx.push_str("d")?;
    let italics = ctx.enter_format(bold)?;
    ctx.push_str("e")?;
    ctx.leave_format(italics);
    ctx.push_str("f")?;
    ctx.leave_format(base);
    ctx.push_str("g")?;
    ctx.push_str_in("h", italic())?;
    ctx.ensure_space_in(bold)?;
    let (slanted, both) = (
        "font-style: italic;",
        "font-style: italic;font-weight: bold;",
    );
    let wanted = format!(in rt.alloc();
        "<span style=\"{slanted}\">a</span><span style=\"{both}\">b</span>\
         <span style=\"{slanted}\">cd</span><span style=\"{both}\">e</span>\
         <span style=\"{slanted}\">f</span>g<span style=\"{slanted}\">h</span>\
         <span style=\"font-weight: bold;\"> </span>"
    )?;
    assert_html(&rt, rt.alloc(), ctx, wanted.as_str())
}

#[test]
fn delimiters_and_options_are_inherited(rt: HostRuntime) -> Result<(), Fail> {
    let setup = Setup::new(&rt, rt.alloc())?;
    let mut ctx = setup.context()?;
    ctx.push_delimiter(Some("; "))?;
    assert_text(&rt, ctx.delimiter(), Some("; "));
    ctx.push_delimiter(None)?;
    assert_text(&rt, ctx.delimiter(), None);
    ctx.pop_delimiter();
    assert_text(&rt, ctx.delimiter(), Some("; "));
    ctx.pop_delimiter();
    let base = ctx.enter_delimiter(Some(", "))?;
    let outer = ctx.enter_delimiter(None)?;
    assert_text(&rt, ctx.delimiter(), None);
    ctx.leave_delimiter(outer);
    assert_text(&rt, ctx.delimiter(), Some(", "));
    ctx.leave_delimiter(base);
    assert_text(&rt, ctx.delimiter(), None);
    ctx.push_name_options(&setup.style.settings().bibliography_names)?;
    assert_text(&rt, ctx.name_options().delimiter, Some("b"));
    ctx.pop_name_options();
    assert_text(&rt, ctx.name_options().delimiter, Some("c"));
    let gender = ctx.gender(Term::Page(PageVariable::Page));
    assert_same(&rt, &gender, &Some(GrammarGender::Feminine));
    Ok(())
}

/// Verbatim texts, mathematics and links keep their periods. A link without text is not written.
#[test]
fn texts_lose_their_periods(rt: HostRuntime) -> Result<(), Fail> {
    let setup = Setup::new(&rt, rt.alloc())?;
    let mut ctx = setup.context()?;
    let before = ctx.may_strip_periods(true);
    ctx.push_str("a.")?;
    let within = ctx.may_strip_periods(false);
    ctx.push_str("b.")?;
    ctx.stop_stripping_periods(within);
    let title = ctx.resolve_standard_variable(LongShortForm::Long, StandardVariable::Title)?;
    ctx.push_chunked(title.expect(&rt, "a title").as_ref())?;
    ctx.push_link("t.", "u.")?;
    ctx.push_link("", "u.")?;
    ctx.push_transparent(3)?;
    ctx.stop_stripping_periods(before);
    ctx.push_str("d.")?;
    assert_same(&rt, &(before, within), &(false, true));
    let rendered = ctx.finish()?;
    let text = format!(in rt.alloc(); "{}", rendered.content)?;
    assert_text(&rt, Some(text.as_str()), Some("abab.c.t.d."));
    let mut places = rendered.content.0.iter().filter(|child| {
        matches!(child, ElemChild::Transparent { cite_idx: 3, .. })
    });
    assert_same(&rt, &places.next().is_some(), &true);
    Ok(())
}

/// A lookup for printing suppresses its variable while the switch is on, found or not.
#[test]
fn lookups_find_what_is_not_suppressed(rt: HostRuntime) -> Result<(), Fail> {
    let setup = Setup::new(&rt, rt.alloc())?;
    let mut ctx = setup.context()?;
    let (title, form) = (StandardVariable::Title, LongShortForm::Long);
    let (volume, page) = (NumberVariable::Volume, PageVariable::Page);
    let (issued, director) = (DateVariable::Issued, NameVariable::Director);
    for (switched, is_there) in [(false, true), (true, true), (true, false)] {
        let before = if switched {
            ctx.start_suppressing_queried_variables()
        } else {
            false
        };
        let silent = [
            ctx.peek_standard_variable(form, title)?.is_some(),
            ctx.peek_text(form, title)?.is_some(),
            ctx.peek_number_variable(volume)?.is_some(),
            ctx.peek_page_variable(page)?.is_some(),
            ctx.peek_pages(page)?.is_some(),
            ctx.peek_date_variable(issued)?.is_some(),
            ctx.peek_has_persons(director)?,
            !ctx.peek_name_variable(director)?.is_empty(),
        ];
        assert_of(&rt, &silent, &[is_there; 8], switched);
        let printed = [
            ctx.resolve_standard_variable(form, title)?.is_some(),
            ctx.resolve_number_variable(volume)?.is_some(),
            ctx.resolve_page_variable(page)?.is_some(),
            ctx.resolve_date_variable(issued)?.is_some(),
            !ctx.resolve_name_variable(director)?.is_empty(),
        ];
        assert_of(&rt, &printed, &[is_there; 5], switched);
        ctx.restore_suppressing(before);
    }
    let _before = ctx.start_suppressing_queried_variables();
    let genre = ctx.resolve_standard_variable(form, StandardVariable::Genre)?;
    assert_same(&rt, &genre.is_some(), &false);
    let suppressed = ctx.finish()?.state.suppressed;
    let genre = Variable::Standard(StandardVariable::Genre);
    let found = (suppressed.len(), suppressed.contains(&genre));
    assert_same(&rt, &found, &(6, true));
    Ok(())
}

#[test]
fn a_failed_context_returns_failed(rt: HostRuntime) -> Result<(), Fail> {
    let setup = Setup::new(&rt, rt.alloc())?;
    let mut ctx = setup.context()?;
    let title = ctx.peek_standard_variable(LongShortForm::Long, StandardVariable::Title);
    assert_same(&rt, &ctx.settle(title)?.is_some(), &true);
    let given: Result<u8, Memory> = Ok(7);
    assert_same(&rt, &ctx.attempt(given), &Ok(7));
    let refused: Result<u8, Memory> = Err(Memory);
    assert_same(&rt, &ctx.attempt(refused), &Err(RenderError::Memory));
    let failed = Some(RenderError::Failed);
    assert_same(&rt, &ctx.has_failed(), &true);
    assert_same(&rt, &ctx.ensure_live().err(), &failed);
    assert_same(&rt, &ctx.push_str("a").err(), &failed);
    assert_same(&rt, &ctx.finish().err(), &failed);
    let mut ctx = setup.context()?;
    ctx.fail();
    let given: Result<u8, Memory> = Ok(7);
    assert_same(&rt, &ctx.attempt(given), &Err(RenderError::Failed));
    Ok(())
}
