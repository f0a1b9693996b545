//! Cites of entries that run out of memory in one lookup, for each lookup in turn.

use crate::csl_cli_tests::cites::{
    BOOK, BOOK_BRIEF, DEPENDENCE, ESSAY, ESSAY_BRIEF, THREE, VORTEX, VORTEX_BRIEF,
};
use crate::csl_cli_tests::shared::instance;
use crate::csl_cli_tests::without_memory::WithoutMemory;
use csl_context::{Context, RenderError};
use csl_entry::{CiteProperties, DisambiguateState, EntryLike};
use csl_render::{BranchConditionIter, RenderCsl};
use csl_samples::{BuiltIn, BuiltInStyle};
use csl_style::{ChooseBranch, DateVariable, NameVariable, NumberVariable, Scope, Style, Variable};
use lit_model::Entry;
use std::alloc::Global;
use std::process::Abort;
use std::test::Fail;

const FAILED: Option<RenderError> = Some(RenderError::Failed);

/// Asserts that each call of a context that has failed returns that.
fn assert_failed<'s, T: EntryLike>(rt: &impl Abort, mut ctx: Context<'s, T>, style: &'s Style) {
    let (volume, layout) = (NumberVariable::Volume, style.citation());
    let errors = [
        layout.will_have_info(&mut ctx).err(),
        layout.will_render(&mut ctx, Variable::Number(volume)).err(),
        layout.render(&mut ctx).err(),
        ctx.peek_number_variable(volume).err(),
        ctx.resolve_name_variable(NameVariable::Author).err(),
        ctx.resolve_date_variable(DateVariable::Issued).err(),
        ctx.push_str("a").err(),
        ctx.push_elem().err(),
    ];
    assert_eq!(rt; errors, [FAILED; 8]);
    assert!(rt; ctx.has_failed(), "the context has failed");
    assert_eq!(rt; ctx.finish().err(), FAILED);
}

/// The plain text of a first cite, or `None` if memory ran out, after which the context has failed.
fn text_of<T: EntryLike>(
    rt: &impl Abort,
    alloc: Global,
    style: &Style,
    entry: &T,
) -> Result<Option<String>, Fail> {
    let first = CiteProperties::first(DisambiguateState::None);
    let mut ctx = Context::new(alloc, style, instance(entry, &first), Scope::Citation)?;
    match style.citation().render(&mut ctx) {
        Ok(()) => {
            let rendered = ctx.finish()?;
            Ok(Some(format!(in alloc; "{}", rendered.content)?))
        }
        Err(error) => {
            assert_eq!(rt; error, RenderError::Memory);
            assert_failed(rt, ctx, style);
            Ok(None)
        }
    }
}

/// Cites an entry that refuses the lookup after the first `answered` ones. Asserts the text, or that
/// the entry refused, and then the text of the entry itself. Returns whether a lookup was refused.
fn is_refused(
    rt: &impl Abort,
    alloc: Global,
    style: &Style,
    entry: &Entry,
    answered: u32,
    wanted: &str,
) -> Result<bool, Fail> {
    let refusing = WithoutMemory::behind(entry, answered);
    let mut text = text_of(rt, alloc, style, &refusing)?;
    let has_refused = refusing.has_refused();
    if text.is_none() {
        assert!(rt; has_refused, "the entry refused");
        text = text_of(rt, alloc, style, entry)?;
    }
    assert_eq!(rt; text.as_ref().map(|text| text.as_str()), Some(wanted));
    Ok(has_refused)
}

/// An entry, and the line of its cite.
type Row = (BuiltIn, &'static str);

static AUTHORS_AND_DATES: [Row; 4] = [
    (BuiltIn::CrazyRich, BOOK_BRIEF),
    (BuiltIn::Dependence, THREE),
    (BuiltIn::Feminism, ESSAY_BRIEF),
    (BuiltIn::QuantizedVortex, VORTEX_BRIEF),
];

static REFERENCES: [Row; 4] = [
    (BuiltIn::CrazyRich, BOOK),
    (BuiltIn::Dependence, DEPENDENCE),
    (BuiltIn::Feminism, ESSAY),
    (BuiltIn::QuantizedVortex, VORTEX),
];

/// Asserts the refusal of each lookup in turn, up to the last one, of the entry of each row.
fn assert_rows(
    rt: &impl Abort,
    alloc: Global,
    style: BuiltInStyle,
    rows: &[Row],
) -> Result<(), Fail> {
    let style = style.style(alloc)?;
    for (entry, line) in rows {
        let (entry, wanted) = (
            entry.entry(alloc)?,
            line.strip_suffix('\n').unwrap_or(*line),
        );
        let mut answered = 0;
        while is_refused(rt, alloc, &style, &entry, answered, wanted)? {
            answered += 1;
        }
        assert!(rt; answered > 0, "an entry is asked");
    }
    Ok(())
}

#[test]
fn refusing_entries_by_author_and_date(rt: HostRuntime) -> Result<(), Fail> {
    let style = BuiltInStyle::AuthorDate;
    assert_rows(&rt, rt.alloc(), style, &AUTHORS_AND_DATES)
}

#[test]
fn refusing_entries_in_full(rt: HostRuntime) -> Result<(), Fail> {
    assert_rows(&rt, rt.alloc(), BuiltInStyle::Reference, &REFERENCES)
}

const HOLDS: Option<Result<bool, RenderError>> = Some(Ok(true));

const REFUSED: Option<Result<bool, RenderError>> = Some(Err(RenderError::Memory));

/// A branch tests the author and then the date of a book.
#[test]
fn the_tests_of_a_branch_end_after_an_error(rt: HostRuntime) -> Result<(), Fail> {
    let alloc = rt.alloc();
    let book = BuiltIn::CrazyRich.entry(alloc)?;
    let style = BuiltInStyle::AuthorDate.style(alloc)?;
    let (author, date) = (NameVariable::Author, DateVariable::Issued);
    let variables = vec![in alloc; Variable::Name(author), Variable::Date(date)]?;
    let branch = ChooseBranch {
        variable: Some(variables),
        ..ChooseBranch::new(Vec::new(alloc))
    };
    let first = CiteProperties::first(DisambiguateState::None);
    for (answered, wanted) in [(0, [REFUSED, None]), (1, [HOLDS, REFUSED])] {
        let refusing = WithoutMemory::behind(&book, answered);
        let cite = instance(&refusing, &first);
        let ctx = Context::new(alloc, &style, cite, Scope::Citation)?;
        let mut tests = BranchConditionIter::from_branch(&branch, &ctx);
        let found = [tests.next(), tests.next()];
        assert!(rt; found == wanted, "refused after {answered} lookups");
    }
    Ok(())
}
