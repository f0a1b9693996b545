//! Cites in several manners, a pair of cites, and a label.

use crate::error::WorkError;
use crate::refuse::failed::refusal;
use crate::refuse::twice;
use csl::entry::{NameDisambiguationProperties, SpecialForm};
use csl::literature::ChunkedString;
use csl::style::{DateVariable, NameVariable};
use csl::{
    Alphanumerical, BufWriteFormat, CiteProperties, Context, DisambiguateState,
    DisambiguatedNameForm, Entry, EntryLike, Error, InstanceContext, Pair, RenderCsl, Rendered,
    Renderer, Scope, Sorting, Style, cite_pair,
};
use csl_samples::{BuiltIn, BuiltInStyle, TitleOnly, title_style};
use std::alloc::Global;

/// Renders the citation layout of a style for a cite. If it fails, checks that later calls of the
/// context return that it has failed.
fn rendered<'s, T: EntryLike>(
    alloc: Global,
    style: &'s Style,
    instance: InstanceContext<'s, T>,
) -> Result<Rendered, WorkError> {
    let mut ctx = Context::new(alloc, style, instance, Scope::Citation)?;
    match style.citation().render(&mut ctx) {
        Ok(()) => Ok(ctx.finish()?),
        Err(_) => Err(refusal(ctx)),
    }
}

/// Renders the citation layout of a style for a cite, as plain text.
pub fn text_of<'s, T: EntryLike>(
    alloc: Global,
    style: &'s Style,
    instance: InstanceContext<'s, T>,
) -> Result<String, WorkError> {
    let rendered = rendered(alloc, style, instance)?;
    Ok(rendered.content.to_text(alloc, BufWriteFormat::Plain)?)
}

/// Cites an entry for the first time, by its authors and the year, in a disambiguation state and a
/// special form. If memory runs out, cites it once more in a new context.
fn cite(
    alloc: Global,
    entry: BuiltIn,
    state: DisambiguateState,
    kind: Option<SpecialForm>,
) -> Result<String, WorkError> {
    let style = BuiltInStyle::AuthorDate.style(alloc)?;
    let entry = entry.entry(alloc)?;
    let cite_props = CiteProperties::first(state);
    let instance = InstanceContext {
        entry: &entry,
        cite_props: &cite_props,
        sorting: None,
        kind,
    };
    twice(|| text_of(alloc, &style, instance))
}

/// The whole cite.
pub fn whole(alloc: Global) -> Result<String, WorkError> {
    cite(alloc, BuiltIn::CrazyRich, DisambiguateState::None, None)
}

/// The text of a cite under a limit, or `None` if the limit refuses it, and the bytes that are left.
fn text_within(
    alloc: Global,
    style: &Style,
    entry: &Entry,
    limit: u64,
) -> Result<(Option<String>, u64), WorkError> {
    let cite_props = CiteProperties::first(DisambiguateState::None);
    let instance = InstanceContext {
        entry,
        cite_props: &cite_props,
        sorting: None,
        kind: None,
    };
    let mut ctx = Context::new(alloc, style, instance, Scope::Citation)?;
    ctx.limit(limit);
    let rendered = style.citation().render(&mut ctx);
    let room = ctx.room();
    if rendered.is_err() && room > 0 {
        return Err(refusal(ctx));
    }
    if rendered.is_err() {
        drop(ctx);
        return Ok((None, 0));
    }
    let rendered = ctx.finish()?;
    let text = rendered.content.to_text(alloc, BufWriteFormat::Plain)?;
    Ok((Some(text), room))
}

/// The whole cite under a limit of one byte more than it takes. Each eighth of that refuses it.
pub fn limited(alloc: Global) -> Result<String, WorkError> {
    let style = BuiltInStyle::AuthorDate.style(alloc)?;
    let entry = BuiltIn::CrazyRich.entry(alloc)?;
    let (_, left) = text_within(alloc, &style, &entry, 1_000_000)?;
    let taken = 1_000_000 - left;
    for eighth in 0..8u64 {
        let (text, _) = text_within(alloc, &style, &entry, taken * eighth / 8)?;
        if text.is_some() {
            return Err(WorkError::Unexpected("the limit is forgotten"));
        }
    }
    match text_within(alloc, &style, &entry, taken + 1)? {
        (Some(text), 1) => Ok(text),
        _ => Err(WorkError::Unexpected("another cite")),
    }
}

/// The plain text and the sort key of a cite by one renderer under a limit, and the bytes that are
/// left.
fn request_within(
    alloc: Global,
    style: &Style,
    entry: &Entry,
    limit: u64,
) -> Result<(String, u64), Error> {
    let first = CiteProperties::first(DisambiguateState::None);
    let (layout, scope) = (style.citation(), Scope::Citation);
    let mut renderer = Renderer::new(style).limited(limit);
    let cite = renderer.cite(alloc, entry, &first)?;
    let key = renderer.sort_key(alloc, entry, &first, layout, scope, Sorting::Macro)?;
    let text = format!(in alloc; "{}, by {key}", cite.content)?;
    Ok((text, renderer.room()))
}

/// A cite and its sort key by one renderer, under a limit of one byte more than they take. Each
/// eighth of that refuses one of them.
pub fn request(alloc: Global) -> Result<String, WorkError> {
    let style = BuiltInStyle::AuthorDate.style(alloc)?;
    let entry = BuiltIn::CrazyRich.entry(alloc)?;
    let (_, left) = request_within(alloc, &style, &entry, 1_000_000)?;
    let taken = 1_000_000 - left;
    for eighth in 0..8u64 {
        match request_within(alloc, &style, &entry, taken * eighth / 8) {
            Err(Error::Limit) => {}
            Err(error) => return Err(error.into()),
            Ok(_) => return Err(WorkError::Unexpected("the limit is forgotten")),
        }
    }
    let (text, left) = request_within(alloc, &style, &entry, taken + 1)?;
    if left != 1 {
        return Err(WorkError::Unexpected("another room"));
    }
    Ok(text)
}

/// With a year suffix of three letters.
pub fn suffixed(alloc: Global) -> Result<String, WorkError> {
    let state = DisambiguateState::YearSuffix(702);
    cite(alloc, BuiltIn::CrazyRich, state, None)
}

/// Without the author.
pub fn suppressed(alloc: Global) -> Result<String, WorkError> {
    let kind = Some(SpecialForm::SuppressAuthor);
    cite(alloc, BuiltIn::CrazyRich, DisambiguateState::None, kind)
}

/// The date of issue alone.
pub fn date_only(alloc: Global) -> Result<String, WorkError> {
    let kind = Some(SpecialForm::VarOnly(DateVariable::Issued.into()));
    cite(alloc, BuiltIn::CrazyRich, DisambiguateState::None, kind)
}

/// Name forms of the authors: the first in the short form, and no others.
pub fn forms(alloc: Global) -> Result<NameDisambiguationProperties, WorkError> {
    let form = DisambiguatedNameForm::ShortFull;
    let lists = vec![in alloc; vec![in alloc; Some(form)]?]?;
    let variables = vec![in alloc; NameVariable::Author]?;
    Ok(NameDisambiguationProperties::new(form, variables, lists))
}

/// With name forms.
pub fn shortened(alloc: Global) -> Result<String, WorkError> {
    let state = DisambiguateState::NameDisambiguation(forms(alloc)?);
    cite(alloc, BuiltIn::Dependence, state, None)
}

/// The label of an article of three authors. If memory runs out, labels it once more.
pub fn label(alloc: Global) -> Result<String, WorkError> {
    let entry = BuiltIn::Dependence.entry(alloc)?;
    twice(|| Ok(Alphanumerical::new().citation(alloc, &entry)?))
}

/// Cites a book and an entry with only its title in the style of titles, and compares them. If
/// memory runs out, cites the pair once more.
pub fn pair(alloc: Global) -> Result<String, WorkError> {
    let style = title_style(alloc)?;
    let book = BuiltIn::CrazyRich.entry(alloc)?;
    let title = TitleOnly {
        title: Some(ChunkedString::plain(alloc, "Crazy Rich Asians")?),
    };
    let cite_props = CiteProperties::first(DisambiguateState::None);
    let pair: Pair = twice(|| Ok(cite_pair(alloc, &style, &cite_props, &book, &title)?))?;
    let alike = if pair.alike { "alike" } else { "not alike" };
    Ok(format!(in alloc; "{alike}, {} and {}", pair.left_html, pair.right_html)?)
}
