//! Strangers' styles with long lists: of children of names, of parts of a localized date, of ordinals
//! and of locales. Where a size leaves such a list out, or each lookup goes through it, two sizes
//! multiply. A work whose name ends in `_asked` renders nothing: it returns 1 if the style is within
//! the limits that `docs/SAFETY.md` gives, and 0 if not.

use crate::bench::entry::article;
use crate::bench::literature::repetition;
use crate::bench::render::text_size;
use crate::bench::strangers::{DEPTH, ITEMS, allowed, parts_named, repeated, room, size_within};
use crate::bench::styles::call;
use crate::error::WorkError;
use crate::nodes::{style, title};
use csl::literature::{Entry, MaybeTyped, Numeric};
use csl::style::{
    Choose, ChooseBranch, CslMacro, Date, DateForm, DatePart, DatePartName, DateVariable, EtAl,
    GrammarGender, Layout, LayoutRenderingElement, Locale, Name, NameVariable, Names, NamesChild,
    Number, NumberForm, NumberOrPageVariable, NumberVariable, OrdinalMatch, OrdinalSlot,
    OrdinalTerm, Style, StyleSettings, Substitute, Term, TermEntry, TermForm, VariablelessLabel,
};
use std::alloc::Global;

/// How many calls a layout makes of a macro with a long list: together below 2,000 without the list.
const CALLS: usize = 300;

/// The names of a variable with these children.
fn names_with(
    alloc: Global,
    variable: NameVariable,
    children: Vec<NamesChild>,
) -> Result<LayoutRenderingElement, WorkError> {
    let variables = vec![in alloc; variable]?;
    let names = Names {
        children,
        ..Names::new(alloc, variables)
    };
    Ok(names.into())
}

/// `size` et al.
fn many_et_al(alloc: Global, size: usize) -> Result<Vec<NamesChild>, WorkError> {
    let mut children = Vec::new(alloc);
    for _ in 0..size {
        children.push(EtAl::default().into())?;
    }
    Ok(children)
}

/// `size` labels of names.
fn many_labels(alloc: Global, size: usize) -> Result<Vec<NamesChild>, WorkError> {
    let mut children = Vec::new(alloc);
    for _ in 0..size {
        children.push(VariablelessLabel::default().into())?;
    }
    Ok(children)
}

/// Renders a layout of one node within the size, and counts the bytes of the plain text.
fn alone(alloc: Global, node: LayoutRenderingElement, size: usize) -> Result<usize, WorkError> {
    let nodes = vec![in alloc; node]?;
    size_within(alloc, style(alloc, Vec::new(alloc), nodes)?, size)
}

/// Renders the author by names whose name child comes after et al. that fill the layout.
pub fn et_al_children(alloc: Global, size: usize) -> Result<usize, WorkError> {
    let mut children = many_et_al(alloc, room(size, 4, 1))?;
    children.push(Name::new(alloc).into())?;
    alone(
        alloc,
        names_with(alloc, NameVariable::Author, children)?,
        size,
    )
}

/// Renders the title in the substitute of names without persons, which comes after labels that fill
/// the layout.
pub fn label_children(alloc: Global, size: usize) -> Result<usize, WorkError> {
    let mut children = many_labels(alloc, room(size, 5, 1))?;
    let substitute = Substitute {
        children: vec![in alloc; title()]?,
    };
    children.push(substitute.into())?;
    alone(
        alloc,
        names_with(alloc, NameVariable::Editor, children)?,
        size,
    )
}

/// A style of a citation layout of these nodes, with these macros and locales.
fn localized_style(
    alloc: Global,
    macros: Vec<CslMacro>,
    nodes: Vec<LayoutRenderingElement>,
    locales: Vec<Locale>,
) -> Result<Style, WorkError> {
    let (settings, citation) = (StyleSettings::default(), Layout::new(nodes));
    Ok(Style::new(alloc, settings, macros, citation, None, locales)?)
}

/// A macro of one node, and `times` calls of it.
fn called(
    alloc: Global,
    node: LayoutRenderingElement,
    times: usize,
) -> Result<(Vec<CslMacro>, Vec<LayoutRenderingElement>), WorkError> {
    let nodes = vec![in alloc; node]?;
    let macros = vec![in alloc; CslMacro::new(alloc, "macro 0", nodes)?]?;
    Ok((macros, repeated(alloc, times, || call(alloc, 0))?))
}

/// A localized date of `size` days and a year.
fn days_and_year(alloc: Global, size: usize) -> Result<Date, WorkError> {
    let mut parts = parts_named(alloc, size, DatePartName::Day)?;
    parts.push(DatePart::new(DatePartName::Year))?;
    Ok(Date::localized(DateForm::Text, parts))
}

/// A locale of one date.
fn dated(alloc: Global, date: Date) -> Result<Locale, WorkError> {
    let mut locale = Locale::new(alloc);
    locale.dates.push(date)?;
    Ok(locale)
}

/// The date of issue in the style's own format.
fn localized(alloc: Global) -> LayoutRenderingElement {
    Date {
        form: Some(DateForm::Text),
        ..Date::new(DateVariable::Issued, Vec::new(alloc))
    }
    .into()
}

/// Renders a style whose rendering goes through at most `size` of its layout, for an article, and
/// counts the bytes of the plain text.
fn rendered_size(alloc: Global, style: &Style, size: usize) -> Result<usize, WorkError> {
    if !style.rendered_within(style.citation(), size as u64, size as u64, DEPTH) {
        return Err(WorkError::Unexpected("above the limits"));
    }
    text_size(alloc, style, &article(alloc, 1)?)
}

/// Renders calls of a macro of a date over a localized date of [`ITEMS`] days and a year. The article
/// has no day.
pub fn localized_uses(alloc: Global, size: usize) -> Result<usize, WorkError> {
    let (macros, calls) = called(alloc, localized(alloc), room(size, 0, 4 + ITEMS))?;
    let locales = vec![in alloc; dated(alloc, days_and_year(alloc, ITEMS)?)?]?;
    rendered_size(
        alloc,
        &localized_style(alloc, macros, calls, locales)?,
        size,
    )
}

/// An ordinal for these numbers, without a gender.
fn ordinal(
    alloc: Global,
    slot: OrdinalSlot,
    matching: Option<OrdinalMatch>,
    text: &str,
) -> Result<OrdinalTerm, WorkError> {
    Ok(OrdinalTerm {
        slot,
        matching,
        gender: None,
        text: String::from_str(alloc, text)?,
    })
}

/// Editions as ordinals that fill the layout.
pub fn ordinal_editions(
    alloc: Global,
    size: usize,
) -> Result<Vec<LayoutRenderingElement>, WorkError> {
    repeated(alloc, room(size, 0, 1), || {
        let edition = Number {
            form: NumberForm::Ordinal,
            ..Number::new(NumberVariable::Edition.into())
        };
        Ok(edition.into())
    })
}

/// Renders editions as ordinals in these locales, for an article of edition 1000007, and counts the bytes
/// of the plain text.
fn in_edition(alloc: Global, locales: Vec<Locale>, size: usize) -> Result<usize, WorkError> {
    let editions = ordinal_editions(alloc, size)?;
    let style = localized_style(alloc, Vec::new(alloc), editions, locales)?;
    if !style.rendered_within(style.citation(), size as u64, size as u64, DEPTH) {
        return Err(WorkError::Unexpected("above the limits"));
    }
    let mut article = article(alloc, 1)?;
    article.edition = Some(MaybeTyped::Typed(Numeric::new(1_000_007)));
    text_size(alloc, &style, &article)
}

/// Renders ordinals in a locale of `size` ordinals for the whole number 7, and `th` for all others.
pub fn locale_ordinals(alloc: Global, size: usize) -> Result<usize, WorkError> {
    let mut locale = Locale::new(alloc);
    let seven = OrdinalSlot::Two(7);
    for _ in 0..size {
        let ordinal = ordinal(alloc, seven, Some(OrdinalMatch::WholeNumber), "of 7")?;
        locale.ordinals.push(ordinal)?;
    }
    let others = ordinal(alloc, OrdinalSlot::Default, None, "th")?;
    locale.ordinals.push(others)?;
    in_edition(alloc, vec![in alloc; locale]?, size)
}

/// A locale of an ordinal for each slot from 0 to 99, each match and each gender, 1,200 in all. The term
/// of an edition is feminine.
pub fn many_ordinals(alloc: Global) -> Result<Locale, WorkError> {
    let mut locale = Locale::new(alloc);
    let matches = [
        Some(OrdinalMatch::WholeNumber),
        Some(OrdinalMatch::LastTwoDigits),
        Some(OrdinalMatch::LastDigit),
        None,
    ];
    let genders = [
        Some(GrammarGender::Masculine),
        None,
        Some(GrammarGender::Feminine),
    ];
    for slot in 0..100 {
        for matching in matches {
            for gender in genders {
                let mut term = ordinal(alloc, OrdinalSlot::Two(slot), matching, "th")?;
                term.gender = gender;
                locale.ordinals.push(term)?;
            }
        }
    }
    let edition = NumberOrPageVariable::Number(NumberVariable::Edition);
    let mut term = TermEntry::new(alloc, Term::from(edition), TermForm::Long, "edition")?;
    term.gender = Some(GrammarGender::Feminine);
    locale.terms.push(term)?;
    Ok(locale)
}

/// An article whose edition is `size` numbers.
pub fn editions_of(alloc: Global, size: usize) -> Result<Entry, WorkError> {
    let mut article = article(alloc, 1)?;
    let text = repetition(alloc, "1007, ", size.saturating_sub(1), "1007")?;
    article.edition = Some(MaybeTyped::Typed(Numeric::parse(alloc, text.as_str())?));
    Ok(article)
}

/// Renders editions of `size` numbers as ordinals that fill the layout for strangers, in a locale of
/// 1,200 ordinals, and counts the bytes of the plain text.
pub fn ordinal_parts(alloc: Global, size: usize) -> Result<usize, WorkError> {
    let editions = ordinal_editions(alloc, 2_000)?;
    let locales = vec![in alloc; many_ordinals(alloc)?]?;
    let style = localized_style(alloc, Vec::new(alloc), editions, locales)?;
    if allowed(alloc, &style)? == 0 {
        return Err(WorkError::Unexpected("above the limits"));
    }
    text_size(alloc, &style, &editions_of(alloc, size)?)
}

/// `size` empty locales.
fn no_locales(alloc: Global, size: usize) -> Result<Vec<Locale>, WorkError> {
    let mut locales = Vec::new(alloc);
    for _ in 0..size {
        locales.push(Locale::new(alloc))?;
    }
    Ok(locales)
}

/// Renders ordinals in `size` empty locales. They have no suffix.
pub fn empty_locales(alloc: Global, size: usize) -> Result<usize, WorkError> {
    in_edition(alloc, no_locales(alloc, size)?, size)
}

/// `size` empty locales, and one with a localized date of a year.
fn locales_before_a_date(alloc: Global, size: usize) -> Result<Vec<Locale>, WorkError> {
    let mut locales = no_locales(alloc, size)?;
    locales.push(dated(alloc, days_and_year(alloc, 0)?)?)?;
    Ok(locales)
}

/// Renders dates in the format of the last of `size` locales. The others are empty.
pub fn empty_locales_dates(alloc: Global, size: usize) -> Result<usize, WorkError> {
    let dates = repeated(alloc, room(size, 0, 2), || Ok(localized(alloc)))?;
    let locales = locales_before_a_date(alloc, size)?;
    let style = localized_style(alloc, Vec::new(alloc), dates, locales)?;
    rendered_size(alloc, &style, size)
}

/// Asks about a style of a choice of 21 branches, each of 900 dates, with `size` empty locales.
pub fn empty_locales_asked(alloc: Global, size: usize) -> Result<usize, WorkError> {
    let mut choose = Choose::new(alloc, ChooseBranch::new(Vec::new(alloc)));
    for _ in 0..21 {
        let dates = repeated(alloc, 900, || Ok(localized(alloc)))?;
        choose.else_if.push(ChooseBranch::new(dates))?;
    }
    let nodes = vec![in alloc; choose.into()]?;
    let locales = locales_before_a_date(alloc, size)?;
    allowed(
        alloc,
        &localized_style(alloc, Vec::new(alloc), nodes, locales)?,
    )
}

/// Asks about [`CALLS`] calls of a macro of one node, with these locales.
fn calls_asked(
    alloc: Global,
    node: LayoutRenderingElement,
    locales: Vec<Locale>,
) -> Result<usize, WorkError> {
    let (macros, calls) = called(alloc, node, CALLS)?;
    allowed(alloc, &localized_style(alloc, macros, calls, locales)?)
}

/// Asks about calls of a macro of names with `size` et al.
pub fn et_al_asked(alloc: Global, size: usize) -> Result<usize, WorkError> {
    let names = names_with(alloc, NameVariable::Author, many_et_al(alloc, size)?)?;
    calls_asked(alloc, names, Vec::new(alloc))
}

/// Asks about calls of a macro of names with `size` labels.
pub fn labels_asked(alloc: Global, size: usize) -> Result<usize, WorkError> {
    let names = names_with(alloc, NameVariable::Editor, many_labels(alloc, size)?)?;
    calls_asked(alloc, names, Vec::new(alloc))
}

/// Asks about calls of a macro of a date over a localized date of `size` days and a year.
pub fn localized_asked(alloc: Global, size: usize) -> Result<usize, WorkError> {
    let locales = vec![in alloc; dated(alloc, days_and_year(alloc, size)?)?]?;
    calls_asked(alloc, localized(alloc), locales)
}
