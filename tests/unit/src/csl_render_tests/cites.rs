//! Cites in special forms, and sort keys, of a book by one author.

use crate::wire::json;
use csl_entry::{CiteProperties, DisambiguateState, Sorting, SpecialForm};
use csl_render::{cite_in, sort_key};
use csl_style::{DateVariable, NameVariable, Scope, Style, Variable};
use csl_tree::BufWriteFormat;
use csl_wire::{Limits, style_of};
use lit_model::{Entry, EntryType, Memory, Person};
use std::alloc::Global;
use std::process::Abort;
use std::test::Fail;

fn crazy_rich(alloc: Global) -> Result<Entry, Memory> {
    let authors = vec![in alloc; Person::new(alloc, "Kwan", "Kevin")?]?;
    let book = Entry::titled(alloc, "crazy-rich", EntryType::Book, "Crazy Rich Asians")?
        .with_authors(authors)
        .with_date(lit_model::Date::of_year(2014));
    Ok(book)
}

/// A style whose cites are as `(Kwan, 2014)`, with the family names alone. Its bibliography has the
/// layout of a sort key.
const STYLE: &str = r#"
{
  "citation": {"name-form": "short", "children": [
    {"group": {"delimiter": ", ", "prefix": "(", "suffix": ")", "children": [
      {"names": {"variable": ["author"]}},
      {"date": {"variable": "issued", "date-part": [{"name": "year"}]}}]}}]},
  "bibliography": {"children": [
    {"group": {"delimiter": " ", "children": [
      {"names": {"variable": ["author"]}},
      {"date": {"variable": "issued", "date-part": [{"name": "year"}]}}]}}]}
}
"#;

fn style(rt: &impl Abort, alloc: Global) -> Style {
    style_of(alloc, &json(rt, alloc, STYLE), Limits::none()).expect(rt, "a style")
}

/// The plain text of a cite in a special form.
fn text_in(alloc: Global, style: &Style, entry: &Entry, form: SpecialForm) -> Result<String, Fail> {
    let first = CiteProperties::first(DisambiguateState::None);
    let rendered = cite_in(alloc, style, entry, &first, form)?;
    Ok(rendered.content.to_text(alloc, BufWriteFormat::Plain)?)
}

#[test]
fn a_cite_in_a_special_form_has_a_part_of_it(rt: HostRuntime) -> Result<(), Fail> {
    let style = style(&rt, rt.alloc());
    let book = crazy_rich(rt.alloc())?;
    let (author, issued) = (NameVariable::Author, DateVariable::Issued);
    for (form, wanted) in [
        (SpecialForm::VarOnly(Variable::Name(author)), "(Kwan)"),
        (SpecialForm::VarOnly(Variable::Date(issued)), "(2014)"),
        (SpecialForm::OnlyFirstDate, "(2014)"),
        (SpecialForm::SuppressAuthor, "(2014)"),
    ] {
        let text = text_in(rt.alloc(), &style, &book, form)?;
        assert_eq!(rt; text.as_str(), wanted);
    }
    Ok(())
}

/// Cites have the family names alone, the bibliography has whole names. A key of a macro has the date
/// parts of its node, and one of a variable has all.
#[test]
fn a_sort_key_is_of_its_scope_and_its_source(rt: HostRuntime) -> Result<(), Fail> {
    let style = style(&rt, rt.alloc());
    let book = crazy_rich(rt.alloc())?;
    let key = style.bibliography().expect(&rt, "a layout");
    let first = CiteProperties::first(DisambiguateState::None);
    let (cites, works) = (Scope::Citation, Scope::Bibliography);
    for (scope, sorting, wanted) in [
        (cites, Sorting::Macro, "Kwan P000002014"),
        (works, Sorting::Macro, "Kwan, Kevin P000002014"),
        (works, Sorting::Variable, "Kwan, Kevin P0000020140000"),
    ] {
        let text = sort_key(rt.alloc(), &style, &book, &first, key, scope, sorting)?;
        assert_eq!(rt; text.as_str(), wanted);
    }
    Ok(())
}
