//! What an entry holds is lent, by works, snapshots and an entry type with the provided methods.

use crate::assertions::{assert_of, assert_same};
use crate::shared::{alone, assert_cases, put};
use csl_elements::{NameVariable, Named, PageVariable, StandardVariable};
use csl_entry::{EntryLike, LentText, Snapshot};
use csl_laws::table::Table;
use lit_model::{
    Entry, EntryType, FormatString, LongShortForm, MaybeTyped, PageRanges, Person, PersonRole,
    PersonsWithRoles,
};
use std::alloc::Global;
use std::borrow::Cow;
use std::collections::BTreeSet;
use std::process::Abort;
use std::test::Fail;

fn person(rt: &impl Abort, alloc: Global, name: &str) -> Result<Vec<Person>, Fail> {
    Ok(alone(rt, alloc, Person::institution(alloc, name)?))
}

/// The pages that the text spells, or the text.
fn pages(alloc: Global, text: &str) -> Result<MaybeTyped<PageRanges>, Fail> {
    match PageRanges::parse(alloc, text) {
        Ok(pages) => Ok(MaybeTyped::Typed(pages)),
        Err(_) => Ok(MaybeTyped::String(String::from_str(alloc, text)?)),
    }
}

/// An article with a DOI, an empty ISBN, a blank title, pages, an author and a translator, in a
/// journal with an editor.
fn article(rt: &impl Abort, alloc: Global) -> Result<Entry, Fail> {
    let journal = Entry::titled(alloc, "journal", EntryType::Periodical, "Nature")?.with_editors(
        person(rt, alloc, "Eve")?,
    );
    let mut article = Entry::titled(alloc, "key", EntryType::Article, " ")?
        .with_authors(person(rt, alloc, "Ann")?)
        .with_page_range(pages(alloc, "7-9")?)
        .with_parents(alone(rt, alloc, journal));
    let translators = PersonsWithRoles {
        names: person(rt, alloc, "Ben")?,
        role: PersonRole::Translator,
    };
    article.affiliated = Some(alone(rt, alloc, translators));
    article.set_doi(alloc, "10.1007/x")?;
    article.set_isbn(alloc, "")?;
    Ok(article)
}

/// Its variables, without the label and without the editor.
fn named(alloc: Global) -> Result<Named, Fail> {
    let mut named = Named {
        numbers: BTreeSet::new(alloc),
        pages: BTreeSet::new(alloc),
        standards: BTreeSet::new(alloc),
        names: BTreeSet::new(alloc),
        dates: BTreeSet::new(alloc),
        kinds: BTreeSet::new(alloc),
    };
    named.pages.insert(PageVariable::Page)?;
    for variable in [
        StandardVariable::DOI,
        StandardVariable::ISBN,
        StandardVariable::Title,
    ] {
        named.standards.insert(variable)?;
    }
    for variable in [
        NameVariable::Author,
        NameVariable::Composer,
        NameVariable::Translator,
    ] {
        named.names.insert(variable)?;
    }
    Ok(named)
}

/// A table of the blank title, the pages and the author.
fn table(rt: &impl Abort, alloc: Global) -> Result<Table, Fail> {
    let mut table = Table::new(alloc);
    let title = (StandardVariable::Title, FormatString::plain(alloc, " ")?);
    put(rt, &mut table.texts, title);
    let author = (NameVariable::Author, person(rt, alloc, "Ann")?);
    put(rt, &mut table.names, author);
    table.pages = Some(pages(alloc, "7-9")?);
    Ok(table)
}

/// How a text is lent, and whether it is empty and white space.
fn lent_text<T: EntryLike>(
    rt: &impl Abort,
    alloc: Global,
    entry: &T,
    variable: StandardVariable,
) -> &'static str {
    let found = entry.lend_text(alloc, LongShortForm::Long, variable);
    let Some(text) = found.expect(rt, "memory") else {
        return "none";
    };
    match (&text, text.is_empty(), text.is_white_space()) {
        (LentText::Verbatim(_), false, false) => "verbatim",
        (LentText::Verbatim(_), true, true) => "verbatim empty",
        (LentText::Chunks(Cow::Borrowed(_)), false, false) => "lent",
        (LentText::Chunks(Cow::Borrowed(_)), false, true) => "lent blank",
        (LentText::Chunks(Cow::Borrowed(_)), true, true) => "lent empty",
        (LentText::Chunks(Cow::Owned(_)), false, false) => "owned",
        _ => "otherwise",
    }
}

/// A variable, and how the article, its snapshot and the table lend it.
const TEXTS: &str = "
DOI => verbatim, lent, none
ISBN => verbatim empty, lent empty, none
title => lent blank, lent blank, lent blank
citation-label => owned, none, none
URL => none, none, none
";

#[test]
fn texts_are_lent_to_ask_about_them(rt: HostRuntime) -> Result<(), Fail> {
    let alloc = rt.alloc();
    let (article, table) = (article(&rt, alloc)?, table(&rt, alloc)?);
    let kept = Snapshot::new(alloc, &article, &named(alloc)?)?;
    let answer = |name: &str| {
        let variable = StandardVariable::from_name(name).expect(&rt, "a variable");
        let of_article = lent_text(&rt, alloc, &article, variable);
        let of_snapshot = lent_text(&rt, alloc, &kept, variable);
        let of_table = lent_text(&rt, alloc, &table, variable);
        format!(in alloc; "{of_article}, {of_snapshot}, {of_table}").expect(&rt, "memory")
    };
    assert_cases(&rt, alloc, TEXTS, &answer);
    Ok(())
}

/// Whether the entry lends these pages. It has them.
fn lends<T: EntryLike>(
    rt: &impl Abort,
    alloc: Global,
    entry: &T,
    wanted: &MaybeTyped<PageRanges>,
) -> Result<bool, Fail> {
    let found = entry
        .lend_pages(alloc, PageVariable::Page)?
        .expect(rt, "pages");
    assert!(rt; found.as_ref() == wanted, "other pages");
    Ok(matches!(found, Cow::Borrowed(_)))
}

/// Whether an answer is lent, if there is one.
fn is_lent<T: Drop>(found: &Option<Cow<'_, T>>) -> Option<bool> {
    found
        .as_ref()
        .map(|found| matches!(found, Cow::Borrowed(_)))
}

#[test]
fn texts_and_pages_that_an_entry_holds_are_lent(rt: HostRuntime) -> Result<(), Fail> {
    let (alloc, form) = (rt.alloc(), LongShortForm::Short);
    let (mut article, mut table) = (article(&rt, alloc)?, table(&rt, alloc)?);
    for (variable, wanted) in [
        (StandardVariable::TitleShort, Some(true)),
        (StandardVariable::ContainerTitle, Some(true)),
        (StandardVariable::CitationKey, Some(false)),
    ] {
        let found = article.resolve_standard_variable(alloc, form, variable)?;
        assert_of(&rt, &is_lent(&found), &wanted, variable);
    }
    for text in ["7-9", "passim"] {
        let wanted = pages(alloc, text)?;
        article.page_range = Some(pages(alloc, text)?);
        table.pages = Some(pages(alloc, text)?);
        let kept = Snapshot::new(alloc, &article, &named(alloc)?)?;
        let are_lent = [
            lends(&rt, alloc, &article, &wanted)?,
            lends(&rt, alloc, &kept, &wanted)?,
            lends(&rt, alloc, &table, &wanted)?,
        ];
        assert_of(&rt, &are_lent, &[true, true, false], text);
    }
    table.pages = None;
    assert_same(
        &rt,
        &is_lent(&table.lend_pages(alloc, PageVariable::Page)?),
        &None,
    );
    Ok(())
}

/// A variable, and whether the article, its snapshot and the table have persons.
const PERSONS: &str = "
author => true true true
editor => true false false
container-author => false false false
translator => true true false
composer => false false false
";

fn has_persons<T: EntryLike>(
    rt: &impl Abort,
    alloc: Global,
    entry: &T,
    variable: NameVariable,
) -> bool {
    entry.has_persons(alloc, variable).expect(rt, "memory")
}

#[test]
fn an_entry_has_persons_or_none(rt: HostRuntime) -> Result<(), Fail> {
    let alloc = rt.alloc();
    let (article, table) = (article(&rt, alloc)?, table(&rt, alloc)?);
    let kept = Snapshot::new(alloc, &article, &named(alloc)?)?;
    let answer = |name: &str| {
        let variable = NameVariable::from_name(name).expect(&rt, "a variable");
        let of_article = article.has_persons(alloc, variable).expect(&rt, "memory");
        let of_snapshot = kept.has_persons(alloc, variable).expect(&rt, "memory");
        let of_table = table.has_persons(alloc, variable).expect(&rt, "memory");
        format!(in alloc; "{of_article} {of_snapshot} {of_table}").expect(&rt, "memory")
    };
    assert_cases(&rt, alloc, PERSONS, &answer);
    Ok(())
}
