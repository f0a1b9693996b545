//! The examples of `csl_uses`, called one after another, and what `csl_finish` makes of texts and
//! links: `tools/works/uses.stdout` has what they make.

mod twelve;
mod unfinished;

use crate::error::WorkError;
use csl::literature::Entry;
use csl::style::{
    Choose, ChooseBranch, Layout, NameVariable, Names, StandardVariable, Style, StyleSettings, Text,
};
use csl::{BufWriteFormat, EntryLike, Error, Snapshot, named_by};
use csl_finish::{fold, with_links_to, with_web_links};
use csl_list::ListStyle;
use csl_uses::book::{book_label, the_c_book};
use csl_uses::by_date::{issue_key, order_by_issue};
use csl_uses::by_snapshot::{cite_by_snapshot, key_by_snapshot};
use csl_uses::cite::{bibliography_line, cite, house_style, page_cite, the_compilers_book};
use csl_uses::document::{texts_of, told_apart};
use csl_uses::film::{Film, metropolis, title_of};
use csl_uses::halves::{authors_half, is_other_half_silent, other_half};
use csl_uses::in_text::{bare_style, cite_in_text};
use csl_uses::list::{annotate_first, count_new, lines, rename_first};
use csl_uses::missing::missing_word;
use csl_uses::namesakes::{book_by_miller, cites_apart, short_style};
use csl_uses::page::{line_with_links_to, number_style, page, web_pages};
use csl_uses::pair::{pair_of, the_novel, title_style};
use std::alloc::Global;
use std::collections::HashMap;

/// Writes the labels of the book and of one by a single author, the month of the book, from 0, and
/// both titles.
fn show_texts(out: &mut String, alloc: Global, book: &Entry, film: &Film) -> Result<(), WorkError> {
    let label = book_label(alloc, book)?;
    let other = book_label(alloc, &book_by_miller(alloc, "Anna")?)?;
    let month = book.date.as_ref().and_then(|date| date.month());
    let titles = (title_of(alloc, book)?, title_of(alloc, film)?);
    writeln!(out, "labels: {label}, {other}")?;
    writeln!(out, "month: {month:?}")?;
    writeln!(out, "titles: {}, {}", titles.0, titles.1)?;
    Ok(())
}

/// Writes the cite of an entry, and its line in the bibliography.
fn show_cites<T: EntryLike>(
    out: &mut String,
    alloc: Global,
    style: &Style,
    entry: &T,
) -> Result<(), WorkError> {
    writeln!(out, "cite: {}", cite(alloc, style, entry)?)?;
    if let Some(line) = bibliography_line(alloc, style, entry)? {
        let html = line.to_text(alloc, BufWriteFormat::Html)?;
        writeln!(out, "bibliography: {line}")?;
        writeln!(out, "as HTML: {html}")?;
    }
    Ok(())
}

/// Writes the word that the style lacks, and the cites of the book, of a page of it, of the film,
/// and of a book of three authors. CSL's English has no word for a locator that is a number.
fn show_styled(
    out: &mut String,
    alloc: Global,
    style: &Style,
    book: &Entry,
    film: &Film,
) -> Result<(), WorkError> {
    let lacking = missing_word(style).unwrap_or("none");
    writeln!(out, "missing word: {lacking}")?;
    show_cites(out, alloc, style, book)?;
    let of_page = page_cite(alloc, style, book, "5")?;
    writeln!(out, "cite of a page: {of_page}")?;
    show_cites(out, alloc, style, film)?;
    show_cites(out, alloc, style, &the_compilers_book(alloc)?)
}

/// Three books, not in the order of their names.
fn three_books(alloc: Global) -> Result<Vec<Entry>, Error> {
    let book = the_c_book(alloc)?;
    let compilers = the_compilers_book(alloc)?;
    let novel = book_by_miller(alloc, "Anna")?;
    Ok(vec![in alloc; book, compilers, novel]?)
}

/// Writes the cites of three books in the running text.
fn show_in_text(out: &mut String, alloc: Global) -> Result<(), WorkError> {
    let style = bare_style(alloc)?;
    for book in &three_books(alloc)? {
        writeln!(out, "in the text: {}", cite_in_text(alloc, &style, book)?)?;
    }
    Ok(())
}

/// A style that cites a work by its title, if it has authors.
fn testing_style(alloc: Global) -> Result<Style, Error> {
    let title = Text::variable(StandardVariable::Title.into());
    let has_authors = ChooseBranch {
        variable: Some(vec![in alloc; NameVariable::Author.into()]?),
        ..ChooseBranch::new(vec![in alloc; title.into()]?)
    };
    let citation = Layout::new(vec![in alloc; Choose::new(alloc, has_authors).into()]?);
    let (macros, locales) = (Vec::new(alloc), Vec::new(alloc));
    let settings = StyleSettings::default();
    Ok(Style::new(alloc, settings, macros, citation, None, locales)?)
}

/// Writes both halves of the cite of the book, and whether the other half is silent in a style whose
/// citation tests the authors.
fn show_halves(out: &mut String, alloc: Global, book: &Entry) -> Result<(), WorkError> {
    let style = bare_style(alloc)?;
    let authors = authors_half(alloc, &style, book)?;
    let other = other_half(alloc, &style, book)?;
    let is_silent = is_other_half_silent(alloc, &style)?;
    writeln!(out, "halves: {authors}, {other}, silent: {is_silent}")?;
    let is_silent = is_other_half_silent(alloc, &testing_style(alloc)?)?;
    writeln!(out, "where authors are tested: {is_silent}")?;
    Ok(())
}

/// Writes the cite of the book, in italics, and its keys by authors and by the date of issue from
/// snapshots, and how it and the compilers' book are ordered by that date.
fn show_snapshots(out: &mut String, alloc: Global, book: &Entry) -> Result<(), WorkError> {
    let style = title_style(alloc)?;
    let named = named_by(alloc, &style, style.citation())?;
    let cite = cite_by_snapshot(alloc, &style, &named, book)?;
    let style = bare_style(alloc)?;
    let named = named_by(alloc, &style, style.citation())?;
    let names = Names::new(alloc, vec![in alloc; NameVariable::Author]?);
    let layout = Layout::new(vec![in alloc; names.into()]?);
    let names = key_by_snapshot(alloc, &style, &named, &layout, book)?;
    let date = key_by_snapshot(alloc, &style, &named, &issue_key(alloc)?, book)?;
    writeln!(out, "by a snapshot: {cite}, {names}, {date}")?;
    let other = the_compilers_book(alloc)?;
    let order = order_by_issue(alloc, &style, book, &other)?;
    writeln!(out, "by date: {order:?}")?;
    Ok(())
}

/// Writes cites of namesakes: the first two differ by an initial, the others by the given name.
fn show_namesakes(out: &mut String, alloc: Global) -> Result<(), WorkError> {
    let style = short_style(alloc)?;
    let anna = book_by_miller(alloc, "Anna")?;
    for given_name in ["Berta", "Alma"] {
        let other = book_by_miller(alloc, given_name)?;
        let (one, other) = cites_apart(alloc, &style, &anna, &other)?;
        writeln!(out, "told apart: {} {}", one.text, other.text)?;
    }
    Ok(())
}

/// Writes a list of works with the lines kept so far, and how many lines were rendered.
fn show_lines(
    out: &mut String,
    alloc: Global,
    style: &Style,
    works: &[Entry],
    kept: &mut HashMap<Snapshot, String>,
) -> Result<(), WorkError> {
    let list = lines(alloc, style, works, kept)?;
    for line in &list {
        writeln!(out, "line: {}", line.html)?;
    }
    writeln!(out, "lines rendered: {}", count_new(&list))?;
    Ok(())
}

/// Writes the list of three books, then with another title of the first, then with a note on it.
fn show_list(out: &mut String, alloc: Global, style: &Style) -> Result<(), WorkError> {
    let mut books = three_books(alloc)?;
    let mut kept = HashMap::new(alloc);
    show_lines(out, alloc, style, &books, &mut kept)?;
    rename_first(alloc, &mut books, "The C Language")?;
    show_lines(out, alloc, style, &books, &mut kept)?;
    annotate_first(alloc, &mut books, "Second edition: 1988.")?;
    show_lines(out, alloc, style, &books, &mut kept)
}

/// Writes a citation of each of these works, and their bibliography.
fn show_document(
    out: &mut String,
    alloc: Global,
    style: &ListStyle,
    works: &[Entry],
) -> Result<(), WorkError> {
    let texts = texts_of(alloc, style, works)?;
    for citation in &texts.citations {
        writeln!(out, "citation: {citation}")?;
    }
    for line in &texts.bibliography {
        writeln!(out, "bibliography: {line}")?;
    }
    Ok(())
}

/// Three books of one year, two of them by one of two Millers.
fn books_by_millers(alloc: Global) -> Result<Vec<Entry>, Error> {
    let berta = book_by_miller(alloc, "Berta")?;
    let anna = book_by_miller(alloc, "Anna")?;
    let again = book_by_miller(alloc, "Anna")?;
    Ok(vec![in alloc; berta, anna, again]?)
}

/// Writes two documents.
fn show_documents(out: &mut String, alloc: Global) -> Result<(), WorkError> {
    let style = twelve::author_date_style(alloc)?;
    let style = told_apart(alloc, style, "author-year-title")?;
    show_document(out, alloc, &style, &twelve::twelve_works(alloc)?)?;
    show_document(out, alloc, &style, &books_by_millers(alloc)?)
}

/// Writes names in the order of their folds.
fn show_folds(out: &mut String, alloc: Global) -> Result<(), WorkError> {
    for name in ["Ærø", "Çelik", "Łukasz", "Öhm", "Olsen", "Straße"] {
        writeln!(out, "{name}: {}", fold(alloc, name)?)?;
    }
    Ok(())
}

/// Writes contents, finished by the rules of a style.
fn show_finished(out: &mut String, alloc: Global, style: &Style) -> Result<(), WorkError> {
    for content in &unfinished::finished(alloc, style)? {
        writeln!(out, "finished: {content}")?;
    }
    Ok(())
}

/// Writes the cites of the film and the novel, and whether the two are alike for the style.
fn show_likeness(
    out: &mut String,
    alloc: Global,
    style: &Style,
    film: &Film,
) -> Result<(), WorkError> {
    let pair = pair_of(alloc, style, film, &the_novel(alloc)?)?;
    let answer = if pair.alike { "alike" } else { "not alike" };
    let (left, right) = (pair.left.content, pair.right.content);
    writeln!(out, "{left} and {right}: {answer}")?;
    Ok(())
}

/// Writes a content with its links to web addresses, with those to another host alone, and one with an
/// address of that host that is not of the web.
fn show_kept_links(out: &mut String, alloc: Global) -> Result<(), WorkError> {
    let content = unfinished::with_address(alloc, "https://example.org/a")?;
    let html = with_web_links(alloc, content)?.to_text(alloc, BufWriteFormat::Html)?;
    writeln!(out, "links to the web: {html}")?;
    for address in ["https://example.org/a", "ftp://www.w3.org/a"] {
        let content = unfinished::with_address(alloc, address)?;
        let content = with_links_to(alloc, content, &["www.w3.org"])?;
        let html = content.to_text(alloc, BufWriteFormat::Html)?;
        writeln!(out, "links to www.w3.org: {html}")?;
    }
    Ok(())
}

/// Writes the lines of the web pages, with links to one host alone.
fn show_links(out: &mut String, alloc: Global) -> Result<(), WorkError> {
    let style = number_style(alloc)?;
    for (place, entry) in web_pages(alloc)?.iter().enumerate() {
        let line = line_with_links_to(alloc, &style, entry, place, &["www.w3.org"])?;
        writeln!(out, "links to www.w3.org: {line}")?;
    }
    Ok(())
}

/// The web page.
pub fn html(alloc: Global) -> Result<String, WorkError> {
    Ok(page(alloc, &number_style(alloc)?, &web_pages(alloc)?)?)
}

/// What all examples make.
pub fn text(alloc: Global) -> Result<String, WorkError> {
    let mut text = String::new(alloc);
    let out = &mut text;
    let (book, film) = (the_c_book(alloc)?, metropolis(alloc)?);
    let style = house_style(alloc)?;
    show_texts(out, alloc, &book, &film)?;
    show_styled(out, alloc, &style, &book, &film)?;
    show_in_text(out, alloc)?;
    show_halves(out, alloc, &book)?;
    show_snapshots(out, alloc, &book)?;
    show_namesakes(out, alloc)?;
    show_list(out, alloc, &style)?;
    show_documents(out, alloc)?;
    show_folds(out, alloc)?;
    show_finished(out, alloc, &style)?;
    show_finished(out, alloc, &unfinished::outside_style(alloc)?)?;
    show_likeness(out, alloc, &title_style(alloc)?, &film)?;
    show_likeness(out, alloc, &style, &film)?;
    show_kept_links(out, alloc)?;
    show_links(out, alloc)?;
    out.push_str(html(alloc)?.as_str())?;
    Ok(text)
}
