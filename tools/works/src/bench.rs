//! Works of a size. Each returns a checksum of what it made.

mod asked;
pub mod bibliography;
pub mod cites;
mod entry;
mod full_note;
mod html;
mod limited;
mod lists;
mod literature;
mod nested;
mod published;
mod published_style;
pub mod render;
pub mod rows;
mod strangers;
pub mod styles;
mod tree;
mod whole;

use crate::documents;
use crate::error::WorkError;
use std::alloc::Global;

/// Does the work with this name at a size, and returns its checksum.
pub fn count(alloc: Global, name: &str, size: usize) -> Result<usize, WorkError> {
    match name {
        "numeric" => literature::numeric(alloc, size),
        "pages" => literature::pages(alloc, size),
        "initials" => literature::initials(alloc, size),
        "particle" => literature::particle(alloc, size),
        "clone_entry" => literature::clone_entry(alloc, size),
        "stack" => tree::stack(alloc, size),
        "drain" => tree::drain(alloc, size),
        "search" => tree::search(alloc, size),
        "search_deep" => tree::search_deep(alloc, size),
        "simplify" => tree::simplify(alloc, size),
        "simplify_deep" => tree::simplify_deep(alloc, size),
        "simplify_fully" => tree::normal_form(alloc, size),
        "simplify_fully_deep" => tree::normal_form_deep(alloc, size),
        "html" => html::html(alloc, size),
        "html_plain" => html::html_plain(alloc, size),
        "style_chain" => styles::macro_chain(alloc, size),
        "style_dense" => styles::dense(alloc, size),
        "style_cycle" => styles::cycle(alloc, size),
        "style_two_cycles" => styles::two_cycles(alloc, size),
        "answers" => entry::answers(alloc, size),
        "labels" => entry::labels(alloc, size),
        "render" => render::render(alloc, size),
        "pages_rendered" => render::pages_rendered(alloc, size),
        "named" => render::named(alloc, size),
        "pair" => render::pair(alloc, size),
        "cite" => cites::cite(alloc, size),
        "reference" => cites::reference(alloc, size),
        "terms" => cites::terms(alloc, size),
        "groups" => nested::groups(alloc, size),
        "macros" => nested::macros(alloc, size),
        "substitutes" => nested::substitutes(alloc, size),
        "substitutes_suppressed" => nested::substitutes_suppressed(alloc, size),
        "grouped_substitutes" => nested::grouped_substitutes(alloc, size),
        "grouped_substitutes_suppressed" => nested::grouped_substitutes_suppressed(alloc, size),
        "bibliography" => bibliography::bibliography(alloc, size),
        "bibliography_simplified" => bibliography::bibliography_simplified(alloc, size),
        "full_note" => full_note::full_note(alloc, size),
        "published_cites" => published::published_cites(alloc, size),
        "published_lines" => published::published_lines(alloc, size),
        "whole" => whole::whole(alloc, size),
        "list_equal" => documents::equal_cites(alloc, size),
        "list_author" => documents::one_author(alloc, size),
        "doubling" => nested::doubling(alloc, size),
        "doubling_named" => nested::doubling_named(alloc, size),
        "doubling_size" => nested::doubling_size(alloc, size),
        "branching_size" => nested::branching_size(alloc, size),
        "sort_key_asked" => nested::sort_key_asked(alloc, size),
        "macros_asked" => nested::macros_asked(alloc, size),
        "chains" => strangers::chains(alloc, size),
        "chains_suppressed" => strangers::chains_suppressed(alloc, size),
        "leaves" => strangers::leaves(alloc, size),
        "leaves_suppressed" => strangers::leaves_suppressed(alloc, size),
        "leaves_of_parents" => strangers::leaves_of_parents(alloc, size),
        "all_authors" => strangers::all_authors(alloc, size),
        "date_parts" => strangers::date_parts(alloc, size),
        "localized_parts" => strangers::localized_parts(alloc, size),
        "localized_uses" => lists::localized_uses(alloc, size),
        "localized_asked" => lists::localized_asked(alloc, size),
        "et_al_children" => lists::et_al_children(alloc, size),
        "et_al_asked" => lists::et_al_asked(alloc, size),
        "label_children" => lists::label_children(alloc, size),
        "labels_asked" => lists::labels_asked(alloc, size),
        "locale_ordinals" => lists::locale_ordinals(alloc, size),
        "ordinal_parts" => lists::ordinal_parts(alloc, size),
        "empty_locales" => lists::empty_locales(alloc, size),
        "empty_locales_dates" => lists::empty_locales_dates(alloc, size),
        "empty_locales_asked" => lists::empty_locales_asked(alloc, size),
        "tests" => strangers::tests(alloc, size),
        "name_variables" => strangers::name_variables(alloc, size),
        "long_texts" => strangers::long_texts(alloc, size),
        "locale_terms" => strangers::locale_terms(alloc, size),
        "many_macros" => strangers::many_macros(alloc, size),
        "many_macros_suppressed" => strangers::many_macros_suppressed(alloc, size),
        "colliding_macros" => strangers::colliding_macros(alloc, size),
        "colliding_macros_suppressed" => strangers::colliding_macros_suppressed(alloc, size),
        "few_colliding_macros_suppressed" => {
            strangers::few_colliding_macros_suppressed(alloc, size)
        }
        "doubled" => strangers::doubled(alloc, size),
        "long_delimiter" => limited::long_delimiter(alloc, size),
        "long_initials" => limited::long_initials(alloc, size),
        "numbers_of_ranges" => limited::numbers_of_ranges(alloc, size),
        "labels_of_ranges" => asked::labels_of_ranges(alloc, size),
        "labels_of_serials" => asked::labels_of_serials(alloc, size),
        "tests_of_ranges" => asked::tests_of_ranges(alloc, size),
        "ordinals_of_numbers" => limited::ordinals_of_numbers(alloc, size),
        _ => Err(WorkError::Unexpected("no such work")),
    }
}
