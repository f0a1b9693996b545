//! The names of the values of attributes.

use crate::names::{Name, Named};
use csl::entry::{DisambiguatedNameForm, IbidState, Sorting};
use csl::literature::{EntryType, GrammarGender, LongShortForm, NumberForm, Season};
use csl::style::{
    ChooseMatch, DateAnyForm, DateForm, DatePartName, DateParts, DelimiterBehavior,
    DemoteNonDroppingParticle, Display, FontStyle, FontVariant, FontWeight, LabelPluralize,
    NameAnd, NameAsSortOrder, NameForm, NamePartName, OrdinalMatch, PageRangeFormat, Scope,
    TermForm, TestPosition, TextDecoration, VerticalAlign,
};
use csl_finish::TextCase;
use csl_list::{
    CitePurpose, Collapse, GivenNameRule, ListedWorks, SecondFieldAlign, SubstituteRule,
};

named! {
    LongShortForm { "long" Long, "short" Short }
    NumberForm { "numeric" Numeric, "ordinal" Ordinal, "long-ordinal" LongOrdinal, "roman" Roman }
    LabelPluralize { "contextual" Contextual, "always" Always, "never" Never }
    DateForm { "numeric" Numeric, "text" Text }
    DateParts { "year" Year, "year-month" YearMonth, "year-month-day" YearMonthDay }
    DatePartName { "day" Day, "month" Month, "year" Year }
    DateAnyForm {
        "numeric" Numeric, "numeric-leading-zeros" NumericLeadingZeros, "ordinal" Ordinal,
        "long" Long, "short" Short
    }
    Season { "spring" Spring, "summer" Summer, "autumn" Autumn, "winter" Winter }
    NameForm { "long" Long, "short" Short, "count" Count }
    TextCase {
        "lowercase" Lowercase, "uppercase" Uppercase, "capitalize-first" CapitalizeFirst,
        "capitalize-all" CapitalizeAll, "title" TitleCase, "sentence" SentenceCase
    }
    NameAnd { "text" Text, "symbol" Symbol }
    NameAsSortOrder { "first" First, "all" All }
    DelimiterBehavior {
        "contextual" Contextual, "after-inverted-name" AfterInvertedName, "always" Always,
        "never" Never
    }
    NamePartName { "given" Given, "family" Family }
    DemoteNonDroppingParticle {
        "display-and-sort" DisplayAndSort, "sort-only" SortOnly, "never" Never
    }
    PageRangeFormat {
        "expanded" Expanded, "minimal" Minimal, "minimal-two" MinimalTwo,
        "chicago-15" Chicago15, "chicago-16" Chicago16
    }
    ChooseMatch { "all" All, "any" Any, "none" None }
    TestPosition {
        "first" First, "subsequent" Subsequent, "ibid" Ibid,
        "ibid-with-locator" IbidWithLocator, "near-note" NearNote
    }
    Scope { "citation" Citation, "bibliography" Bibliography }
    TermForm { "long" Long, "short" Short, "verb" Verb, "verb-short" VerbShort, "symbol" Symbol }
    GrammarGender { "feminine" Feminine, "masculine" Masculine }
    OrdinalMatch {
        "last-digit" LastDigit, "last-two-digits" LastTwoDigits, "whole-number" WholeNumber
    }
    Sorting { "variable" Variable, "macro" Macro }
    EntryType {
        "article" Article, "chapter" Chapter, "entry" Entry, "anthos" Anthos, "report" Report,
        "thesis" Thesis, "web" Web, "scene" Scene, "artwork" Artwork, "patent" Patent, "case" Case,
        "newspaper" Newspaper, "legislation" Legislation, "manuscript" Manuscript, "post" Post,
        "misc" Misc, "performance" Performance, "periodical" Periodical,
        "proceedings" Proceedings, "book" Book, "blog" Blog, "reference" Reference,
        "conference" Conference, "anthology" Anthology, "repository" Repository,
        "thread" Thread, "video" Video, "audio" Audio, "exhibition" Exhibition,
        "original" Original
    }
    IbidState { "different" Different, "ibid" Ibid, "ibid-with-locator" IbidWithLocator }
    CitePurpose {
        "author" Author, "year" Year, "full" Full, "prose" Prose,
        "suppress-author" SuppressAuthor
    }
    ListedWorks { "all" All, "cited" Cited }
    Collapse {
        "citation-number" CitationNumber, "year" Year, "year-suffix" YearSuffix,
        "year-suffix-ranged" YearSuffixRanged
    }
    GivenNameRule {
        "all-names" AllNames, "all-names-with-initials" AllNamesWithInitials,
        "primary-name" PrimaryName, "primary-name-with-initials" PrimaryNameWithInitials,
        "by-cite" ByCite
    }
    SubstituteRule {
        "complete-all" CompleteAll, "complete-each" CompleteEach, "partial-each" PartialEach,
        "partial-first" PartialFirst
    }
}

names! {
    SecondFieldAlign { "margin" Margin, "flush" Flush }
    FontStyle { "normal" Normal, "italic" Italic }
    FontVariant { "normal" Normal, "small-caps" SmallCaps }
    FontWeight { "normal" Normal, "bold" Bold, "light" Light }
    TextDecoration { "none" None, "underline" Underline }
    VerticalAlign { "none" None, "baseline" Baseline, "sup" Sup, "sub" Sub }
    Display {
        "block" Block, "left-margin" LeftMargin, "right-inline" RightInline, "indent" Indent
    }
    DisambiguatedNameForm {
        "count" Count, "short-initials" ShortInitialized, "short" ShortFull,
        "long-initials" LongInitialized, "long" LongFull
    }
}
