//! The names of kinds, variables, locators and terms, which the library reads.

use crate::names::Named;
use csl::style::{
    DateVariable, Kind, Locator, NameVariable, NumberOrPageVariable, NumberVariable, OtherTerm,
    PageVariable, StandardVariable, Term, Variable,
};

/// Reads names by the library's own call.
macro_rules! named_by_the_library {
    ($($enum:ident)*) => {
        $(
            impl Named for $enum {
                fn from_name(name: &str) -> Option<$enum> {
                    $enum::from_name(name)
                }
            }
        )*
    };
}

named_by_the_library! { Kind Variable NameVariable DateVariable StandardVariable Locator OtherTerm }

impl Named for NumberOrPageVariable {
    fn from_name(name: &str) -> Option<NumberOrPageVariable> {
        NumberVariable::from_name(name)
            .map(NumberOrPageVariable::Number)
            .or(PageVariable::from_name(name).map(NumberOrPageVariable::Page))
    }
}

/// `locator:page` is the term of a locator, if a variable has the same name.
impl Named for Term {
    fn from_name(name: &str) -> Option<Term> {
        match name.strip_prefix("locator:") {
            Some(locator) => Locator::from_name(locator).map(Term::Locator),
            None => Term::from_name(name),
        }
    }
}
