//! Texts of numbers, pages and given names, over writers that refuse a text, for each text in turn.

use crate::shared::{Few, assert_written};
use lit_model::{GrammarGender, NumberForm, Numeric, Ordinals, PageRanges, Person};
use std::fmt::Write;
use std::test::Fail;

/// Ordinals in which each number has the suffix `st`, and 2 has a word.
struct Words;

impl Ordinals for Words {
    ghost ordinals = { ? };

    ghost long_ordinals = { ? };

    fn lookup(&self, _number: i32, _gender: Option<GrammarGender>) -> Option<&str> {
        Some("st")
    }

    fn long(&self, number: i32, _gender: Option<GrammarGender>) -> Option<&str> {
        (number == 2).then_some("second")
    }
}

#[test]
fn texts_of_numbers_and_pages(rt: HostRuntime) -> Result<(), Fail> {
    let alloc = rt.alloc();
    let number = Numeric::parse(alloc, "n4-6 ,9& 12a")?;
    let spelled = |w: &mut Few| write!(w, "{number}");
    assert_written(&rt, alloc, &spelled, "n4-6, 9 & 12a");
    let sorted = |w: &mut Few| number.fmt_value(w, true);
    assert_written(&rt, alloc, &sorted, "0004-0006, 0009 & 0012");
    let pages = PageRanges::parse(alloc, "321–328 ,7& A9")?;
    let spelled = |w: &mut Few| write!(w, "{pages}");
    assert_written(&rt, alloc, &spelled, "321-328, 7 & A9");
    let few = Numeric::parse(alloc, "2, 21")?;
    for (form, wanted) in [
        (NumberForm::Numeric, "2, 21"),
        (NumberForm::Ordinal, "2st, 21st"),
        (NumberForm::LongOrdinal, "second, 21st"),
        (NumberForm::Roman, "ii, xxi"),
    ] {
        let write = |w: &mut Few| few.with_form(w, form, None, &Words);
        assert_written(&rt, alloc, &write, wanted);
    }
    Ok(())
}

#[test]
fn texts_of_given_names(rt: HostRuntime) -> Result<(), Fail> {
    let alloc = rt.alloc();
    let jean = Person::new(alloc, "x", "Jean-Luc Marie")?;
    let initials = |w: &mut Few| jean.initials(w, Some(". "), true);
    assert_written(&rt, alloc, &initials, "J.-L. M.");
    let karl = Person::new(alloc, "x", "E. Karl J")?;
    let first = |w: &mut Few| karl.first_name_with_delimiter(w, Some("."));
    assert_written(&rt, alloc, &first, "E. Karl J.");
    Ok(())
}
