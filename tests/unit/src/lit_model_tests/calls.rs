//! Calls that allocate or take a function, one each with its answer, what is no number, and default
//! values.

use crate::assertions::{assert_of, assert_same};
use crate::lit_model_tests::constructors::{text, works};
use crate::shared::{alone, chunks};
use lit_model::{
    ChunkKind, ChunkedString, Date, Entry, EntryType, LongShortForm, NumberForm, Numeric,
    NumericError, PageRanges, Person, PersonRole, PersonsWithRoles, are_same_persons,
    is_web_address,
};
use std::test::Fail;

#[test]
fn a_text_is_long_its_chunks_normal_and_a_number_numeric(rt: HostRuntime) {
    assert_same(&rt, &LongShortForm::default(), &LongShortForm::Long);
    assert_same(&rt, &ChunkKind::default(), &ChunkKind::Normal);
    assert_same(&rt, &NumberForm::default(), &NumberForm::Numeric);
}

#[test]
fn chunks_are_one_text(rt: HostRuntime) -> Result<(), Fail> {
    let alloc = rt.alloc();
    let title: ChunkedString = chunks(&rt, alloc, "On +$x^2+` and more");
    assert_same(&rt, &title.to_text(alloc)?.as_str(), &"On x^2 and more");
    let blank = chunks(&rt, alloc, " +$\u{3000}");
    assert_same(&rt, &blank.is_white_space(), &true);
    Ok(())
}

#[test]
fn persons_of_a_role_are_in_order(rt: HostRuntime) -> Result<(), Fail> {
    let alloc = rt.alloc();
    let mut groups = Vec::new(alloc);
    for (name, role) in [
        ("Ann", PersonRole::Director),
        ("Ben", PersonRole::Writer),
        ("Cid", PersonRole::Director),
    ] {
        let names = alone(&rt, alloc, Person::institution(alloc, name)?);
        groups.push(PersonsWithRoles { names, role })?;
    }
    let mut film = Entry::new(alloc, "film", EntryType::Video)?;
    film.affiliated = Some(groups);
    let directors = film.affiliated_with_role(alloc, &PersonRole::Director)?;
    let mut names = text(alloc, "")?;
    for director in directors {
        names.push_str(director.name.as_str())?;
    }
    assert_same(&rt, &names.as_str(), &"AnnCid");
    Ok(())
}

/// The series, two works up, comes before the blog, which is the second parent.
#[test]
fn a_work_is_searched_in_preorder(rt: HostRuntime) -> Result<(), Fail> {
    let alloc = rt.alloc();
    let mut blog = Entry::titled(alloc, "blog", EntryType::Blog, "Aeon")?;
    blog.date = Some(Date::of_year(2002));
    let mut chapter = works(&rt, alloc)?;
    chapter.parents.push(blog)?;
    let key = chapter.map(|entry| entry.title.as_ref().and(Some(&entry.key)));
    assert_same(&rt, &key.map(|key| key.as_str()), &Some("chapter"));
    let above = chapter.map(|entry| (entry.entry_type != EntryType::Chapter).then_some(&entry.key));
    assert_same(&rt, &above.map(|key| key.as_str()), &Some("book"));
    let year = chapter.date_any().map(|date| date.year());
    assert_same(&rt, &year, &Some(2002));
    chapter.parents[0].parents[0].date = Some(Date::of_year(2001));
    let year = chapter.date_any().map(|date| date.year());
    assert_same(&rt, &year, &Some(2001));
    Ok(())
}

#[test]
fn other_persons_are_not_the_same(rt: HostRuntime) -> Result<(), Fail> {
    let alloc = rt.alloc();
    let ann = alone(&rt, alloc, Person::institution(alloc, "Ann")?);
    let ben = alone(&rt, alloc, Person::institution(alloc, "Ben")?);
    assert_same(&rt, &are_same_persons(&ann, &ann), &true);
    assert_same(&rt, &are_same_persons(&ann, &ben), &false);
    assert_same(&rt, &are_same_persons(&ann, &[]), &false);
    Ok(())
}

#[test]
fn one_number_is_a_value(rt: HostRuntime) -> Result<(), Fail> {
    for (text, wanted) in [("n4a", Some(4)), ("4-6, 9", None)] {
        let number = Numeric::parse(rt.alloc(), text)?;
        assert_of(&rt, &number.value(), &wanted, text);
    }
    Ok(())
}

/// Months are counted from 0.
#[test]
fn a_date_has_a_month_of_the_year(rt: HostRuntime) {
    for (month, wanted) in [(11, true), (12, false)] {
        let date = Date::new(2014, Some(month), None, None, false);
        assert_of(&rt, &date.is_some(), &wanted, month);
    }
}

#[test]
fn what_is_no_number_is_refused_as_that(rt: HostRuntime) {
    for text in ["", "second", "2147483648", "4-", "4 5"] {
        let error = Numeric::parse(rt.alloc(), text).err();
        assert_of(&rt, &error, &Some(NumericError::NotNumeric), &text);
    }
    for text in ["", "i-iv", "1-2-3", "1,", "1 2"] {
        let error = PageRanges::parse(rt.alloc(), text).err();
        assert_of(&rt, &error, &Some(NumericError::NotNumeric), &text);
    }
}

/// A page of the scheme `https` reads `https:x.y` as a path of its own site. The parser of addresses
/// takes two backslashes for two slashes, and leaves new lines out; the definition does neither.
#[test]
fn web_addresses(rt: HostRuntime) -> Result<(), Fail> {
    for (text, wanted) in [
        ("https://x.y/?a=1&b=2#c", true),
        (" HTTP://x.y:8080", true),
        ("https:x.y", false),
        ("https:\\\\x.y", false),
        ("https:/\n/x.y", false),
        ("ftp://x.y/", false),
        ("javascript:alert(1)", false),
        ("", false),
    ] {
        assert_of(&rt, &is_web_address(rt.alloc(), text)?, &wanted, &text);
    }
    Ok(())
}
