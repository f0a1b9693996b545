//! Copies are equal to their sources.

use crate::lit_model_tests::constructors::{text, works};
use crate::shared::chunks;
use lit_model::{
    ChunkedString, Date, FormatString, LanguageIdentifier, MaybeTyped, Numeric, NumericValue,
    PageRanges, PageRangesPart, Person, PersonRole, PersonsWithRoles, Publisher, QualifiedUrl,
    SerialNumber, StringChunk,
};
use std::test::Fail;
use url::Url;

#[test]
fn copied_numbers_and_pages_are_equal(rt: HostRuntime) -> Result<(), Fail> {
    let alloc = rt.alloc();
    for spelled in ["-", "n4", "4-6, 9a"] {
        let number = match Numeric::parse(alloc, spelled) {
            Ok(number) => MaybeTyped::Typed(number),
            Err(_) => MaybeTyped::String(text(alloc, spelled)?),
        };
        assert!(rt; number.clone(alloc)? == number, "of {spelled}");
        if let MaybeTyped::Typed(number) = &number {
            assert!(rt; number.clone(alloc)? == *number, "of {spelled}");
            let value: NumericValue = number.value.clone(alloc)?;
            assert!(rt; value == number.value, "of {spelled}");
        }
    }
    for spelled in ["passim", "7", "321-328, 7"] {
        let pages = match PageRanges::parse(alloc, spelled) {
            Ok(pages) => MaybeTyped::Typed(pages),
            Err(_) => MaybeTyped::String(text(alloc, spelled)?),
        };
        assert!(rt; pages.clone(alloc)? == pages, "of {spelled}");
        if let MaybeTyped::Typed(pages) = &pages {
            assert!(rt; pages.clone(alloc)? == *pages, "of {spelled}");
            for part in &pages.ranges {
                let copy = PageRangesPart::clone(part, alloc)?;
                assert!(rt; copy == *part, "of {spelled}");
            }
        }
    }
    Ok(())
}

#[test]
fn copied_persons_and_roles_are_equal(rt: HostRuntime) -> Result<(), Fail> {
    let alloc = rt.alloc();
    let roles = [
        PersonRole::Director,
        PersonRole::Unknown(text(alloc, "muse")?),
    ];
    for (place, role) in roles.iter().enumerate() {
        assert!(rt; role.clone(alloc)? == *role, "of role {place}");
    }
    let junior = Person {
        prefix: Some(text(alloc, "van")?),
        suffix: Some(text(alloc, "Jr.")?),
        alias: Some(text(alloc, "KK")?),
        comma_suffix: true,
        ..Person::new(alloc, "Kwan", "Kevin")?
    };
    assert!(rt; junior.clone(alloc)? == junior, "of a person");
    let directors = PersonsWithRoles {
        names: vec![in alloc; junior, Person::institution(alloc, "UNESCO")?]?,
        role: PersonRole::Director,
    };
    assert!(rt; directors.clone(alloc)? == directors, "of a role");
    Ok(())
}

#[test]
fn copied_texts_and_sources_are_equal(rt: HostRuntime) -> Result<(), Fail> {
    let alloc = rt.alloc();
    let title = FormatString {
        short: Some(chunks(&rt, alloc, "`Nat.")),
        value: chunks(&rt, alloc, "On +$x^2"),
    };
    assert!(rt; title.clone(alloc)? == title, "of a title");
    let long = ChunkedString::clone(&title.value, alloc)?;
    assert!(rt; long == title.value, "of its long form");
    for chunk in &title.value.0 {
        let copy = StringChunk::clone(chunk, alloc)?;
        assert!(rt; copy == *chunk, "of {}", chunk.value);
    }
    let address = QualifiedUrl {
        value: Url::parse(alloc, "https://aeon.co/essays")?,
        visit_date: Some(Date::of_year(2015)),
    };
    assert!(rt; address.clone(alloc)? == address, "of an address");
    let press = Publisher {
        name: None,
        location: Some(FormatString::plain(alloc, "London")?),
    };
    assert!(rt; press.clone(alloc)? == press, "of a publisher");
    let english = LanguageIdentifier {
        language: text(alloc, "en")?,
        region: Some(text(alloc, "GB")?),
    };
    assert!(rt; english.clone(alloc)? == english, "of a language");
    let mut numbers = SerialNumber::new(alloc);
    numbers.set(alloc, "doi", "10.1007/BF02731494")?;
    assert!(rt; numbers.clone(alloc)? == numbers, "of numbers");
    assert_eq!(rt;
        (numbers.doi(), numbers.isbn()),
        (Some("10.1007/BF02731494"), None)
    );
    let work = works(&rt, alloc)?;
    assert!(rt; work.clone(alloc)? == work, "of a work in another");
    Ok(())
}
