//! Documents whose works and cites are sorted by a collation of the caller.

use crate::assertions::assert_of;
use crate::csl_list_tests::documents::{driver, text_of, works};
use crate::csl_list_tests::styles::author_list;
use csl_common::Memory;
use csl_list::{Collation, ListError, ListedWorks};
use std::alloc::Global;

/// A collation in which `Ö` follows `Z`, as in Swedish.
#[derive(Drop)]
struct Swedish;

impl Collation for Swedish {
    fn sort_text(&self, alloc: Global, text: &str) -> Result<String, Memory> {
        let text = text.replace(alloc, 'Ö', "Z~").map_err(|_| Memory)?;
        Ok(text)
    }
}

/// A collation without memory.
#[derive(Drop)]
struct Refusing;

impl Collation for Refusing {
    fn sort_text(&self, _alloc: Global, _text: &str) -> Result<String, Memory> {
        Err(Memory)
    }
}

static WORKS: [&str; 3] = [
    "Öberg, Jane|2014|Seas",
    "Zorn, Max|2010|Hills",
    "Berg, Eva|2012|Lakes",
];

#[test]
fn works_and_cites_are_sorted_by_it(rt: HostRuntime) {
    let alloc = rt.alloc();
    let style = author_list(&rt, alloc, "a", "a");
    let works = works(&rt, alloc, &WORKS);
    let driver = driver(&rt, alloc, &["0;1;2"]);
    let list = driver.finish(alloc, &style, &works, ListedWorks::All);
    let list = list.expect(&rt, "a list");
    let found = text_of(&rt, alloc, &list);
    let wanted = "(Berg, 2012; Öberg, 2014; Zorn, 2010)\n\
                  Berg, Eva. 2012. Lakes.\nÖberg, Jane. 2014. Seas.\nZorn, Max. 2010. Hills.\n";
    assert_of(&rt, &found.as_str(), &wanted, "by the library");
    drop(found);
    drop(list);
    let (one, other) = (
        Swedish.sort_text(alloc, "Öberg"),
        Swedish.sort_text(alloc, "Zorn"),
    );
    let (one, other) = (one.expect(&rt, "memory"), other.expect(&rt, "memory"));
    assert!(&rt; one > other, "{one} comes after {other}");
    drop(one);
    drop(other);
    let list = driver.finish_by(alloc, &style, &works, ListedWorks::All, &Swedish);
    let list = list.expect(&rt, "a list");
    let found = text_of(&rt, alloc, &list);
    let wanted = "(Berg, 2012; Zorn, 2010; Öberg, 2014)\n\
                  Berg, Eva. 2012. Lakes.\nZorn, Max. 2010. Hills.\nÖberg, Jane. 2014. Seas.\n";
    assert_of(&rt, &found.as_str(), &wanted, "by the caller");
    drop(found);
    drop(list);
    let is_refused = match driver.finish_by(alloc, &style, &works, ListedWorks::All, &Refusing) {
        Err(ListError::Memory) => true,
        _ => false,
    };
    assert!(&rt; is_refused, "a collation without memory");
    drop(driver);
    drop(works);
    drop(style);
}
