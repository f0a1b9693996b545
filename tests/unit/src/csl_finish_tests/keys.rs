//! The order of sort keys.

use crate::shared::{assert_cases, put, string};
use csl_finish::{KeyText, SortDirection, order_of};
use std::alloc::Global;
use std::process::Abort;

/// The keys of one place: texts between bars, the second of which is descending.
fn keys_of(rt: &impl Abort, alloc: Global, texts: &str) -> Vec<KeyText> {
    let mut keys = Vec::new(alloc);
    for (index, text) in texts.split('|').enumerate() {
        let direction = match index {
            1 => SortDirection::Descending,
            _ => SortDirection::default(),
        };
        let key = KeyText::of_text(alloc, string(rt, alloc, text), direction);
        put(rt, &mut keys, key.expect(rt, "memory"));
    }
    keys
}

/// Lists of keys with a comma after each, and their order.
const ORDERS: &str = "
roe,kwan, => [1, 0]
roe,Kwan,Élan, => [2, 1, 0]
# a text of which nothing counts is not an empty key
a,?, => [1, 0]
# an empty key comes last in both directions
,roe,, => [1, 0, 2]
a|b,a|,a|c, => [2, 0, 1]
# the second key counts where the first ones are equal
b|x,a|x,a|y, => [2, 1, 0]
# texts that fold to one text
roé,roe, => [1, 0]
a|roe,a|roé, => [1, 0]
# a year comes before words, and an earlier one before a later one
no date,P000002015,P000000990,N2147483634, => [3, 2, 1, 0]
";

#[test]
fn keys_sort_in_their_directions(rt: HostRuntime) {
    let alloc = rt.alloc();
    let answer = |lists: &str| {
        let mut keys = Vec::new(alloc);
        for list in lists.strip_suffix(',').expect(&rt, "a list").split(',') {
            put(&rt, &mut keys, keys_of(&rt, alloc, list));
        }
        let order = order_of(alloc, keys).expect(&rt, "memory");
        format!(in alloc; "{order:?}").expect(&rt, "memory")
    };
    assert_cases(&rt, alloc, ORDERS, &answer);
}

/// A text that the caller folded decides before the text itself.
#[test]
fn folded_text_of_the_caller_decides(rt: HostRuntime) {
    let mut keys = Vec::new(rt.alloc());
    for (folded, text) in [("b", "Aalto"), ("a", "Zola")] {
        let folded = string(&rt, rt.alloc(), folded);
        let text = string(&rt, rt.alloc(), text);
        let key = KeyText::new(folded, text, SortDirection::Ascending);
        put(&rt, &mut keys, key);
    }
    let order = order_of(rt.alloc(), keys).expect(&rt, "memory");
    assert!(&rt; order.as_slice() == [1, 0].as_slice(), "{order:?}");
}
