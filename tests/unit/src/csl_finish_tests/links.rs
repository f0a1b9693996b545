//! Links of a rendered content that stay. `trees.rs` has the notation.

use crate::csl_finish_tests::trees::{describe, read};
use crate::shared::assert_cases;
use csl_finish::{with_links_to, with_web_links};

/// Trees, and the trees with links to web addresses alone.
const WEB: &str = "
a|@x>https://x.y/ => a|@x
a|@x>javascript:alert(1)|b => a|x|b
[|@doi>10.1000/1|]|@x>HTTP://x.y => [|doi|]|@x
$m|#|@x>mailto:a@b.c => $m|#|x
";

/// Trees, and the trees with links to pages at `x.y` and `z` alone.
const HOSTS: &str = "
@a>https://x.y/b => @a
@a>https://Z/b|@b>https://y/ => @a|b
@a>ftp://x.y/|[|@b>https://x.y@w/|] => a|[|b|]
@a>https://w.x.y/ => a
";

#[test]
fn links_that_stay(rt: HostRuntime) {
    let alloc = rt.alloc();
    let answer = |source: &str| {
        let tree = with_web_links(alloc, read(&rt, alloc, source));
        describe(&rt, alloc, &tree.expect(&rt, "memory"))
    };
    assert_cases(&rt, alloc, WEB, &answer);
    let answer = |source: &str| {
        let tree = with_links_to(alloc, read(&rt, alloc, source), &["x.y", "z"]);
        describe(&rt, alloc, &tree.expect(&rt, "memory"))
    };
    assert_cases(&rt, alloc, HOSTS, &answer);
}
