//! What the tests of requests share.

use crate::assertions::assert_of;
use csl_session::Session;
use std::alloc::Global;
use std::process::Abort;

/// A request that keeps a style of authors and dates by the name `ad`.
pub(crate) const STYLE: &str =
    r#"{"id":0,"op":"style","name":"ad","style":{"and":"text","macros":[{"name":"year","children":[{"choose":{"if":{"variable":["issued"],"children":[{"date":{"variable":"issued","date-part":[{"name":"year"}]}}]},"else":[{"text":{"term":"no date","form":"short"}}]}}]},{"name":"author","children":[{"names":{"variable":["author"],"children":[{"name":{"form":"short"}},{"substitute":[{"text":{"variable":"title","form":"short","quotes":true}}]}]}}]}],"citation":{"children":[{"group":{"delimiter":", ","prefix":"(","suffix":")","children":[{"text":{"macro":"author"}},{"text":{"macro":"year"}}]}}]},"bibliography":{"name-form":"long","children":[{"names":{"variable":["author"],"suffix":". ","children":[{"name":{"name-as-sort-order":"first","sort-separator":", "}}]}},{"text":{"variable":"title","font-style":"italic","suffix":"."}}]},"locales":["en-US"]}}"#;

/// A request that keeps a work by the name `kwan`.
pub(crate) const WORKS: &str =
    r#"{"id":0,"op":"works","works":[{"name":"kwan","work":{"type":["book"],"variables":{"title":"Crazy Rich Asians","author":[{"family":"Kwan","given":"Kevin"}],"issued":{"year":2014}}}}]}"#;

/// Asserts that the session replies to this request so.
pub(crate) fn assert_reply(
    rt: &impl Abort,
    alloc: Global,
    session: &mut Session,
    request: &str,
    wanted: &str,
) {
    let reply = session
        .reply(alloc, request.as_bytes())
        .expect(rt, "memory");
    assert_of(rt, &reply.as_str(), &wanted, request);
}

/// Asserts the replies to requests, each of which is on a line before its reply. A line that begins
/// with `#` is a comment.
pub(crate) fn assert_replies(rt: &impl Abort, alloc: Global, session: &mut Session, turns: &str) {
    let mut request = "";
    for line in turns.lines() {
        match line.strip_prefix("  => ") {
            Some(wanted) => assert_reply(rt, alloc, session, request, wanted),
            None => request = line,
        }
    }
}
