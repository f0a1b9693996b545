//! Documents: each request with its reply.

use crate::csl_session_tests::requests::assert_replies;
use csl_session::{Session, SessionLimits};

/// Requests that keep a style with its options and three works, and those after them.
const TURNS: &str = r#"
{"id":0,"op":"style","name":"ad","style":{"macros":[{"name":"author","children":[{"names":{"variable":["author"],"children":[{"name":{"form":"short"}}]}}]},{"name":"year","children":[{"date":{"variable":"issued","date-part":[{"name":"year"}]}}]}],"citation":{"children":[{"group":{"delimiter":" ","children":[{"text":{"macro":"author"}},{"text":{"macro":"year"}}]}},{"text":{"variable":"locator","prefix":": "}}]},"bibliography":{"children":[{"text":{"macro":"author","suffix":". "}},{"text":{"macro":"year","suffix":". "}},{"text":{"variable":"title"}}]},"locales":["en-US"]},"citation":{"layout":{"prefix":"(","suffix":")","delimiter":"; "},"disambiguate-add-year-suffix":true},"bibliography":{"layout":{"suffix":"."},"sort":[{"macro":"author"},{"variable":"issued"}],"hanging-indent":true}}
  => {"id":0,"ok":{"missing-macro":null}}
{"id":0,"op":"works","works":[{"name":"doe","work":{"variables":{"title":"Lakes","author":[{"family":"Doe"}],"issued":{"year":1999}}}},{"name":"moss","work":{"variables":{"title":"Moss","author":[{"family":"Kwan"}],"issued":{"year":2014}}}},{"name":"roe","work":{"variables":{"title":"Hills","author":[{"family":"Roe"}],"issued":{"year":2010}}}}]}
  => {"id":0,"ok":[{"ok":{}},{"ok":{}},{"ok":{}}]}
{"id":1,"op":"document","style":"ad","citations":[{"items":[{"work":"roe"},{"work":"moss","prefix":"see "}]},{"items":[{"work":"moss","locator":{"label":"page","value":"7"},"purpose":"prose"}]}],"works":["doe"],"formats":["plain"]}
  => {"id":1,"ok":{"bibliography":{"entry-spacing":1,"hanging-indent":true,"items":[{"content":{"plain":"Doe. 1999. Lakes."},"first-field":null,"work":"doe"},{"content":{"plain":"Kwan. 2014. Moss."},"first-field":null,"work":"moss"},{"content":{"plain":"Roe. 2010. Hills."},"first-field":null,"work":"roe"}],"line-spacing":1},"citations":[{"plain":"(Roe 2010; see Kwan 2014)"},{"plain":"Kwan (2014: 7)"}],"works":["roe","moss","doe"]}}
{"id":2,"op":"document","style":"ad","formats":["plain"]}
  => {"id":2,"ok":{"bibliography":{"entry-spacing":1,"hanging-indent":true,"items":[],"line-spacing":1},"citations":[],"works":[]}}
# a work that is not kept, where the document names it first
{"id":3,"op":"document","style":"ad","citations":[{"items":[{"work":"roe"}]},{"items":[{"work":"roe"},{"work":"poe"}]}]}
  => {"error":{"at":"/citations/1/items/1/work","code":"unknown-name","message":"no work is kept by this name: \"poe\""},"id":3}
{"id":3,"op":"document","style":"ad","works":["doe","poe"]}
  => {"error":{"at":"/works/1","code":"unknown-name","message":"no work is kept by this name: \"poe\""},"id":3}
{"id":3,"op":"document","style":"apa","works":["doe"]}
  => {"error":{"at":"/style","code":"unknown-name","message":"no style is kept by this name: \"apa\""},"id":3}
{"id":3,"op":"document","style":"ad","citations":[{"items":[{"work":"roe","purpose":"autor"}]}]}
  => {"error":{"at":"/citations/0/items/0/purpose","code":"unknown-name","message":"no value here has this name: \"autor\" (the nearest is \"author\")"},"id":3}
# options that are refused leave the style that is kept
{"id":4,"op":"style","name":"ad","style":{},"citation":{"sort":[{"macro":"author"}]}}
  => {"error":{"at":"/citation/sort/0/macro","code":"unknown-name","message":"no value here has this name: \"author\""},"id":4}
# a style without a bibliography, whose first citation is a note
{"id":5,"op":"style","name":"notes","class":"note","style":{"citation":{"children":[{"text":{"value":"see "}},{"text":{"variable":"title"}}]}},"citation":{"layout":{"suffix":"."}}}
  => {"id":5,"ok":{"missing-macro":null}}
{"id":6,"op":"document","style":"notes","citations":[{"note-number":1,"items":[{"work":"moss"}]}],"formats":["plain"]}
  => {"id":6,"ok":{"bibliography":null,"citations":[{"plain":"See Moss."}],"works":["moss"]}}
"#;

#[test]
fn documents_of_a_session(rt: HostRuntime) {
    let alloc = rt.alloc();
    let mut session = Session::new(alloc, SessionLimits::of_strangers());
    assert_replies(&rt, alloc, &mut session, TURNS);
}
