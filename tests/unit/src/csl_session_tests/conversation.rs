//! A conversation: each request with its reply.

use crate::csl_session_tests::requests::{STYLE, WORKS, assert_replies, assert_reply};
use csl_session::{Session, SessionLimits};

/// Requests after those that keep the style and the work, with their replies.
const TURNS: &str = r#"
{"id":[1,{"a":null}],"op":"cite","style":"ad","cites":[{"work":"kwan"}]}
  => {"id":[1,{"a":null}],"ok":[{"ok":{"html":"(Kwan, 2014)","plain":"(Kwan, 2014)"}}]}
# A work of the request's own; the second cite leaves out the author; the third work is unknown.
{"op":"cite","style":"ad","cites":[{"work":{"variables":{"title":"Beowulf"}}},{"work":"kwan","cite":{"form":"no-author"}},{"work":"doe"}],"formats":["plain"]}
  => {"id":null,"ok":[{"ok":{"plain":"(“Beowulf”, n.d.)"}},{"ok":{"plain":"(2014)"}},{"error":{"at":"/cites/2/work","code":"unknown-name","message":"no work is kept by this name: \"doe\""}}]}
{"id":2,"op":"cite","style":"ad","cites":[{"work":"kwan","cite":{"position":"third"}}]}
  => {"id":2,"ok":[{"error":{"at":"/cites/0/cite/position","code":"unknown-name","message":"no value here has this name: \"third\""}}]}
{"id":2,"op":"line","style":"ad","lines":[{"work":"kwan"}]}
  => {"id":2,"ok":[{"ok":{"html":"Kwan, Kevin. <span style=\"font-style: italic;\">Crazy Rich Asians.</span>","plain":"Kwan, Kevin. Crazy Rich Asians."}}]}
{"id":2,"op":"line","style":"ad","lines":[{"work":"kwan"}],"formats":["tree"]}
  => {"id":2,"ok":[{"ok":{"tree":[{"children":[{"children":[{"text":"Kwan, Kevin"}],"meta":{"index":0,"kind":"name","variable":"author"}},{"text":". "}],"meta":{"kind":"names","names":[{"persons":[{"family":"Kwan","given":"Kevin"}],"variable":"author"}]}},{"children":[{"font-style":"italic","text":"Crazy Rich Asians."}],"meta":{"kind":"text"}}]}}]}
{"id":3,"op":"sort-key","style":"ad","keys":[{"work":"kwan","macro":"author"},{"work":"kwan","variable":"title"},{"work":"kwan"}]}
  => {"id":3,"ok":[{"ok":"Kwan"},{"ok":"Crazy Rich Asians"},{"error":{"at":"/keys/2","code":"wrong-type","message":"a key has one of macro and variable"}}]}
{"id":4,"op":"named","style":"ad"}
  => {"id":4,"ok":{"bibliography":{"types":[],"variables":["title","author"]},"citation":{"types":[],"variables":["title","author","issued"]}}}
{"id":5,"op":"missing-terms","style":"ad"}
  => {"id":5,"ok":{"bibliography":[],"citation":[]}}
# A refused style leaves the one that is kept by its name.
{"id":6,"op":"style","name":"ad","style":{"citation":{"children":[{"text":{"variable":"titel"}}]}}}
  => {"error":{"at":"/style/citation/children/0/text/variable","code":"unknown-name","message":"no variable has this name: \"titel\" (the nearest is \"title\")"},"id":6}
{"id":6,"op":"cite","style":"ad","cites":[{"work":"kwan"}],"formats":["plain"]}
  => {"id":6,"ok":[{"ok":{"plain":"(Kwan, 2014)"}}]}
# Another one takes its place.
{"id":7,"op":"style","name":"ad","style":{"citation":{"children":[{"text":{"variable":"URL"}},{"text":{"macro":"author"}},{"label":{"variable":"page"}},{"label":{"variable":"locator"}}]}}}
  => {"id":7,"ok":{"missing-macro":"author"}}
{"id":7,"op":"line","style":"ad","lines":[{"work":"kwan"}]}
  => {"id":7,"ok":[{"ok":null}]}
{"id":7,"op":"cite","style":"ad","cites":[{"work":{"variables":{"URL":"https://x.y/"}}},{"work":{"variables":{"URL":"javascript:1"}}}],"formats":["html"]}
  => {"id":7,"ok":[{"ok":{"html":"<a href=\"https://x.y/\">https://x.y/</a>"}},{"ok":{"html":"javascript:1"}}]}
{"id":7,"op":"cite","style":"ad","cites":[{"work":{"variables":{"URL":"ftp://x.y/"}}}],"formats":["html"],"links":"all"}
  => {"id":7,"ok":[{"ok":{"html":"<a href=\"ftp://x.y/\">ftp://x.y/</a>"}}]}
{"id":8,"op":"works","works":[{"name":"kwan","work":{"variables":{"titel":"x"}}},{"work":{}},{"name":"doe","work":{}}]}
  => {"id":8,"ok":[{"error":{"at":"/works/0/work/variables","code":"unknown-name","message":"no variable has this name: \"titel\" (the nearest is \"title\")"}},{"error":{"at":"/works/1","code":"missing-member","message":"a member is missing: \"name\""}},{"ok":{}}]}
{"id":9,"op":"drop","styles":["apa"],"works":["kwan","kwan","doe"]}
  => {"id":9,"ok":{"styles":0,"works":2}}
{"id":9,"op":"cite","style":"ad","cites":[{"work":"kwan"}]}
  => {"id":9,"ok":[{"error":{"at":"/cites/0/work","code":"unknown-name","message":"no work is kept by this name: \"kwan\""}}]}
{"id":9,"op":"cite","style":"apa","cites":[]}
  => {"error":{"at":"/style","code":"unknown-name","message":"no style is kept by this name: \"apa\""},"id":9}
{"id":10,"op":"cites"}
  => {"error":{"at":"/op","code":"unknown-name","message":"no value here has this name: \"cites\" (the nearest is \"cite\")"},"id":10}
{"id":10,"op":"cite","styl":"ad"}
  => {"error":{"at":"","code":"unknown-member","message":"no member here has this name: \"styl\" (the nearest is \"style\")"},"id":10}
{"id":10}
  => {"error":{"at":"","code":"missing-member","message":"a member is missing: \"op\""},"id":10}
[]
  => {"error":{"at":"","code":"wrong-type","message":"an object goes here"},"id":null}
"#;

#[test]
fn a_conversation(rt: HostRuntime) {
    let alloc = rt.alloc();
    let mut session = Session::new(alloc, SessionLimits::of_strangers());
    let kept = r#"{"id":0,"ok":{"missing-macro":null}}"#;
    assert_reply(&rt, alloc, &mut session, STYLE, kept);
    let kept = r#"{"id":0,"ok":[{"ok":{}}]}"#;
    assert_reply(&rt, alloc, &mut session, WORKS, kept);
    assert_replies(&rt, alloc, &mut session, TURNS);
}

#[test]
fn a_session_tells_of_itself(rt: HostRuntime) {
    let alloc = rt.alloc();
    let mut session = Session::new(alloc, SessionLimits::of_strangers());
    let reply = session.reply(alloc, br#"{"id":1,"op":"hello"}"#);
    let reply = reply.expect(&rt, "memory");
    let begin = r#"{"id":1,"ok":{"languages":["en-US","en-GB""#;
    assert!(rt; reply.as_str().starts_with(begin));
    for part in [
        r#""protocol":1,"#,
        r#""version":"0.9.1"}}"#,
        r#""reply":16000000,"#,
    ] {
        assert!(rt; reply.as_str().contains(part), "{part}");
    }
}
