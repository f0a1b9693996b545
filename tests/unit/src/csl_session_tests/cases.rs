//! The cases that a style sets (CSL 1.0.2, Text-case), in the replies to requests.

use crate::csl_session_tests::requests::assert_reply;
use csl_session::{Session, SessionLimits};

/// A style of titles in title case, English by default, by the name `en`; the same in German, by the
/// name `de`; and works, of which one says that it is no English, and one that it is.
static KEPT: [(&str, &str); 3] = [
    (
        r#"{"op":"style","name":"en","style":{"macros":[{"name":"key","children":[{"text":{"variable":"title","text-case":"uppercase"}}]}],"citation":{"children":[{"group":{"delimiter":", ","children":[{"names":{"variable":["author"],"children":[{"name":{"name-part":[{"name":"family","text-case":"uppercase"}]}}]}},{"text":{"variable":"title","text-case":"title","quotes":true}}]}}]},"bibliography":{"children":[{"text":{"term":"in","text-case":"capitalize-first","suffix":" "}},{"text":{"variable":"title","text-case":"title","font-style":"italic"}},{"text":{"variable":"DOI","prefix":". https://doi.org/","text-case":"uppercase"}}]},"locales":["en-GB"]}}"#,
        r#"{"id":null,"ok":{"missing-macro":null}}"#,
    ),
    (
        r#"{"op":"style","name":"de","style":{"citation":{"children":[{"text":{"variable":"title","text-case":"title"}}]},"bibliography":{"children":[{"text":{"variable":"title","text-case":"title"}}]},"locales":[{"terms":[{"name":"in","single":"In"}]},"de"]}}"#,
        r#"{"id":null,"ok":{"missing-macro":null}}"#,
    ),
    (
        r#"{"op":"works","works":[{"name":"sea","work":{"variables":{"title":"the quiet sea","author":[{"family":"van Roe"}],"DOI":"10.5555/a"}}},{"name":"mer","work":{"english":false,"variables":{"title":"la mer calme"}}},{"name":"lake","work":{"english":true,"variables":{"title":"a lake: the hills"}}}]}"#,
        r#"{"id":null,"ok":[{"ok":{}},{"ok":{}},{"ok":{}}]}"#,
    ),
];

/// Requests after these, with their replies.
static TURNS: [(&str, &str); 6] = [
    (
        r#"{"op":"cite","style":"en","cites":[{"work":"sea"},{"work":"mer"},{"work":"lake"}],"formats":["plain"]}"#,
        r#"{"id":null,"ok":[{"ok":{"plain":"VAN ROE, ‘The Quiet Sea’"}},{"ok":{"plain":"‘la mer calme’"}},{"ok":{"plain":"‘A Lake: The Hills’"}}]}"#,
    ),
    // a term has no element of its own
    (
        r#"{"op":"line","style":"en","lines":[{"work":"lake"}],"formats":["plain","html","tree"]}"#,
        r#"{"id":null,"ok":[{"ok":{"html":"In <span style=\"font-style: italic;\">A Lake: The Hills</span>","plain":"In A Lake: The Hills","tree":[{"text":"In "},{"children":[{"font-style":"italic","text":"A Lake: The Hills"}],"meta":{"kind":"text"}}]}}]}"#,
    ),
    // without a word of the work it is by the language of the style
    (
        r#"{"op":"cite","style":"de","cites":[{"work":"sea"},{"work":"lake"}],"formats":["plain"]}"#,
        r#"{"id":null,"ok":[{"ok":{"plain":"the quiet sea"}},{"ok":{"plain":"A Lake: The Hills"}}]}"#,
    ),
    (
        r#"{"op":"sort-key","style":"en","keys":[{"work":"sea","macro":"key"},{"work":"sea","variable":"title"}]}"#,
        r#"{"id":null,"ok":[{"ok":"THE QUIET SEA"},{"ok":"the quiet sea"}]}"#,
    ),
    (
        r#"{"op":"document","style":"en","citations":[{"items":[{"work":"sea"}]}],"formats":["plain"]}"#,
        r#"{"id":null,"ok":{"bibliography":{"entry-spacing":1,"hanging-indent":false,"items":[{"content":{"plain":"In The Quiet Sea. https://doi.org/10.5555/a"},"first-field":null,"work":"sea"}],"line-spacing":1},"citations":[{"plain":"VAN ROE, ‘The Quiet Sea’"}],"works":["sea"]}}"#,
    ),
    // a character that may be a mark
    (
        r#"{"op":"cite","style":"en","cites":[{"work":{"variables":{"title":"a\ufdd2b"}}},{"work":"sea","cite":{"locator":{"label":"page","value":"\ufdd0"}}}]}"#,
        r#"{"id":null,"ok":[{"error":{"at":"/cites/0/work/variables/title","code":"reserved-character","message":"a character from U+FDD0 to U+FDEF, which are for a program's own use"}},{"error":{"at":"/cites/1/cite/locator/value","code":"reserved-character","message":"a character from U+FDD0 to U+FDEF, which are for a program's own use"}}]}"#,
    ),
];

#[test]
fn cases_in_replies(rt: HostRuntime) {
    let alloc = rt.alloc();
    let mut session = Session::new(alloc, SessionLimits::of_strangers());
    for &(request, wanted) in KEPT.iter().chain(&TURNS) {
        assert_reply(&rt, alloc, &mut session, request, wanted);
    }
    drop(session);
}
