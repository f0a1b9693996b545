//! What a session allows.

use crate::csl_session_tests::requests::{STYLE, WORKS, assert_replies, assert_reply};
use csl_session::{Session, SessionLimits, StyleLimits};

/// The reply to `STYLE`.
const KEPT: &str = r#"{"id":0,"ok":{"missing-macro":null}}"#;

/// The works have 20, 2 and 2 bytes, and their names 1. Each counts 500 more.
const FULL: &str = r#"
{"op":"works","works":[{"name":"a","work":{"key":"0123456789"}},{"name":"b","work":{}},{"name":"c","work":{}}]}
  => {"id":null,"ok":[{"ok":{}},{"ok":{}},{"error":{"at":"/works/2","code":"full","message":"no more can be kept"}}]}
# what a value takes the place of no longer counts
{"op":"works","works":[{"name":"a","work":{"key":"0123456789"}},{"name":"b","work":{}},{"name":"c","work":{}}]}
  => {"id":null,"ok":[{"ok":{}},{"ok":{}},{"error":{"at":"/works/2","code":"full","message":"no more can be kept"}}]}
{"op":"works","works":[{"name":"a","work":{}},{"name":"c","work":{}}]}
  => {"id":null,"ok":[{"ok":{}},{"ok":{}}]}
# nor does what is forgotten
{"op":"works","works":[{"name":"d","work":{"key":"0123456789"}}]}
  => {"id":null,"ok":[{"error":{"at":"/works/0","code":"full","message":"no more can be kept"}}]}
{"op":"drop","works":["a","b"]}
  => {"id":null,"ok":{"styles":0,"works":2}}
{"op":"works","works":[{"name":"d","work":{"key":"0123456789"}}]}
  => {"id":null,"ok":[{"ok":{}}]}
"#;

#[test]
fn what_is_kept_is_bounded(rt: HostRuntime) {
    let alloc = rt.alloc();
    let limits = SessionLimits {
        kept_styles: 510,
        kept_works: 1_520,
        ..SessionLimits::of_strangers()
    };
    let mut session = Session::new(alloc, limits);
    assert_replies(&rt, alloc, &mut session, FULL);
    let refused = r#"{"error":{"at":"","code":"full","message":"no more can be kept"},"id":0}"#;
    assert_reply(&rt, alloc, &mut session, STYLE, refused);
}

/// A cite that renders more than is allowed.
const CITE: &str = r#"
{"op":"cite","style":"ad","cites":[{"work":"kwan"}],"formats":["plain"]}
  => {"id":null,"ok":[{"error":{"at":"/cites/0","code":"too-large","message":"the request renders more than is allowed"}}]}
"#;

#[test]
fn a_request_renders_within_its_room(rt: HostRuntime) {
    let alloc = rt.alloc();
    let limits = SessionLimits {
        room: 100,
        ..SessionLimits::of_strangers()
    };
    let mut session = Session::new(alloc, limits);
    assert_reply(&rt, alloc, &mut session, STYLE, KEPT);
    let kept = r#"{"id":0,"ok":[{"ok":{}}]}"#;
    assert_reply(&rt, alloc, &mut session, WORKS, kept);
    assert_replies(&rt, alloc, &mut session, CITE);
}

#[test]
fn a_reply_is_bounded(rt: HostRuntime) {
    let limits = SessionLimits {
        reply: 100,
        ..SessionLimits::of_strangers()
    };
    let mut session = Session::new(rt.alloc(), limits);
    let wanted =
        r#"{"error":{"at":"","code":"too-large","message":"the reply is longer than is allowed"},"id":1}"#;
    let request = r#"{"id":1,"op":"hello"}"#;
    assert_reply(&rt, rt.alloc(), &mut session, request, wanted);
}

#[test]
fn a_style_is_bounded(rt: HostRuntime) {
    let alloc = rt.alloc();
    let limits = SessionLimits {
        style: Some(StyleLimits {
            rendered: 2_000,
            size: 20_000,
            depth: 2,
        }),
        ..SessionLimits::of_strangers()
    };
    let mut session = Session::new(alloc, limits);
    let wanted =
        r#"{"error":{"at":"/style","code":"too-large","message":"the style renders more than is allowed"},"id":0}"#;
    assert_reply(&rt, alloc, &mut session, STYLE, wanted);
    let mut trusting = Session::new(alloc, SessionLimits::none());
    assert_reply(&rt, alloc, &mut trusting, STYLE, KEPT);
}

/// A locale and an item more than are allowed.
const MORE: &str = r#"
{"op":"style","name":"ad","style":{"locales":["en-US","de-DE"]}}
  => {"error":{"at":"/style","code":"too-large","message":"the style has more locales than are allowed"},"id":null}
{"op":"works","works":[{},{}]}
  => {"error":{"at":"/works","code":"too-large","message":"the request has more items than are allowed"},"id":null}
{"op":"cite","style":"ad","cites":[{},{}]}
  => {"error":{"at":"/cites","code":"too-large","message":"the request has more items than are allowed"},"id":null}
"#;

#[test]
fn locales_and_items_are_bounded(rt: HostRuntime) {
    let alloc = rt.alloc();
    let limits = SessionLimits {
        locales: 1,
        items: 1,
        ..SessionLimits::of_strangers()
    };
    let mut session = Session::new(alloc, limits);
    assert_reply(&rt, alloc, &mut session, STYLE, KEPT);
    assert_replies(&rt, alloc, &mut session, MORE);
}
