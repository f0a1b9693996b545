//! Replies that wait until they are taken, and requests that are too large.

use crate::assertions::assert_text;
use crate::csl_session_tests::requests::{STYLE, WORKS};
use csl_session::{Conversation, Session, SessionLimits, Taken};
use std::alloc::Global;
use std::process::Abort;
use std::str;
use std::test::Fail;

/// The reply to a style.
const KEPT: &str = r#"{"id":0,"ok":{"missing-macro":null}}"#;

/// The reply to a request that is too large.
const TOO_LARGE: &str =
    r#"{"error":{"at":"","code":"too-large","message":"the request is larger than is allowed"},"id":null}"#;

/// Asserts that a request has this reply, which waits until the room is large enough, and is then
/// at its front.
fn assert_waits(
    rt: &impl Abort,
    alloc: Global,
    conversation: &mut Conversation,
    request: &str,
    wanted: &str,
) {
    let length = conversation
        .answer(alloc, request.as_bytes())
        .expect(rt, "memory");
    assert!(rt; length == wanted.len(), "{length}");
    let mut room = Vec::from_elem(alloc, b'.', length + 3).expect(rt, "memory");
    let (front, _) = room.as_mut_slice().split_at_mut(length - 1);
    assert!(rt; conversation.hand_over(front) == Taken::TooSmall);
    assert!(rt; front.iter().all(|byte| *byte == b'.'));
    assert!(rt; conversation.hand_over(room.as_mut_slice()) == Taken::Whole);
    let (reply, rest) = room.as_slice().split_at(length);
    assert_text(rt, str::from_utf8(reply).ok(), Some(wanted));
    assert!(rt; rest == b"...".as_slice());
    assert!(rt; conversation.hand_over(room.as_mut_slice()) == Taken::NoReply);
}

#[test]
fn a_reply_waits_until_it_is_taken(rt: HostRuntime) -> Result<(), Fail> {
    let alloc = rt.alloc();
    let mut conversation = Conversation::new(alloc, SessionLimits::of_strangers());
    assert!(rt; conversation.hand_over(&mut []) == Taken::NoReply);
    assert_waits(&rt, alloc, &mut conversation, STYLE, KEPT);
    let works = r#"{"id":0,"ok":[{"ok":{}}]}"#;
    assert_waits(&rt, alloc, &mut conversation, WORKS, works);
    let cite = r#"{"id":1,"op":"cite","style":"ad","cites":[{"work":"kwan"}],"formats":["plain"]}"#;
    let cited = r#"{"id":1,"ok":[{"ok":{"plain":"(Kwan, 2014)"}}]}"#;
    assert_waits(&rt, alloc, &mut conversation, cite, cited);
    Ok(())
}

#[test]
fn a_reply_takes_the_place_of_an_earlier_one(rt: HostRuntime) -> Result<(), Fail> {
    let alloc = rt.alloc();
    let mut conversation = Conversation::new(alloc, SessionLimits::of_strangers());
    conversation.answer(alloc, STYLE.as_bytes())?;
    let drop = r#"{"id":2,"op":"drop","styles":["ad"]}"#;
    let dropped = r#"{"id":2,"ok":{"styles":1,"works":0}}"#;
    assert_waits(&rt, alloc, &mut conversation, drop, dropped);
    Ok(())
}

/// Asserts that the session replies to this request so, within its limits.
fn assert_limited(rt: &impl Abort, alloc: Global, limits: SessionLimits, wanted: &str) {
    let mut session = Session::new(alloc, limits);
    let request = br#"{"op":"drop","id":[0,1]}"#;
    let reply = session.limited_reply(alloc, request).expect(rt, "memory");
    assert_text(rt, Some(reply.as_str()), Some(wanted));
}

#[test]
fn requests_are_bounded(rt: HostRuntime) -> Result<(), Fail> {
    let alloc = rt.alloc();
    let done = r#"{"id":[0,1],"ok":{"styles":0,"works":0}}"#;
    // The request has 24 bytes, and six values: `{`, `:`, `,`, `:`, `[` and `,` stand before one.
    let limits = SessionLimits {
        request: 24,
        values: 6,
        ..SessionLimits::of_strangers()
    };
    assert_limited(&rt, alloc, limits, done);
    let limits = SessionLimits {
        request: 23,
        ..SessionLimits::of_strangers()
    };
    assert_limited(&rt, alloc, limits, TOO_LARGE);
    let limits = SessionLimits {
        values: 5,
        ..SessionLimits::of_strangers()
    };
    assert_limited(&rt, alloc, limits, TOO_LARGE);
    assert_limited(&rt, alloc, SessionLimits::none(), done);
    Ok(())
}
