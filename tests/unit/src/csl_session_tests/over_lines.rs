//! Sessions over lines.

use crate::assertions::assert_text;
use csl_session::{Ending, Session, SessionLimits, serve};
use std::alloc::Global;
use std::io::{self, ErrorKind, Write};
use std::process::Abort;
use std::str;

/// What a session of lines of at most 40 bytes writes for an input.
fn answered(rt: &impl Abort, alloc: Global, input: &[u8]) -> (Vec<u8>, Ending) {
    let mut session = Session::new(alloc, SessionLimits::of_strangers());
    let mut reader = input;
    let mut output = Vec::new(alloc);
    let ending = serve(alloc, &mut session, &mut reader, &mut output, 40);
    (output, ending)
}

/// Asserts that a session replies to an input with these lines, and ends with the input.
fn assert_lines(rt: &impl Abort, alloc: Global, input: &[u8], wanted: &str) {
    let (output, ending) = answered(rt, alloc, input);
    let text = str::from_utf8(output.as_slice()).ok().expect(rt, "text");
    assert_text(rt, Some(text), Some(wanted));
    assert!(rt; ending == Ending::Input);
}

#[test]
fn one_reply_a_line(rt: HostRuntime) {
    let alloc = rt.alloc();
    let none =
        "{\"error\":{\"at\":\"\",\"code\":\"missing-member\",\"message\":\"a member is missing: \\\"op\\\"\"},\"id\":1}\n";
    assert_lines(&rt, alloc, b"", "");
    assert_lines(&rt, alloc, b"{\"id\":1}\n", none);
    // The last line may lack its end, and a line may end as those of Windows do.
    assert_lines(&rt, alloc, b"{\"id\":1}", none);
    assert_lines(&rt, alloc, b"{\"id\":1}\r\n", none);
}

#[test]
fn faults_have_replies(rt: HostRuntime) {
    let alloc = rt.alloc();
    let utf8 =
        "{\"error\":{\"at\":\"\",\"code\":\"not-json\",\"message\":\"the request is no UTF-8\"},\"id\":null}\n";
    assert_lines(&rt, alloc, b"{\"id\":\"\xff\"}\n", utf8);
    let long =
        "{\"error\":{\"at\":\"\",\"code\":\"too-large\",\"message\":\"the request is larger than is allowed\"},\"id\":null}\n";
    let line = b"{\"id\":\"0123456789012345678901234567890123456789\"}\n";
    for input in [&line[..], &line[..line.len() - 1]] {
        assert_lines(&rt, alloc, input, long);
    }
    for input in [
        &b"\n"[..],
        &b"{\"id\":\"\0\"}\n"[..],
        &b"{\"id\":\"\\ud800\"}\n"[..],
        &b"{\"id\":1e999}\n"[..],
        &b"{\"id\":1\n"[..],
    ] {
        let (output, ending) = answered(&rt, alloc, input);
        let text = str::from_utf8(output.as_slice()).ok().expect(&rt, "text");
        assert!(rt;
            text.starts_with("{\"error\":{\"at\":\"\",\"code\":\"not-json\","),
            "{text}"
        );
        assert!(rt; text.ends_with(",\"id\":null}\n"), "{text}");
        assert!(rt; ending == Ending::Input);
    }
}

#[test]
fn values_of_a_line_are_bounded(rt: HostRuntime) {
    let alloc = rt.alloc();
    let limits = SessionLimits {
        values: 3,
        ..SessionLimits::of_strangers()
    };
    let mut session = Session::new(alloc, limits);
    let mut reader = &b"{\"id\":[0,0]}\n{\"id\":[0]}\n"[..];
    let mut output = Vec::new(alloc);
    let ending = serve(alloc, &mut session, &mut reader, &mut output, 40);
    let text = str::from_utf8(output.as_slice()).ok().expect(&rt, "text");
    let wanted =
        "{\"error\":{\"at\":\"\",\"code\":\"too-large\",\"message\":\"the request is larger than is allowed\"},\"id\":null}\n";
    assert!(rt; text.starts_with(wanted), "{text}");
    assert!(rt; text.ends_with(",\"id\":[0]}\n"), "{text}");
    assert!(rt; ending == Ending::Input);
}

#[test]
fn a_line_after_a_long_one_is_read(rt: HostRuntime) {
    let alloc = rt.alloc();
    let input = b"{\"id\":\"0123456789012345678901234567890123456789\"}\n{\"id\":7}\n";
    let (output, _) = answered(&rt, alloc, input);
    let text = str::from_utf8(output.as_slice()).ok().expect(&rt, "text");
    assert!(rt; text.ends_with(",\"id\":7}\n"), "{text}");
}

/// A writer that refuses all.
#[derive(Drop)]
struct Closed;

impl Write for Closed {
    fn write(&mut self, _bytes: &[u8]) -> io::Result<usize> {
        Err(io::Error::from(ErrorKind::BrokenPipe))
    }

    fn flush(&mut self) -> io::Result<()> {
        Ok(())
    }
}

#[test]
fn a_closed_output_ends_the_session(rt: HostRuntime) {
    let alloc = rt.alloc();
    let mut session = Session::new(alloc, SessionLimits::of_strangers());
    let mut reader = &b"{\"id\":1}\n{\"id\":2}\n"[..];
    let ending = serve(alloc, &mut session, &mut reader, &mut Closed, 40);
    assert!(rt; ending == Ending::Output);
}
