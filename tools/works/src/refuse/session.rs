//! Sessions of `csl_session`: of requests, and of lines.

use crate::error::WorkError;
use csl_session::{Ending, Session, SessionLimits, serve};
use std::alloc::Global;
use std::io::{self, ErrorKind, Write};
use std::str;

/// Requests that keep a style and a work, and print a cite and a line of the bibliography.
const REQUESTS: &str =
    r#"{"id":1,"op":"style","name":"s","style":{"citation":{"children":[{"names":{"variable":["author"],"suffix":", ","children":[{"name":{"form":"short"}}]}},{"date":{"variable":"issued","date-part":[{"name":"year"}]}}]},"bibliography":{"children":[{"text":{"variable":"title"}}]}}}
{"id":2,"op":"works","works":[{"name":"kwan","work":{"type":["book"],"variables":{"author":[{"family":"Kwan"}],"title":"Moss","issued":{"year":2014}}}}]}
{"id":3,"op":"cite","style":"s","cites":[{"work":"kwan"},{"work":{}}]}
{"id":4,"op":"line","style":"s","lines":[{"work":"kwan"}],"formats":["tree"]}
"#;

/// Requests that keep a style with its options and two works of a name and a year, and print a
/// document that cites both.
const DOCUMENT: &str =
    r#"{"id":1,"op":"style","name":"s","style":{"citation":{"children":[{"group":{"delimiter":" ","children":[{"names":{"variable":["author"],"children":[{"name":{"form":"short"}}]}},{"date":{"variable":"issued","date-part":[{"name":"year"}]}}]}}]},"bibliography":{"children":[{"text":{"variable":"title"}}]}},"citation":{"layout":{"prefix":"(","suffix":")","delimiter":"; "},"disambiguate-add-year-suffix":true},"bibliography":{"sort":[{"variable":"title"}]}}
{"id":2,"op":"works","works":[{"name":"sand","work":{"variables":{"author":[{"family":"Kwan"}],"title":"Sand","issued":{"year":2014}}}},{"name":"moss","work":{"variables":{"author":[{"family":"Kwan"}],"title":"Moss","issued":{"year":2014}}}}]}
{"id":3,"op":"document","style":"s","citations":[{"items":[{"work":"sand"},{"work":"moss"}]}],"formats":["plain"]}
"#;

/// What a reply has that says so.
const SAYS_SO: &str = "\"code\":\"out-of-memory\"";

/// An output that takes no memory.
#[derive(Drop)]
struct Output {
    bytes: [u8; 4096],
    length: usize,
}

impl Write for Output {
    fn write(&mut self, bytes: &[u8]) -> io::Result<usize> {
        for byte in bytes {
            match self.bytes.get_mut(self.length) {
                Some(place) => *place = *byte,
                None => return Err(io::Error::from(ErrorKind::WriteZero)),
            }
            self.length += 1;
        }
        Ok(bytes.len())
    }

    fn flush(&mut self) -> io::Result<()> {
        Ok(())
    }
}

/// The reply to a request, or that it says that memory ran out.
fn reply_to(alloc: Global, session: &mut Session, request: &str) -> Result<String, WorkError> {
    let reply = session.reply(alloc, request.as_bytes())?;
    if reply.as_str().contains(SAYS_SO) {
        return Err(WorkError::Memory);
    }
    Ok(reply)
}

/// The replies of a session to these requests. If memory runs out for one, it is asked for once
/// more.
fn replies_to(alloc: Global, requests: &str) -> Result<String, WorkError> {
    let mut session = Session::new(alloc, SessionLimits::of_strangers());
    let mut replies = String::new(alloc);
    for request in requests.lines() {
        let reply = match reply_to(alloc, &mut session, request) {
            Err(WorkError::Memory) => reply_to(alloc, &mut session, request)?,
            other => other?,
        };
        if !replies.is_empty() {
            replies.push_str(" / ")?;
        }
        replies.push_str(reply.as_str())?;
    }
    Ok(replies)
}

/// The replies to requests for a cite and a line.
pub fn replies(alloc: Global) -> Result<String, WorkError> {
    replies_to(alloc, REQUESTS)
}

/// The replies to requests for a document.
pub fn document(alloc: Global) -> Result<String, WorkError> {
    replies_to(alloc, DOCUMENT)
}

/// What is wrong with the lines of a session: nothing if each of the four is a reply, and none says
/// that memory ran out.
fn fault_of(output: &str, ending: Ending) -> Option<WorkError> {
    let replies = output.lines().filter(|it| it.ends_with("}")).count();
    if ending != Ending::Input || replies != 4 {
        return Some(WorkError::Unexpected("not a reply for each request"));
    }
    output.contains(SAYS_SO).then_some(WorkError::Memory)
}

/// The bytes of the replies of a session of lines.
pub fn lines(alloc: Global) -> Result<String, WorkError> {
    let mut session = Session::new(alloc, SessionLimits::of_strangers());
    let mut output = Output {
        bytes: [0; 4096],
        length: 0,
    };
    let mut input = REQUESTS.as_bytes();
    let ending = serve(alloc, &mut session, &mut input, &mut output, 1_000);
    let written = output.bytes.get(..output.length).unwrap_or(&[]);
    match fault_of(str::from_utf8(written).unwrap_or(""), ending) {
        None => Ok(format!(in alloc; "{} bytes", output.length)?),
        Some(error) => Err(error),
    }
}
