//! The engine: the library at work.

use crate::entry::{work_value, EntryLike};
use crate::error::Error;
use crate::json::{object, Value};
use crate::rendered::Content;
use crate::request::SpecificLocator;
use crate::sys::Handle;

/// The library, with the styles that it keeps. An engine stays on its thread. Any number of threads
/// may have engines of their own. A call needs 512 KiB of stack.
///
/// ```compile_fail
/// fn send<T: Send>() {}
/// send::<sulleqti::Engine>();
/// ```
pub struct Engine {
    handle: Handle,
}

/// A style that an engine keeps. An engine that does not keep it refuses it.
#[derive(Clone, Debug, PartialEq, Eq, Hash)]
pub struct Style {
    /// The name that the engine keeps it by.
    pub name: String,
    /// The first macro that it calls but does not define, if there is one. That prints nothing.
    pub missing_macro: Option<String>,
}

/// The result of a request, or of an item of one, by its reply.
pub(crate) fn result_of(reply: Value) -> Result<Value, Error> {
    let mut members = reply.into_members()?;
    let Some(error) = members.take("error") else {
        return Ok(members.take("ok").unwrap_or(Value::Null));
    };
    let mut error = error.into_members()?;
    let mut text = |name| error.need(name)?.into_text();
    Err(Error::Refused { code: text("code")?, at: text("at")?, message: text("message")? })
}

impl Engine {
    /// An engine for styles and works of strangers, with the limits of docs/HOSTS.md.
    ///
    /// # Errors
    /// [`Error::Memory`]; [`Error::Reply`] if the library is of another protocol.
    pub fn new() -> Result<Engine, Error> {
        Handle::open(false).map(|handle| Engine { handle })
    }

    /// An engine without these limits, for styles and works that are trusted.
    ///
    /// # Errors
    /// Those of [`Engine::new`].
    pub fn trusted() -> Result<Engine, Error> {
        Handle::open(true).map(|handle| Engine { handle })
    }

    /// Keeps a style by a name, in the place of another of this name. `json` is what
    /// `tools/style --json` makes of a CSL file.
    ///
    /// # Errors
    /// [`Error::Json`], and [`Error::Refused`] with the place in `json`. What was kept is still
    /// kept.
    pub fn style(&mut self, name: &str, json: &str) -> Result<Style, Error> {
        let Value::Object(mut request) = Value::read(json)? else {
            return Err(Error::Json { at: 0, reason: "a style has to be an object" });
        };
        request.put("op", "style".into());
        request.put("name", name.into());
        let mut facts = self.ask(Value::Object(request))?.into_members()?;
        let missing_macro = facts.take("missing-macro").map(Value::into_text).transpose()?;
        Ok(Style { name: name.to_owned(), missing_macro })
    }

    /// Forgets a style.
    ///
    /// # Errors
    /// [`Error::Memory`].
    pub fn forget(&mut self, style: &Style) -> Result<(), Error> {
        let names = [&style.name].into_iter().collect();
        self.ask(object([("op", "drop".into()), ("styles", names)])).map(drop)
    }

    /// The first cite of a work alone, without the texts that a citation has around its cites.
    ///
    /// # Errors
    /// [`Error::Refused`], as for a work that has a variable which CSL lacks.
    pub fn cite(
        &mut self,
        style: &Style,
        work: &(impl EntryLike + ?Sized),
        locator: Option<SpecificLocator>,
    ) -> Result<Content, Error> {
        let cite = object([("locator", locator.map(Value::from).into())]);
        let item = object([("work", work_value(work)), ("cite", cite)]);
        Content::read(self.rendered("cite", style, "cites", item)?, &[])
    }

    /// The line of a work in the bibliography alone, or `None` if the style has no bibliography.
    ///
    /// # Errors
    /// Those of [`Engine::cite`].
    pub fn line(
        &mut self,
        style: &Style,
        work: &(impl EntryLike + ?Sized),
    ) -> Result<Option<Content>, Error> {
        match self.rendered("line", style, "lines", object([("work", work_value(work))]))? {
            Value::Null => Ok(None),
            line => Content::read(line, &[]).map(Some),
        }
    }

    /// The result of a request with one item in a list.
    fn rendered(
        &mut self,
        op: &str,
        style: &Style,
        list: &str,
        item: Value,
    ) -> Result<Value, Error> {
        let request = object([
            ("op", op.into()),
            ("style", (&style.name).into()),
            (list, [item].into_iter().collect()),
            ("formats", Content::formats()),
        ]);
        let reply = self.ask(request)?.into_items()?.pop();
        result_of(reply.ok_or(Error::Reply("an item"))?)
    }

    /// The result of a request.
    pub(crate) fn ask(&mut self, request: Value) -> Result<Value, Error> {
        let reply = self.answer(request.to_string())?;
        result_of(Value::read(&reply).map_err(|_| Error::Reply("JSON"))?)
    }

    /// The reply to any request of docs/HOSTS.md, as `csl_serve` has it. A refused request has a
    /// reply too. Works by names such as `#0` are those of documents.
    ///
    /// # Errors
    /// [`Error::Memory`].
    pub fn answer(&mut self, request: impl AsRef<[u8]>) -> Result<String, Error> {
        let reply = self.handle.answer(request.as_ref())?;
        String::from_utf8(reply).map_err(|_| Error::Reply("UTF-8"))
    }
}
