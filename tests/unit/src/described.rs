//! Values as texts, so that a table can say which ones are meant. What is not set is left out.

use std::alloc::Global;
use std::fmt::{Debug, Display};
use std::process::Abort;

/// A text that grows piece by piece.
#[derive(Drop)]
pub(crate) struct Description<'r, R: Abort> {
    pub(crate) rt: &'r R,
    pub(crate) alloc: Global,
    text: String,
}

impl<'r, R: Abort> Description<'r, R> {
    pub(crate) fn new(rt: &'r R, alloc: Global) -> Description<'r, R> {
        Description {
            rt,
            alloc,
            text: String::new(alloc),
        }
    }

    /// The whole text.
    pub(crate) fn as_str(&self) -> &str {
        self.text.as_str()
    }

    /// The whole text.
    pub(crate) fn into_text(self) -> String {
        self.text
    }

    /// Appends a text.
    pub(crate) fn push(&mut self, text: &str) {
        self.text.push_str(text).expect(self.rt, "memory");
    }

    /// Appends a word and a value as it is shown.
    pub(crate) fn shown<T: Display>(&mut self, word: &str, value: &T) {
        let text = format!(in self.alloc; "{word}{value}").expect(self.rt, "memory");
        self.push(text.as_str());
    }

    /// Appends a value.
    pub(crate) fn debug<T: Debug + Drop>(&mut self, value: T) {
        let text = format!(in self.alloc; "{value:?}").expect(self.rt, "memory");
        self.push(text.as_str());
    }

    /// Appends a space and a value.
    pub(crate) fn value<T: Debug + Drop>(&mut self, value: T) {
        self.push(" ");
        self.debug(value);
    }

    /// Appends a name and its value, if there is one.
    pub(crate) fn set<T: Debug + Drop>(&mut self, name: &str, value: Option<T>) {
        if let Some(value) = value {
            let text = format!(in self.alloc; " {name}={value:?}").expect(self.rt, "memory");
            self.push(text.as_str());
        }
    }

    /// Appends a name, if it is so.
    pub(crate) fn flag(&mut self, name: &str, is_set: bool) {
        if is_set {
            self.push(" ");
            self.push(name);
        }
    }
}
