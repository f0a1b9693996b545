//! The forms of a line: words, texts in quotes, attributes `name=value`, and lists in parentheses.
//! Quotes are double or single ones, or as in `#"a text"#`: the same number of `#` on both sides.
//! Lists are in each other at most 200 levels deep: a CSL file of 100 levels takes no more, with a
//! group around each node.

use crate::fault::Fault;
use crate::names::Named;
use std::alloc::Global;

/// How deep lists may be in each other.
const LEVELS: usize = 200;

/// The most attributes of a list.
const ATTRIBUTES: usize = 100;

/// A form.
#[cycle(form)]
#[derive(Drop)]
pub enum Form<'t> {
    Word(&'t str),
    Text(&'t str),
    /// The name of an attribute, and its value.
    Attribute(&'t str, &'t str),
    /// The word that a list begins with, and the forms after it.
    List(&'t str, Forms<'t>),
}

/// Forms in order.
#[cycle(form)]
#[derive(Drop)]
pub struct Forms<'t> {
    pub alloc: Global,
    pub items: Vec<Form<'t>>,
}

/// Whether a character ends a word.
fn is_end(c: char) -> bool {
    matches!(c, ' ' | '(' | ')' | '"' | '=')
}

/// The mark that a text in quotes begins with, and the text after the mark.
fn split_mark(text: &str) -> Option<(&str, &str)> {
    if let Some(rest) = text.strip_prefix('\'') {
        return Some(("'", rest));
    }
    let rest = text.trim_start_matches('#').strip_prefix('"')?;
    Some(text.split_at(text.len() - rest.len()))
}

/// The word that a text begins with, and the text after it.
fn split_word(text: &str) -> (&str, &str) {
    let after = text.trim_start_matches(|c: char| !is_end(c));
    text.split_at(text.len() - after.len())
}

/// The text in quotes that ends where a mark is closed, and the text after it.
fn split_quoted<'t>(alloc: Global, mark: &str, text: &'t str) -> Result<(&'t str, &'t str), Fault> {
    let mut end = String::new(alloc);
    match mark.strip_suffix('"') {
        Some(hashes) => {
            end.push('"')?;
            end.push_str(hashes)?;
        }
        None => end.push_str(mark)?,
    }
    text.split_once(end.as_str())
        .ok_or(Fault::Wrong("a quote is not closed"))
}

/// The value that a text begins with, and the text after it.
fn split_value<'t>(alloc: Global, text: &'t str) -> Result<(&'t str, &'t str), Fault> {
    match split_mark(text) {
        Some((mark, rest)) => split_quoted(alloc, mark, rest),
        None => Ok(split_word(text)),
    }
}

/// The list whose word a text begins with, and the text after its end. It may have so many levels.
#[cycle(read)]
fn split_list<'t>(
    alloc: Global,
    text: &'t str,
    levels: usize,
) -> Result<(Form<'t>, &'t str), Fault> {
    let Some(inside) = levels.checked_sub(1) else {
        return Err(Fault::Wrong("lists are more than 200 levels deep"));
    };
    let (head, rest) = split_word(text);
    let (forms, rest) = split_forms(alloc, rest, inside)?;
    match rest.strip_prefix(')') {
        Some(after) => Ok((Form::List(head, forms), after)),
        None => Err(Fault::Wrong("a ( is not closed")),
    }
}

/// The form that a text begins with, and the text after it.
#[cycle(read)]
fn split_form<'t>(
    alloc: Global,
    text: &'t str,
    levels: usize,
) -> Result<(Form<'t>, &'t str), Fault> {
    if let Some(list) = text.strip_prefix('(') {
        return split_list(alloc, list, levels);
    }
    if let Some((mark, rest)) = split_mark(text) {
        let (text, after) = split_quoted(alloc, mark, rest)?;
        return Ok((Form::Text(text), after));
    }
    let (name, after) = split_word(text);
    if name.is_empty() {
        return Err(Fault::Wrong("a = without a name"));
    }
    match after.strip_prefix('=') {
        Some(rest) => {
            let (value, after) = split_value(alloc, rest)?;
            Ok((Form::Attribute(name, value), after))
        }
        None => Ok((Form::Word(name), after)),
    }
}

/// The forms that a text begins with, and the rest: nothing, or the end of a list.
#[cycle(read)]
fn split_forms<'t>(
    alloc: Global,
    text: &'t str,
    levels: usize,
) -> Result<(Forms<'t>, &'t str), Fault> {
    let mut items = Vec::new(alloc);
    let mut rest = text.trim_start_matches(' ');
    while !rest.is_empty() && !rest.starts_with(')') {
        let (form, after) = split_form(alloc, rest, levels)?;
        items.push(form)?;
        rest = after.trim_start_matches(' ');
    }
    let forms = Forms { alloc, items };
    forms.ensure_set_once()?;
    Ok((forms, rest))
}

impl<'t> Forms<'t> {
    /// The forms of a text.
    pub fn read(alloc: Global, text: &'t str) -> Result<Forms<'t>, Fault> {
        let (forms, rest) = split_forms(alloc, text, LEVELS)?;
        if rest.is_empty() {
            Ok(forms)
        } else {
            Err(Fault::Wrong("one ) too many"))
        }
    }

    /// Fails if an attribute is set twice, or if there are too many to compare.
    fn ensure_set_once(&self) -> Result<(), Fault> {
        let mut names: Vec<&str> = Vec::new(self.alloc);
        for form in &self.items {
            if let Form::Attribute(name, _) = form {
                if names.iter().any(|it| *it == *name) {
                    return Err(self.fault("an attribute is set twice", *name));
                }
                if names.len() == ATTRIBUTES {
                    return Err(Fault::Wrong("a list has more than 100 attributes"));
                }
                names.push(*name)?;
            }
        }
        Ok(())
    }

    /// The fault of a word among the forms.
    pub fn fault(&self, reason: &'static str, word: &str) -> Fault {
        Fault::of_word(self.alloc, reason, word)
    }

    /// Fails if an attribute is not among these names. Each text is names with one space between
    /// them.
    pub fn ensure_attributes(&self, names: &[&'static str]) -> Result<(), Fault> {
        for form in &self.items {
            if let Form::Attribute(name, _) = form {
                if !names
                    .iter()
                    .any(|some| some.split(' ').any(|it| it == *name))
                {
                    return Err(self.fault("no such attribute here", *name));
                }
            }
        }
        Ok(())
    }

    /// Fails if a form is no attribute and no list with one of these words, which have one space
    /// between them.
    pub fn ensure_lists(&self, heads: &str) -> Result<(), Fault> {
        for form in &self.items {
            match form {
                Form::Attribute(_, _) => {}
                Form::List(head, _) if heads.split(' ').any(|it| it == *head) => {}
                Form::Word(word) | Form::Text(word) | Form::List(word, _) => {
                    return Err(self.fault("this does not go here", *word));
                }
            }
        }
        Ok(())
    }

    /// The word among the forms. The others are attributes.
    pub fn only_word(&self) -> Result<&'t str, Fault> {
        let mut found = None;
        for form in &self.items {
            match form {
                Form::Word(word) if found.is_none() => found = Some(*word),
                Form::Attribute(_, _) => {}
                Form::Word(word) | Form::Text(word) | Form::List(word, _) => {
                    return Err(self.fault("one word too many", *word));
                }
            }
        }
        found.ok_or(Fault::Wrong("a word is missing"))
    }

    /// The text in quotes among the forms. The others are attributes.
    pub fn only_text(&self) -> Result<&'t str, Fault> {
        let mut found = None;
        for form in &self.items {
            match form {
                Form::Text(text) if found.is_none() => found = Some(*text),
                Form::Attribute(_, _) => {}
                Form::Word(word) | Form::Text(word) | Form::List(word, _) => {
                    return Err(self.fault("one text goes here", *word));
                }
            }
        }
        found.ok_or(Fault::Wrong("one text goes here"))
    }

    /// The number that the forms begin with.
    pub fn first_number(&self) -> Result<usize, Fault> {
        match self.items.first() {
            Some(Form::Word(word)) => match word.parse::<usize>() {
                Ok(number) => Ok(number),
                Err(_) => Err(self.fault("not a number", *word)),
            },
            _ => Err(Fault::Wrong("a number is missing")),
        }
    }

    /// The first list with this word.
    pub fn list(&self, head: &str) -> Option<&Forms<'t>> {
        for form in &self.items {
            if let Form::List(own, forms) = form {
                if *own == head {
                    return Some(forms);
                }
            }
        }
        None
    }

    /// The value of an attribute.
    pub fn value(&self, name: &str) -> Option<&'t str> {
        for form in &self.items {
            if let Form::Attribute(own, value) = form {
                if *own == name {
                    return Some(*value);
                }
            }
        }
        None
    }

    /// The value of an attribute, as a text of its own.
    pub fn text(&self, name: &str) -> Result<Option<String>, Fault> {
        match self.value(name) {
            Some(value) => Ok(Some(String::from_str(self.alloc, value)?)),
            None => Ok(None),
        }
    }

    /// The value of an attribute, as a number.
    pub fn number(&self, name: &str) -> Result<Option<u32>, Fault> {
        match self.value(name) {
            Some(value) => match value.parse::<u32>() {
                Ok(number) => Ok(Some(number)),
                Err(_) => Err(self.fault("not a number", value)),
            },
            None => Ok(None),
        }
    }

    /// The value of an attribute, as a boolean.
    pub fn boolean(&self, name: &str) -> Result<Option<bool>, Fault> {
        match self.value(name) {
            Some("true") => Ok(Some(true)),
            Some("false") => Ok(Some(false)),
            Some(value) => Err(self.fault("neither true nor false", value)),
            None => Ok(None),
        }
    }

    /// Whether an attribute is `true`.
    pub fn is_true(&self, name: &str) -> Result<bool, Fault> {
        Ok(self.boolean(name)? == Some(true))
    }

    /// The value that a word names.
    pub fn named<V: Named>(&self, word: &str) -> Result<V, Fault> {
        match V::from_name(word) {
            Some(value) => Ok(value),
            None => Err(self.fault("no such name here", word)),
        }
    }

    /// The value that an attribute names.
    pub fn choice<V: Named>(&self, name: &str) -> Result<Option<V>, Fault> {
        match self.value(name) {
            Some(value) => Ok(Some(self.named(value)?)),
            None => Ok(None),
        }
    }

    /// The values that the words of an attribute name.
    pub fn choices<V: Named>(&self, name: &str) -> Result<Option<Vec<V>>, Fault> {
        let Some(words) = self.value(name) else {
            return Ok(None);
        };
        let mut values = Vec::new(self.alloc);
        for word in words.split_whitespace() {
            values.push(self.named(word)?)?;
        }
        Ok(Some(values))
    }
}
