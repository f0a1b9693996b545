//! The tree of a content: elements, and the texts in them.

use crate::entry::Person;
use crate::error::Error;
use crate::json::{Members, Value};
use crate::names::{named, take_named};

/// Children in their order.
#[derive(Clone, Debug, Default, PartialEq, Eq, Hash)]
pub struct ElemChildren(pub Vec<ElemChild>);

/// An element: children in a group, as the output of one node of a style.
#[derive(Clone, Debug, Default, PartialEq, Eq, Hash)]
pub struct Elem {
    /// The children.
    pub children: ElemChildren,
    /// The place on the page, if the style sets one. Without it the texts run on.
    pub display: Option<Display>,
    /// What rendered the element, if a reader of the tree needs it.
    pub meta: Option<ElemMeta>,
}

/// One child of an element.
#[derive(Clone, Debug, PartialEq, Eq, Hash)]
pub enum ElemChild {
    /// A text.
    Text(Formatted),
    /// An element.
    Elem(Elem),
    /// A text that a typesetter reads, as a formula.
    Markup(String),
    /// A link to a web page. The library leaves no other.
    Link {
        /// The text of the link.
        text: Formatted,
        /// The address.
        url: String,
    },
    /// A place for a text that the caller writes, as a locator.
    Transparent {
        /// The index of the cite in its citation.
        cite_idx: usize,
        /// The formatting of the place.
        format: Formatting,
    },
}

/// What rendered an element.
#[derive(Clone, Debug, PartialEq, Eq, Hash)]
pub enum ElemMeta {
    /// A `cs:names`, with the persons of each of its variables.
    Names(Vec<(Vec<Person>, String)>),
    /// One name of a `cs:names`: its variable, and its index among the persons of that.
    Name(String, usize),
    /// A cite, with the index of its work among those of the document.
    Entry(usize),
    /// A `cs:date`.
    Date,
    /// A `cs:text` of a variable.
    Text,
    /// A `cs:number`.
    Number,
    /// A `cs:label`.
    Label,
    /// The number of a citation.
    CitationNumber,
    /// The label of a citation.
    CitationLabel,
}

/// A text with its formatting, which is whole: none comes from the elements around it.
#[derive(Clone, Debug, Default, PartialEq, Eq, Hash)]
pub struct Formatted {
    /// The text.
    pub text: String,
    /// The formatting.
    pub formatting: Formatting,
}

/// The formatting of a text.
#[derive(Clone, Copy, Debug, Default, PartialEq, Eq, Hash)]
pub struct Formatting {
    /// Italic or not.
    pub font_style: FontStyle,
    /// Small capitals or not.
    pub font_variant: FontVariant,
    /// Bold, light, or neither.
    pub font_weight: FontWeight,
    /// Underlined or not.
    pub text_decoration: TextDecoration,
    /// Raised, lowered, or on the line.
    pub vertical_align: VerticalAlign,
}

named! {
    /// The place of an element on the page.
    Display {
        Block = "block", LeftMargin = "left-margin", RightInline = "right-inline",
        Indent = "indent",
    }

    /// Italic or not.
    #[derive(Default)]
    FontStyle { #[default] Normal = "normal", Italic = "italic" }

    /// Small capitals or not.
    #[derive(Default)]
    FontVariant { #[default] Normal = "normal", SmallCaps = "small-caps" }

    /// Bold, light, or neither.
    #[derive(Default)]
    FontWeight { #[default] Normal = "normal", Bold = "bold", Light = "light" }

    /// Underlined or not.
    #[derive(Default)]
    TextDecoration { #[default] None = "none", Underline = "underline" }

    /// Raised, lowered, or on the line.
    #[derive(Default)]
    VerticalAlign { #[default] None = "none", Baseline = "baseline", Sup = "sup", Sub = "sub" }
}

impl Formatting {
    fn read(members: &mut Members) -> Result<Formatting, Error> {
        Ok(Formatting {
            font_style: take_named(members, "font-style")?.unwrap_or_default(),
            font_variant: take_named(members, "font-variant")?.unwrap_or_default(),
            font_weight: take_named(members, "font-weight")?.unwrap_or_default(),
            text_decoration: take_named(members, "text-decoration")?.unwrap_or_default(),
            vertical_align: take_named(members, "vertical-align")?.unwrap_or_default(),
        })
    }
}

/// A variable with its persons.
fn names_of(names: Value) -> Result<(Vec<Person>, String), Error> {
    let mut members = names.into_members()?;
    let persons = members.need("persons")?.into_items()?.into_iter().map(Person::read);
    Ok((persons.collect::<Result<_, _>>()?, members.need("variable")?.into_text()?))
}

impl ElemMeta {
    fn read(meta: Value, works: &[usize]) -> Result<ElemMeta, Error> {
        let mut members = meta.into_members()?;
        let index = members.take("index").map(Value::into_number).transpose()?;
        let index = || index.map(|index| index as usize).ok_or(Error::Reply("index"));
        Ok(match members.need("kind")?.into_text()?.as_str() {
            "names" => {
                let names = members.need("names")?.into_items()?.into_iter().map(names_of);
                ElemMeta::Names(names.collect::<Result<_, _>>()?)
            }
            "name" => ElemMeta::Name(members.need("variable")?.into_text()?, index()?),
            "entry" => {
                let index = index()?;
                ElemMeta::Entry(works.get(index).copied().unwrap_or(index))
            }
            "date" => ElemMeta::Date,
            "text" => ElemMeta::Text,
            "number" => ElemMeta::Number,
            "label" => ElemMeta::Label,
            "citation-number" => ElemMeta::CitationNumber,
            "citation-label" => ElemMeta::CitationLabel,
            _ => return Err(Error::Reply("a known kind")),
        })
    }
}

impl ElemChild {
    fn read(child: Value, works: &[usize]) -> Result<ElemChild, Error> {
        let mut members = child.into_members()?;
        if let Some(children) = members.take("children") {
            return Ok(ElemChild::Elem(Elem {
                children: ElemChildren::read(children, works)?,
                display: take_named(&mut members, "display")?,
                meta: members.take("meta").map(|meta| ElemMeta::read(meta, works)).transpose()?,
            }));
        }
        if let Some(markup) = members.take("markup") {
            return Ok(ElemChild::Markup(markup.into_text()?));
        }
        let format = Formatting::read(&mut members)?;
        if let Some(cite) = members.take("cite") {
            return Ok(ElemChild::Transparent { cite_idx: cite.into_number()? as usize, format });
        }
        let text = Formatted { text: members.need("text")?.into_text()?, formatting: format };
        match members.take("url") {
            Some(url) => Ok(ElemChild::Link { text, url: url.into_text()? }),
            None => Ok(ElemChild::Text(text)),
        }
    }
}

impl ElemChildren {
    /// The tree of a reply (docs/WIRE.md). `works` has the index of each work of the document.
    pub(crate) fn read(tree: Value, works: &[usize]) -> Result<ElemChildren, Error> {
        let children = tree.into_items()?.into_iter().map(|child| ElemChild::read(child, works));
        children.collect::<Result<_, _>>().map(ElemChildren)
    }
}

#[cfg(test)]
mod tests {
    use super::*;

    fn read(tree: &str) -> Result<Vec<ElemChild>, Error> {
        ElemChildren::read(Value::read(tree)?, &[7, 5]).map(|children| children.0)
    }

    /// Texts with each formatting, and what is no element.
    #[test]
    fn texts() {
        let found = read(
            r#"[{"text": "T", "font-style": "italic", "font-variant": "small-caps"},
                {"url": "https://a.org", "text": "L", "font-weight": "light",
                 "text-decoration": "underline", "vertical-align": "sup"},
                {"markup": "x^2"}, {"cite": 3, "font-style": "normal"}]"#,
        );
        let (font_style, font_variant) = (FontStyle::Italic, FontVariant::SmallCaps);
        let slanted = Formatting { font_style, font_variant, ..Formatting::default() };
        let raised = Formatting {
            font_weight: FontWeight::Light,
            text_decoration: TextDecoration::Underline,
            vertical_align: VerticalAlign::Sup,
            ..Formatting::default()
        };
        let text = Formatted { text: "T".to_owned(), formatting: slanted };
        let link = Formatted { text: "L".to_owned(), formatting: raised };
        let wanted = vec![
            ElemChild::Text(text),
            ElemChild::Link { text: link, url: "https://a.org".to_owned() },
            ElemChild::Markup("x^2".to_owned()),
            ElemChild::Transparent { cite_idx: 3, format: Formatting::default() },
        ];
        assert_eq!(found, Ok(wanted));
    }

    /// Elements. A cite has the index that the caller knows its work by.
    #[test]
    fn elements() {
        let found = read(
            r#"[{"display": "left-margin", "children": [{"markup": "x"}]},
                {"meta": {"kind": "entry", "index": 1}, "children": []},
                {"meta": {"kind": "name", "variable": "author", "index": 2}, "children": []},
                {"meta": {"kind": "names", "names": [{"variable": "editor", "persons": [
                    {"family": "Roe", "given": "Ann"}]}]}, "children": []},
                {"meta": {"kind": "citation-label"}, "children": []}]"#,
        );
        let children = ElemChildren(vec![ElemChild::Markup("x".to_owned())]);
        let shown = Elem { children, display: Some(Display::LeftMargin), meta: None };
        let names = vec![(vec![Person::new("Roe", "Ann")], "editor".to_owned())];
        let metas = [
            ElemMeta::Entry(5),
            ElemMeta::Name("author".to_owned(), 2),
            ElemMeta::Names(names),
            ElemMeta::CitationLabel,
        ];
        let others = metas.map(|meta| Elem { meta: Some(meta), ..Elem::default() });
        assert_eq!(found, Ok([shown].into_iter().chain(others).map(ElemChild::Elem).collect()));
    }

    /// Replies of another protocol.
    #[test]
    fn faults() {
        for (tree, wanted) in [
            ("{}", "a list"),
            ("[7]", "an object"),
            ("[{}]", "text"),
            (r#"[{"text": "T", "font-weight": "heavy"}]"#, "font-weight"),
            (r#"[{"children": [], "meta": {"kind": "film"}}]"#, "a known kind"),
        ] {
            assert_eq!(read(tree), Err(Error::Reply(wanted)), "{tree}");
        }
    }
}
