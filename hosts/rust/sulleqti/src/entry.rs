//! Works: what a style may ask of them.

use crate::error::Error;
use crate::json::{object, Value};
use crate::names::named;
use std::borrow::Cow;

/// A work of any type, by all that it has: what no style asks for changes nothing. Variables and
/// types have the names of CSL 1.0.2. A name that CSL lacks is refused, with its place.
pub trait EntryLike {
    /// The key by which the work is cited. The bibliography hands it back.
    fn key(&self) -> Cow<'_, str>;

    /// The types of the work, as `article-journal`.
    fn kinds(&self) -> Vec<&str>;

    /// The standard variables, as `title`.
    fn texts(&self) -> Vec<(&str, FormatString)> {
        Vec::new()
    }

    /// The number variables, as `volume`, and `page`. A text is a number if it spells one, as `9`,
    /// `3-4` or `2nd`.
    fn numbers(&self) -> Vec<(&str, Cow<'_, str>)> {
        Vec::new()
    }

    /// The name variables, as `author`.
    fn names(&self) -> Vec<(&str, Vec<Person>)> {
        Vec::new()
    }

    /// The date variables, as `issued`.
    fn dates(&self) -> Vec<(&str, Date)> {
        Vec::new()
    }

    /// Whether titles are in English, if that is known.
    fn is_english(&self) -> Option<bool> {
        None
    }
}

/// A text, made from a `&str` or a `String`, or of chunks.
#[derive(Clone, Debug, PartialEq, Eq, Hash)]
pub struct FormatString {
    /// The text.
    pub value: Vec<StringChunk>,
    /// The short form, if it has one.
    pub short: Option<Vec<StringChunk>>,
}

/// A part of a text.
#[derive(Clone, Debug, PartialEq, Eq, Hash)]
pub enum StringChunk {
    /// A text.
    Normal(String),
    /// A text that no style changes.
    Verbatim(String),
    /// A formula, which a typesetter reads.
    Math(String),
}

impl<T: Into<String>> From<T> for FormatString {
    fn from(text: T) -> FormatString {
        FormatString { value: vec![StringChunk::Normal(text.into())], short: None }
    }
}

/// A person, or an institution, which has no given name.
#[derive(Clone, Debug, Default, PartialEq, Eq, Hash)]
pub struct Person {
    /// The family name, or the name of the institution.
    pub name: String,
    /// The given name.
    pub given_name: Option<String>,
    /// A particle, as `von`.
    pub prefix: Option<String>,
    /// What follows the name, as `Jr.`
    pub suffix: Option<String>,
    /// Whether a comma is before the suffix.
    pub comma_suffix: bool,
}

impl Person {
    /// A person of this family name and given name.
    pub fn new(name: impl Into<String>, given_name: impl Into<String>) -> Person {
        let given_name = Some(given_name.into());
        Person { name: name.into(), given_name, ..Person::default() }
    }

    /// The person of a reply.
    pub(crate) fn read(person: Value) -> Result<Person, Error> {
        let mut members = person.into_members()?;
        let mut text = |name| members.take(name).map(Value::into_text).transpose();
        Ok(Person {
            name: text("family")?.unwrap_or_default(),
            given_name: text("given")?,
            prefix: text("prefix")?,
            suffix: text("suffix")?,
            comma_suffix: members.take("comma-suffix") == Some(Value::Bool(true)),
        })
    }
}

/// A date.
#[derive(Clone, Copy, Debug, Default, PartialEq, Eq, Hash)]
pub struct Date {
    /// The year. Year 0 is the year before year 1, and -1 the one before that.
    pub year: i32,
    /// The month, from 1 to 12.
    pub month: Option<u8>,
    /// The day, from 1 to 31.
    pub day: Option<u8>,
    /// The season.
    pub season: Option<Season>,
    /// Whether the date is uncertain.
    pub approximate: bool,
}

named! {
    /// A season.
    Season { Spring = "spring", Summer = "summer", Autumn = "autumn", Winter = "winter" }
}

impl Date {
    /// A year.
    pub fn from_year(year: i32) -> Date {
        Date { year, ..Date::default() }
    }
}

impl From<StringChunk> for Value {
    fn from(chunk: StringChunk) -> Value {
        match chunk {
            StringChunk::Normal(text) => text.into(),
            StringChunk::Verbatim(text) => object([("verbatim", text.into())]),
            StringChunk::Math(text) => object([("math", text.into())]),
        }
    }
}

impl From<FormatString> for Value {
    fn from(text: FormatString) -> Value {
        let long = text.value.into_iter().collect();
        let short: Option<Value> = text.short.map(|short| short.into_iter().collect());
        object([("long", long), ("short", short.into())])
    }
}

impl From<Person> for Value {
    fn from(person: Person) -> Value {
        object([
            ("family", person.name.into()),
            ("given", person.given_name.into()),
            ("prefix", person.prefix.into()),
            ("suffix", person.suffix.into()),
            ("comma-suffix", person.comma_suffix.into()),
        ])
    }
}

impl From<Date> for Value {
    fn from(date: Date) -> Value {
        object([
            ("year", date.year.into()),
            ("month", date.month.into()),
            ("day", date.day.into()),
            ("season", date.season.map(Season::name).into()),
            ("circa", date.approximate.into()),
        ])
    }
}

/// A work as requests have it.
pub(crate) fn work_value(work: &(impl EntryLike + ?Sized)) -> Value {
    let (texts, numbers, names, dates) = (work.texts(), work.numbers(), work.names(), work.dates());
    let texts = texts.into_iter().map(|(name, text)| (name, text.into()));
    let numbers = numbers.into_iter().map(|(name, number)| (name, number.as_ref().into()));
    let names = names.into_iter().map(|(name, persons)| (name, persons.into_iter().collect()));
    let dates = dates.into_iter().map(|(name, date)| (name, date.into()));
    object([
        ("type", work.kinds().into_iter().collect()),
        ("key", work.key().as_ref().into()),
        ("english", work.is_english().into()),
        ("variables", object(texts.chain(numbers).chain(names).chain(dates))),
    ])
}

#[cfg(test)]
mod tests {
    use super::*;

    struct Article;

    impl EntryLike for Article {
        fn key(&self) -> Cow<'_, str> {
            "roe".into()
        }

        fn kinds(&self) -> Vec<&str> {
            vec!["article-journal"]
        }

        fn texts(&self) -> Vec<(&str, FormatString)> {
            let value = vec![
                StringChunk::Normal("Moss, ".into()),
                StringChunk::Verbatim("pH".into()),
                StringChunk::Math("x^2".into()),
            ];
            let short = Some(vec![StringChunk::Normal("Moss".into())]);
            vec![("title", FormatString { value, short }), ("DOI", "10.5555/a".into())]
        }

        fn numbers(&self) -> Vec<(&str, Cow<'_, str>)> {
            vec![("volume", "9".into()), ("page", "321-328".into())]
        }

        fn names(&self) -> Vec<(&str, Vec<Person>)> {
            let (prefix, suffix) = (Some("von".into()), Some("Jr.".into()));
            let roe = Person { prefix, suffix, comma_suffix: true, ..Person::new("Roe", "Ann") };
            vec![("author", vec![roe, Person { name: "ACME".into(), ..Person::default() }])]
        }

        fn dates(&self) -> Vec<(&str, Date)> {
            let (month, day, season) = (Some(5), Some(2), Some(Season::Autumn));
            let issued = Date { month, day, approximate: true, ..Date::from_year(-44) };
            vec![("issued", issued), ("event-date", Date { season, ..Date::from_year(2014) })]
        }

        fn is_english(&self) -> Option<bool> {
            Some(true)
        }
    }

    /// The members are those of docs/WIRE.md.
    #[test]
    fn work() {
        let wanted = r#"{
            "type": ["article-journal"], "key": "roe", "english": true,
            "variables": {
                "title": {"long": ["Moss, ", {"verbatim": "pH"}, {"math": "x^2"}],
                          "short": ["Moss"]},
                "DOI": {"long": ["10.5555/a"]},
                "volume": "9", "page": "321-328",
                "author": [
                    {"family": "Roe", "given": "Ann", "prefix": "von", "suffix": "Jr.",
                     "comma-suffix": true},
                    {"family": "ACME", "comma-suffix": false}],
                "issued": {"year": -44, "month": 5, "day": 2, "circa": true},
                "event-date": {"year": 2014, "season": "autumn", "circa": false}
            }}"#;
        assert_eq!(Ok(work_value(&Article)), Value::read(wanted));
    }
}
