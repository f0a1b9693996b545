//! Punctuation at the joins of texts, and quotes. `trees.rs` has the notation.

use crate::csl_finish_tests::trees::{describe, read};
use crate::shared::{alone, assert_cases};
use csl_finish::finish;
use csl_languages::Language;
use csl_style::{Layout, Style, StyleSettings};
use std::alloc::Global;
use std::process::Abort;

/// A style of this language that prints nothing.
pub(crate) fn style_of(rt: &impl Abort, alloc: Global, language: Language) -> Style {
    let locales = alone(rt, alloc, language.locale(alloc).expect(rt, "memory"));
    let (settings, macros) = (StyleSettings::default(), Vec::new(alloc));
    let citation = Layout::new(Vec::new(alloc));
    let style = Style::new(alloc, settings, macros, citation, None, locales);
    style.expect(rt, "a style")
}

/// Trees, and what they become in English as in America: marks of which one stays, and commas and
/// periods inside of quotes. A bar is where one text ends and the next one begins.
const ENGLISH: &str = "
# a doubled period, in one text or at a join
J.. Doe => J. Doe
Doe, J.|. 2014 => Doe, J.| 2014
et al.|. => et al.|
a.|[|.|]|b => a.|[||]|b
# periods with a space between them
Doe, J.| . => Doe, J.|
Doe, J. . => Doe, J.
# a period after another mark that ends a sentence
Why?|. 2014 => Why?| 2014
Ha!|. => Ha!|
a:|. => a:|
a;|. => a;|
# other marks in a row
a;|: b => a;| b
Why?|: b => Why?| b
a:|? b => a|? b
a,|, b => a,| b
a;|; b => a;| b
a:|: b => a:| b
a.|, b => a.|, b
Why?|, b => Why?|, b
# spaces
a | b => a |b
a |, b => a|, b
a |. b => a|. b
# four affixes at one join leave one period, and an ellipsis stays
33|.|.|.|. => 33|.|||
[|[|33.|]|.|]|.|. => [|[|33.|]||]||
Wait... => Wait...
Wait...|. => Wait...|
Wait.... => Wait...
Well . . . now| . => Well . . . now|.
# periods of numbers, names and addresses
Is it?|.5 or http://a/../b => Is it?|.5 or http://a/../b
a |.NET => a |.NET
# links, markup and places for texts of cites stay, and count as what is beside a mark
@a..|. => @a..|
a.|@. b => a.|@. b
$x..y  z,,|, b => $x..y  z,,| b
a.|#|. => a.|#|.
a |$, b => a |$, b
@“x”|, b => @“x”|, b
# so do formatting and elements
/a..|/. b => /a.|/ b
[|/a.|]|. => [|/a.|]|
[|“|[|/Moss|]|”|]|. b => [|“|[|/Moss|]|.”|]| b
# a comma and a period go inside of quotes
“Moss”|, 2014 => “Moss,”| 2014
“|Moss|”|. => “|Moss|.”|
[|“|Moss|”|]|. b => [|“|Moss|.”|]| b
“Moss”; b => “Moss”; b
“Moss”|2014. “Fern”|. => “Moss”|2014. “Fern.”|
# through both closing quotes
“On “Moss””|. b => “On ‘Moss.’”| b
“On ‘Moss’”|, b => “On ‘Moss,’”| b
# a mark that ends a sentence in the quotes makes both needless
“Why?”|, 2014 => “Why?”| 2014
“Why?”|. b => “Why?”| b
“Moss.”|. b => “Moss.”| b
# quotes in quotes are inner ones, and those in them outer ones
“a “b “c” d”” => “a ‘b “c” d’”
‘a’ and «b» => “a” and “b”
# an apostrophe neither ends nor begins a quote
“Roe’s ‘moss’ isn’t”|, b => “Roe’s ‘moss’ isn’t,”| b
“Music of the ‘90s”|. “Moss”|. => “Music of the ‘90s.”| “Moss.”|
It’s Roe’s. => It’s Roe’s.
";

/// In British English they stay outside, and single quotes are the outer ones.
const BRITISH: &str = "
‘Moss’|, 2014 => ‘Moss’|, 2014
“Moss”|. => ‘Moss’|.
‘On “Moss”’|. => ‘On “Moss”’|.
‘On ‘Moss’’|. => ‘On “Moss”’|.
";

/// A space before a French mark is narrow (U+202F). A space of the locale's quotes (U+00A0) stays.
const FRENCH: &str = "
Paris| : Seuil => Paris|\u{202f}: Seuil
Qui ? Moi ! Ici ; là => Qui\u{202f}? Moi\u{202f}! Ici\u{202f}; là
Paris |: Seuil => Paris\u{202f}|: Seuil
«\u{a0}Mousse\u{a0}», 2014 => «\u{a0}Mousse\u{a0}», 2014
« Mousse » => «\u{202f}Mousse\u{202f}»
“Mousse” => «\u{a0}Mousse\u{a0}»
";

/// Spaces elsewhere stay, also where the quotes are « and » without spaces.
const ITALIAN: &str = "
Roma| : Laterza => Roma| : Laterza
«Muschio» ! => «Muschio» !
";

/// A mark that closes a German quote opens an English one: before a letter, after a space, a bracket
/// or a mark that opens a quote.
const GERMAN: &str = "
„Über „Moos““|. => „Über ‚Moos‘“|.
„|“Slow towns” win a prize|“ => „|‚Slow towns‘ win a prize|“
„Moss and “fern”“|. => „Moss and ‚fern‘“|.
„Moss (“1st” ed.)“|. => „Moss (‚1st‘ ed.)“|.
„Moos“ und „Farn“ => „Moos“ und „Farn“
„Moos|“ |2014 => „Moos|“ |2014
";

#[test]
fn marks_quotes_and_spaces(rt: HostRuntime) {
    let alloc = rt.alloc();
    for (language, table) in [
        (Language::English, ENGLISH),
        (Language::BritishEnglish, BRITISH),
        (Language::French, FRENCH),
        (Language::Italian, ITALIAN),
        (Language::German, GERMAN),
    ] {
        let style = style_of(&rt, alloc, language);
        let answer = |source: &str| {
            let mut tree = read(&rt, alloc, source);
            finish(alloc, &style, &mut tree).expect(&rt, "memory");
            describe(&rt, alloc, &tree)
        };
        assert_cases(&rt, alloc, table, &answer);
    }
}
