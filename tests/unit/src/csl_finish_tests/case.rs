//! The case of texts. `trees.rs` has the notation of trees, to which marks come: `{t` begins a text
//! in title case, and `t}` ends it. The letters of the cases:
//!
//! | Letter | Case |
//! |---|---|
//! | `t`, `s` | `title`, `sentence` |
//! | `f`, `a` | `capitalize-first`, `capitalize-all` |
//! | `u`, `l` | `uppercase`, `lowercase` |
//! | `n` | `nocase` |

use crate::csl_finish_tests::trees::{describe, read};
use crate::shared::{assert_cases, repeated};
use csl_finish::{TextCase, apply_text_case, is_case_mark, without_case_marks};
use std::alloc::Global;
use std::process::Abort;

/// The case of a letter of the notation.
pub(crate) fn case_of(rt: &impl Abort, letter: char) -> TextCase {
    match letter {
        't' => TextCase::TitleCase,
        's' => TextCase::SentenceCase,
        'f' => TextCase::CapitalizeFirst,
        'a' => TextCase::CapitalizeAll,
        'u' => TextCase::Uppercase,
        'l' => TextCase::Lowercase,
        'n' => TextCase::NoCase,
        _ => panic!(rt; "{letter} is the letter of a case"),
    }
}

/// The text with the marks that it names.
pub(crate) fn marked(rt: &impl Abort, alloc: Global, text: &str) -> String {
    let mut marked = String::new(alloc);
    let mut letters = text.chars().peekable();
    while let Some(letter) = letters.next() {
        let value = if letter == '{' {
            let name = letters.next().expect(rt, "a letter");
            case_of(rt, name).start_mark()
        } else if matches!(letters.peek(), Some('}')) {
            letters.next();
            case_of(rt, letter).end_mark()
        } else {
            letter
        };
        marked.push(value).expect(rt, "memory");
    }
    marked
}

/// The tree of a description in the cases that its marks set, as a description.
fn cased(rt: &impl Abort, alloc: Global, description: &str, is_english: bool) -> String {
    let mut tree = read(rt, alloc, marked(rt, alloc, description).as_str());
    apply_text_case(alloc, &mut tree, is_english).expect(rt, "memory");
    describe(rt, alloc, &tree)
}

/// Titles, and the titles in the cases `title`, `sentence` and `capitalize-first`, and
/// `capitalize-all`. CSL decides. Pandoc differs where a comment says so.
const TITLES: &str = "
the quiet sea => The Quiet Sea | The quiet sea | The Quiet Sea
# a stop word with a capital gets a small letter, and sentence case changes the first word alone
# (Pandoc: `of The Sea`; `A history of the sea`)
Water and stone: a history of The sea
  => Water and Stone: A History of the Sea | Water and stone: a history of The sea | Water And
  Stone: A History Of The Sea
PLOS => PLOS | PLOS | PLOS
NASA and the iPhone => NASA and the iPhone | NASA and the iPhone | NASA And The iPhone
self-help for state-of-the-art cats
  => Self-Help for State-of-the-Art Cats | Self-help for state-of-the-art cats | Self-Help For
  State-Of-The-Art Cats
Dickens’s the old house
  => Dickens’s the Old House | Dickens’s the old house | Dickens’s The Old House
of mice => Of Mice | Of mice | Of Mice
where we are from => Where We Are From | Where we are from | Where We Are From
# a stop word after a period or a question mark is none that follows a colon (Pandoc: `The End`)
a study. the end? no => A Study. the End? No | A study. the end? no | A Study. The End? No
# (Pandoc in sentence case: `Of stone`)
rivers: of stone => Rivers: Of Stone | Rivers: of stone | Rivers: Of Stone
on “the second bridge” => On “the Second Bridge” | On “the second bridge” | On “The Second Bridge”
# (Pandoc in sentence case: `big town`)
McDonald in Big town => McDonald in Big Town | McDonald in Big town | McDonald In Big Town
# all in capitals: they stay, as in Pandoc, where CSL has `The Quiet Sea of Iron`
THE QUIET SEA OF IRON => THE QUIET SEA OF IRON | THE QUIET SEA OF IRON | THE QUIET SEA OF IRON
# Unicode has `ǅ` at the begin of a capitalized word (Pandoc: `Ǆungla`)
ǆungla straße öl => ǅungla Straße Öl | ǅungla straße öl | ǅungla Straße Öl
eBook readers => eBook Readers | eBook readers | eBook Readers
3rd edition => 3rd Edition | 3rd edition | 3rd Edition
# the quotes are those of finishing (Pandoc changes them)
on ‘of’ and off => On ‘of’ and Off | On ‘of’ and off | On ‘Of’ And Off
e-mail => E-Mail | E-mail | E-Mail
# a slash ends a word (Pandoc in title case: `A b/c d`)
a b/c d => A B/C D | A b/c d | A B/C D
the sea (of stones) in => The Sea (of Stones) In | The sea (of stones) in | The Sea (Of Stones) In
yet another thing via post
  => Yet Another Thing via Post | Yet another thing via post | Yet Another Thing Via Post
what is a proof? => What Is a Proof? | What is a proof? | What Is A Proof?
l’amour des étoiles => L’amour Des Étoiles | L’amour des étoiles | L’amour Des Étoiles
# (Pandoc: `WATER In Small` in title case, and `WATER in small` in sentence case)
WATER In Small => WATER in Small | WATER In Small | WATER In Small
# (Pandoc: `I. The First` and `I. The first`)
i. the first => I. the First | I. the first | I. The First
";

#[test]
fn titles_have_their_cases(rt: HostRuntime) {
    let alloc = rt.alloc();
    let answer = |text: &str| {
        let in_case = |case: &str| {
            let source = format!(in alloc; "{{{case}|{text}|{case}}}").expect(&rt, "memory");
            cased(&rt, alloc, source.as_str(), true)
        };
        let (title, sentence, all) = (in_case("t"), in_case("s"), in_case("a"));
        assert_eq!(&rt; in_case("f").as_str(), sentence.as_str());
        let titles = format!(in alloc; "{title} | {sentence} | {all}");
        titles.expect(&rt, "memory")
    };
    assert_cases(&rt, alloc, TITLES, &answer);
}

/// Trees with marks of cases, and what they become.
const TREES: &str = "
# quotes are inside of the marks, and affixes outside
{t|“|moss growth on Old walls|”|t}, |water => “|Moss Growth on Old Walls|”|, |water
{t|“|moss growth on Old walls|”|t}|, {t|water studies|t}
  => “|Moss Growth on Old Walls|”|, |Water Studies
[|{t|“|on “the second bridge”|”|t}|]|, |[|{t|water studies|t}|]
  => [|“|On “the Second Bridge”|”|]|, |[|Water Studies|]
{t|“|what is a proof?|”|t}. => “|What Is a Proof?|”|.
{t|the end of it.|t}. |End => The End of It.|. |End
“{t|on “the second bridge”|t},” => “|On “the Second Bridge”|,”
# a link keeps its letters
https://doi.org/{l|@10.5555/abcDEF|l} => https://doi.org/|@10.5555/abcDEF
# a text in a case inside of another one
{f|[|{l|in|l} |moss growth|]|f} => [|In| |moss growth|]
{t|[|{u|water studies|u} |moss growth on Old walls|]|t}
  => [|WATER STUDIES| |Moss Growth on Old Walls|]
{u|[|maria |{f|de la cruz|f}|]|u} => [|MARIA |DE LA CRUZ|]
# a substitute in italics, whose affixes are too
[|/{t|/what is a proof?|/t}|]| / |{t|what is a proof?|t}
  => [|/What Is a Proof?|]| / |What Is a Proof?
[|in {t|water studies|t}|] => [|in |Water Studies|]
{f|in|f}| |{t|water studies|t} => In| |Water Studies
# a year with a suffix
[|{u|de la cruz|u}|]| {l|2010|l}|a => [|DE LA CRUZ|]| |2010|a
# two texts that become one
{l|moss growth on Old walls|l} => moss growth on old walls
{l|MOSS GROWTH on old Walls|l} => moss growth on old walls
# parts of names
{u|Cruz|u}, |/{f|/maria|/f}| de la => CRUZ|, |/Maria| de la
{u|maria|u}| ({u|de la cruz|u}) => MARIA| (|DE LA CRUZ|)
# labels, one without its period
jo smith| ({f|ed|f}) => jo smith| (|Ed|)
{f|pp|f}.| |3-5 => Pp|.| |3-5
# what stands for the authors of the entry before
[|---|]|. {t|moss growth|t} => [|---|]|. |Moss Growth
# a first field
[|{f|maria de la cruz|f}|]|[| {t|moss growth|t}|] => [|Maria de la cruz|]|[| |Moss Growth|]
# a text in several leaves
{t|[|/moss growth on Old walls|: of |water studies|]|t}
  => [|/Moss Growth on Old Walls|: Of |Water Studies|]
{t|/the se|a of| |st|/ones|t} => /The Se|a of| |St|/ones
in {t|/moss growth on Old walls|t}, |7 => in |/Moss Growth on Old Walls|, |7
# a mark in a title, with which the title ends
{t|a \u{fdd0}stray\u{fdd3} mark \u{fdd9}here|t} => A Stray Mark here
# letters whose case is not that of one letter for another (Unicode, SpecialCasing)
{u|McDonald in Big town|u}| {l|McDonald in Big town|l} => MCDONALD IN BIG TOWN| |mcdonald in big town
{u|THE QUIET SEA OF IRON|u}| {l|THE QUIET SEA OF IRON|l} => THE QUIET SEA OF IRON| |the quiet sea of iron
{u|ǆungla straße öl|u}| {l|ǆungla straße öl|l} => ǄUNGLA STRASSE ÖL| |ǆungla straße öl
{u|3rd edition|u}| {l|3rd edition|l} => 3RD EDITION| |3rd edition
{u|l’amour des étoiles|u}| {l|l’amour des étoiles|l} => L’AMOUR DES ÉTOILES| |l’amour des étoiles
# a sigma at the end of a word, also in a leaf of its own
{l|ΟΔΟΣ ΣΟΦΟΣ|l} => οδος σοφος
{l|ΟΔΟ|/Σ|l} => οδο|/ς
{l|ΟΔΟ|/Σ|Α|l} => οδο|/σ|α
{l|Σ|l} => σ
# one letter that becomes several
{u|straße|u} => STRASSE
{f|ßa|f} => Ssa
{f|ﬁn|f} => Fin
{a|և ﬃ|a} => Եւ Ffi
{l|İstanbul|l} => i\u{307}stanbul
{a|ǳ ǆ ǉ ǌ|a} => ǲ ǅ ǈ ǋ
# an accent that is a character of its own
{t|e\u{301}tude of e\u{301}tudes|t} => E\u{301}tude of E\u{301}tudes
# letters without case, and those of which words have no capital
{t|日本 of 2010 1st|t} => 日本 of 2010 1st
{f|საქართველო|f} => საქართველო
# an apostrophe and a period inside of a word
{t|roe’s intro to node.js, e.g. it|t} => Roe’s Intro to Node.js, E.g. It
{a|'tis o'neil's|a} => 'Tis O'neil's
{t|a sea: “of” mice: (in) the: — as|t} => A Sea: “Of” Mice: (In) the: — As
# what keeps its case
{t|the {nvan der Beekn} plan|t} => The van der Beek Plan
{u|the {niPhonen} case|u} => THE iPhone CASE
{l|{nNASAn} Reports|l} => NASA reports
{f|{neBayn} and co|f} => eBay and co
{a|{u|a {nbn}|u}| c|a} => A b| C
# what keeps its case does not count as a small letter
{t|PLOS {nonen} OF ALL|t} => PLOS one OF ALL
# links, markup and places
{u|a|@b|c|u} => A|@b|C
{t|the |$x of y| and the end|t} => The |$x of y| and the End
{u|a|#|b|u} => A|#|B
{l|@A>b|[|$B|]|l} => @A|[|$B|]
# marks that have no partner, and texts without marks
{t|the sea => the sea
the sea|t} => the sea
{t|the {l|Sea|t}|l} => The |Sea
{l|The {u|sea|l}|u} up => the |sea| up
# marks without a meaning, and in links and markup
\u{fdde}a\u{fdef} => a
{u|@x\u{fdd0}y|$z\u{fdd1}|a|u} => @xy|$z|A
a|$z\u{fdd1} => a|$z
# a text that is left empty
{u|[|{n|n}|]|u} => [|]
{u|a||b|u} => A|B
# nothing changes without marks
a||b|[|] => a||b|[|]
";

/// Title case is for English alone, and the other cases for all languages.
const OTHER_LANGUAGES: &str = "
{t|moose auf alten Mauern|t}| {l|Auflage|l} => moose auf alten Mauern| |auflage
{t|la mousse : « un An »|t} => la mousse : « un An »
{f|«\u{a0}l’eau\u{a0}»|f} => «\u{a0}L’eau\u{a0}»
{a|le mur et l’eau|a} => Le Mur Et L’eau
{s|über Moose|s} => Über Moose
";

#[test]
fn texts_have_their_cases(rt: HostRuntime) {
    let alloc = rt.alloc();
    for (table, is_english) in [(TREES, true), (OTHER_LANGUAGES, false)] {
        let answer = |source: &str| cased(&rt, alloc, source, is_english);
        assert_cases(&rt, alloc, table, &answer);
    }
}

/// Of texts in one another the outer sixteen have cases.
#[test]
fn sixteen_texts_in_one_another(rt: HostRuntime) {
    let alloc = rt.alloc();
    for (depth, wanted) in [(15, "a"), (16, "A")] {
        let before = repeated(&rt, alloc, "{n", depth);
        let after = repeated(&rt, alloc, "n}", depth);
        let text = format!(in alloc; "{before}{{lAl}}{after}").expect(&rt, "memory");
        let came = cased(&rt, alloc, text.as_str(), true);
        assert_eq!(&rt; came.as_str(), wanted);
    }
}

/// Texts to sort by, which have no case.
const SORTED: &str = "
Roe => Roe
{l{uThe Seau}, 2010l}\u{fddf} => The Sea, 2010
\u{fdcf}\u{fdd0}\u{fdef}\u{fdf0} => \u{fdcf}\u{fdf0}
";

#[test]
fn sort_keys_have_no_marks(rt: HostRuntime) {
    let alloc = rt.alloc();
    let answer = |text: &str| {
        let text = marked(&rt, alloc, text);
        without_case_marks(alloc, text.as_str()).expect(&rt, "memory")
    };
    assert_cases(&rt, alloc, SORTED, &answer);
}

/// The marks of the cases, in pairs.
#[test]
fn marks_are_noncharacters(rt: HostRuntime) {
    let mut mark = 0xfdd0;
    for letter in "lufatsn".chars() {
        let case = case_of(&rt, letter);
        for it in [case.start_mark(), case.end_mark()] {
            assert!(&rt; is_case_mark(it) && it as u32 == mark, "{case:?}");
            mark += 1;
        }
    }
}
