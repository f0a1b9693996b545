//! Texts to sort by.

use crate::shared::assert_cases;
use csl_finish::fold;

/// Texts, and what they sort as.
const FOLDED: &str = "
Kwan => kwan
ÉLUARD => eluard
e\u{301}luard => eluard
Straße => strasse
Łódź => lodz
Ærø => aero
Þór Eldjárn => thor eldjarn
Đorđe Œuvre => dorde oeuvre
ĩĸı => iĸi
ﬁn Ⅳ ２ => fin iv 2
“Roe” => roe
O’Neil, Jean-Luc => oneil jeanluc
Ἀθῆναι ΟΔΟΣ => αθηναι οδοσ
Ёлка => елка
日本 => 日本
# the key of a year begins with its era, as no word does
P000002015 => #000002015
N2147483634 => !2147483634
Kwan P000002015 => kwan #000002015
P12 N => p12 n
";

#[test]
fn case_accents_and_punctuation_do_not_count(rt: HostRuntime) {
    let alloc = rt.alloc();
    let answer = |text: &str| fold(alloc, text).expect(&rt, "memory");
    assert_cases(&rt, alloc, FOLDED, &answer);
}
