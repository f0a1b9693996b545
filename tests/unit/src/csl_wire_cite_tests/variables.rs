//! What the variables of a work are read as, and why works are refused.

use crate::csl_wire_cite_tests::reading::{answer_to, read_entry};
use crate::shared::assert_cases;
use crate::wire::refusal_of;

/// A variable with its value, and what the work answers: texts in both forms, by their pieces; numbers
/// and pages, and texts in their place; persons as `family|given|prefix|suffix`; and dates, with months
/// and days from 0, and the year before year 1 as 0.
const ANSWERS: &str = r#"
# texts
title "Moss" => Moss / Moss
title {"long": "Moss on walls", "short": "Moss"} => Moss on walls / Moss
title {"long": "Moss", "short": null} => Moss / Moss
container-title ["On ", {"verbatim": "pH"}, " and ", {"math": "x^2"}]
  => On +`pH+ and +$x^2 / On +`pH+ and +$x^2
title {"long": [{"math": "x", "verbatim": null}, "!"], "short": ["x"]} => $x+! / x
title [] => /
# numbers
volume 9 => number 9
volume 0 => number 0
volume -3 => number -3
volume 2147483647 => number 2147483647
volume -2147483648 => number -2147483648
volume "9" => number 9
edition "2nd" => number 2nd
edition "second edition" => text second edition
# pages
page "321-328" => pages 321-328
page "7" => pages 7
page "i-iv" => text i-iv
page null =>
# persons
author [{"family": "Kwan", "given": "Kevin"}, {"family": "Moss Society"}]
  => Kwan|Kevin|-|-; Moss Society|-|-|-
editor [{"suffix": "Jr.", "prefix": "van", "given": "Ludwig", "family": "Beethoven", "comma-suffix":
  true}]
  => Beethoven|Ludwig|van|Jr.|,
author [{"family": "Sand", "given": null, "comma-suffix": false}] => Sand|-|-|-
author [] =>
# years
issued {"year": 1} => 1 None None None false
issued {"year": 0} => 0 None None None false
issued {"year": -1} => -1 None None None false
issued {"year": -2147483648} => -2147483648 None None None false
issued {"year": 2147483648}
  => /variables/issued/year out-of-range: a whole number from -2147483648 to 2147483647 goes here
# months and days; the length of the month is not checked
issued {"year": 2014, "month": 1, "day": 1} => 2014 Some(0) Some(0) None false
issued {"day": 31, "month": 12, "year": 2014} => 2014 Some(11) Some(30) None false
issued {"year": 2014, "month": 2, "day": 30} => 2014 Some(1) Some(29) None false
issued {"year": 2014, "month": null, "day": 2} => 2014 None Some(1) None false
issued {"year": 2014, "month": 0} => /variables/issued/month out-of-range: a month is from 1 to 12
issued {"year": 2014, "month": 13} => /variables/issued/month out-of-range: a month is from 1 to 12
issued {"year": 2014, "day": 0} => /variables/issued/day out-of-range: a day is from 1 to 31
issued {"year": 2014, "day": 32} => /variables/issued/day out-of-range: a day is from 1 to 31
issued {"year": 2014, "day": 257} => /variables/issued/day out-of-range: a day is from 1 to 31
# seasons
issued {"year": 2014, "season": "spring"} => 2014 None None Some(Spring) false
issued {"year": 2014, "season": "summer", "circa": true} => 2014 None None Some(Summer) true
accessed {"year": 2014, "season": "autumn", "circa": false} => 2014 None None Some(Autumn) false
submitted {"year": 2014, "season": "winter"} => 2014 None None Some(Winter) false
issued {"year": 2014, "season": "fall"}
  => /variables/issued/season unknown-name: no value here has this name: "fall"
# refused texts
title 7 => /variables/title wrong-type: a list goes here
title ["a", 7] => /variables/title/1 wrong-type: an object goes here
title ["a", null] => /variables/title/1 wrong-type: an object goes here
title [{}] => /variables/title/0 missing-member: a member is missing: "verbatim"
title [{"verbatim": "a", "math": "b"}]
  => /variables/title/0 wrong-type: a piece is verbatim or mathematics
title [{"verbatim": ["a"]}] => /variables/title/0/verbatim wrong-type: a text goes here
title [{"bold": "a"}] => /variables/title/0 unknown-member: no member here has this name: "bold"
title {"short": "a"} => /variables/title missing-member: a member is missing: "long"
title {"long": {"long": "a"}} => /variables/title/long wrong-type: a list goes here
title {"long": "a", "short": [1]} => /variables/title/short/0 wrong-type: an object goes here
title {"long": "a", "shrt": "b"}
  => /variables/title unknown-member: no member here has this name: "shrt" (the nearest is "short")
author "Kwan" => /variables/author wrong-type: a list goes here
# refused numbers
volume 2147483648
  => /variables/volume out-of-range: a whole number from -2147483648 to 2147483647 goes here
volume -2147483649
  => /variables/volume out-of-range: a whole number from -2147483648 to 2147483647 goes here
volume 3.5
  => /variables/volume out-of-range: a whole number from -2147483648 to 2147483647 goes here
volume true => /variables/volume wrong-type: a text goes here
volume ["9"] => /variables/volume wrong-type: a text goes here
page 7 => /variables/page wrong-type: a text goes here
page {"from": 7} => /variables/page wrong-type: a text goes here
# refused persons
author [{"family": "Kwan"}, {"given": "Kevin"}]
  => /variables/author/1 missing-member: a member is missing: "family"
author ["Kwan"] => /variables/author/0 wrong-type: an object goes here
author [{"family": 7}] => /variables/author/0/family wrong-type: a text goes here
author [{"family": "Kwan", "givn": "Kevin"}]
  => /variables/author/0 unknown-member: no member here has this name: "givn" (the nearest is
  "given")
author [{"family": "Kwan", "comma-suffix": "true"}]
  => /variables/author/0/comma-suffix wrong-type: true or false goes here
author [{"literal": "Moss Society"}]
  => /variables/author/0 unknown-member: no member here has this name: "literal"
# refused dates
issued 2014 => /variables/issued wrong-type: an object goes here
issued {"month": 5} => /variables/issued missing-member: a member is missing: "year"
issued {"year": "2014"} => /variables/issued/year wrong-type: a number goes here
issued {"year": 2014.5}
  => /variables/issued/year out-of-range: a whole number from -2147483648 to 2147483647 goes here
issued {"year": 2014, "month": -1}
  => /variables/issued/month out-of-range: a whole number from 0 to 4294967295 goes here
issued {"year": 2014, "month": "May"} => /variables/issued/month wrong-type: a number goes here
issued {"year": 2014, "raw": "May"}
  => /variables/issued unknown-member: no member here has this name: "raw"
"#;

/// A variable, the variables of a work, and what it answers. A member that is `null` is absent, whatever
/// its name.
const AMONG_OTHERS: &str = r#"
volume {"titel": null, "volume": 9} => number 9
title {"title": "Moss on walls", "title-short": "Moss"} => Moss on walls / Moss on walls
title-short {"title": {"long": "Moss on walls", "short": "Moss"}} => /
DOI {"DOI": "10.5555/a", "title": null} => 10.5555/a / 10.5555/a
issue {"volume": "9", "issue": "3-4"} => number 3-4
issue {"volume": 9} =>
editor {"author": [{"family": "Kwan"}]} =>
editor-translator {"editortranslator": [{"family": "Kwan"}]} => Kwan|-|-|-
submitted {"issued": {"year": 2014}} =>
"#;

#[test]
fn answers(rt: HostRuntime) {
    let alloc = rt.alloc();
    let answer = |case: &str| {
        let (name, value) = case.split_once(' ').expect(&rt, "a variable");
        let variables = format!(in alloc; "{{\"{name}\": {value}}}").expect(&rt, "memory");
        answer_to(&rt, alloc, name, variables.as_str())
    };
    assert_cases(&rt, alloc, ANSWERS, &answer);
    let answer = |case: &str| {
        let (name, variables) = case.split_once(' ').expect(&rt, "a variable");
        answer_to(&rt, alloc, name, variables)
    };
    assert_cases(&rt, alloc, AMONG_OTHERS, &answer);
}

/// Works that are refused before their variables are read.
const REFUSALS: &str = r#"
[] => wrong-type: an object goes here
null => wrong-type: an object goes here
{"types": ["book"]} => unknown-member: no member here has this name: "types" (the nearest is "type")
{"type": "book"} => /type wrong-type: a list goes here
{"type": [1]} => /type/0 wrong-type: a text goes here
{"type": ["book", "bok"]}
  => /type/1 unknown-name: no type has this name: "bok" (the nearest is "book")
{"english": "en"} => /english wrong-type: true or false goes here
{"key": 7} => /key wrong-type: a text goes here
{"variables": []} => /variables wrong-type: an object goes here
{"variables": {"titel": "Moss"}}
  => /variables unknown-name: no variable has this name: "titel" (the nearest is "title")
"#;

#[test]
fn refused_works(rt: HostRuntime) {
    let alloc = rt.alloc();
    let answer = |text: &str| refusal_of(&rt, alloc, read_entry(&rt, alloc, text));
    assert_cases(&rt, alloc, REFUSALS, &answer);
}
