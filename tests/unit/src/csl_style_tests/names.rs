//! Words that name no variable, kind, locator and term, which rows cannot say.

use crate::assertions::assert_same;
use csl_style::{Kind, Locator, OtherTerm, PageVariable, Variable};

/// Capitals, hyphens and the last letter count (CSL 1.0.2, Appendices II to IV).
#[test]
fn other_spellings_are_no_names(rt: HostRuntime) {
    assert_same(&rt, &Variable::from_name("doi"), &None);
    assert_same(&rt, &PageVariable::from_name("pages"), &None);
    assert_same(&rt, &Kind::from_name("comic"), &None);
    assert_same(&rt, &Locator::from_name("sub verbo"), &None);
    assert_same(&rt, &OtherTerm::from_name("month-13"), &None);
}
