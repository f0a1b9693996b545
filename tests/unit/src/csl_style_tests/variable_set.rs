//! Sets of variables.

use crate::assertions::{assert_of, assert_same};
use csl_style::{
    DateVariable, NameVariable, NumberVariable, PageVariable, StandardVariable, Variable,
    VariableSet,
};
use std::test::Fail;

/// The first and the last variable of each type.
static ENDS: [Variable; 9] = [
    Variable::Standard(StandardVariable::Abstract),
    Variable::Standard(StandardVariable::YearSuffix),
    Variable::Number(NumberVariable::ChapterNumber),
    Variable::Number(NumberVariable::Volume),
    Variable::Page(PageVariable::Page),
    Variable::Date(DateVariable::Accessed),
    Variable::Date(DateVariable::Submitted),
    Variable::Name(NameVariable::Author),
    Variable::Name(NameVariable::Translator),
];

#[test]
fn the_variables_of_a_set_are_in_order(rt: HostRuntime) -> Result<(), Fail> {
    let mut set = VariableSet::new();
    for variable in ENDS.iter().rev() {
        assert_of(&rt, &set.contains(*variable), &false, *variable);
        set = VariableSet::new().with(*variable).union(set);
        assert_of(&rt, &set.contains(*variable), &true, *variable);
    }
    let ordered = set.to_ordered(rt.alloc())?;
    assert_same(&rt, &ordered.len(), &ENDS.len());
    for (variable, wanted) in ordered.iter().zip(&ENDS) {
        assert_same(&rt, variable, wanted);
        assert_same(&rt, &VariableSet::of(&ordered).contains(*variable), &true);
        assert_same(&rt, &VariableSet::full().contains(*variable), &true);
    }
    let all = VariableSet::full().to_ordered(rt.alloc())?;
    assert_same(&rt, &all.len(), &98);
    Ok(())
}
