//! The state that a context leaves, from which another one resumes.

use crate::assertions::assert_same;
use crate::csl_context_tests::setup::Setup;
use csl_context::{LeftState, Rendered};
use csl_entry::{DisambiguatedNameForm, NameDisambiguationProperties};
use csl_style::StandardVariable;
use lit_model::LongShortForm;
use std::test::Fail;

/// The first date is one, and the first names are kept. The switch stays on.
#[test]
fn a_context_resumes_from_what_another_left(rt: HostRuntime) -> Result<(), Fail> {
    let (alloc, form) = (rt.alloc(), LongShortForm::Long);
    let setup = Setup::new(&rt, alloc)?;
    let before = setup.rendered("a")?.state;
    let mut ctx = setup.resumed(&before)?;
    assert_same(&rt, &ctx.first_name_properties().is_some(), &false);
    let dates = [
        ctx.peek_is_first_date(),
        ctx.is_first_date(),
        ctx.is_first_date(),
    ];
    assert_same(&rt, &dates, &[true, true, false]);
    for form in [
        DisambiguatedNameForm::Count,
        DisambiguatedNameForm::LongFull,
    ] {
        let names = NameDisambiguationProperties::new(form, Vec::new(alloc), Vec::new(alloc));
        ctx.keep_first_name_properties(names);
    }
    assert_same(&rt, &ctx.start_suppressing_queried_variables(), &false);
    let title = ctx.resolve_standard_variable(form, StandardVariable::Title)?;
    assert_same(&rt, &title.is_some(), &true);
    let left = ctx.finish()?.state;
    let mut ctx = setup.resumed(&left)?;
    let dates = [ctx.peek_is_first_date(), ctx.is_first_date()];
    assert_same(&rt, &dates, &[false, false]);
    let kept = ctx
        .first_name_properties()
        .map(|names| names.default_name_form());
    assert_same(&rt, &kept, &Some(DisambiguatedNameForm::Count));
    assert_same(&rt, &ctx.start_suppressing_queried_variables(), &true);
    let title = ctx.peek_standard_variable(form, StandardVariable::Title)?;
    assert_same(&rt, &title.is_some(), &false);
    Ok(())
}

#[test]
fn copied_states_and_renderings_are_equal(rt: HostRuntime) -> Result<(), Fail> {
    let alloc = rt.alloc();
    let setup = Setup::new(&rt, alloc)?;
    let mut ctx = setup.context()?;
    ctx.push_str("a")?;
    let _is_first = ctx.is_first_date();
    let count = DisambiguatedNameForm::Count;
    let names = NameDisambiguationProperties::new(count, Vec::new(alloc), Vec::new(alloc));
    ctx.keep_first_name_properties(names);
    let _before = ctx.start_suppressing_queried_variables();
    ctx.resolve_standard_variable(LongShortForm::Long, StandardVariable::Title)?;
    let rendered = ctx.finish()?;
    assert!(rt;
        Rendered::clone(&rendered, alloc)? == rendered,
        "a rendering"
    );
    let state = LeftState::clone(&rendered.state, alloc)?;
    assert!(rt; state == rendered.state, "its state");
    Ok(())
}
