//! Calls that rows do not make: the choice of nodes, the tests of a branch, the sort key of a date, a
//! text after a layout, and names after a text.

use crate::assertions::assert_same;
use crate::csl_render_tests::setup::{Setup, TITLE, assert_html, title_nodes};
use crate::shared::alone;
use csl_entry::DisambiguatedNameForm;
use csl_names::{write_name, write_name_list};
use csl_nodes::branch_holds;
use csl_render::{BranchConditionIter, RenderCsl, choose_children, full_sort_key};
use csl_style::{Choose, ChooseBranch, EtAl, Formatting, Kind, Layout, Name, NameVariable};
use lit_model::{Date, Person};
use std::borrow::Cow;
use std::test::Fail;

#[test]
fn a_choice_takes_the_nodes_of_a_branch(rt: HostRuntime) -> Result<(), Fail> {
    let alloc = rt.alloc();
    let setup = Setup::new(&rt, alloc)?;
    let branch = ChooseBranch {
        type_: Some(alone(&rt, alloc, Kind::Book)),
        variable: Some(alone(&rt, alloc, TITLE)),
        ..ChooseBranch::new(title_nodes(&rt, alloc))
    };
    let choose = Choose::new(alloc, branch);
    let mut ctx = setup.context()?;
    let mut count = 0;
    for condition in BranchConditionIter::from_branch(&choose.if_, &ctx) {
        assert_same(&rt, &condition, &Ok(true));
        count += 1;
    }
    assert_same(&rt, &(count, branch_holds(&ctx, &choose.if_)?), &(2, true));
    let nodes = choose_children(&choose, &mut ctx)?;
    assert_same(&rt, &nodes.map(|nodes| nodes.len()), &Some(1));
    Ok(())
}

#[test]
fn a_text_after_a_layout_is_not_in_its_formatting(rt: HostRuntime) -> Result<(), Fail> {
    let setup = Setup::new(&rt, rt.alloc())?;
    let layout = Layout {
        formatting: Formatting::italic(),
        ..Layout::new(title_nodes(&rt, rt.alloc()))
    };
    let mut ctx = setup.context()?;
    layout.render(&mut ctx)?;
    ctx.push_str("x")?;
    let wanted = "<span style=\"font-style: italic;\">Vortex</span>x";
    assert_html(&rt, rt.alloc(), ctx, wanted)
}

#[test]
fn a_sort_key_has_year_month_and_day(rt: HostRuntime) -> Result<(), Fail> {
    let date = Date::new(2014, Some(4), Some(1), None, false).expect(&rt, "a date");
    assert_eq!(rt;
        full_sort_key(rt.alloc(), &date)?.as_str(),
        "P0000020140502"
    );
    Ok(())
}

/// The gap before `et al.` depends on the text before the list, none of whose names is shown.
#[test]
fn names_follow_a_text(rt: HostRuntime) -> Result<(), Fail> {
    let alloc = rt.alloc();
    let setup = Setup::new(&rt, alloc)?;
    let (name, et_al, author) = (Name::new(alloc), EtAl::default(), NameVariable::Author);
    let options = name.options.as_inherited().name_options();
    let kwan = Person::new(alloc, "Kwan", "Kevin")?;
    let persons = alone(&rt, alloc, Cow::Borrowed(&kwan));
    let mut ctx = setup.context()?;
    ctx.push_str("by")?;
    write_name_list(&mut ctx, &name, options, &et_al, author, &persons, &[None])?;
    assert_html(&rt, alloc, ctx, "by et al.")?;
    let mut ctx = setup.context()?;
    ctx.push_str("by")?;
    write_name(
        &mut ctx,
        &name,
        options,
        &kwan,
        DisambiguatedNameForm::LongFull,
        false,
    )?;
    assert_html(&rt, alloc, ctx, "byKevin Kwan")
}
