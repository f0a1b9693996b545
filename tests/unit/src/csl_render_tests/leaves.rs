//! The calls of `csl_nodes` and `csl_names` for one node each: its dry run, whether it shows a
//! variable, and what it prints.

use crate::assertions::assert_same;
use crate::csl_render_tests::setup::{Setup, TITLE, assert_html, flags};
use crate::shared::alone;
use csl_names::{commit_names, may_hide, no_persons, peeked_lists, resolved_lists, write_names};
use csl_nodes::{
    date_info, date_shows, label_info, no_info, number_info, number_shows, push_nothing,
    render_date, render_label, render_number, render_term, render_value, render_variable,
    term_info, value_info, variable_info, variable_shows,
};
use csl_style::{
    Date, DateForm, DateVariable, Label, NameVariable, Names, Number, NumberVariable, PageVariable,
    Term, TermForm, Text, Variable,
};
use lit_model::LongShortForm;
use std::test::Fail;

const ANSWERED: [bool; 3] = [true, true, true];

const PRINTS: [bool; 3] = [true, false, false];

#[test]
fn texts_of_a_variable_a_term_and_a_value(rt: HostRuntime) -> Result<(), Fail> {
    let alloc = rt.alloc();
    let setup = Setup::new(&rt, alloc)?;
    let mut ctx = setup.context()?;
    let (form, issued) = (LongShortForm::Long, Variable::Date(DateVariable::Issued));
    let text = Text {
        quotes: true,
        ..Text::variable(TITLE)
    };
    assert_same(&rt, &flags(variable_info(&ctx, form, TITLE)?), &ANSWERED);
    assert_same(&rt, &variable_shows(&ctx, form, TITLE, TITLE)?, &true);
    assert_same(&rt, &variable_shows(&ctx, form, TITLE, issued)?, &false);
    render_variable(&mut ctx, &text, form, TITLE)?;
    let (pages, short) = (Term::Page(PageVariable::Page), TermForm::Short);
    assert_same(&rt, &flags(term_info(&ctx, pages, short, true)), &PRINTS);
    render_term(&mut ctx, &Text::term(pages), pages, short, true)?;
    let value = Text::value(alloc, "A")?;
    assert_same(&rt, &flags(value_info(&ctx, "A")), &PRINTS);
    render_value(&mut ctx, &value, "A")?;
    assert_same(&rt, &flags(no_info()), &[false; 3]);
    push_nothing(&mut ctx)?;
    assert_html(&rt, alloc, ctx, "“Vortex”pp.A")
}

#[test]
fn a_number_its_label_and_a_date(rt: HostRuntime) -> Result<(), Fail> {
    let alloc = rt.alloc();
    let setup = Setup::new(&rt, alloc)?;
    let mut ctx = setup.context()?;
    let (volume, issued) = (NumberVariable::Volume, DateVariable::Issued);
    let label = Label::short(volume.into());
    assert_same(&rt, &flags(label_info(&ctx, &label)?), &PRINTS);
    render_label(&mut ctx, &label)?;
    let number = Number::new(volume.into());
    assert_same(&rt, &flags(number_info(&ctx, &number)?), &ANSWERED);
    assert_same(
        &rt,
        &number_shows(&ctx, &number, Variable::Number(volume)),
        &true,
    );
    assert_same(&rt, &number_shows(&ctx, &number, TITLE), &false);
    render_number(&mut ctx, &number)?;
    let date = Date {
        variable: Some(issued),
        ..Date::localized(DateForm::Text, Vec::new(alloc))
    };
    assert_same(&rt, &flags(date_info(&ctx, &date)?), &ANSWERED);
    assert_same(&rt, &date_shows(&ctx, &date, Variable::Date(issued)), &true);
    assert_same(&rt, &date_shows(&ctx, &date, TITLE), &false);
    render_date(&mut ctx, &date)?;
    assert_html(&rt, alloc, ctx, "vol.20May 1961")
}

#[test]
fn names_and_a_letter_in_a_box_of_them(rt: HostRuntime) -> Result<(), Fail> {
    let alloc = rt.alloc();
    let setup = Setup::new(&rt, alloc)?;
    let mut ctx = setup.context()?;
    let names = Names::new(alloc, alone(&rt, alloc, NameVariable::Author));
    let parts = names.parts();
    assert_same(&rt, &may_hide(&names), &false);
    assert_same(&rt, &no_persons(&ctx, parts.variables)?, &false);
    assert_same(&rt, &peeked_lists(&ctx, parts.variables)?.len(), &1);
    let lists = resolved_lists(&mut ctx, parts.variables)?;
    assert_same(&rt, &lists.len(), &1);
    write_names(&mut ctx, parts, &lists)?;
    let element = ctx.push_elem()?;
    ctx.push_str("x")?;
    commit_names(&mut ctx, element, None, &lists)?;
    assert_html(&rt, alloc, ctx, "E. P. Gross, CERNx")
}
