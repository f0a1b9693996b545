//! New nodes, affixes and terms have what they are given, and nothing else.

use crate::assertions::{assert_same, assert_text};
use crate::shared::alone;
use csl_style::{
    Affixes, Choose, ChooseBranch, ChooseMatch, CslMacro, Group, Label, Layout,
    LayoutRenderingElement, Locale, NamesChild, NumberVariable, OtherTerm, Scope, Style,
    StyleSettings, Term, TermEntry, TermForm, Text, TextTarget, VariablelessLabel,
};
use std::test::Fail;

#[test]
fn affixes_are_on_their_sides(rt: HostRuntime) -> Result<(), Fail> {
    let alloc = rt.alloc();
    for (affixes, prefix, suffix) in [
        (Affixes::before(alloc, "in: ")?, Some("in: "), None),
        (Affixes::after(alloc, ".")?, None, Some(".")),
        (Affixes::around(alloc, "(", ")")?, Some("("), Some(")")),
    ] {
        assert_text(&rt, affixes.prefix.as_deref(), prefix);
        assert_text(&rt, affixes.suffix.as_deref(), suffix);
    }
    Ok(())
}

/// The words of a text, or the name of the macro that it calls.
fn words_of(element: &LayoutRenderingElement) -> Option<&str> {
    let LayoutRenderingElement::Text(text) = element else {
        return None;
    };
    match &text.target {
        TextTarget::Value { val } => Some(val.as_str()),
        TextTarget::Macro { name } => Some(name.as_str()),
        TextTarget::Variable { .. } | TextTarget::Term { .. } => None,
    }
}

/// Spaces at an end stay.
#[test]
fn nodes_have_their_texts_and_children(rt: HostRuntime) -> Result<(), Fail> {
    let alloc = rt.alloc();
    let words = alone(&rt, alloc, Text::value(alloc, " in press ")?.into());
    let group = Group::delimited(alloc, ", ", words)?;
    assert_text(&rt, group.delimiter.as_deref(), Some(", "));
    let inside = group.children.first().and_then(words_of);
    assert_text(&rt, inside, Some(" in press "));
    let call = alone(&rt, alloc, Text::macro_call(alloc, " author ")?.into());
    let books = CslMacro::new(alloc, "books", call)?;
    assert_text(&rt, Some(books.name.as_str()), Some("books"));
    let inside = books.children.first().and_then(words_of);
    assert_text(&rt, inside, Some(" author "));
    Ok(())
}

#[test]
fn nodes_have_their_forms(rt: HostRuntime) -> Result<(), Fail> {
    let alloc = rt.alloc();
    let and = Text::term(OtherTerm::And.into());
    let is_singular = matches!(
        &and.target,
        TextTarget::Term {
            form: TermForm::Long,
            plural: false,
            ..
        }
    );
    assert_same(&rt, &is_singular, &true);
    let volume = Label::new(NumberVariable::Volume.into());
    assert_same(&rt, &volume.label.form, &TermForm::Long);
    let label = VariablelessLabel {
        form: TermForm::Verb,
        ..VariablelessLabel::default()
    };
    let is_same = matches!(
        &NamesChild::from(label),
        NamesChild::Label(label) if label.form == TermForm::Verb
    );
    assert_same(&rt, &is_same, &true);
    let none = ChooseBranch {
        match_: ChooseMatch::None,
        ..ChooseBranch::new(Vec::new(alloc))
    };
    let choose = Choose {
        else_if: alone(&rt, alloc, none),
        ..Choose::new(alloc, ChooseBranch::new(Vec::new(alloc)))
    };
    let matches: Vec<ChooseMatch> = choose.branches().map(|it| it.match_).collect(alloc)?;
    let wanted = [ChooseMatch::All, ChooseMatch::None];
    assert_same(&rt, &matches.as_slice(), &wanted.as_slice());
    Ok(())
}

#[test]
fn a_style_may_have_no_bibliography(rt: HostRuntime) -> Result<(), Fail> {
    let alloc = rt.alloc();
    let (macros, locales) = (Vec::new(alloc), Vec::new(alloc));
    let (settings, citation) = (StyleSettings::default(), Layout::new(Vec::new(alloc)));
    let style = Style::new(alloc, settings, macros, citation, None, locales)?;
    let has_layouts = [Scope::Citation, Scope::Bibliography].map(|it| style.layout(it).is_some());
    assert_same(&rt, &has_layouts, &[true, false]);
    Ok(())
}

#[test]
fn terms_have_a_text_for_one_or_two(rt: HostRuntime) -> Result<(), Fail> {
    let alloc = rt.alloc();
    let by = TermEntry::new(alloc, OtherTerm::By.into(), TermForm::Long, "by")?;
    assert_same(&rt, &by.term, &Term::Other(OtherTerm::By));
    assert_same(&rt, &by.form, &TermForm::Long);
    assert_text(&rt, Some(by.text(true)), Some("by"));
    assert_text(&rt, by.multiple.as_deref(), None);
    let (term, short) = (Term::Number(NumberVariable::Volume), TermForm::Short);
    let volume = TermEntry::counted(alloc, term, short, "vol.", "vols.")?;
    assert_same(&rt, &(volume.term, volume.form), &(term, short));
    assert_text(&rt, Some(volume.text(false)), Some("vol."));
    assert_text(&rt, Some(volume.text(true)), Some("vols."));
    assert_same(&rt, &Locale::new(alloc).punctuation_in_quote, &false);
    Ok(())
}
