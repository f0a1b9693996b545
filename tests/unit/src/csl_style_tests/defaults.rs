//! The default values of options that a style does not set.

use crate::assertions::{assert_same, assert_text};
use csl_style::{
    ChooseMatch, DateParts, DelimiterBehavior, DemoteNonDroppingParticle, EtAl, FontStyle,
    FontVariant, FontWeight, InheritedNameOptions, LabelPluralize, LongShortForm, NameForm,
    OtherTerm, PageRangeFormat, StyleSettings, TermForm, TextDecoration, VariablelessLabel,
    VerticalAlign,
};

#[test]
fn options_have_their_defaults(rt: HostRuntime) {
    let display_and_sort = DemoteNonDroppingParticle::DisplayAndSort;
    assert_same(&rt, &FontStyle::default(), &FontStyle::Normal);
    assert_same(&rt, &FontVariant::default(), &FontVariant::Normal);
    assert_same(&rt, &FontWeight::default(), &FontWeight::Normal);
    assert_same(&rt, &TextDecoration::default(), &TextDecoration::None);
    assert_same(&rt, &VerticalAlign::default(), &VerticalAlign::None);
    assert_same(&rt, &TermForm::default(), &TermForm::Long);
    assert_same(&rt, &LabelPluralize::default(), &LabelPluralize::Contextual);
    assert_same(&rt, &DateParts::default(), &DateParts::YearMonthDay);
    assert_same(&rt, &NameForm::default(), &NameForm::Long);
    let contextual = DelimiterBehavior::Contextual;
    assert_same(&rt, &DelimiterBehavior::default(), &contextual);
    assert_same(&rt, &ChooseMatch::default(), &ChooseMatch::All);
    assert_same(&rt, &LongShortForm::default(), &LongShortForm::Long);
    assert_same(&rt, &PageRangeFormat::default(), &PageRangeFormat::Expanded);
    let particle = DemoteNonDroppingParticle::default();
    assert_same(&rt, &particle, &display_and_sort);
    assert_same(&rt, &EtAl::default().term, &OtherTerm::EtAl);
    assert_same(&rt, &VariablelessLabel::default().form, &TermForm::Long);
    let settings = StyleSettings::default();
    assert_same(&rt, &settings.page_range_format, &None);
    let particle = settings.demote_non_dropping_particle;
    assert_same(&rt, &particle, &display_and_sort);
    assert_same(&rt, &settings.initialize_with_hyphen, &true);
}

#[test]
fn names_have_their_defaults(rt: HostRuntime) {
    let options = InheritedNameOptions::default();
    assert_text(&rt, Some(options.names_delimiter()), Some(""));
    let options = options.name_options();
    assert_same(&rt, &options.and, &None);
    assert_text(&rt, Some(options.delimiter), Some(", "));
    assert_same(&rt, &options.et_al_min, &None);
    assert_same(&rt, &options.et_al_use_last, &false);
    assert_same(&rt, &options.form, &NameForm::Long);
    assert_same(&rt, &options.initialize, &true);
    assert_text(&rt, options.initialize_with, None);
    assert_same(&rt, &options.name_as_sort_order, &None);
    assert_text(&rt, Some(options.sort_separator), Some(", "));
}
