//! Nodes as texts: the name of the element and its attributes, with the nodes inside in brackets.

use crate::described::Description;
use csl_elements::{
    Affixes, Choose, ChooseBranch, Date, DatePart, Display, EtAl, Formatting, Group,
    InheritableNameOptions, Label, LayoutRenderingElement, Name, NamePart, Names, NamesChild,
    Number, Text, TextTarget, VariablelessLabel,
};
use std::process::Abort;

fn formatting<R: Abort>(out: &mut Description<'_, R>, formatting: Formatting) {
    out.set("style", formatting.font_style);
    out.set("variant", formatting.font_variant);
    out.set("weight", formatting.font_weight);
    out.set("decoration", formatting.text_decoration);
    out.set("align", formatting.vertical_align);
}

fn affixes<R: Abort>(out: &mut Description<'_, R>, affixes: &Affixes) {
    out.set("prefix", affixes.prefix.as_deref());
    out.set("suffix", affixes.suffix.as_deref());
}

fn display<R: Abort>(out: &mut Description<'_, R>, display: Option<Display>) {
    out.set("display", display);
}

pub(crate) fn options<R: Abort>(out: &mut Description<'_, R>, options: &InheritableNameOptions) {
    out.set("and", options.and);
    out.set("name-delimiter", options.delimiter.as_deref());
    out.set("before-et-al", options.delimiter_precedes_et_al);
    out.set("before-last", options.delimiter_precedes_last);
    out.set("min", options.et_al_min);
    out.set("first", options.et_al_use_first);
    out.set("later-min", options.et_al_subsequent_min);
    out.set("later-first", options.et_al_subsequent_use_first);
    out.set("use-last", options.et_al_use_last);
    out.set("name-form", options.form);
    out.set("initialize", options.initialize);
    out.set("with", options.initialize_with.as_deref());
    out.set("sort-order", options.name_as_sort_order);
    out.set("separator", options.sort_separator.as_deref());
    out.set("between-lists", options.names_delimiter.as_deref());
}

fn text<R: Abort>(out: &mut Description<'_, R>, text: &Text) {
    match &text.target {
        TextTarget::Variable { var, form } => {
            out.set("variable", Some(*var));
            out.value(*form);
        }
        TextTarget::Macro { name } => out.set("macro", Some(name.as_str())),
        TextTarget::Term { term, form, plural } => {
            out.set("term", Some(*term));
            out.value(*form);
            out.flag("plural", *plural);
        }
        TextTarget::Value { val } => out.set("value", Some(val.as_str())),
    }
    out.flag("quotes", text.quotes);
    out.flag("strip-periods", text.strip_periods);
    formatting(out, text.formatting);
    affixes(out, &text.affixes);
    display(out, text.display);
}

fn number<R: Abort>(out: &mut Description<'_, R>, number: &Number) {
    out.value(number.variable);
    out.value(number.form);
    formatting(out, number.formatting);
    affixes(out, &number.affixes);
    display(out, number.display);
}

fn bare_label<R: Abort>(out: &mut Description<'_, R>, label: &VariablelessLabel) {
    out.value(label.form);
    out.value(label.plural);
    out.flag("strip-periods", label.strip_periods);
    formatting(out, label.formatting);
    affixes(out, &label.affixes);
}

fn label<R: Abort>(out: &mut Description<'_, R>, label: &Label) {
    out.value(label.variable);
    bare_label(out, &label.label);
}

fn date_part<R: Abort>(out: &mut Description<'_, R>, part: &DatePart) {
    out.push("(");
    out.push("part");
    out.value(part.name);
    out.set("form", part.form);
    out.flag("strip-periods", part.strip_periods);
    formatting(out, part.formatting);
    affixes(out, &part.affixes);
    out.push(")");
}

pub(crate) fn date<R: Abort>(out: &mut Description<'_, R>, date: &Date) {
    out.set("variable", date.variable);
    out.set("form", date.form);
    out.set("parts", date.parts);
    out.set("delimiter", date.delimiter.as_deref());
    formatting(out, date.formatting);
    affixes(out, &date.affixes);
    display(out, date.display);
    out.push(" [");
    for part in &date.date_part {
        date_part(out, part);
    }
    out.push("]");
}

fn name_part<R: Abort>(out: &mut Description<'_, R>, part: &NamePart) {
    out.push("(part");
    out.value(part.name);
    formatting(out, part.formatting);
    affixes(out, &part.affixes);
    out.push(")");
}

fn name<R: Abort>(out: &mut Description<'_, R>, name: &Name) {
    options(out, &name.options);
    formatting(out, name.formatting);
    out.push(" [");
    for part in &name.parts {
        name_part(out, part);
    }
    out.push("]");
}

fn et_al<R: Abort>(out: &mut Description<'_, R>, et_al: &EtAl) {
    out.value(et_al.term);
    formatting(out, et_al.formatting);
}

fn names_child<R: Abort>(out: &mut Description<'_, R>, child: &NamesChild) {
    match child {
        NamesChild::Name(inside) => {
            out.push("(name");
            name(out, inside);
        }
        NamesChild::EtAl(inside) => {
            out.push("(et-al");
            et_al(out, inside);
        }
        NamesChild::Label(inside) => {
            out.push("(label");
            bare_label(out, inside);
        }
        NamesChild::Substitute(inside) => {
            out.push("(substitute ");
            nodes(out, inside.children.as_slice());
        }
    }
    out.push(")");
}

fn names<R: Abort>(out: &mut Description<'_, R>, names: &Names) {
    out.value(&names.variable);
    out.set("delimiter", names.delimiter.as_deref());
    options(out, &names.options);
    formatting(out, names.formatting);
    affixes(out, &names.affixes);
    display(out, names.display);
    out.push(" [");
    for child in &names.children {
        names_child(out, child);
    }
    out.push("]");
}

fn branch<R: Abort>(out: &mut Description<'_, R>, branch: &ChooseBranch) {
    out.value(branch.match_);
    out.set("disambiguate", branch.disambiguate);
    out.set("is-numeric", branch.is_numeric.as_ref());
    out.set("is-uncertain-date", branch.is_uncertain_date.as_ref());
    out.set("locator", branch.locator.as_ref());
    out.set("position", branch.position.as_ref());
    out.set("type", branch.type_.as_ref());
    out.set("variable", branch.variable.as_ref());
    out.push(" ");
    nodes(out, branch.children.as_slice());
    out.push(")");
}

fn choose<R: Abort>(out: &mut Description<'_, R>, choose: &Choose) {
    out.push(" (if");
    branch(out, &choose.if_);
    for other in &choose.else_if {
        out.push("(else-if");
        branch(out, other);
    }
    if let Some(otherwise) = &choose.otherwise {
        out.push("(else ");
        nodes(out, otherwise.as_slice());
        out.push(")");
    }
}

fn group<R: Abort>(out: &mut Description<'_, R>, group: &Group) {
    out.set("delimiter", group.delimiter.as_deref());
    formatting(out, group.formatting);
    affixes(out, &group.affixes);
    display(out, group.display);
    out.push(" ");
    nodes(out, group.children.as_slice());
}

fn node<R: Abort>(out: &mut Description<'_, R>, node: &LayoutRenderingElement) {
    match node {
        LayoutRenderingElement::Text(inside) => {
            out.push("(text");
            text(out, inside);
        }
        LayoutRenderingElement::Number(inside) => {
            out.push("(number");
            number(out, inside);
        }
        LayoutRenderingElement::Label(inside) => {
            out.push("(label");
            label(out, inside);
        }
        LayoutRenderingElement::Date(inside) => {
            out.push("(date");
            date(out, inside);
        }
        LayoutRenderingElement::Names(inside) => {
            out.push("(names");
            names(out, inside);
        }
        LayoutRenderingElement::Choose(inside) => {
            out.push("(choose");
            choose(out, inside);
        }
        LayoutRenderingElement::Group(inside) => {
            out.push("(group");
            group(out, inside);
        }
    }
    out.push(")");
}

/// Appends the nodes of a list.
pub(crate) fn nodes<R: Abort>(out: &mut Description<'_, R>, list: &[LayoutRenderingElement]) {
    out.push("[");
    for inside in list {
        node(out, inside);
    }
    out.push("]");
}
