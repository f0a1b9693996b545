//! The nodes of a style, but names: `(text variable=title prefix="(")` is CSL's
//! `<text variable="title" prefix="("/>`. A bare word is a text of that variable, and a text in
//! quotes is a text of that value.

use crate::choices::choose;
use crate::fault::Fault;
use crate::form::{Form, Forms};
use crate::name_nodes::names;
use csl::literature::LongShortForm;
use csl::style::{
    Affixes, CslMacro, Date, DatePart, DateVariable, Formatting, Group, Label, LabelPluralize,
    Layout, LayoutRenderingElement, Number, RenderingElement, TermForm, Text, TextTarget, Variable,
    VariablelessLabel,
};
use csl_finish::TextCase;

/// The attributes of a formatting.
pub const FORMATTING: &str = "font-style font-variant font-weight text-decoration vertical-align";

/// The attributes of affixes.
pub const AFFIXES: &str = "prefix suffix";

/// The formatting among the attributes.
pub fn formatting(forms: &Forms<'_>) -> Result<Formatting, Fault> {
    Ok(Formatting {
        font_style: forms.choice("font-style")?,
        font_variant: forms.choice("font-variant")?,
        font_weight: forms.choice("font-weight")?,
        text_decoration: forms.choice("text-decoration")?,
        vertical_align: forms.choice("vertical-align")?,
    })
}

/// The attributes of affixes of a node with a case.
pub const CASED: &str = "prefix suffix text-case";

/// The affixes among the attributes.
pub fn affixes(forms: &Forms<'_>) -> Result<Affixes, Fault> {
    let prefix = forms.text("prefix")?;
    let suffix = forms.text("suffix")?;
    Ok(Affixes { prefix, suffix })
}

/// The affixes with the marks of the case among the attributes, if there is one, for a list.
pub fn cased_affixes(forms: &Forms<'_>) -> Result<Affixes, Fault> {
    let Some(case) = forms.choice::<TextCase>("text-case")? else {
        return affixes(forms);
    };
    let mut prefix = forms.text("prefix")?.unwrap_or(String::new(forms.alloc));
    prefix.push(case.start_mark())?;
    let mut suffix = String::new(forms.alloc);
    suffix.push(case.end_mark())?;
    suffix.push_str(forms.value("suffix").unwrap_or(""))?;
    Ok(Affixes {
        prefix: Some(prefix),
        suffix: Some(suffix),
    })
}

fn text_target(forms: &Forms<'_>) -> Result<TextTarget, Fault> {
    let name = forms.value("variable");
    let term = forms.value("term");
    let called = forms.text("macro")?;
    let words = forms.text("value")?;
    match (name, term, called, words) {
        (Some(name), None, None, None) => Ok(TextTarget::Variable {
            var: forms.named(name)?,
            form: forms.choice("form")?.unwrap_or(LongShortForm::Long),
        }),
        (None, Some(term), None, None) => Ok(TextTarget::Term {
            term: forms.named(term)?,
            form: forms.choice("form")?.unwrap_or(TermForm::Long),
            plural: forms.is_true("plural")?,
        }),
        (None, None, Some(name), None) => Ok(TextTarget::Macro { name }),
        (None, None, None, Some(val)) => Ok(TextTarget::Value { val }),
        _ => Err(Fault::Wrong("a text is of a variable, a macro, a term or a value")),
    }
}

/// Whether a text prints a link. Its prefix may begin the address, which keeps its case.
fn is_link(target: &TextTarget) -> bool {
    match target {
        TextTarget::Variable {
            var: Variable::Standard(variable),
            ..
        } => matches!(variable.name(), "DOI" | "PMCID" | "PMID" | "URL"),
        _ => false,
    }
}

fn text(forms: &Forms<'_>) -> Result<Text, Fault> {
    let own = "variable macro term value form plural quotes strip-periods display";
    forms.ensure_attributes(&[own, FORMATTING, CASED])?;
    forms.ensure_lists("")?;
    let target = text_target(forms)?;
    let affixes = if is_link(&target) {
        affixes(forms)?
    } else {
        cased_affixes(forms)?
    };
    Ok(Text {
        target,
        formatting: formatting(forms)?,
        affixes,
        display: forms.choice("display")?,
        quotes: forms.is_true("quotes")?,
        strip_periods: forms.is_true("strip-periods")?,
    })
}

fn number(forms: &Forms<'_>) -> Result<Number, Fault> {
    forms.ensure_attributes(&["form display", FORMATTING, CASED])?;
    let mut number = Number::new(forms.named(forms.only_word()?)?);
    if let Some(form) = forms.choice("form")? {
        number.form = form;
    }
    number.formatting = formatting(forms)?;
    number.affixes = cased_affixes(forms)?;
    number.display = forms.choice("display")?;
    Ok(number)
}

/// A label without its variable.
pub fn variableless_label(forms: &Forms<'_>) -> Result<VariablelessLabel, Fault> {
    forms.ensure_attributes(&["form plural strip-periods", FORMATTING, CASED])?;
    Ok(VariablelessLabel {
        form: forms.choice("form")?.unwrap_or(TermForm::Long),
        plural: forms
            .choice("plural")?
            .unwrap_or(LabelPluralize::Contextual),
        formatting: formatting(forms)?,
        affixes: cased_affixes(forms)?,
        strip_periods: forms.is_true("strip-periods")?,
    })
}

fn label(forms: &Forms<'_>) -> Result<Label, Fault> {
    let variable = forms.named(forms.only_word()?)?;
    let label = variableless_label(forms)?;
    Ok(Label { variable, label })
}

/// The date part of a name.
fn date_part(name: &str, forms: &Forms<'_>) -> Result<DatePart, Fault> {
    forms.ensure_attributes(&["form strip-periods", FORMATTING, CASED])?;
    forms.ensure_lists("")?;
    Ok(DatePart {
        name: forms.named(name)?,
        form: forms.choice("form")?,
        formatting: formatting(forms)?,
        affixes: cased_affixes(forms)?,
        strip_periods: forms.is_true("strip-periods")?,
    })
}

/// Adds the parts of a date. Returns its variable, if a word names one.
fn add_date_parts(
    forms: &Forms<'_>,
    parts: &mut Vec<DatePart>,
) -> Result<Option<DateVariable>, Fault> {
    let bare = Forms::read(forms.alloc, "")?;
    let mut variable = None;
    for form in &forms.items {
        match form {
            Form::List(name, inside) => parts.push(date_part(*name, inside)?)?,
            Form::Word(name) if matches!(*name, "day" | "month" | "year") => {
                parts.push(date_part(*name, &bare)?)?;
            }
            Form::Word(name) if variable.is_none() => variable = Some(forms.named(*name)?),
            Form::Word(word) | Form::Text(word) => {
                return Err(forms.fault("not a part of a date", *word));
            }
            Form::Attribute(_, _) => {}
        }
    }
    Ok(variable)
}

/// The date of a layout or of a locale.
pub fn date(forms: &Forms<'_>) -> Result<Date, Fault> {
    forms.ensure_attributes(&["form date-parts delimiter display", FORMATTING, AFFIXES])?;
    let mut parts = Vec::new(forms.alloc);
    let variable = add_date_parts(forms, &mut parts)?;
    Ok(Date {
        variable,
        form: forms.choice("form")?,
        parts: forms.choice("date-parts")?,
        date_part: parts,
        delimiter: forms.text("delimiter")?,
        formatting: formatting(forms)?,
        affixes: affixes(forms)?,
        display: forms.choice("display")?,
    })
}

#[cycle(node)]
fn group(forms: &Forms<'_>) -> Result<Group, Fault> {
    forms.ensure_attributes(&["delimiter display", FORMATTING, AFFIXES])?;
    Ok(Group {
        children: nodes(forms)?,
        delimiter: forms.text("delimiter")?,
        formatting: formatting(forms)?,
        affixes: affixes(forms)?,
        display: forms.choice("display")?,
    })
}

/// The node of a list.
#[cycle(node)]
fn node_of_list(kind: &str, forms: &Forms<'_>) -> Result<LayoutRenderingElement, Fault> {
    match kind {
        "text" => Ok(LayoutRenderingElement::Text(text(forms)?)),
        "number" => Ok(LayoutRenderingElement::Number(number(forms)?)),
        "label" => Ok(LayoutRenderingElement::Label(label(forms)?)),
        "date" => Ok(LayoutRenderingElement::Date(date(forms)?)),
        "names" => Ok(LayoutRenderingElement::Names(names(forms)?)),
        "choose" => Ok(LayoutRenderingElement::Choose(choose(forms)?)),
        "group" => Ok(LayoutRenderingElement::Group(group(forms)?)),
        _ => Err(forms.fault("no such node", kind)),
    }
}

/// The nodes among the forms. Attributes are none.
#[cycle(node)]
pub fn nodes(forms: &Forms<'_>) -> Result<Vec<LayoutRenderingElement>, Fault> {
    let mut nodes = Vec::new(forms.alloc);
    for form in &forms.items {
        match form {
            Form::Word(name) => {
                let variable: Variable = forms.named(*name)?;
                nodes.push(Text::variable(variable).into())?;
            }
            Form::Text(words) => nodes.push(Text::value(forms.alloc, *words)?.into())?,
            Form::List(kind, inside) => nodes.push(node_of_list(*kind, inside)?)?,
            Form::Attribute(_, _) => {}
        }
    }
    Ok(nodes)
}

/// The macro of a name and of these nodes.
pub fn macro_of(forms: &Forms<'_>) -> Result<CslMacro, Fault> {
    forms.ensure_attributes(&["name"])?;
    let name = forms.text("name")?;
    Ok(CslMacro {
        name: name.ok_or(Fault::Wrong("a macro without a name"))?,
        children: nodes(forms)?,
    })
}

/// The layout of these nodes.
pub fn layout(forms: &Forms<'_>) -> Result<Layout, Fault> {
    Ok(Layout {
        elements: nodes(forms)?,
        delimiter: forms.text("delimiter")?,
        formatting: formatting(forms)?,
    })
}

/// The layout of a line.
pub fn layout_line(forms: &Forms<'_>) -> Result<RenderingElement, Fault> {
    forms.ensure_attributes(&["delimiter", FORMATTING])?;
    Ok(RenderingElement::Layout(layout(forms)?))
}

/// The one node of a line.
pub fn node_line(forms: &Forms<'_>) -> Result<RenderingElement, Fault> {
    forms.ensure_attributes(&[])?;
    let mut nodes = nodes(forms)?;
    match (nodes.pop(), nodes.is_empty()) {
        (Some(node), true) => Ok(RenderingElement::Other(node)),
        _ => Err(Fault::Wrong("one node goes here")),
    }
}
