//! Names, with their options and children:
//! `(names editor translator (name form=short) (et-al) (label prefix=" (") (substitute title))`.

use crate::fault::Fault;
use crate::form::{Form, Forms};
use crate::nodes::{
    AFFIXES, CASED, FORMATTING, affixes, cased_affixes, formatting, nodes, variableless_label,
};
use csl::style::{
    EtAl, InheritableNameOptions, Name, NamePart, Names, NamesChild, OtherTerm, Substitute,
};

/// The options of names (CSL 1.0.2, Name Options), but form and delimiter.
pub const NAME_OPTIONS: &str = "and delimiter-precedes-et-al delimiter-precedes-last et-al-min \
    et-al-use-first et-al-subsequent-min et-al-subsequent-use-first et-al-use-last initialize \
    initialize-with name-as-sort-order sort-separator names-delimiter";

/// The options of names among the attributes. Form and delimiter have these names.
pub fn name_options(
    forms: &Forms<'_>,
    form: &str,
    delimiter: &str,
) -> Result<InheritableNameOptions, Fault> {
    Ok(InheritableNameOptions {
        and: forms.choice("and")?,
        delimiter: forms.text(delimiter)?,
        delimiter_precedes_et_al: forms.choice("delimiter-precedes-et-al")?,
        delimiter_precedes_last: forms.choice("delimiter-precedes-last")?,
        et_al_min: forms.number("et-al-min")?,
        et_al_use_first: forms.number("et-al-use-first")?,
        et_al_subsequent_min: forms.number("et-al-subsequent-min")?,
        et_al_subsequent_use_first: forms.number("et-al-subsequent-use-first")?,
        et_al_use_last: forms.boolean("et-al-use-last")?,
        form: forms.choice(form)?,
        initialize: forms.boolean("initialize")?,
        initialize_with: forms.text("initialize-with")?,
        name_as_sort_order: forms.choice("name-as-sort-order")?,
        sort_separator: forms.text("sort-separator")?,
        names_delimiter: forms.text("names-delimiter")?,
    })
}

fn name_part(forms: &Forms<'_>) -> Result<NamePart, Fault> {
    forms.ensure_attributes(&[FORMATTING, CASED])?;
    Ok(NamePart {
        name: forms.named(forms.only_word()?)?,
        formatting: formatting(forms)?,
        affixes: cased_affixes(forms)?,
    })
}

fn name(forms: &Forms<'_>) -> Result<Name, Fault> {
    forms.ensure_attributes(&["form delimiter", NAME_OPTIONS, FORMATTING])?;
    let mut name = Name::new(forms.alloc);
    name.options = name_options(forms, "form", "delimiter")?;
    name.formatting = formatting(forms)?;
    forms.ensure_lists("name-part")?;
    for form in &forms.items {
        if let Form::List(_, inside) = form {
            name.parts.push(name_part(inside)?)?;
        }
    }
    Ok(name)
}

fn et_al(forms: &Forms<'_>) -> Result<EtAl, Fault> {
    forms.ensure_attributes(&["term", FORMATTING])?;
    forms.ensure_lists("")?;
    Ok(EtAl {
        term: forms.choice("term")?.unwrap_or(OtherTerm::EtAl),
        formatting: formatting(forms)?,
    })
}

#[cycle(node)]
fn child(kind: &str, forms: &Forms<'_>) -> Result<NamesChild, Fault> {
    match kind {
        "name" => Ok(NamesChild::Name(name(forms)?)),
        "et-al" => Ok(NamesChild::EtAl(et_al(forms)?)),
        "label" => {
            forms.ensure_lists("")?;
            Ok(NamesChild::Label(variableless_label(forms)?))
        }
        "substitute" => {
            forms.ensure_attributes(&[])?;
            let children = nodes(forms)?;
            Ok(NamesChild::Substitute(Substitute { children }))
        }
        _ => Err(forms.fault("no such child of names", kind)),
    }
}

/// The names of these variables, with these options and children.
#[cycle(node)]
pub fn names(forms: &Forms<'_>) -> Result<Names, Fault> {
    let own = "delimiter name-form name-delimiter display";
    forms.ensure_attributes(&[own, NAME_OPTIONS, FORMATTING, AFFIXES])?;
    let mut names = Names::new(forms.alloc, Vec::new(forms.alloc));
    names.options = name_options(forms, "name-form", "name-delimiter")?;
    names.delimiter = forms.text("delimiter")?;
    names.formatting = formatting(forms)?;
    names.affixes = affixes(forms)?;
    names.display = forms.choice("display")?;
    for form in &forms.items {
        match form {
            Form::Word(word) => names.variable.push(forms.named(*word)?)?,
            Form::List(kind, inside) => names.children.push(child(*kind, inside)?)?,
            Form::Text(text) => return Err(forms.fault("names have no text", *text)),
            Form::Attribute(_, _) => {}
        }
    }
    Ok(names)
}
