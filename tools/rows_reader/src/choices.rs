//! Choices: `(choose (if type=book variable="title volume" "A") (else-if "B") (else "C"))`.

use crate::fault::Fault;
use crate::form::{Form, Forms};
use crate::nodes::nodes;
use csl::style::{Choose, ChooseBranch, ChooseMatch};

#[cycle(node)]
fn branch(forms: &Forms<'_>) -> Result<ChooseBranch, Fault> {
    forms.ensure_attributes(&[
        "match disambiguate is-numeric is-uncertain-date locator position type variable",
    ])?;
    Ok(ChooseBranch {
        disambiguate: forms.boolean("disambiguate")?,
        is_numeric: forms.choices("is-numeric")?,
        is_uncertain_date: forms.choices("is-uncertain-date")?,
        locator: forms.choices("locator")?,
        position: forms.choices("position")?,
        type_: forms.choices("type")?,
        variable: forms.choices("variable")?,
        match_: forms.choice("match")?.unwrap_or(ChooseMatch::All),
        children: nodes(forms)?,
    })
}

/// The choice of these branches: `if`, any number of `else-if`, and at most one `else`.
#[cycle(node)]
pub fn choose(forms: &Forms<'_>) -> Result<Choose, Fault> {
    let mut items = forms.items.iter();
    let Some(Form::List("if", first)) = items.next() else {
        return Err(Fault::Wrong("a choice begins with if"));
    };
    let mut choose = Choose::new(forms.alloc, branch(first)?);
    for form in items {
        match form {
            Form::List("else-if", inside) if choose.otherwise.is_none() => {
                choose.else_if.push(branch(inside)?)?;
            }
            Form::List("else", inside) if choose.otherwise.is_none() => {
                inside.ensure_attributes(&[])?;
                choose.otherwise = Some(nodes(inside)?);
            }
            _ => return Err(Fault::Wrong("a choice is if, else-if .. and else")),
        }
    }
    Ok(choose)
}
