//! The macros of a style.

use crate::error::WorkError;
use crate::nodes::style;
use csl::style::{
    Choose, ChooseBranch, CslMacro, Layout, LayoutRenderingElement, Style, StyleError,
    StyleSettings, Text, Variable,
};
use std::alloc::Global;

/// The name of the macro with this number.
fn name(alloc: Global, number: usize) -> Result<String, WorkError> {
    Ok(format!(in alloc; "macro {number}")?)
}

/// A text that calls the macro with this number.
pub fn call(alloc: Global, number: usize) -> Result<LayoutRenderingElement, WorkError> {
    Ok(Text::macro_call(alloc, name(alloc, number)?.as_str())?.into())
}

/// The macro with this number, of these nodes.
pub fn numbered(
    alloc: Global,
    number: usize,
    nodes: Vec<LayoutRenderingElement>,
) -> Result<CslMacro, WorkError> {
    Ok(CslMacro::new(alloc, name(alloc, number)?.as_str(), nodes)?)
}

/// Calls of the macros with the numbers `first..end`.
fn calls(
    alloc: Global,
    first: usize,
    end: usize,
) -> Result<Vec<LayoutRenderingElement>, WorkError> {
    let mut nodes = Vec::new(alloc);
    for number in first..end {
        nodes.push(call(alloc, number)?)?;
    }
    Ok(nodes)
}

/// `size` macros. Each calls the next `reach` macros, up to the last macro.
fn macros(alloc: Global, size: usize, reach: usize) -> Result<Vec<CslMacro>, WorkError> {
    let mut macros = Vec::new(alloc);
    for number in 0..size {
        let next = number + 1;
        let nodes = calls(alloc, next, size.min(next + reach))?;
        macros.push(numbered(alloc, number, nodes)?)?;
    }
    Ok(macros)
}

/// The nodes of the macro with this number, out of `size` macros: `times` calls of the next macro.
/// The last macro has `times` texts of a variable instead.
fn links(
    alloc: Global,
    number: usize,
    size: usize,
    times: usize,
    end: Variable,
) -> Result<Vec<LayoutRenderingElement>, WorkError> {
    let mut nodes = Vec::new(alloc);
    for _ in 0..times {
        if number + 1 < size {
            nodes.push(call(alloc, number + 1)?)?;
        } else {
            nodes.push(Text::variable(end).into())?;
        }
    }
    Ok(nodes)
}

/// `size` macros, each of which calls the next `times` times. The last has `times` texts of a
/// variable instead.
pub fn linked(
    alloc: Global,
    size: usize,
    times: usize,
    end: Variable,
) -> Result<Vec<CslMacro>, WorkError> {
    let mut macros = Vec::new(alloc);
    for number in 0..size {
        let nodes = links(alloc, number, size, times, end)?;
        macros.push(numbered(alloc, number, nodes)?)?;
    }
    Ok(macros)
}

/// `size` macros, each of which calls the next in both branches of a choose. The last has none.
pub fn branching(alloc: Global, size: usize) -> Result<Vec<CslMacro>, WorkError> {
    let mut macros = Vec::new(alloc);
    for number in 0..size {
        let next = number + 1;
        let if_ = ChooseBranch::new(calls(alloc, next, size.min(next + 1))?);
        let choose = Choose {
            otherwise: Some(calls(alloc, next, size.min(next + 1))?),
            ..Choose::new(alloc, if_)
        };
        let nodes = vec![in alloc; choose.into()]?;
        macros.push(numbered(alloc, number, nodes)?)?;
    }
    Ok(macros)
}

/// Makes a style of the macros, and counts them. `tools/speed` counts this call alone.
fn macro_count(alloc: Global, macros: Vec<CslMacro>) -> Result<usize, WorkError> {
    Ok(style(alloc, macros, Vec::new(alloc))?.macros().len())
}

/// Makes a style in which each macro calls the next, and counts the macros.
pub fn macro_chain(alloc: Global, size: usize) -> Result<usize, WorkError> {
    macro_count(alloc, macros(alloc, size, 1)?)
}

/// Makes a style in which each macro calls every later one, and counts the macros.
pub fn dense(alloc: Global, size: usize) -> Result<usize, WorkError> {
    macro_count(alloc, macros(alloc, size, size)?)
}

/// Makes a style of these macros, some of which lead back to themselves, and returns the number of the
/// first that does.
fn first_cyclic(alloc: Global, macros: Vec<CslMacro>) -> Result<usize, WorkError> {
    let settings = StyleSettings::default();
    let citation = Layout::new(Vec::new(alloc));
    match Style::new(alloc, settings, macros, citation, None, Vec::new(alloc)) {
        Err(StyleError::CyclicMacro(name)) => match name.as_str().strip_prefix("macro ") {
            Some(number) => match number.parse::<usize>() {
                Ok(number) => Ok(number),
                Err(_) => Err(WorkError::Unexpected("a macro without a number")),
            },
            None => Err(WorkError::Unexpected("a macro of another name")),
        },
        Err(error) => Err(error.into()),
        Ok(_) => Err(WorkError::Unexpected("a style with a cycle")),
    }
}

/// `size` macros that each call the next. The last calls itself.
fn into_a_cycle(alloc: Global, size: usize) -> Result<Vec<CslMacro>, WorkError> {
    let mut macros = Vec::new(alloc);
    for number in 0..size {
        let next = size.saturating_sub(1).min(number + 1);
        let nodes = vec![in alloc; call(alloc, next)?]?;
        macros.push(numbered(alloc, number, nodes)?)?;
    }
    Ok(macros)
}

/// Refuses macros of which each calls the next, and the last itself, and returns its number.
pub fn cycle(alloc: Global, size: usize) -> Result<usize, WorkError> {
    first_cyclic(alloc, into_a_cycle(alloc, size)?)
}

/// Refuses the same with a further macro that calls itself and the first, so that the others are a
/// chain between two cycles.
pub fn two_cycles(alloc: Global, size: usize) -> Result<usize, WorkError> {
    let mut macros = into_a_cycle(alloc, size)?;
    let nodes = vec![in alloc; call(alloc, size)?, call(alloc, 0)?]?;
    macros.push(numbered(alloc, size, nodes)?)?;
    first_cyclic(alloc, macros)
}
