//! The program of `tools/rows`: it reads rows from standard input, each of which has nodes, an entry,
//! a cite and what is wanted of them, or a style, a work or a tree and what is wanted of it. It prints
//! each row that is not as wanted, and how many are. With the argument `try`, a row that wants nothing
//! prints what came. Nothing proves this program.
#![tactic(auto)]

mod answers;
mod choices;
mod cite;
mod driver;
mod entry;
mod entry_answers;
mod fault;
mod form;
mod layouts;
mod list_answers;
mod list_lines;
mod lists;
mod literature;
mod missing;
mod name_nodes;
mod names;
mod nodes;
mod question;
mod rows;
mod scene;
mod style;
mod subjects;
mod tree_answers;
mod tree_words;
mod trees;
mod work;

use fault::Fault;
use rows::{Rows, printed};
use std::alloc::Global;
use std::env;
use std::process::ExitCode;
use std::rt::Env;

/// Whether the argument asks that rows are printed too if they want nothing.
fn is_trial(rt: &(impl Env + AllocGlobal)) -> Result<bool, Fault> {
    let Ok(mut words) = env::args(rt) else {
        return Err(Fault::Memory);
    };
    let _program = words.next();
    let words: Vec<String> = words.collect(rt.alloc())?;
    match words.as_slice() {
        [] => Ok(false),
        [word] if word.as_str() == "try" => Ok(true),
        _ => Err(Fault::Wrong("the argument is try, or there is none")),
    }
}

/// Reads all rows. Prints how many are as wanted, and returns whether all are.
fn compare(rt: &(impl Input + Print + AllocGlobal), is_trial: bool) -> Result<bool, Fault> {
    let alloc: Global = rt.alloc();
    let mut rows = Rows::new(alloc, is_trial);
    for line in rt.lines(alloc) {
        match line {
            Ok(line) => rows.read(rt, line.as_str())?,
            Err(_) => return Err(Fault::Wrong("a line is no text")),
        }
    }
    rows.end(rt)?;
    let (count, as_wanted) = (rows.rows, rows.as_wanted);
    printed(rt.println(format_args!("{count} rows, {as_wanted} as wanted")))?;
    Ok(count == as_wanted)
}

fn run(rt: &(impl Env + Input + Print + AllocGlobal)) -> Result<bool, Fault> {
    let is_trial = is_trial(rt)?;
    compare(rt, is_trial)
}

fn main(rt: HostRuntime) -> ExitCode {
    let (status, reason) = match run(&rt) {
        Ok(true) => return ExitCode::SUCCESS,
        Ok(false) => return ExitCode::FAILURE,
        Err(Fault::Memory) => (3, "out of memory"),
        Err(Fault::Wrong(reason) | Fault::Word(reason, _)) => (2, reason),
        Err(Fault::Refused(_) | Fault::RefusedOptions(_)) => (2, "a style is refused"),
        Err(Fault::NoList(_)) => (2, "a document has no list"),
    };
    // If this line cannot be printed, the status still reports the failure.
    let _ = rt.eprintln(reason);
    ExitCode::from(status)
}
