//! The program `works`: tasks over the library, for the tools that count, measure and test. Nothing
//! proves it.
//!
//! - `works bench NAME N` does a task of size N. `tools/speed` counts its instructions.
//! - `works deep NAME N` does a task over a value of depth N, to measure how deep a value may be.
//! - `works refuse NAME` does a task of allocating calls, most of which `csl_cite` does not make.
//!   `tools/refuse_memory` refuses each allocation in turn. A call that runs out of memory is
//!   repeated once on the same value, so the result reveals a value that the failed call changed.
//! - `works uses` prints what the examples of `csl_uses` make (`tools/works/uses.stdout`), and
//!   `works uses page` the web page among it.
//!
//! The others print their words and the result of the work; `tools/works/stdout` has a line for
//! each. If memory runs out, the status is 3 and standard output is empty.
//!
//! With any other words, or with none, it is the program `csl_cite`.
#![tactic(auto)]

mod bench;
mod deep;
mod documents;
mod error;
mod nodes;
mod reader;
mod refuse;
mod trees;
mod uses;

use csl_cli::program;
use error::WorkError;
use std::alloc::Global;
use std::process::ExitCode;

/// Does a work of a size or depth, and returns its line.
fn sized(alloc: Global, kind: &str, name: &str, size: &str) -> Result<String, WorkError> {
    let Ok(size) = size.parse::<usize>() else {
        return Err(WorkError::Unexpected("N is a number"));
    };
    let count = match kind {
        "bench" => bench::count(alloc, name, size)?,
        _ => deep::count(alloc, name, size)?,
    };
    Ok(format!(in alloc; "{kind} {name} {size}: {count}\n")?)
}

/// Does the work that the words name, and returns what it prints; `None` if they name no kind of
/// work.
fn text(alloc: Global, words: &[String]) -> Result<Option<String>, WorkError> {
    let text = match words {
        [kind, name, size] if matches!(kind.as_str(), "bench" | "deep") => {
            sized(alloc, kind.as_str(), name.as_str(), size.as_str())?
        }
        [kind, name] if kind.as_str() == "refuse" => {
            let result = refuse::result(alloc, name.as_str())?;
            format!(in alloc; "refuse {name}: {result}\n")?
        }
        [kind] if kind.as_str() == "uses" => uses::text(alloc)?,
        [kind, name] if kind.as_str() == "uses" && name.as_str() == "page" => uses::html(alloc)?,
        _ => return Ok(None),
    };
    Ok(Some(text))
}

/// Prints what a work makes, or why it fails, and returns the status.
fn print(rt: &(impl Print + Eprint), made: Result<String, WorkError>) -> u8 {
    let (status, reason) = match made {
        Ok(text) => match rt.print(text.as_str()) {
            Ok(()) => return 0,
            Err(_) => (1, "no standard output"),
        },
        Err(WorkError::Memory) => (3, "out of memory"),
        Err(WorkError::Unexpected(reason)) => (1, reason),
    };
    // If this line cannot be printed, the status still reports the failure.
    let _ = rt.eprintln(reason);
    status
}

fn main(rt: HostRuntime) -> ExitCode {
    let words = program::arguments(&rt);
    let made = match &words {
        Ok(words) => text(rt.alloc(), words.as_slice()),
        Err(_) => Ok(None),
    };
    ExitCode::from(match made {
        Ok(None) => program::status(&rt, words),
        Ok(Some(text)) => print(&rt, Ok(text)),
        Err(error) => print(&rt, Err(error)),
    })
}
