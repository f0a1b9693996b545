//! The tests of the public calls, a module for each library. Nothing proves them.
#![tactic(auto)]

#[cfg(test)]
mod assertions;
#[cfg(test)]
mod csl_cli_tests;
#[cfg(test)]
mod csl_context_tests;
#[cfg(test)]
mod csl_entry_tests;
#[cfg(test)]
mod csl_finish_tests;
#[cfg(test)]
mod csl_list_tests;
#[cfg(test)]
mod csl_render_tests;
#[cfg(test)]
mod csl_session_tests;
#[cfg(test)]
mod csl_style_tests;
#[cfg(test)]
mod csl_tests;
#[cfg(test)]
mod csl_tree_tests;
#[cfg(test)]
mod csl_wire_cite_tests;
#[cfg(test)]
mod csl_wire_list_tests;
#[cfg(test)]
mod csl_wire_reply_tests;
#[cfg(test)]
mod csl_wire_tests;
#[cfg(test)]
mod described;
#[cfg(test)]
mod lit_model_tests;
#[cfg(test)]
mod shared;
#[cfg(test)]
mod wire;
