//! Tests of the program: its answers to words, entries that run out of memory, and writers that refuse
//! texts. Also of its built-in entries and styles, and of calls of the crates below with these.

mod cites;
mod pairs;
mod refusing_entries;
mod refusing_writers;
mod samples;
mod shared;
mod without_memory;
mod words;
