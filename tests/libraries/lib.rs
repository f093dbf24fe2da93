//! Tests of the libraries over their public calls: what no clause can say.
//!
//! That compiled code answers as the standard's tables and worked frames do, with expected values
//! from the standard; the values that settings and traces give, where a run ends, which lines and
//! records are written, and what a visitor is sent; what crashes leave on a disk; each call of
//! docs/CALLS.md once; and that each call succeeds where memory is there. What scripts do, and what
//! is shown of octets, is tested over the built program: checks/simulations.py, checks/shows.py.
//!
//! No proof reads these files: `tools/library_tests.py` compiles them with checks and runs them. So
//! nobody looks here whether a call's `requires` is met, and a test meets it by what it passes.

mod commands;
mod connection_frames;
mod connections;
mod crashes;
mod line_frames;
mod log_lines;
mod procedures;
mod queues;
mod records;
mod runs;
mod setting_texts;
mod specified;
mod state_texts;
mod trace_texts;
mod types;
mod units;
mod visits;
