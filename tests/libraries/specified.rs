//! Each call of docs/CALLS.md, once: as it is written there, and in the order of the page.
//!
//! A file is a section of the page. Every call answers a worked value of the standards or of docs/,
//! so whoever builds on the crates finds an example of each call here, and a call that is gone or
//! answers otherwise is seen. `checks/calls.py` compares page and files. What calls answer in all
//! other cases their contracts say, and the tests beside this folder try what no clause can say.

mod apdus;
mod commands;
mod connection;
mod information;
mod line_frames;
mod live_ends;
mod procedures;
mod queue;
mod runs;
mod scripts;
mod setting_texts;
mod trace_texts;
mod units;
