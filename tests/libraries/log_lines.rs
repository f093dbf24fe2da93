//! A log over a sink in memory.
use crate::runs::config;
use noted_ends::{NotedLines, note_line};
use runlog::{LeftOut, LogLine, Logger, Note, Watch};
use std::test::Fail;

#[test]
fn a_sink_that_notes_its_lines_has_them(rt: HostRuntime) -> Result<(), Fail> {
    let alloc = rt.alloc();
    let watch = Watch::new(alloc, &config(alloc)?)?;
    let mut lines = Vec::new(alloc);
    let sink = NotedLines {
        lines: &mut lines,
        takes: 2,
    };
    let mut logger = Logger::new(watch, sink, true);
    // The third line isn't taken, which ends the log: the fourth isn't written.
    for note in [
        Note::LineReached,
        Note::Up(1),
        Note::LineLost(None),
        Note::Down(1),
    ] {
        note_line(&mut logger, note);
    }
    drop(logger);
    let taken = [Note::LineReached, Note::Up(1)].map(|note| LogLine {
        moment: 0,
        note,
        left_out: LeftOut::none(),
    });
    assert!(rt; lines.as_slice() == taken.as_slice());
    Ok(())
}
