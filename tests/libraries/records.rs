//! A recorder over a port in memory.

use gateway::{Action, Next, Port};
use noted_ends::{Ticks, noted_in_memory};
use record::{Pen, RecordSheet, Recorder};
use session::Close;
use std::alloc::Global;
use std::process::Abort;
use std::test::Fail;

/// What a sheet has that takes so many texts, and then none.
#[derive(Drop)]
struct FewTexts {
    text: String,
    takes: u32,
    /// How often the record ended.
    ends: u32,
    /// How many events and actions passed unwritten.
    missed: u32,
}

/// The sheet.
#[derive(Drop)]
struct Lent<'a> {
    texts: &'a mut FewTexts,
}

impl RecordSheet for Lent<'_> {
    ghost use Rattle.std.specs.Prelude.{None};

    ghost taken = { λ _. None };

    ghost missed = { λ _. None };

    fn take(&mut self, text: &[u8]) -> bool {
        if self.texts.takes == 0 {
            return false;
        }
        self.texts.takes -= 1;
        match std::str::from_utf8(text) {
            Ok(text) => self.texts.text.push_str(text).is_ok(),
            Err(_) => false,
        }
    }

    fn end(&mut self) {
        self.texts.ends = self.texts.ends.saturating_add(1);
    }

    fn miss_event(&mut self, _next: Next, _buf: &[u8; 1024]) {
        self.texts.missed = self.texts.missed.saturating_add(1);
    }

    fn miss_action(&mut self, _now: u64, _action: &Action<'_>) {
        self.texts.missed = self.texts.missed.saturating_add(1);
    }
}

#[test]
fn a_sheet_that_says_what_it_took_has_the_text(rt: HostRuntime) {
    let (next, mut port) = noted_in_memory(rt.alloc(), &mut [0; 1024]);
    assert!(rt; matches!(next, Next::Tick(1)));
    assert!(rt; !port.is_over());
    // The sheet takes no more, and the record is over.
    assert!(rt; matches!(port.next(&mut [0; 1024]), Next::Tick(2)));
    assert!(rt; port.is_over());
}

/// What a sheet of two texts has after so many calls of a recorder: a tick, two actions, ticks.
fn recorded(rt: &impl Abort, alloc: Global, calls: u32) -> Result<FewTexts, Fail> {
    let mut texts = FewTexts {
        text: String::new(alloc),
        takes: 2,
        ends: 0,
        missed: 0,
    };
    let first = Vec::from_slice(alloc, b"0 T\n")?;
    let pen = Pen::new(alloc, Lent { texts: &mut texts }, first);
    let mut port = Recorder::new(Ticks::new(), pen);
    'calls: for call in 0..calls {
        match call {
            1 => assert!(rt; port.put(1, &Action::Line(&[0x10, 0xAB]))),
            2 => assert!(rt; port.put(1, &Action::Close(Close::Stopped))),
            _ => assert!(rt; matches!(port.next(&mut [0; 1024]), Next::Tick(_))),
        }
    }
    let is_over = port.is_over();
    drop(port);
    assert_eq!(rt; is_over, calls > 4);
    Ok(texts)
}

#[test]
fn the_line_of_an_event_goes_out_before_it_is_passed_on(rt: HostRuntime) -> Result<(), Fail> {
    let texts = recorded(&rt, rt.alloc(), 1)?;
    assert_eq!(rt; texts.text.as_str(), "0 T\n1 T\n");
    let whole = "0 T\n1 T\n1 > S 10AB\n1 > X 4\n2 T\n";
    let texts = recorded(&rt, rt.alloc(), 4)?;
    assert_eq!(rt; texts.text.as_str(), whole);
    assert_eq!(rt; texts.missed, 0);
    // The sheet takes no more: the record is over, and the port goes on.
    let texts = recorded(&rt, rt.alloc(), 6)?;
    assert_eq!(rt; texts.text.as_str(), whole);
    assert_eq!(rt; texts.ends, 1);
    assert_eq!(rt; texts.missed, 1);
    Ok(())
}

#[test]
fn an_idle_pen_writes_nothing(rt: HostRuntime) {
    let mut texts = FewTexts {
        text: String::new(rt.alloc()),
        takes: 9,
        ends: 0,
        missed: 0,
    };
    let pen = Pen::idle(rt.alloc(), Lent { texts: &mut texts });
    let mut port = Recorder::new(Ticks::new(), pen);
    assert!(rt; matches!(port.next(&mut [0; 1024]), Next::Tick(1)));
    assert!(rt; port.put(1, &Action::Line(&[0x10, 0xAB])));
    assert!(rt; matches!(port.next(&mut [0; 1024]), Next::Tick(2)));
    drop(port);
    assert_eq!(rt; texts.text.as_str(), "");
    assert_eq!(rt; texts.ends, 0);
    assert_eq!(rt; texts.missed, 3);
}
