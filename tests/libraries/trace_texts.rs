//! What traces say, and what is written, by both ports over a text. checks/faults.py shows which
//! line of a wrong text is reported, and checks/shows.py which octets can be given alone.
use gateway::{Action, Entry, Next, Port, StoredEntry};
use session::Close;
use std::alloc::Global;
use std::io;
use std::io::{ErrorKind, Write};
use std::test::Fail;
use traces::{Pause, TextFault, Trace, append_event, append_line, judge, read_trace};

/// A call of a port, and what it is to answer.
#[derive(Clone, Copy)]
enum Step<'a> {
    /// The next event is this one. Nothing but time passed.
    Tick(u64),
    /// These octets came from the line.
    Line(u64, &'a [u8]),
    Open(u64),
    /// These octets came on the connection.
    Bytes(u64, &'a [u8]),
    Cut(u64),
    Wall(u64, u64),
    /// No event comes any more.
    Done,
    /// An action is put out, which does not fail.
    Puts(u64, Action<'a>),
}

/// Whether so many octets at the front of the buffer are these.
fn holds(buf: &[u8; 1024], len: usize, octets: &[u8]) -> bool {
    buf.get(..len).is_some_and(|front| front == octets)
}

/// Whether the next event is this one.
fn is_next(next: Next, buf: &[u8; 1024], step: &Step) -> bool {
    match (next, step) {
        (Next::Tick(now), Step::Tick(at)) => now == *at,
        (Next::Line(now, len), Step::Line(at, octets)) => now == *at && holds(buf, len, octets),
        (Next::Open(now), Step::Open(at)) => now == *at,
        (Next::Bytes(now, len), Step::Bytes(at, octets)) => now == *at && holds(buf, len, octets),
        (Next::Cut(now), Step::Cut(at)) => now == *at,
        (Next::Wall(now, wall), Step::Wall(at, shown)) => now == *at && wall == *shown,
        (Next::Done, Step::Done) => true,
        _ => false,
    }
}

/// Makes the call, and says whether the answer was the one, and nothing failed so far.
fn answers<P: Port>(port: &mut P, step: &Step) -> bool {
    if port.failures() > 0 {
        return false;
    }
    if let Step::Puts(now, action) = step {
        return port.put(*now, action);
    }
    let mut buf = [0; 1024];
    let next = port.next(&mut buf);
    is_next(next, &buf, step) && port.failures() == 0
}

/// Whether the calls, in their order, answer what they are to.
fn all_answer<P: Port>(port: &mut P, steps: &[Step]) -> bool {
    for step in steps {
        if !answers(port, step) {
            return false;
        }
    }
    true
}

/// Texts of traces: how many events they have, what a port over them answers, and what it writes.
const TEXTS: [(&[u8], usize, &[Step], &[u8]); 5] = [
    // Each kind of line.
    (
        b"# a comment\n\n10 S 100b010C16\n20 T\n#\xff\n30 O\n40 R 68\n999999999999999 C\n",
        5,
        &[
            Step::Tick(0),
            Step::Line(10, &[0x10, 0x0B, 0x01, 0x0C, 0x16]),
            Step::Tick(20),
            Step::Open(30),
            Step::Bytes(40, &[0x68]),
            Step::Cut(999999999999999),
            Step::Done,
        ],
        b"",
    ),
    // The wall clock.
    (
        b"45 W 1709210100000\n0 W 0\n7 W 000000000000005\n1 W 999999999999999",
        4,
        &[
            Step::Tick(0),
            Step::Wall(45, 1709210100000),
            Step::Wall(0, 0),
            Step::Wall(7, 5),
            Step::Wall(1, 999999999999999),
            Step::Done,
        ],
        b"",
    ),
    // An opening. The last line lacks its line feed; moments may go back.
    (
        b"10 S 100B010C16\n20 S E5\n30 O\n40 R 680407000000\n\
        0050 S 680909680801010103016400017416\n7 T",
        6,
        &[
            Step::Tick(0),
            Step::Line(10, &[0x10, 0x0B, 0x01, 0x0C, 0x16]),
            Step::Line(20, &[0xE5]),
            Step::Open(30),
            Step::Bytes(40, &[0x68, 0x04, 0x07, 0x00, 0x00, 0x00]),
            Step::Line(
                50,
                &[
                    0x68, 0x09, 0x09, 0x68, 0x08, 0x01, 0x01, 0x01, 0x03, 0x01, 0x64, 0x00, 0x01,
                    0x74, 0x16,
                ],
            ),
            Step::Tick(7),
            Step::Done,
        ],
        b"",
    ),
    // Actions are written.
    (
        b"7 S E568\n9 O\n",
        2,
        &[
            Step::Tick(0),
            Step::Line(7, &[0xE5, 0x68]),
            Step::Puts(7, Action::Line(&[0x10, 0xAB])),
            Step::Open(9),
            Step::Puts(9, Action::Tcp(&[0x68])),
            Step::Puts(9, Action::Close(Close::Replaced)),
            Step::Done,
        ],
        b"7 > S 10AB\n9 > T 68\n9 > X 7\n",
    ),
    (
        b"# a comment\n\n7 S E568\n9 O\n12 W 5",
        3,
        &[
            Step::Tick(0),
            Step::Line(7, &[0xE5, 0x68]),
            Step::Puts(7, Action::Line(&[0x10, 0xAB])),
            Step::Open(9),
            Step::Puts(9, Action::Tcp(&[0x68])),
            Step::Puts(9, Action::Close(Close::Replaced)),
            Step::Puts(
                9,
                Action::Gap {
                    station: 1,
                    session: 3,
                },
            ),
            Step::Wall(12, 5),
            Step::Done,
            Step::Done,
        ],
        b"7 > S 10AB\n9 > T 68\n9 > X 7\n9 > G 2 3\n",
    ),
];

/// Whether a trace of the text gives so many events, answers these calls, and writes this page.
fn trace_answers(
    alloc: Global,
    text: &[u8],
    count: usize,
    steps: &[Step],
    page: &[u8],
) -> Result<bool, Fail> {
    let entries = read_trace(alloc, text)?;
    let has_all = entries.len() == count;
    let mut port = Trace::<Vec<u8>>::new(alloc, entries, Vec::new(alloc));
    let answered = all_answer(&mut port, steps) && port.failures() == 0 && !port.refused();
    let written = port.into_writer();
    Ok(has_all && answered && written.as_slice() == page)
}

/// Whether a port over the text answers these calls, and has this page until it is cleared.
fn text_answers(alloc: Global, text: &[u8], steps: &[Step], page: &[u8]) -> bool {
    let mut port = Pause::new(alloc).over(text);
    let answered = all_answer(&mut port, steps) && port.failures() == 0 && port.page() == page;
    port.clear_page();
    answered && port.page().is_empty()
}

fn line_feeds(text: &[u8]) -> u64 {
    text.iter().filter(|octet| **octet == b'\n').count() as u64
}

#[test]
fn texts_give_events_and_get_actions(rt: HostRuntime) -> Result<(), Fail> {
    let alloc = rt.alloc();
    for (text, count, steps, page) in TEXTS {
        assert!(rt; trace_answers(alloc, text, count, steps, page)?);
        // Line feeds part the lines, of which the first has the number 1.
        assert!(rt; Some(judge(text, 1)?) == line_feeds(text).checked_add(2));
        assert!(rt; text_answers(alloc, text, steps, page));
    }
    Ok(())
}

/// A line with so many octets.
fn long_line(alloc: Global, octets: usize) -> Result<String, Fail> {
    let mut text = String::from_str(alloc, "1 S ")?;
    for _ in 0..octets {
        text.push_str("aB")?;
    }
    Ok(text)
}

/// Whether a line has 1,024 octets at most.
fn is_longest_line_read(alloc: Global) -> Result<bool, Fail> {
    let entries = read_trace(alloc, long_line(alloc, 1024)?.as_bytes())?;
    Ok(match entries.as_slice() {
        [Entry::Line(_, octets)] => {
            octets.len() == 1024 && octets.iter().all(|octet| *octet == 0xAB)
        }
        _ => false,
    })
}

fn is_longer_line_refused(alloc: Global) -> Result<bool, Fail> {
    let refused = read_trace(alloc, long_line(alloc, 1025)?.as_bytes()).err();
    Ok(refused == Some(TextFault::Line(1)))
}

/// The lines of actions of a log, and of events of a port.
fn append_each(alloc: Global, lines: &mut String) -> Result<(), Fail> {
    append_line(alloc, lines, &StoredEntry::Came(Entry::Tick(5)))?;
    append_line(alloc, lines, &StoredEntry::Close(70, Close::Timeout))?;
    let mut buf = [0; 1024];
    buf[0] = 0xE5;
    buf[1] = 0x6A;
    for next in [
        Next::Tick(0),
        Next::Line(7, 2),
        Next::Open(9),
        Next::Bytes(10, 1),
        Next::Cut(11),
        Next::Wall(12, 1709210100000),
        Next::Done,
        Next::Fault,
    ] {
        append_event(alloc, lines, next, &buf)?;
    }
    Ok(())
}

/// Octets are 1 to 1,024; a fault is printed; an action of the log has a line, and so has an event
/// of a port.
#[test]
fn the_longest_line_and_lines_one_by_one(rt: HostRuntime) -> Result<(), Fail> {
    let alloc = rt.alloc();
    assert!(rt; is_longest_line_read(alloc)? && is_longer_line_refused(alloc)?);
    let (wrong, memory) = (TextFault::Line(12), TextFault::NoMemory);
    assert!(rt; format!(in alloc; "{wrong}, {memory}")?.as_str() == "line 12, no memory");
    let mut lines = String::new(alloc);
    append_each(alloc, &mut lines)?;
    assert!(rt;
        lines.as_str() == "70 > X 5\n0 T\n7 S E56A\n9 O\n10 R E5\n11 C\n12 W 1709210100000\n"
    );
    Ok(())
}

/// Takes so many octets, one a write, and then fails.
#[derive(Drop)]
struct Failing {
    octets: u64,
}

impl Write for Failing {
    fn write(&mut self, buf: &[u8]) -> io::Result<usize> {
        if self.octets == 0 {
            return Err(io::Error::from(ErrorKind::BrokenPipe));
        }
        if buf.is_empty() {
            return Ok(0);
        }
        self.octets -= 1;
        Ok(1)
    }

    fn flush(&mut self) -> io::Result<()> {
        Ok(())
    }
}

/// Whether a port fails where its writer takes fewer octets than a line has, which are 9.
fn fails_where_full(alloc: Global, octets: u64) -> Result<bool, Fail> {
    let entries = read_trace(alloc, b"7 T\n")?;
    let mut port = Trace::<Failing>::new(alloc, entries, Failing { octets });
    let mut buf = [0; 1024];
    let fits = octets >= 9;
    let is_put = matches!(port.next(&mut buf), Next::Tick(0))
        && port.put(7, &Action::Line(&[0xE5])) == fits
        && port.failures() == if fits { 0 } else { 1 };
    // A port that failed gives nothing more.
    let is_shown = is_put
        && (fits
            || matches!(port.next(&mut buf), Next::Fault)
                && !port.put(7, &Action::Tcp(&[0x68]))
                && port.failures() == 3);
    let is_refused = port.refused();
    let _ = port.into_writer();
    Ok(is_shown && !is_refused)
}

#[test]
fn a_write_that_fails_is_a_fault_of_the_port(rt: HostRuntime) -> Result<(), Fail> {
    for octets in 0..20u64 {
        assert!(rt; fails_where_full(rt.alloc(), octets)?, "{octets}");
    }
    Ok(())
}
