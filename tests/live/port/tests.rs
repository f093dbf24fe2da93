//! The port over ends in memory, rule by rule.
use super::Live;
use super::noted::exchange_in_memory;
use crate::allow_list::AllowList;
use crate::memory::{MemoryClock, MemoryListener, MemoryStream};
use gateway::{Action, Next, Port};
use session::Close;

type MemoryPort = Live<MemoryStream, MemoryListener, MemoryClock>;

/// A stream: whether its reads find octets, which read finds that it is gone, and which write it
/// doesn't take, each from 1, or 0 for none.
type StreamWays = (bool, u32, u32);

const QUIET: StreamWays = (false, 0, 0);

const BUSY: StreamWays = (true, 0, 0);

/// A call, and what it is to answer. Events are written as the letters of traces, and F for a
/// failure.
#[derive(Clone, Copy)]
enum PortCall {
    /// The next event, its moment, and how many octets it has.
    Gives(char, u64, usize),
    /// The same at any moment.
    Finds(char, usize),
    /// An APDU is put to the connection.
    Sends,
    /// A request is put on the line.
    Asks,
    Closes(Close),
    /// Another control centre connects.
    Comes(StreamWays),
    /// That control centre still waits to be accepted.
    Waits,
    /// How often the line was read, and written to.
    Line(u32, u32),
    /// How often the connection was written to; none where there is no connection.
    Connection(Option<u32>),
    Failures(u64),
}

fn stream(ways: StreamWays) -> MemoryStream {
    let (is_busy, failing_read, failing_write) = ways;
    let mut stream = if is_busy {
        MemoryStream::busy()
    } else {
        MemoryStream::quiet()
    };
    stream.failing_read = failing_read;
    stream.failing_write = failing_write;
    stream
}

/// A port that has just given the wall clock.
fn ends(line: StreamWays, centre: Option<StreamWays>) -> MemoryPort {
    let centre = match centre {
        Some(ways) => Some(stream(ways)),
        None => None,
    };
    let listener = MemoryListener::new(centre);
    let mut port = Live::awaiting(
        stream(line),
        listener,
        MemoryClock::new(),
        AllowList::Anyone,
        1000,
    );
    port.ends.walled.give(0);
    port
}

/// The letter of an event, its moment, and how many octets it has.
fn shown(next: Next) -> (char, u64, usize) {
    match next {
        Next::Line(now, len) => ('S', now, len),
        Next::Open(now) => ('O', now, 0),
        Next::Bytes(now, len) => ('R', now, len),
        Next::Cut(now) => ('C', now, 0),
        Next::Tick(now) => ('T', now, 0),
        Next::Wall(now, _) => ('W', now, 0),
        Next::Done => ('D', 0, 0),
        Next::Fault => ('F', 0, 0),
    }
}

/// Makes the call, and says whether the answer was the one. A port that failed too often is wrong.
fn is_right(port: &mut MemoryPort, step: PortCall) -> bool {
    if port.failures() >= 9 {
        return false;
    }
    match step {
        PortCall::Gives(letter, now, len) => shown(port.next(&mut [0; 1024])) == (letter, now, len),
        PortCall::Finds(letter, len) => {
            let (found, _, octets) = shown(port.next(&mut [0; 1024]));
            (found, octets) == (letter, len)
        }
        PortCall::Sends => port.put(0, &Action::Tcp(&[0x68, 4, 1, 0, 0, 0])),
        PortCall::Asks => port.put(0, &Action::Line(&[0x10])),
        PortCall::Closes(cause) => port.put(2, &Action::Close(cause)),
        PortCall::Comes(ways) => {
            port.ends.listener.centre = Some(stream(ways));
            true
        }
        PortCall::Waits => port.ends.listener.centre.is_some(),
        PortCall::Line(reads, writes) => (port.ends.line.reads, port.ends.line.writes)
            == (reads, writes),
        PortCall::Connection(writes) => match &port.ends.connection {
            Some(centre) => Some(centre.stream.writes) == writes,
            None => writes.is_none(),
        },
        PortCall::Failures(count) => port.failures() == count,
    }
}

/// How many of the calls, in their order, answer what they are to.
fn count_of_answers(port: &mut MemoryPort, steps: &[PortCall]) -> usize {
    let mut count: usize = 0;
    for step in steps {
        if !is_right(port, *step) {
            return count;
        }
        count = count.wrapping_add(1);
    }
    count
}

/// What happens at a port over this line, where this control centre connects.
const PORTS: [(&str, StreamWays, Option<StreamWays>, &[PortCall]); 9] = [
    (
        "the sources have their turns",
        BUSY,
        Some(BUSY),
        &[
            PortCall::Gives('O', 2, 0),
            PortCall::Gives('R', 4, 1),
            PortCall::Gives('S', 6, 1),
            PortCall::Gives('R', 8, 1),
            PortCall::Comes(BUSY),
            PortCall::Gives('S', 10, 1),
            PortCall::Gives('O', 12, 0),
        ],
    ),
    (
        "where nothing is found time passed",
        QUIET,
        None,
        &[
            // Each round of looks takes 1 ms, and a tick comes 100 ms after the first began.
            PortCall::Gives('T', 101, 0),
            PortCall::Gives('T', 202, 0),
            PortCall::Line(200, 0),
        ],
    ),
    (
        "a connection that is gone is a cut once",
        QUIET,
        Some((false, 1, 0)),
        &[
            PortCall::Gives('O', 2, 0),
            PortCall::Gives('C', 4, 0),
            PortCall::Gives('T', 105, 0),
            PortCall::Failures(0),
        ],
    ),
    (
        "a failed write to the connection is a cut before any look",
        BUSY,
        Some((true, 0, 1)),
        &[
            PortCall::Gives('O', 2, 0),
            PortCall::Gives('R', 4, 1),
            PortCall::Gives('S', 6, 1),
            PortCall::Comes(QUIET),
            PortCall::Sends,
            // What is put until the cut is dropped.
            PortCall::Sends,
            PortCall::Connection(Some(1)),
            PortCall::Gives('C', 8, 0),
            PortCall::Line(1, 0),
            PortCall::Waits,
            // It was an event of the connection: the line is next.
            PortCall::Gives('S', 10, 1),
            PortCall::Gives('O', 12, 0),
        ],
    ),
    (
        "a close shuts the connection and forgets the cut",
        QUIET,
        Some((false, 0, 1)),
        &[
            PortCall::Gives('O', 2, 0),
            PortCall::Sends,
            PortCall::Closes(Close::Timeout),
            PortCall::Connection(None),
            PortCall::Gives('T', 103, 0),
        ],
    ),
    (
        "a new connection takes the place of the old",
        QUIET,
        Some(QUIET),
        &[
            PortCall::Gives('O', 2, 0),
            PortCall::Sends,
            PortCall::Comes(BUSY),
            PortCall::Gives('O', 4, 0),
            // The gateway closes the old one, and the new one stays.
            PortCall::Closes(Close::Replaced),
            PortCall::Connection(Some(0)),
            PortCall::Gives('R', 6, 1),
        ],
    ),
    (
        "without a connection an APDU is dropped",
        QUIET,
        None,
        &[PortCall::Sends, PortCall::Gives('T', 101, 0)],
    ),
    (
        "a request that the line does not take is lost",
        (false, 0, 1),
        None,
        &[
            PortCall::Asks,
            PortCall::Failures(0),
            PortCall::Asks,
            PortCall::Line(0, 2),
            PortCall::Gives('T', 103, 0),
        ],
    ),
    (
        "the end of the line alone is a failure",
        (false, 2, 0),
        None,
        &[
            PortCall::Gives('F', 0, 0),
            PortCall::Line(2, 0),
            PortCall::Failures(1),
        ],
    ),
];

#[test]
fn calls_answer_in_their_order(rt: HostRuntime) {
    for (name, line, centre, steps) in PORTS {
        let mut port = ends(line, centre);
        assert_eq!(rt; count_of_answers(&mut port, steps), steps.len(), "{name}");
    }
}

/// Whether these calls, one time less than n, and then those answer what they are to.
fn fails_at(
    n: u32,
    line: StreamWays,
    centre: Option<StreamWays>,
    each: &[PortCall],
    last: &[PortCall],
) -> bool {
    let mut port = ends(line, centre);
    if centre.is_some() && !is_right(&mut port, PortCall::Gives('O', 2, 0)) {
        return false;
    }
    for _ in 1..n {
        if count_of_answers(&mut port, each) < each.len() {
            return false;
        }
    }
    count_of_answers(&mut port, last) == last.len()
}

/// The calls around a read of the connection that fails, around a write to it, around a read of the
/// line, and around a write to it.
const READ: [PortCall; 1] = [PortCall::Finds('R', 1)];

const CUT_AT_READ: [PortCall; 3] = [
    PortCall::Finds('C', 0),
    PortCall::Finds('T', 0),
    PortCall::Failures(0),
];

const WRITE: [PortCall; 2] = [PortCall::Sends, PortCall::Finds('S', 1)];

const CUT_AT_WRITE: [PortCall; 4] = [
    PortCall::Sends,
    PortCall::Finds('C', 0),
    PortCall::Finds('S', 1),
    PortCall::Failures(0),
];

const LINE_READ: [PortCall; 1] = [PortCall::Finds('S', 1)];

const FAULT: [PortCall; 2] = [PortCall::Finds('F', 0), PortCall::Failures(1)];

const LINE_WRITE: [PortCall; 3] = [
    PortCall::Failures(0),
    PortCall::Asks,
    PortCall::Finds('T', 0),
];

#[test]
fn each_read_and_write_can_fail(rt: HostRuntime) {
    for n in 1..=200 {
        let (read, write) = ((true, n, 0), (false, 0, n));
        assert!(rt; fails_at(n, QUIET, Some(read), &READ, &CUT_AT_READ), "{n}");
        assert!(rt;
            fails_at(n, BUSY, Some(write), &WRITE, &CUT_AT_WRITE),
            "{n}"
        );
        assert!(rt; fails_at(n, read, None, &LINE_READ, &FAULT), "{n}");
    }
}

#[test]
fn each_request_can_be_lost(rt: HostRuntime) {
    // A tick takes 100 looks; within a second, behind which the wall clock is given.
    for n in 1..=9 {
        // A request that isn't taken is no failure.
        let lost = [
            PortCall::Failures(0),
            PortCall::Asks,
            PortCall::Finds('T', 0),
            PortCall::Line(100 * n, n),
            PortCall::Failures(0),
        ];
        let write = (false, 0, n);
        assert!(rt; fails_at(n, write, None, &LINE_WRITE, &lost), "{n}");
    }
}

#[test]
fn octets_that_wait_before_requests_are_counted(rt: HostRuntime) {
    let mut port = ends(QUIET, None);
    port.ends.line.waiting = 3;
    assert!(rt; port.failures() < 9);
    assert_eq!(rt; port.ends.late_octets, 0);
    assert!(rt; port.put(0, &Action::Line(&[0x10])));
    assert_eq!(rt; port.ends.late_octets, 3);
    port.ends.line.waiting = 4;
    assert!(rt; port.put(0, &Action::Tcp(&[0x68, 4, 1, 0, 0, 0])));
    assert!(rt; port.put(0, &Action::Line(&[0x10])));
    assert_eq!(rt; port.ends.late_octets, 7);
}

#[test]
fn octets_of_the_line_stand_in_the_log(rt: HostRuntime) {
    let mut buf = [0; 1024];
    let event = exchange_in_memory(&mut buf);
    assert!(rt; matches!(event, Next::Line(_, 1)));
    assert_eq!(rt; buf[0], 0xE5);
}
