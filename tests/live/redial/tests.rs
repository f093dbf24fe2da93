//! A stream that goes and comes back, and when it is tried.
use super::noted::MemoryDialler;
use super::{Dialled, Dialler, Redialled};
use crate::ends::{Got, OctetStream, Presence, Reached};
use crate::memory::{MemoryClock, MemoryStream};
use crate::timed::{Time, TimedClock};
use std::io::ErrorKind;
use std::process::Abort;

/// Why a try of a dialler in memory fails.
const REFUSED: Option<ErrorKind> = Some(ErrorKind::ConnectionRefused);

/// A dialler in a time of its own.
#[derive(Drop)]
struct TimedDialler<'a> {
    dialler: MemoryDialler,
    time: &'a Time,
}

impl<'a> TimedDialler<'a> {
    fn new(time: &'a Time, failing_tries: u32, asks: u32, failing_read: u32) -> TimedDialler<'a> {
        let dialler = MemoryDialler::new(failing_tries, asks, failing_read);
        TimedDialler { dialler, time }
    }
}

impl Dialler for TimedDialler<'_> {
    type Stream = MemoryStream;

    ghost use Rattle.std.specs.Prelude.{None};

    ghost tries = { λ _. None };

    ghost calls = { λ _. None };

    fn dial(&mut self) -> Dialled<MemoryStream> {
        self.dialler.dial()
    }

    fn ask(&mut self) -> Dialled<MemoryStream> {
        self.dialler.ask()
    }

    fn pause(&mut self) {
        self.time.pass(1);
    }
}

type TestStream<'a> = Redialled<TimedDialler<'a>, TimedClock<'a>>;

fn look(stream: &mut TestStream<'_>) -> Got {
    stream.read(&mut [0; 1024])
}

/// Looks at this stream up to this moment find nothing, and so many tries have been made then.
fn is_away(rt: &impl Abort, stream: &mut TestStream<'_>, time: &Time, until: u64, tries: u32) {
    for _ in 0..2000 {
        if until <= time.now() {
            break;
        }
        assert_eq!(rt; look(stream), Got::Quiet);
        assert!(rt; !stream.write(&[0xE5]));
    }
    assert_eq!(rt; stream.dialler.dialler.tries, tries);
}

#[test]
fn it_is_tried_at_once_and_then_every_second(rt: HostRuntime) {
    let time = Time::new(0, 0);
    let dialler = TimedDialler::new(&time, 2, 0, 2);
    let mut stream = Redialled::new(dialler, TimedClock(&time));
    assert_eq!(rt; stream.presence(), Presence::Untried);
    is_away(&rt, &mut stream, &time, 1000, 1);
    assert_eq!(rt; stream.presence(), Presence::Away(REFUSED));
    is_away(&rt, &mut stream, &time, 2000, 2);
    // The third try reaches it.
    assert_eq!(rt; look(&mut stream), Got::Quiet);
    assert_eq!(rt; stream.presence(), Presence::There);
    assert!(rt; stream.write(&[0xE5]));
    assert_eq!(rt; look(&mut stream), Got::Octets(1));
    assert_eq!(rt; stream.presence(), Presence::Receiving);
    // It goes, and is tried again a second after the try before.
    time.pass(300);
    assert_eq!(rt; look(&mut stream), Got::Quiet);
    assert_eq!(rt; stream.presence(), Presence::Away(None));
    is_away(&rt, &mut stream, &time, 3000, 3);
    assert_eq!(rt; look(&mut stream), Got::Quiet);
    assert_eq!(rt; stream.dialler.dialler.tries, 4);
    assert_eq!(rt; look(&mut stream), Got::Octets(1));
    // Where that is long ago it is tried at once.
    time.pass(9000);
    assert_eq!(rt; look(&mut stream), Got::Quiet);
    assert_eq!(rt; look(&mut stream), Got::Quiet);
    assert_eq!(rt; stream.dialler.dialler.tries, 5);
    assert_eq!(rt; look(&mut stream), Got::Octets(1));
}

/// A server that accepts and closes is tried at twice the distance each time.
#[test]
fn a_line_that_gives_nothing_is_tried_more_rarely(rt: HostRuntime) {
    let time = Time::new(0, 0);
    let mut stream = Redialled::new(TimedDialler::new(&time, 0, 0, 1), TimedClock(&time));
    assert_eq!(rt; look(&mut stream), Got::Quiet);
    let mut begun = time.now();
    for wait in [2000, 4000, 8000, 16_000, 30_000, 30_000] {
        let tries = stream.dialler.dialler.tries;
        assert_eq!(rt; look(&mut stream), Got::Quiet);
        time.pass(
            begun
                .saturating_add(wait)
                .saturating_sub(2)
                .saturating_sub(time.now()),
        );
        assert_eq!(rt; look(&mut stream), Got::Quiet);
        assert_eq!(rt; stream.dialler.dialler.tries, tries);
        time.pass(1);
        begun = time.now();
        assert_eq!(rt; look(&mut stream), Got::Quiet);
        assert_eq!(rt; stream.dialler.dialler.tries, tries.saturating_add(1));
    }
}

/// Asks once, and looks once for an answer, which doesn't come.
fn ask(rt: &impl Abort, stream: &mut TestStream<'_>) {
    assert!(rt; stream.write(&[0xE5]));
    assert_eq!(rt; look(stream), Got::Quiet);
}

/// A server that hangs with its connection open is closed once a request has gone out each second
/// for 30 s, and then after twice as long each time, up to 240 s.
#[test]
fn a_line_that_is_silent_is_reached_anew(rt: HostRuntime) {
    let time = Time::new(0, 0);
    let mut dialler = TimedDialler::new(&time, 0, 0, 0);
    dialler.dialler.is_silent = true;
    let mut stream = Redialled::new(dialler, TimedClock(&time));
    assert_eq!(rt; look(&mut stream), Got::Quiet);
    assert_eq!(rt; stream.presence(), Presence::There);
    for (seconds, tries) in [(30, 1), (60, 2), (120, 3), (240, 4), (240, 5)] {
        for _ in 0..seconds {
            ask(&rt, &mut stream);
            time.pass(1000);
        }
        assert_eq!(rt; stream.dialler.dialler.tries, tries);
        ask(&rt, &mut stream);
        assert_eq!(rt; stream.presence(), Presence::Silent);
        assert!(rt; !stream.write(&[0xE5]));
        assert_eq!(rt; look(&mut stream), Got::Quiet);
        assert_eq!(rt; stream.dialler.dialler.tries, tries.saturating_add(1));
        assert_eq!(rt; stream.presence(), Presence::Silent);
    }
}

/// Between two requests 5 s count at the most, so that a line isn't closed which nobody asks.
#[test]
fn a_line_that_is_asked_seldom_is_kept(rt: HostRuntime) {
    let time = Time::new(0, 0);
    let mut dialler = TimedDialler::new(&time, 0, 0, 0);
    dialler.dialler.is_silent = true;
    let mut stream = Redialled::new(dialler, TimedClock(&time));
    assert_eq!(rt; look(&mut stream), Got::Quiet);
    for _ in 0..6 {
        ask(&rt, &mut stream);
        assert_eq!(rt; stream.presence(), Presence::There);
        time.pass(600_000);
    }
    ask(&rt, &mut stream);
    assert_eq!(rt; stream.presence(), Presence::Silent);
}

/// A try that goes on holds nobody, and no other begins.
#[test]
fn a_try_goes_on_between_the_looks(rt: HostRuntime) {
    let time = Time::new(0, 0);
    let mut stream = Redialled::new(TimedDialler::new(&time, 0, 3000, 2), TimedClock(&time));
    is_away(&rt, &mut stream, &time, 1500, 1);
    assert_eq!(rt; stream.presence(), Presence::Untried);
    is_away(&rt, &mut stream, &time, 3000, 1);
    assert_eq!(rt; look(&mut stream), Got::Quiet);
    assert_eq!(rt; look(&mut stream), Got::Octets(1));
}

#[test]
fn the_first_look_begins_a_try(rt: HostRuntime) {
    let mut buf = [0; 1024];
    for (failing_tries, presence) in [(0, Presence::There), (1, Presence::Away(REFUSED))] {
        let dialler = MemoryDialler::new(failing_tries, 0, 0);
        let mut stream = Redialled::new(dialler, MemoryClock::new());
        assert_eq!(rt; stream.read(&mut buf), Got::Quiet);
        assert_eq!(rt; stream.presence(), presence);
    }
}
