//! What a stall of the gateway does, over ends in a time of their own.
use super::Live;
use crate::allow_list::AllowList;
use crate::configured::config;
use crate::memory::WALL_MS;
use crate::source::EventSource;
use crate::timed::{Time, TimedClock, TimedLine, TimedListener};
use gateway::{Action, End, Gateway, Next, Port, drive_on};
use std::alloc::Global;
use std::process::Abort;
use std::test::Fail;

type TimedPort<'a> = Live<TimedLine<'a>, TimedListener<'a>, TimedClock<'a>>;

/// So long an answer is awaited, in ms.
const ANSWER_MS: u64 = 1000;

/// A port whose station answers in one piece after so long, where a control centre comes, or none.
fn ends<'a>(time: &'a Time, answer_ms: u64, has_centre: bool) -> TimedPort<'a> {
    let line = TimedLine::new(time, answer_ms, 0);
    let listener = TimedListener::new(time, has_centre);
    Live::awaiting(
        line,
        listener,
        TimedClock(time),
        AllowList::Anyone,
        ANSWER_MS,
    )
}

/// The next event of a port that never fails.
fn next(rt: &impl Abort, port: &mut TimedPort<'_>) -> Next {
    match next_of_all(rt, port) {
        Next::Wall(..) => next_of_all(rt, port),
        next => next,
    }
}

/// The next event, which may be the wall clock.
fn next_of_all(rt: &impl Abort, port: &mut TimedPort<'_>) -> Next {
    assert!(rt; port.failures() < 9);
    port.next(&mut [0; 1024])
}

/// A request of this moment goes out, a poll.
fn ask(rt: &impl Abort, port: &mut TimedPort<'_>, moment: u64) {
    assert!(rt; port.failures() < 9);
    assert!(rt; port.put(moment, &Action::Line(&[0x10, 0x7B, 0x01, 0x7C, 0x16])));
}

#[test]
fn before_any_request_the_moment_is_the_clocks(rt: HostRuntime) {
    let time = Time::new(0, 0);
    let mut port = ends(&time, 170, true);
    time.pass(5000);
    assert!(rt; matches!(next(&rt, &mut port), Next::Open(5000)));
    assert!(rt; matches!(next(&rt, &mut port), Next::Bytes(5000, 6)));
    assert!(rt; matches!(next(&rt, &mut port), Next::Bytes(5001, 6)));
}

/// The wall clock is given now, at this moment.
fn gives_wall(rt: &impl Abort, port: &mut TimedPort<'_>, moment: u64) {
    let given = next_of_all(rt, port);
    let shown = WALL_MS.saturating_add(moment);
    assert!(rt;
        matches!(given, Next::Wall(m, n) if m == moment && n == shown),
        "{moment}"
    );
}

#[test]
fn the_wall_clock_is_given_each_second_between_the_looks(rt: HostRuntime) {
    let time = Time::new(0, 0);
    let mut port = ends(&time, 60000, false);
    gives_wall(&rt, &mut port, 0);
    assert!(rt; matches!(next_of_all(&rt, &mut port), Next::Tick(100)));
    time.pass(899);
    // It is due: no tick waits for the rest of its 100 ms.
    assert!(rt; matches!(next_of_all(&rt, &mut port), Next::Tick(1000)));
    gives_wall(&rt, &mut port, 1000);
    // A stall right after it is no cause to give it again before the ends are looked at.
    time.pass(3000);
    assert!(rt; matches!(next_of_all(&rt, &mut port), Next::Tick(4001)));
    gives_wall(&rt, &mut port, 4001);
    // In a stall after a request it is given as it stood at the moment that is due.
    ask(&rt, &mut port, 4001);
    assert!(rt; matches!(next_of_all(&rt, &mut port), Next::Tick(4101)));
    time.pass(1200);
    gives_wall(&rt, &mut port, 5000);
}

/// A stall of 1.2 s in the write of a request, which goes out after it: the exchange has its whole
/// time from then on. Its answer brings the moment back to the clock.
#[test]
fn a_stalled_request_has_its_whole_time(rt: HostRuntime) {
    let time = Time::new(0, 0);
    let mut port = ends(&time, 170, false);
    port.ends.line.write_ms = 1200;
    ask(&rt, &mut port, 0);
    assert!(rt; matches!(next(&rt, &mut port), Next::Tick(999)));
    time.pass(200);
    assert!(rt; matches!(next(&rt, &mut port), Next::Line(1500, 5)));
    ask(&rt, &mut port, 1500);
    assert!(rt; matches!(next(&rt, &mut port), Next::Tick(1600)));
}

/// Ticks are 100 ms apart, but for the one that ends an exchange.
#[test]
fn a_tick_ends_the_exchange_at_once(rt: HostRuntime) {
    let time = Time::new(0, 0);
    let mut port = ends(&time, 60000, false);
    gives_wall(&rt, &mut port, 0);
    time.pass(130);
    ask(&rt, &mut port, 130);
    // At 1000 the wall clock is due, at 1131 the exchange is over.
    for tick in [
        230, 330, 430, 530, 630, 730, 830, 930, 1000, 1100, 1131, 1231,
    ] {
        let given = next(&rt, &mut port);
        assert!(rt;
            matches!(given, Next::Tick(moment) if moment == tick),
            "{tick}"
        );
    }
}

/// The next two events after a request at 0, after which the gateway stalls for so long, and so
/// long in its look at the line.
fn after_stalls(rt: &impl Abort, answer_ms: u64, stall_ms: u64, look_ms: u64) -> (Next, Next) {
    let time = Time::new(0, 0);
    let mut port = ends(&time, answer_ms, true);
    ask(rt, &mut port, 0);
    time.pass(stall_ms);
    port.ends.line.look_ms = look_ms;
    port.ends.first = EventSource::Line;
    let first = next(rt, &mut port);
    (first, next(rt, &mut port))
}

#[test]
fn a_stall_is_no_late_answer(rt: HostRuntime) {
    // As in a write to the control centre: the answer that waits is read before anything else.
    let both = after_stalls(&rt, 170, 1200, 0);
    assert!(rt; matches!(both, (Next::Line(1200, 5), Next::Open(1200))));
    // In the look at the line: its answer ends an exchange that still goes on.
    let both = after_stalls(&rt, 170, 0, 1200);
    assert!(rt; matches!(both, (Next::Line(1200, 5), Next::Tick(1201))));
    // No answer comes: the exchange ends once the line has been looked at that late.
    let both = after_stalls(&rt, 60000, 1200, 0);
    assert!(rt; matches!(both, (Next::Tick(1201), Next::Open(_))));
}

/// The next three events of a connected port after a request at 0, after which the gateway stalls
/// for so long, and so long in its look at the connection.
fn connected_after(rt: &impl Abort, stall_ms: u64, look_ms: u64) -> (Next, Next, Next) {
    let time = Time::new(0, 0);
    let mut port = ends(&time, 60000, true);
    assert!(rt; matches!(next(rt, &mut port), Next::Open(0)));
    ask(rt, &mut port, 0);
    time.pass(stall_ms);
    if let Some(centre) = &mut port.ends.connection {
        centre.stream.look_ms = look_ms;
    }
    let first = next(rt, &mut port);
    let second = next(rt, &mut port);
    (first, second, next(rt, &mut port))
}

#[test]
fn a_stall_makes_no_selection_longer_and_cuts_nobody(rt: HostRuntime) {
    // What the control centre sent in a stall before the looks bears the moment after it.
    let given = connected_after(&rt, 2000, 0);
    assert!(rt; matches!(given, (Next::Tick(2001), Next::Bytes(2001, 6), _)));
    // What it sent in a stall within its look, while the line isn't waited out, is held until it
    // is.
    let given = connected_after(&rt, 0, 2000);
    assert!(rt;
        matches!(
            given,
            (Next::Tick(999), Next::Tick(2001), Next::Bytes(2001, 6))
        )
    );
    // Up to 50 ms behind the clock are let through.
    let given = connected_after(&rt, 1049, 0);
    assert!(rt; matches!(given, (Next::Bytes(999, 6), _, _)));
}

/// Whether no request goes out twice, while the gateway stalls before each so manieth call to an
/// end and the station answers in time.
fn runs_without_repeat(alloc: Global, every: u64, stall_ms: u64) -> Result<bool, Fail> {
    let time = Time::new(every, stall_ms);
    let line = TimedLine::new(&time, 300, 650);
    let listener = TimedListener::new(&time, true);
    let mut port = Live::awaiting(
        line,
        listener,
        TimedClock(&time),
        AllowList::Anyone,
        ANSWER_MS,
    );
    let config = config(alloc, ANSWER_MS)?;
    let Ok(mut gateway) = Gateway::new(alloc, &config) else {
        return Ok(false);
    };
    if port.failures() >= 9 || drive_on(&mut gateway, &mut port, 2000) != End::Turns {
        return Ok(false);
    }
    Ok(port.ends.line.repeats == 0 && port.ends.line.requests > 2)
}

#[test]
fn wherever_it_stalls_no_exchange_is_unanswered(rt: HostRuntime) -> Result<(), Fail> {
    for every in 1..60 {
        for stall_ms in [20, 150, 400, 600, 1200, 5000] {
            assert!(rt;
                runs_without_repeat(rt.alloc(), every, stall_ms)?,
                "every {every}, {stall_ms} ms"
            );
        }
    }
    Ok(())
}
