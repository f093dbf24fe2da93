//! Ends in memory in a time of their own, in which the gateway stalls wherever a test wants it to.

use crate::allow_list::AllowList;
use crate::clock::Timed;
use crate::ends::{Accepted, Got, Listener, OctetStream, RefusedPeers, RunClock};
use crate::memory::WALL_MS;
use std::cell::Cell;
use std::net::{IpAddr, Ipv4Addr};

/// The time, in ms, and when the gateway stalls in it.
#[derive(Drop)]
pub(crate) struct Time {
    now: Cell<u64>,
    /// How many calls to an end go by before the next stall; 0 for no stall any more.
    left: Cell<u64>,
    /// Before each so manieth call the gateway stalls.
    every: u64,
    /// For how long, in ms.
    stall_ms: u64,
}

impl Time {
    pub(crate) fn new(every: u64, stall_ms: u64) -> Time {
        Time {
            now: Cell::new(0),
            left: Cell::new(every),
            every,
            stall_ms,
        }
    }

    pub(crate) fn now(&self) -> u64 {
        self.now.get()
    }

    pub(crate) fn pass(&self, ms: u64) {
        self.now.set(self.now.get().saturating_add(ms));
    }

    /// A call to an end begins, before which the gateway may stall.
    fn begin(&self) {
        let left = self.left.get().saturating_sub(1);
        self.left.set(left);
        if left == 0 {
            self.pass(self.stall_ms);
            self.left.set(self.every);
        }
    }
}

/// A line whose station gives each answer in two pieces: 'not available' to a poll, and what the
/// link's start wants.
#[derive(Drop)]
pub(crate) struct TimedLine<'a> {
    time: &'a Time,
    /// How long after a request the first piece of its answer comes, and the second one after it,
    /// in ms.
    answer_ms: u64,
    rest_ms: u64,
    /// How long the next look takes, and the next write, in ms.
    pub(crate) look_ms: u64,
    pub(crate) write_ms: u64,
    /// The control octet of the latest request, and when it came.
    control: u8,
    asked: u64,
    /// How many octets of its answer have been read.
    given: usize,
    pub(crate) requests: u32,
    /// How many requests were the one before again.
    pub(crate) repeats: u32,
}

impl<'a> TimedLine<'a> {
    pub(crate) fn new(time: &'a Time, answer_ms: u64, rest_ms: u64) -> TimedLine<'a> {
        TimedLine {
            time,
            answer_ms,
            rest_ms,
            look_ms: 0,
            write_ms: 0,
            control: 0,
            asked: 0,
            given: 5,
            requests: 0,
            repeats: 0,
        }
    }

    /// The answer to the latest request: to that for the status, to the reset, to a poll.
    fn answer(&self) -> [u8; 5] {
        match self.control {
            0x49 => [0x10, 0x0B, 0x01, 0x0C, 0x16],
            0x40 => [0x10, 0x00, 0x01, 0x01, 0x16],
            _ => [0x10, 0x09, 0x01, 0x0A, 0x16],
        }
    }

    /// How many octets of it have come.
    fn come(&self) -> usize {
        let passed = self.time.now().saturating_sub(self.asked);
        if passed < self.answer_ms {
            0
        } else if passed < self.answer_ms.saturating_add(self.rest_ms) {
            2
        } else {
            5
        }
    }
}

impl OctetStream for TimedLine<'_> {
    ghost use Rattle.std.specs.Prelude.{None};

    ghost history = { λ _. None };

    fn read(&mut self, buf: &mut [u8; 1024]) -> Got {
        self.time.begin();
        self.time.pass(self.look_ms);
        self.look_ms = 0;
        let come = self.come();
        if come <= self.given {
            self.time.pass(1);
            return Got::Quiet;
        }
        let answer = self.answer();
        let piece = &answer[self.given..come];
        self.given = come;
        buf[..piece.len()].copy_from_slice(piece);
        Got::Octets(piece.len())
    }

    fn drop_waiting(&mut self) -> u64 {
        0
    }

    fn write(&mut self, octets: &[u8]) -> bool {
        self.time.begin();
        self.time.pass(self.write_ms);
        self.write_ms = 0;
        let control = octets.get(1).copied().unwrap_or(0);
        if control == self.control {
            self.repeats = self.repeats.saturating_add(1);
        }
        self.requests = self.requests.saturating_add(1);
        self.control = control;
        self.asked = self.time.now();
        self.given = 0;
        true
    }
}

/// A control centre that starts data transfer and then tests the connection without end.
#[derive(Drop)]
pub(crate) struct TimedCentre<'a> {
    time: &'a Time,
    /// How long the next look takes, in ms.
    pub(crate) look_ms: u64,
    has_started: bool,
}

impl OctetStream for TimedCentre<'_> {
    ghost use Rattle.std.specs.Prelude.{None};

    ghost history = { λ _. None };

    fn read(&mut self, buf: &mut [u8; 1024]) -> Got {
        self.time.begin();
        self.time.pass(self.look_ms);
        self.look_ms = 0;
        let control = if self.has_started { 0x43 } else { 0x07 };
        self.has_started = true;
        buf[..6].copy_from_slice(&[0x68, 4, control, 0, 0, 0]);
        Got::Octets(6)
    }

    fn drop_waiting(&mut self) -> u64 {
        0
    }

    fn write(&mut self, _octets: &[u8]) -> bool {
        self.time.begin();
        true
    }
}

/// A listener, at which a control centre waits at first.
#[derive(Drop)]
pub(crate) struct TimedListener<'a> {
    time: &'a Time,
    has_centre: bool,
}

impl<'a> TimedListener<'a> {
    pub(crate) fn new(time: &'a Time, has_centre: bool) -> TimedListener<'a> {
        TimedListener { time, has_centre }
    }
}

impl<'a> Listener for TimedListener<'a> {
    type Stream = TimedCentre<'a>;

    ghost use Rattle.std.specs.Prelude.{None};
    ghost use Rattle.live.specs.AllowLists.{nobody};

    ghost attempts = { λ _. None };

    ghost refusals = { λ _. record { peers = None; said = nobody } };

    fn accept(&mut self, allow_list: &AllowList) -> Option<Accepted<TimedCentre<'a>>> {
        self.time.begin();
        let address = IpAddr::V4(Ipv4Addr::LOCALHOST);
        if !self.has_centre || !allow_list.allows(address) {
            return None;
        }
        self.has_centre = false;
        let stream = TimedCentre {
            time: self.time,
            look_ms: 0,
            has_started: false,
        };
        Some(Accepted { address, stream })
    }

    fn refused(&self) -> RefusedPeers {
        RefusedPeers::nobody()
    }
}

/// A clock that gives this time.
#[derive(Drop)]
pub(crate) struct TimedClock<'a>(pub(crate) &'a Time);

impl Timed for TimedClock<'_> {
    fn shown_ms(&self) -> u64 {
        self.0.now()
    }
}

impl RunClock for TimedClock<'_> {
    ghost use Rattle.std.specs.Prelude.{None};

    ghost moments = { λ _. None };

    ghost walls = { λ _. None };

    fn now_ms(&mut self) -> u64 {
        self.0.begin();
        self.0.now()
    }

    fn wall_ms(&mut self) -> u64 {
        self.0.begin();
        WALL_MS.saturating_add(self.0.now())
    }
}
