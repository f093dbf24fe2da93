//! A primary station on a line with one-octet addresses, through its calls.

use ft12::LinkSize;
use link::{
    CommandOctets, LinkSettings, LinkUser, Master, NoMemory, Outcome, Request, RequestKind,
};
use std::alloc::Global;

/// `answer_ms` 200, one-octet addresses.
pub(super) fn settings(ways: Ways) -> LinkSettings {
    let (retries, hold, burst) = ways;
    LinkSettings {
        size: LinkSize::One,
        answer_ms: 200,
        retries,
        hold,
        burst,
    }
}

/// What is to come of an exchange, with the octets of a report.
#[derive(Clone, Copy, PartialEq, Eq)]
pub(super) enum Expected<'a> {
    None,
    Started(usize),
    StartedGap(usize, u64),
    Report(usize, &'a [u8]),
    Empty(usize),
    Accepted(usize),
    Busy(usize),
    Down(usize),
}

/// A call, and what it is to answer.
#[derive(Clone, Copy)]
pub(super) enum Step<'a> {
    /// The first station is asked for its status at moment 0, and reset at 10.
    Opens,
    /// The first station is asked for its status and reset again, at this moment. The primary
    /// answers this.
    Restarts(u64, Expected<'a>),
    /// The next request, at this moment, has these octets.
    Sends(u64, &'a [u8]),
    /// The next request, at this moment and with this leave to poll, has these octets, is of this
    /// kind, and is a repeat or none.
    Asks(u64, bool, &'a [u8], RequestKind, bool),
    /// No request goes out at this moment, with this leave to poll.
    Rests(u64, bool),
    /// Octets of the line come, and the primary answers this.
    Receives(&'a [u8], Expected<'a>),
    /// The time is looked at, and the primary answers this.
    Due(u64, Expected<'a>),
    /// So many exchanges were spoilt by now.
    Spoilt(u64),
    /// This command waits for the first station, in place of another.
    Waits(&'a [u8]),
    /// None waits any more.
    WaitsNoMore,
}

/// `retries`, `hold` and `burst` of a line.
pub(super) type Ways = (u8, bool, u8);

/// What happens on a line: its ways, whether it has two stations, and the calls of the primary.
pub(super) type Script<'a> = (&'a str, Ways, bool, &'a [Step<'a>]);

/// Whether this is what came of an exchange.
fn is_expected(outcome: &Outcome<'_>, wanted: Expected<'_>) -> bool {
    match outcome {
        Outcome::None => wanted == Expected::None,
        Outcome::Started(station) => wanted == Expected::Started(*station),
        Outcome::StartedGap(station, session) => wanted == Expected::StartedGap(*station, *session),
        Outcome::Report(station, report) => wanted == Expected::Report(*station, report.octets()),
        Outcome::Empty(station) => wanted == Expected::Empty(*station),
        Outcome::Accepted(station) => wanted == Expected::Accepted(*station),
        Outcome::Busy(station) => wanted == Expected::Busy(*station),
        Outcome::Down(station) => wanted == Expected::Down(*station),
    }
}

/// A command of 1 to 12 octets.
#[derive(Drop)]
struct TestCommand {
    octets: CommandOctets,
}

impl TestCommand {
    fn octets(&self) -> &[u8] {
        self.octets.octets()
    }
}

/// The user of the line: a command may wait for the first station.
#[derive(Drop)]
struct FirstWaits<'a> {
    command: &'a Option<TestCommand>,
}

impl LinkUser for FirstWaits<'_> {
    ghost use Rattle.std.specs.Prelude.{◌==◌, None, if◌then◌else◌};

    ghost waiting = { λ user. λ station. if station == 0 then user.command.now else None };

    fn command(&self, station: usize) -> Option<&[u8]> {
        match self.command {
            Some(command) if station == 0 => Some(command.octets()),
            _ => None,
        }
    }
}

#[derive(Drop)]
pub(super) struct Bench {
    master: Master,
    /// The command that waits for the first station, if one does.
    waiting: Option<TestCommand>,
}

impl Bench {
    /// A line with station 1, or with 1 and 2.
    pub(super) fn new(alloc: Global, ways: Ways, is_pair: bool) -> Result<Bench, NoMemory> {
        let addresses: &[u16] = if is_pair { &[1, 2] } else { &[1] };
        let master = Master::new(alloc, settings(ways), addresses)?;
        Ok(Bench {
            master,
            waiting: None,
        })
    }

    /// How many of the calls, in their order, answer what they are to.
    pub(super) fn count_of_answers(&mut self, steps: &[Step]) -> usize {
        let mut count: usize = 0;
        for step in steps {
            if !self.is_right(step) {
                return count;
            }
            count = count.wrapping_add(1);
        }
        count
    }

    /// Makes the call, and says whether the answer was the one.
    fn is_right(&mut self, step: &Step) -> bool {
        match step {
            Step::Opens => self.starts((0, 10), Expected::Started(0)),
            Step::Restarts(now, expected) => self.starts((*now, *now), *expected),
            Step::Sends(now, octets) => self.sends(*now, octets),
            Step::Asks(now, may_poll, octets, kind, again) => {
                let asked = self.next(*now, *may_poll);
                asked.is_some_and(|request| {
                    request.octets.as_slice() == *octets
                        && request.kind == *kind
                        && request.again == *again
                })
            }
            Step::Rests(now, may_poll) => self.next(*now, *may_poll).is_none(),
            Step::Receives(octets, expected) => self.receives(octets, *expected),
            Step::Due(now, expected) => is_expected(&self.master.due(*now), *expected),
            Step::Spoilt(count) => self.master.spoilt() == *count,
            Step::Waits(asdu) => self.waits(asdu),
            Step::WaitsNoMore => {
                self.waiting = None;
                true
            }
        }
    }

    /// Whether the next request has these octets.
    fn sends(&mut self, now: u64, octets: &[u8]) -> bool {
        match self.next(now, true) {
            Some(request) => request.octets.as_slice() == octets,
            None => false,
        }
    }

    /// Whether the primary answers this to octets that come.
    fn receives(&mut self, octets: &[u8], expected: Expected<'_>) -> bool {
        is_expected(&self.master.octets(octets, &mut None), expected)
    }

    /// The next request. A command that goes out for the first time waits no more.
    fn next(&mut self, now: u64, may_poll: bool) -> Option<Request> {
        let user = FirstWaits {
            command: &self.waiting,
        };
        let next = self.master.next(now, may_poll, &user);
        if let Some(request) = &next {
            if request.kind == RequestKind::Command && !request.again {
                self.waiting = None;
            }
        }
        next
    }

    /// A command of 1 to 12 octets waits for the first station.
    fn waits(&mut self, asdu: &[u8]) -> bool {
        if asdu.is_empty() || asdu.len() > 12 {
            return false;
        }
        self.waiting = Some(TestCommand {
            octets: CommandOctets::new(asdu),
        });
        true
    }

    /// The first station is asked for its status and reset, at these moments: whether the primary
    /// answers this.
    fn starts(&mut self, (first, then): (u64, u64), expected: Expected<'_>) -> bool {
        self.sends(first, &[0x10, 0x49, 0x01, 0x4A, 0x16])
            && self.receives(&[0x10, 0x0B, 0x01, 0x0C, 0x16], Expected::None)
            && self.sends(then, &[0x10, 0x40, 0x01, 0x41, 0x16])
            && self.receives(&[0xE5], expected)
    }
}
