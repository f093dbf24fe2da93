//! The primary station of unbalanced transmission (IEC 60870-5-2).
use crate::config::{Config, Station as Settings};
use crate::frames::{Frame, Front, front, write_data, write_fixed};

#[derive(Clone, PartialEq)]
enum Service {
    Class1,
    Class2,
    Command(Vec<u8>),
}

impl Service {
    fn is_poll(&self) -> bool {
        !matches!(self, Service::Command(_))
    }

    fn function(&self) -> u8 {
        match self {
            Service::Class1 => 10,
            Service::Class2 => 11,
            Service::Command(_) => 3,
        }
    }
}

enum Link {
    Down,
    /// The status is known: the reset comes next.
    Available,
    /// Up, and the next service has this frame count bit.
    Next(bool),
    /// Up, and this service is unanswered after so many sendings.
    Held(bool, Service, u16),
}

struct Station {
    address: u16,
    link: Link,
    acd: bool,
    dfc: bool,
    offered: Option<Vec<u8>>,
    session: u64,
    has_gap: bool,
}

#[derive(Clone, Copy)]
enum Phase {
    Starting,
    Commanding,
    Polling,
    Class1Polling(u8),
    Over,
}

enum Request {
    Status,
    Reset,
    Counted(bool, Service),
}

struct Awaited {
    request: Request,
    since: u64,
    deaf: bool,
    has_octets: bool,
}

/// What came of an exchange.
pub enum Outcome<'a> {
    None,
    Gap(usize, u64),
    Report(&'a [u8]),
    Accepted(usize),
    Busy(usize),
    Down(usize),
}

/// What a frame says as the answer to the outstanding request.
enum Answer<'a> {
    Ready,
    Confirmed,
    Report(&'a [u8]),
    Empty,
    Accepted,
    Busy,
    Unable,
}

fn answer_to<'a>(request: &Request, address: u16, frame: Frame<'a>) -> Option<Answer<'a>> {
    let (function, body) = match frame {
        Frame::Single => {
            return match request {
                Request::Status => None,
                Request::Reset => Some(Answer::Confirmed),
                Request::Counted(_, Service::Command(_)) => Some(Answer::Accepted),
                Request::Counted(_, _) => Some(Answer::Empty),
            };
        }
        Frame::Fixed {
            control,
            address: from,
        } if from == address && control & 0x40 == 0 => (control & 15, None),
        Frame::Data {
            control,
            address: from,
            body,
        } if from == address && control & 0x40 == 0 => (control & 15, Some(body)),
        _ => return None,
    };
    match (request, function, body) {
        (Request::Counted(_, service), 8, Some(body)) if service.is_poll() => {
            Some(Answer::Report(body))
        }
        (_, _, Some(_)) => None,
        (Request::Status, 11, None) => Some(Answer::Ready),
        (Request::Reset, 0, None) => Some(Answer::Confirmed),
        (Request::Status | Request::Counted(_, _), 14 | 15, None) => Some(Answer::Unable),
        (Request::Counted(_, service), 9, None) if service.is_poll() => Some(Answer::Empty),
        (Request::Counted(_, Service::Command(_)), 0, None) => Some(Answer::Accepted),
        (Request::Counted(_, Service::Command(_)), 1, None) => Some(Answer::Busy),
        _ => None,
    }
}

pub struct Master {
    size: usize,
    answer_ms: u64,
    retries: u16,
    hold: bool,
    burst: u8,
    stations: Vec<Station>,
    turn: usize,
    phase: Phase,
    /// The unanswered service goes out again at once.
    again: bool,
    outstanding: Option<Awaited>,
    /// The octets of the exchange so far, where the answer came in pieces.
    octets: Vec<u8>,
    request: Vec<u8>,
    pub spoilt: u64,
}

impl Master {
    pub fn new(config: &Config) -> Master {
        let station = |settings: &Settings| Station {
            address: settings.address,
            link: Link::Down,
            acd: false,
            dfc: false,
            offered: None,
            session: 0,
            has_gap: false,
        };
        Master {
            size: config.link,
            answer_ms: config.answer_ms,
            retries: config.retries,
            hold: config.hold,
            burst: config.burst,
            stations: config.stations.iter().map(station).collect(),
            turn: 0,
            phase: Phase::Starting,
            again: false,
            outstanding: None,
            octets: Vec::with_capacity(261),
            request: Vec::with_capacity(261),
            spoilt: 0,
        }
    }

    pub fn is_awaiting(&self) -> bool {
        self.outstanding.is_some()
    }

    fn wanted_poll(&self, station: &Station, fcb: bool, phase: Phase) -> Option<(Request, Phase)> {
        let class1 = |sent| {
            Some((
                Request::Counted(fcb, Service::Class1),
                Phase::Class1Polling(sent),
            ))
        };
        match phase {
            Phase::Polling if station.acd => class1(1),
            Phase::Polling => Some((
                Request::Counted(fcb, Service::Class2),
                Phase::Class1Polling(0),
            )),
            Phase::Class1Polling(sent) if station.acd && sent < self.burst => class1(sent + 1),
            _ => None,
        }
    }

    /// What a station's turn has next, and the phase that follows.
    fn wanted(
        &self,
        place: usize,
        phase: Phase,
        again: bool,
        may_poll: bool,
    ) -> Option<(Request, Phase)> {
        let station = &self.stations[place];
        match (&station.link, phase) {
            (Link::Down, Phase::Starting) => Some((Request::Status, Phase::Starting)),
            (Link::Available, Phase::Starting) => Some((Request::Reset, Phase::Over)),
            (Link::Held(fcb, service, _), Phase::Starting) if may_poll || !service.is_poll() => {
                Some((Request::Counted(*fcb, service.clone()), Phase::Commanding))
            }
            (Link::Held(fcb, service, _), phase) if again && !matches!(phase, Phase::Starting) => {
                Some((Request::Counted(*fcb, service.clone()), phase))
            }
            (Link::Next(fcb), Phase::Starting | Phase::Commanding) => match &station.offered {
                Some(command) if !station.dfc => Some((
                    Request::Counted(*fcb, Service::Command(command.clone())),
                    Phase::Polling,
                )),
                _ if may_poll => self.wanted_poll(station, *fcb, Phase::Polling),
                _ => None,
            },
            (Link::Next(fcb), phase) if may_poll => self.wanted_poll(station, *fcb, phase),
            _ => None,
        }
    }

    fn choose(&self, may_poll: bool) -> Option<(usize, Request, Phase)> {
        if let Some((request, phase)) = self.wanted(self.turn, self.phase, self.again, may_poll) {
            return Some((self.turn, request, phase));
        }
        let count = self.stations.len();
        (1..=count)
            .map(|n| (self.turn + n) % count)
            .find_map(|place| {
                let (request, phase) = self.wanted(place, Phase::Starting, false, may_poll)?;
                Some((place, request, phase))
            })
    }

    /// The next request: its octets, its station, and whether a command goes out for the first time.
    pub fn next(&mut self, now: u64, may_poll: bool) -> Option<(&[u8], usize, bool)> {
        if self.is_awaiting() {
            return None;
        }
        let Some((place, request, phase)) = self.choose(may_poll) else {
            self.phase = Phase::Over;
            self.again = false;
            return None;
        };
        let station = &mut self.stations[place];
        let mut is_first_command = false;
        let (size, address, out) = (self.size, station.address, &mut self.request);
        match &request {
            Request::Status => write_fixed(out, size, 0x49, address),
            Request::Reset => write_fixed(out, size, 0x40, address),
            Request::Counted(fcb, service) => {
                let control = 0x50 | if *fcb { 0x20 } else { 0 } | service.function();
                match service {
                    Service::Command(body) => {
                        is_first_command = !matches!(station.link, Link::Held(..));
                        write_data(out, size, control, address, body);
                        station.offered = None;
                    }
                    _ => write_fixed(out, size, control, address),
                }
                station.has_gap = service.is_poll();
            }
        }
        self.turn = place;
        self.phase = phase;
        self.again = false;
        self.octets.clear();
        self.outstanding = Some(Awaited {
            request,
            since: now,
            deaf: false,
            has_octets: false,
        });
        Some((&self.request, place, is_first_command))
    }

    /// Octets come from the line.
    pub fn hear<'a>(&'a mut self, octets: &'a [u8]) -> Outcome<'a> {
        let Some(awaited) = &mut self.outstanding else {
            return Outcome::None;
        };
        awaited.has_octets = awaited.has_octets || !octets.is_empty();
        if awaited.deaf {
            return Outcome::None;
        }
        // An answer that comes whole is read where it stands.
        let octets = if self.octets.is_empty() {
            if let Front::More = front(self.size, octets) {
                self.octets.extend_from_slice(octets);
                return Outcome::None;
            }
            octets
        } else {
            self.octets.extend_from_slice(octets);
            self.octets.as_slice()
        };
        match front(self.size, octets) {
            Front::More => Outcome::None,
            Front::Never => {
                awaited.deaf = true;
                Outcome::None
            }
            Front::Whole(frame) => {
                let place = self.turn;
                let station = &mut self.stations[place];
                let Some(answer) = answer_to(&awaited.request, station.address, frame) else {
                    awaited.deaf = true;
                    return Outcome::None;
                };
                (station.acd, station.dfc) = match frame {
                    Frame::Single => (false, false),
                    Frame::Fixed { control, .. } | Frame::Data { control, .. } => {
                        (control & 0x20 != 0, control & 0x10 != 0)
                    }
                };
                if matches!(answer, Answer::Unable) {
                    self.phase = Phase::Over;
                }
                let outcome = answered(place, station, &awaited.request, answer);
                self.outstanding = None;
                outcome
            }
        }
    }

    /// Ends the exchange where its time is over: the station that goes down by it.
    pub fn due(&mut self, now: u64) -> Option<usize> {
        let late = matches!(&self.outstanding, Some(awaited) if now.saturating_sub(awaited.since) >= self.answer_ms);
        if !late {
            return None;
        }
        let awaited = self.outstanding.take()?;
        if awaited.has_octets {
            self.spoilt = self.spoilt.saturating_add(1);
        }
        let station = &mut self.stations[self.turn];
        let mut down = None;
        self.again = false;
        match awaited.request {
            Request::Status | Request::Reset => station.link = Link::Down,
            Request::Counted(fcb, service) => {
                let missed = match station.link {
                    Link::Held(_, _, missed) => missed,
                    _ => 0,
                };
                if missed < self.retries {
                    self.again = true;
                    station.link = Link::Held(fcb, service, missed + 1);
                } else if self.hold {
                    station.link = Link::Held(fcb, service, self.retries + 1);
                } else {
                    station.link = Link::Down;
                    down = Some(self.turn);
                }
            }
        }
        if !self.again {
            self.phase = Phase::Over;
        }
        down
    }

    /// Offers a command, where the station has none that isn't done.
    pub fn offer(&mut self, place: usize, octets: &[u8]) {
        let is_out = place == self.turn
            && matches!(&self.outstanding, Some(awaited) if matches!(awaited.request, Request::Counted(_, Service::Command(_))));
        let station = &mut self.stations[place];
        let is_held = matches!(station.link, Link::Held(_, Service::Command(_), _));
        if station.offered.is_none() && !is_held && !is_out {
            station.offered = Some(octets.to_vec());
        }
    }

    /// Takes back what was never put on the line.
    pub fn withdraw(&mut self) {
        for station in &mut self.stations {
            station.offered = None;
        }
    }
}

fn answered<'a>(
    place: usize,
    station: &mut Station,
    request: &Request,
    answer: Answer<'a>,
) -> Outcome<'a> {
    match (request, &answer) {
        (Request::Status, Answer::Ready) => station.link = Link::Available,
        (Request::Status | Request::Counted(..), Answer::Unable) => station.link = Link::Down,
        (Request::Reset, Answer::Confirmed) => station.link = Link::Next(true),
        (Request::Counted(fcb, _), _) => station.link = Link::Next(!fcb),
        _ => {}
    }
    match answer {
        Answer::Confirmed => {
            let (session, has_gap) = (station.session, station.has_gap);
            station.session = session.saturating_add(1);
            station.has_gap = false;
            if has_gap {
                Outcome::Gap(place, session)
            } else {
                Outcome::None
            }
        }
        Answer::Ready => Outcome::None,
        Answer::Unable => Outcome::Down(place),
        Answer::Report(body) => {
            station.has_gap = false;
            Outcome::Report(body)
        }
        Answer::Empty => {
            station.has_gap = false;
            Outcome::None
        }
        Answer::Accepted => Outcome::Accepted(place),
        Answer::Busy => Outcome::Busy(place),
    }
}
