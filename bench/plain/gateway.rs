//! One event, and what goes out at it.
use crate::asdu::{is_answer, is_monitor, read};
use crate::commands::Commands;
use crate::config::Config;
use crate::connection::{Apdu, Front, Session, front};
use crate::link::{Master, Outcome};
use crate::trace::Event;

const LAST_MOMENT: u64 = 999_999_999_999_999;

/// What goes out.
pub enum Action<'a> {
    Line(&'a [u8]),
    Tcp(&'a [u8]),
    Close(u8),
    Gap(usize, u64),
}

/// The pieces of reports, each behind its length, in a row of octets.
struct Queue {
    row: Vec<u8>,
    places: usize,
    kept: usize,
    start: usize,
    mark: usize,
}

impl Queue {
    fn push(&mut self, piece: &[u8]) {
        self.row.push(piece.len() as u8);
        self.row.extend_from_slice(piece);
        self.kept += 1;
    }

    fn unsent(&self) -> Option<&[u8]> {
        let (len, behind) = self.row[self.mark..].split_first()?;
        Some(&behind[..usize::from(*len)])
    }

    fn mark_sent(&mut self) {
        self.mark += 1 + usize::from(self.row[self.mark]);
    }

    fn acknowledge(&mut self, count: usize) {
        for _ in 0..count {
            self.start += 1 + usize::from(self.row[self.start]);
        }
        self.kept -= count;
        if count > 0 && self.row.len() - self.start <= self.start {
            self.row.drain(..self.start);
            self.mark -= self.start;
            self.start = 0;
        }
    }
}

pub struct Gateway {
    config: Config,
    line: Master,
    commands: Commands,
    session: Session,
    queue: Queue,
    /// What is left over of the connection's octets.
    left_over: Vec<u8>,
    /// A piece of a report, then a frame, is written here.
    frame: Vec<u8>,
    moment: u64,
    wall: Option<(u64, u64)>,
    skipped: u64,
    mirrors: u64,
    lost: u64,
}

impl Gateway {
    pub fn new(config: Config) -> Gateway {
        Gateway {
            line: Master::new(&config),
            commands: Commands::new(&config),
            session: Session::new(config.k, config.w, config.t1, config.t2, config.t3),
            queue: Queue {
                row: Vec::new(),
                places: config.queue,
                kept: 0,
                start: 0,
                mark: 0,
            },
            left_over: Vec::with_capacity(255),
            frame: Vec::with_capacity(255),
            moment: 0,
            wall: None,
            skipped: 0,
            mirrors: 0,
            lost: 0,
            config,
        }
    }

    /// Skipped, mirrors, lost and spoilt.
    pub fn counts(&self) -> [u64; 4] {
        [self.skipped, self.mirrors, self.lost, self.line.spoilt]
    }

    /// The kept pieces, oldest first.
    pub fn kept(&self) -> impl Iterator<Item = &[u8]> {
        let mut row = &self.queue.row[self.queue.start..];
        std::iter::from_fn(move || {
            let (len, behind) = row.split_first()?;
            let (piece, rest) = behind.split_at(usize::from(*len));
            row = rest;
            Some(piece)
        })
    }

    pub fn step(&mut self, now: u64, event: Event<'_>, put: &mut impl FnMut(u64, Action<'_>)) {
        self.moment = self.moment.max(now.min(LAST_MOMENT));
        let mut gap = None;
        let fits = match event {
            Event::Line(octets) => self.hear(octets, &mut gap),
            _ => true,
        };
        let silent = self.line.due(self.moment);
        match event {
            Event::Line(_) if !fits && self.session.is_open() => self.close(6, put),
            Event::Open => {
                if self.session.is_open() {
                    put(self.moment, Action::Close(7));
                }
                self.disconnect();
                self.session.open(self.moment);
            }
            Event::Bytes(octets) if self.session.is_open() => self.receive(octets, put),
            Event::Cut => self.disconnect(),
            Event::Wall(wall) => self.wall = Some((self.moment, wall)),
            _ => {}
        }
        if let Some((station, session)) = gap {
            put(self.moment, Action::Gap(station, session));
        }
        if let Some(station) = silent {
            self.give_up(station);
        }
        self.commands.due(self.moment);
        if self.session.is_late(self.moment) {
            self.close(5, put);
        }
        self.ask(put);
        self.flush(put);
    }

    fn give_up(&mut self, station: usize) {
        if self.commands.lost(station) {
            self.lost = self.lost.saturating_add(1);
        }
    }

    fn disconnect(&mut self) {
        self.session.cut();
        self.queue.mark = self.queue.start;
        self.left_over.clear();
        self.line.withdraw();
        self.commands.cut();
    }

    fn close(&mut self, cause: u8, put: &mut impl FnMut(u64, Action<'_>)) {
        put(self.moment, Action::Close(cause));
        self.disconnect();
    }

    /// Octets of the line; `false` where an own answer found no place.
    fn hear(&mut self, octets: &[u8], gap: &mut Option<(usize, u64)>) -> bool {
        let report = match self.line.hear(octets) {
            Outcome::None => return true,
            Outcome::Gap(station, session) => {
                *gap = Some((station, session));
                return true;
            }
            Outcome::Accepted(station) => {
                self.commands.accepted(station);
                return true;
            }
            Outcome::Busy(station) => {
                return match self.commands.busy(station) {
                    Some(answer) => self.commands.own(&answer),
                    None => true,
                };
            }
            Outcome::Down(station) => {
                self.give_up(station);
                return true;
            }
            Outcome::Report(report) => report,
        };
        match read(self.config.sizes, report) {
            Some(asdu) if is_monitor(asdu.kind) && !matches!(asdu.cause, 0x6C | 0xEC) => {
                let queue = &mut self.queue;
                asdu.translate(None, &mut self.frame, |piece| {
                    queue.push(piece);
                    true
                })
            }
            Some(asdu) if is_answer(asdu.kind) => {
                let tag = self.commands.mirror(&asdu, self.moment);
                if !self.session.is_transferring() {
                    self.mirrors = self.mirrors.saturating_add(1);
                    return true;
                }
                let commands = &mut self.commands;
                let tag = tag.as_ref().map(|tag| tag.as_slice());
                asdu.translate(tag, &mut self.frame, |piece| commands.own(piece))
            }
            _ => {
                self.skipped = self.skipped.saturating_add(1);
                true
            }
        }
    }

    /// Octets of the connection, an APDU after another.
    fn receive(&mut self, octets: &[u8], put: &mut impl FnMut(u64, Action<'_>)) {
        if self.left_over.is_empty() {
            let done = self.take_all(octets, put);
            if self.session.is_open() {
                self.left_over.extend_from_slice(&octets[done..]);
            }
            return;
        }
        let mut joined = std::mem::take(&mut self.left_over);
        joined.extend_from_slice(octets);
        let done = self.take_all(&joined, put);
        joined.drain(
            ..if self.session.is_open() {
                done
            } else {
                joined.len()
            },
        );
        self.left_over = joined;
    }

    /// Takes the whole APDUs at the front of octets, and says how many octets these have.
    fn take_all(&mut self, octets: &[u8], put: &mut impl FnMut(u64, Action<'_>)) -> usize {
        let mut done = 0;
        while done < octets.len() {
            match front(&octets[done..]) {
                Front::Whole(apdu, count) => {
                    done += count;
                    if let Some(cause) = self.take(apdu) {
                        self.close(cause, put);
                        break;
                    }
                    self.flush(put);
                }
                Front::More => break,
                Front::Never => {
                    self.close(1, put);
                    break;
                }
            }
        }
        done
    }

    /// Takes an APDU; `Some` is the cause of a close.
    fn take(&mut self, apdu: Apdu<'_>) -> Option<u8> {
        match self.session.take(apdu, self.moment) {
            Ok(count) => self.queue.acknowledge(count),
            Err(cause) => return Some(cause),
        }
        if let Apdu::I { asdu, .. } = apdu {
            let wall = self
                .wall
                .map(|(moment, wall)| wall.saturating_add(self.moment - moment));
            if let Some(answer) = self.commands.judge(asdu, self.moment, wall) {
                if !self.commands.own(&answer) {
                    return Some(6);
                }
            }
        }
        None
    }

    /// The line's next request.
    fn ask(&mut self, put: &mut impl FnMut(u64, Action<'_>)) {
        if self.commands.has_waiting() {
            for station in 0..self.config.stations.len() {
                if let Some(octets) = self.commands.waiting(station) {
                    self.line.offer(station, octets);
                }
            }
        }
        let may_poll = self.queue.places - self.queue.kept >= 3;
        if let Some((octets, station, is_first_command)) = self.line.next(self.moment, may_poll) {
            put(self.moment, Action::Line(octets));
            if is_first_command {
                self.commands.on_line(station);
            }
        }
    }

    /// Sends what may be sent: confirmations, own answers, reports, and what else is due.
    fn flush(&mut self, put: &mut impl FnMut(u64, Action<'_>)) {
        while let Some(octets) = self.session.confirm() {
            put(self.moment, Action::Tcp(&octets));
        }
        while self.session.may_send() {
            let (asdu, is_of_queue) = match self.commands.own_answer() {
                Some(answer) => (answer, false),
                None => match self.queue.unsent() {
                    Some(piece) => (piece, true),
                    None => break,
                },
            };
            let (ns, nr) = self.session.sent(is_of_queue, self.moment);
            self.frame.clear();
            self.frame.extend_from_slice(&[0x68, 4 + asdu.len() as u8]);
            self.frame.extend_from_slice(&(ns << 1).to_le_bytes());
            self.frame.extend_from_slice(&(nr << 1).to_le_bytes());
            self.frame.extend_from_slice(asdu);
            put(self.moment, Action::Tcp(&self.frame));
            if is_of_queue {
                self.queue.mark_sent();
            } else {
                self.commands.own_sent();
            }
        }
        while let Some(octets) = self.session.pull(self.moment) {
            put(self.moment, Action::Tcp(&octets));
        }
    }
}
