//! APDUs and the session of one connection (IEC 60870-5-104, 5).
use std::collections::VecDeque;

const MODULUS: u16 = 32768;

#[derive(Clone, Copy)]
pub enum Apdu<'a> {
    I { ns: u16, nr: u16, asdu: &'a [u8] },
    S { nr: u16 },
    U(u8),
}

pub enum Front<'a> {
    Whole(Apdu<'a>, usize),
    More,
    Never,
}

pub const START_ACT: u8 = 0x07;
pub const START_CON: u8 = 0x0B;
pub const STOP_ACT: u8 = 0x13;
pub const STOP_CON: u8 = 0x23;
pub const TEST_ACT: u8 = 0x43;
pub const TEST_CON: u8 = 0x83;

fn is_u(octet: u8) -> bool {
    matches!(
        octet,
        START_ACT | START_CON | STOP_ACT | STOP_CON | TEST_ACT | TEST_CON
    )
}

fn counter(low: u8, high: u8) -> u16 {
    u16::from_le_bytes([low, high]) >> 1
}

/// Reads the front of octets of the connection.
pub fn front(octets: &[u8]) -> Front<'_> {
    // Most frames without an ASDU come whole.
    match *octets {
        [0x68, 4, 1, 0, low, high, ..] if low & 1 == 0 => {
            return Front::Whole(Apdu::S { nr: counter(low, high) }, 6);
        }
        [0x68, 4, control, 0, 0, 0, ..] if is_u(control) => {
            return Front::Whole(Apdu::U(control), 6);
        }
        _ => {}
    }
    match *octets {
        [] | [0x68] => return Front::More,
        [0x68, len, ..] if !(4..=253).contains(&len) => return Front::Never,
        [0x68, _] => return Front::More,
        [0x68, len, control, ref rest @ ..] => {
            let (is_i, is_s) = (control & 1 == 0, control == 1);
            let fits = if is_i {
                len >= 13
            } else {
                (is_s || is_u(control)) && len == 4
            };
            let is_right = |place: usize, octet: &u8| match place {
                0 => is_i || *octet == 0,
                1 => {
                    if is_i || is_s {
                        octet & 1 == 0
                    } else {
                        *octet == 0
                    }
                }
                _ => is_i || is_s || *octet == 0,
            };
            if !fits
                || !rest
                    .iter()
                    .take(3)
                    .enumerate()
                    .all(|(place, octet)| is_right(place, octet))
            {
                return Front::Never;
            }
            let end = 2 + usize::from(len);
            if octets.len() < end {
                return Front::More;
            }
            let nr = counter(octets[4], octets[5]);
            let apdu = if is_i {
                Apdu::I {
                    ns: counter(octets[2], octets[3]),
                    nr,
                    asdu: &octets[6..end],
                }
            } else if is_s {
                Apdu::S { nr }
            } else {
                Apdu::U(control)
            };
            Front::Whole(apdu, end)
        }
        _ => Front::Never,
    }
}

pub fn short(control: u8, nr: u16) -> [u8; 6] {
    let [low, high] = (nr << 1).to_le_bytes();
    [0x68, 0x04, control, 0x00, low, high]
}

#[derive(PartialEq)]
enum Transfer {
    Closed,
    Stopped,
    Started,
    Stopping,
}

pub struct Session {
    k: usize,
    w: u16,
    t1: u64,
    t2: u64,
    t3: u64,
    transfer: Transfer,
    /// Of each sent I frame that isn't acknowledged, whether it is of the queue, and its moment.
    unacknowledged: VecDeque<(bool, u64)>,
    next_sent: u16,
    next_received: u16,
    unconfirmed: u16,
    unconfirmed_since: u64,
    last_frame: u64,
    test_sent: Option<u64>,
    reply: Option<u8>,
}

impl Session {
    pub fn new(k: u16, w: u16, t1: u64, t2: u64, t3: u64) -> Session {
        Session {
            k: usize::from(k),
            w,
            t1,
            t2,
            t3,
            transfer: Transfer::Closed,
            unacknowledged: VecDeque::with_capacity(usize::from(k)),
            next_sent: 0,
            next_received: 0,
            unconfirmed: 0,
            unconfirmed_since: 0,
            last_frame: 0,
            test_sent: None,
            reply: None,
        }
    }

    pub fn open(&mut self, now: u64) {
        self.transfer = Transfer::Stopped;
        self.unacknowledged.clear();
        self.next_sent = 0;
        self.next_received = 0;
        self.unconfirmed = 0;
        self.last_frame = now;
        self.test_sent = None;
        self.reply = None;
    }

    pub fn cut(&mut self) {
        self.open(0);
        self.transfer = Transfer::Closed;
    }

    pub fn is_open(&self) -> bool {
        self.transfer != Transfer::Closed
    }

    pub fn is_transferring(&self) -> bool {
        self.transfer == Transfer::Started
    }

    pub fn may_send(&self) -> bool {
        self.is_transferring() && self.unacknowledged.len() < self.k
    }

    /// Counts an I frame as sent, and answers its numbers.
    pub fn sent(&mut self, is_of_queue: bool, now: u64) -> (u16, u16) {
        let numbers = (self.next_sent, self.next_received);
        self.unacknowledged.push_back((is_of_queue, now));
        self.next_sent = (self.next_sent + 1) % MODULUS;
        self.unconfirmed = 0;
        numbers
    }

    fn left_by(&self, nr: u16) -> usize {
        usize::from((self.next_sent + MODULUS - nr) % MODULUS)
    }

    /// Takes a frame: how many frames of the queue it acknowledges, or the cause of a close.
    pub fn take(&mut self, apdu: Apdu<'_>, now: u64) -> Result<usize, u8> {
        self.last_frame = now;
        let nr = match apdu {
            Apdu::I { .. } if !self.is_transferring() => return Err(4),
            Apdu::I { ns, .. } if ns != self.next_received => return Err(2),
            Apdu::I { nr, .. } | Apdu::S { nr } => nr,
            Apdu::U(function) => {
                self.obey(function);
                return Ok(0);
            }
        };
        let left = self.left_by(nr);
        if left > self.unacknowledged.len() {
            return Err(3);
        }
        let count = self.unacknowledged.len() - left;
        let of_queue = self
            .unacknowledged
            .drain(..count)
            .filter(|(is_of_queue, _)| *is_of_queue)
            .count();
        if let Apdu::I { .. } = apdu {
            self.next_received = (self.next_received + 1) % MODULUS;
            if self.unconfirmed == 0 {
                self.unconfirmed_since = now;
            }
            self.unconfirmed = (self.unconfirmed + 1).min(self.w);
        }
        Ok(of_queue)
    }

    fn obey(&mut self, function: u8) {
        match function {
            START_ACT => {
                self.transfer = Transfer::Started;
                self.reply = Some(START_CON);
            }
            STOP_ACT => self.transfer = Transfer::Stopping,
            TEST_ACT => self.reply = Some(TEST_CON),
            TEST_CON => self.test_sent = None,
            _ => {}
        }
    }

    /// Whether an I frame or a test has waited for t1.
    pub fn is_late(&self, now: u64) -> bool {
        let is_late = |moment: u64| now.saturating_sub(moment) >= self.t1;
        self.is_open()
            && (self
                .unacknowledged
                .front()
                .is_some_and(|(_, moment)| is_late(*moment))
                || self.test_sent.is_some_and(is_late))
    }

    fn confirm_received(&mut self) -> [u8; 6] {
        self.unconfirmed = 0;
        short(0x01, self.next_received)
    }

    pub fn confirm(&mut self) -> Option<[u8; 6]> {
        let is_stopping = self.transfer == Transfer::Stopping;
        if is_stopping && self.unconfirmed > 0 {
            return Some(self.confirm_received());
        }
        if let Some(function) = self.reply.take() {
            return Some(short(function, 0));
        }
        if is_stopping && self.unacknowledged.is_empty() {
            self.transfer = Transfer::Stopped;
            return Some(short(STOP_CON, 0));
        }
        None
    }

    pub fn pull(&mut self, now: u64) -> Option<[u8; 6]> {
        if !self.is_open() {
            return None;
        }
        if self.unconfirmed > 0
            && (self.unconfirmed >= self.w || now.saturating_sub(self.unconfirmed_since) >= self.t2)
        {
            return Some(self.confirm_received());
        }
        if self.test_sent.is_none() && now.saturating_sub(self.last_frame) >= self.t3 {
            self.test_sent = Some(now);
            return Some(short(TEST_ACT, 0));
        }
        None
    }
}
