//! Traces: the events of a run, one a line, and the lines of what goes out.
//!
//! A text is judged and decoded in one pass: the octets of all events stand in one row, and an event
//! says where its own are. Digits are read and written sixteen octets at a time by arithmetic on
//! arrays, which the compiler turns into vector instructions.
use crate::gateway::Action;
use std::io::{self, BufRead, Write};

#[derive(Clone, Copy)]
pub enum Event<'a> {
    Line(&'a [u8]),
    Open,
    Bytes(&'a [u8]),
    Cut,
    Tick,
    Wall(u64),
}

/// An event's moment, its letter, and where its octets stand, or the wall clock's number.
struct Entry {
    moment: u64,
    letter: u8,
    len: u16,
    place: u64,
}

/// The events of a text.
pub struct Trace {
    entries: Vec<Entry>,
    octets: Vec<u8>,
}

/// The number of 1 to 15 digits at the front of a text, and how many they are.
fn number(text: &[u8]) -> Option<(u64, usize)> {
    let mut number = 0;
    for (place, octet) in text.iter().take(16).enumerate() {
        let digit = octet.wrapping_sub(b'0');
        if digit > 9 {
            return if place == 0 { None } else { Some((number, place)) };
        }
        number = number * 10 + u64::from(digit);
    }
    match text.len() {
        1..=15 => Some((number, text.len())),
        _ => None,
    }
}

/// The value of a digit, and not 0 in the second where it is none.
fn value(digit: u8) -> (u8, u8) {
    let decimal = digit.wrapping_sub(b'0');
    let letter = (digit | 0x20).wrapping_sub(b'a');
    let is_decimal = decimal < 10;
    let is_letter = letter < 6;
    let value = if is_decimal { decimal } else { letter.wrapping_add(10) };
    (value & 0x0F, u8::from(!(is_decimal | is_letter)))
}

/// The value of each digit, for the few that fill no block; 255 where it is none.
static VALUES: [u8; 256] = {
    let mut values = [255; 256];
    let mut n = 0;
    while n < 16 {
        values[b"0123456789ABCDEF"[n] as usize] = n as u8;
        values[b"0123456789abcdef"[n] as usize] = n as u8;
        n += 1;
    }
    values
};

/// Decodes sixteen octets; whether one of the digits is none.
fn decode_block(digits: &[u8; 32], octets: &mut [u8; 16]) -> u8 {
    let mut values = [0; 32];
    let mut wrong = [0; 32];
    for place in 0..32 {
        (values[place], wrong[place]) = value(digits[place]);
    }
    for (octet, pair) in octets.iter_mut().zip(values.chunks_exact(2)) {
        *octet = pair[0] << 4 | pair[1];
    }
    wrong.iter().fold(0, |wrong, digit| wrong | digit)
}

/// Decodes digits behind these octets; `None` where they are none, or too many or few.
fn decode(digits: &[u8], octets: &mut Vec<u8>) -> Option<u16> {
    if digits.len() % 2 != 0 || !(2..=2048).contains(&digits.len()) {
        return None;
    }
    let start = octets.len();
    octets.resize(start + digits.len() / 2, 0);
    let mut wrong = 0;
    let mut blocks = digits.chunks_exact(32);
    let mut places = octets[start..].chunks_exact_mut(16);
    for (block, place) in blocks.by_ref().zip(places.by_ref()) {
        wrong |= decode_block(block.try_into().ok()?, place.try_into().ok()?);
    }
    let pairs = blocks.remainder().chunks_exact(2);
    for (pair, place) in pairs.zip(places.into_remainder()) {
        let (high, low) = (VALUES[usize::from(pair[0])], VALUES[usize::from(pair[1])]);
        *place = high << 4 | low;
        wrong |= (high | low) & 0xF0;
    }
    (wrong == 0).then_some((digits.len() / 2) as u16)
}

impl Trace {
    /// The events of a text, or the number of its first wrong line.
    pub fn read(text: &[u8]) -> Result<Trace, usize> {
        let mut trace = Trace {
            entries: Vec::with_capacity(text.len() / 64),
            octets: Vec::with_capacity(text.len() / 2),
        };
        let mut left = text;
        let mut count: usize = 0;
        while !left.is_empty() {
            let whole = left;
            // The standard library's own search for an octet.
            let taken = left.skip_until(b'\n').unwrap_or(0);
            let line = &whole[..taken];
            let line = line.strip_suffix(b"\n").unwrap_or(line);
            count += 1;
            if !matches!(line, [] | [b'#', ..]) {
                trace.push(line).ok_or(count)?;
            }
        }
        Ok(trace)
    }

    fn push(&mut self, line: &[u8]) -> Option<()> {
        let (moment, digits) = number(line)?;
        let place = self.octets.len() as u64;
        let (letter, place, len) = match line[digits..] {
            [b' ', letter @ (b'T' | b'O' | b'C')] => (letter, 0, 0),
            [b' ', letter @ (b'S' | b'R'), b' ', ref rest @ ..] => {
                (letter, place, decode(rest, &mut self.octets)?)
            }
            [b' ', b'W', b' ', ref rest @ ..] => match number(rest)? {
                (wall, count) if count == rest.len() => (b'W', wall, 0),
                _ => return None,
            },
            _ => return None,
        };
        self.entries.push(Entry {
            moment,
            letter,
            len,
            place,
        });
        Some(())
    }

    /// Each event with its moment.
    pub fn events(&self) -> impl Iterator<Item = (u64, Event<'_>)> {
        self.entries.iter().map(|entry| {
            let octets = || &self.octets[entry.place as usize..][..usize::from(entry.len)];
            let event = match entry.letter {
                b'T' => Event::Tick,
                b'O' => Event::Open,
                b'C' => Event::Cut,
                b'W' => Event::Wall(entry.place),
                b'S' => Event::Line(octets()),
                _ => Event::Bytes(octets()),
            };
            (entry.moment, event)
        })
    }
}

/// The two digits of an octet, the first one in the low octet.
const fn digits(octet: u8) -> u16 {
    let octet = octet as u16;
    let nibbles = octet >> 4 | (octet & 0x0F) << 8;
    let letters = (nibbles + 0x0606) >> 4 & 0x0101;
    nibbles + 0x3030 + letters * 7
}

/// The digits of each octet, for the few that fill no block.
static PAIRS: [u16; 256] = {
    let mut pairs = [0; 256];
    let mut n = 0;
    while n < 256 {
        pairs[n] = digits(n as u8);
        n += 1;
    }
    pairs
};

/// How many octets of lines are gathered before they are written.
const ROOM: usize = 1 << 16;
/// The longest line: a moment, an APDU of 255 octets or a request of 261, and what stands between.
const LONGEST: usize = 1024;

/// Writes lines of actions, by a buffer of its own.
pub struct Printer<W: Write> {
    out: W,
    lines: Box<[u8]>,
    len: usize,
    /// The digits of the latest moment.
    moment: u64,
    spelled: [u8; 20],
    count: usize,
    fault: io::Result<()>,
}

impl<W: Write> Printer<W> {
    pub fn new(out: W) -> Printer<W> {
        Printer {
            out,
            lines: vec![0; ROOM].into_boxed_slice(),
            len: 0,
            moment: 0,
            spelled: [b'0'; 20],
            count: 1,
            fault: Ok(()),
        }
    }

    #[inline(always)]
    fn put_text(&mut self, text: &[u8]) {
        self.lines[self.len..][..text.len()].copy_from_slice(text);
        self.len += text.len();
    }

    fn put_octets(&mut self, octets: &[u8]) {
        let places = &mut self.lines[self.len..][..2 * octets.len()];
        let mut blocks = octets.chunks_exact(16);
        let mut pairs = places.chunks_exact_mut(32);
        for (block, place) in blocks.by_ref().zip(pairs.by_ref()) {
            let mut all = [0; 16];
            for (pair, octet) in all.iter_mut().zip(block) {
                *pair = digits(*octet);
            }
            for (place, pair) in place.chunks_exact_mut(2).zip(all) {
                place.copy_from_slice(&pair.to_le_bytes());
            }
        }
        let rest = pairs.into_remainder().chunks_exact_mut(2);
        for (place, octet) in rest.zip(blocks.remainder()) {
            place.copy_from_slice(&PAIRS[usize::from(*octet)].to_le_bytes());
        }
        self.len += 2 * octets.len();
    }

    fn put_number(&mut self, number: u64) {
        if number != self.moment {
            let mut digits = [0; 20];
            let (mut first, mut left) = (20, number);
            loop {
                first -= 1;
                digits[first] = b'0' + (left % 10) as u8;
                left /= 10;
                if left == 0 {
                    break;
                }
            }
            self.spelled[..20 - first].copy_from_slice(&digits[first..]);
            (self.moment, self.count) = (number, 20 - first);
        }
        // All places are copied, which takes no loop; what lies behind the digits is written over.
        self.lines[self.len..][..20].copy_from_slice(&self.spelled);
        self.len += self.count;
    }

    pub fn put(&mut self, moment: u64, action: Action<'_>) {
        self.put_number(moment);
        match action {
            Action::Line(octets) => {
                self.put_text(b" > S ");
                self.put_octets(octets);
            }
            Action::Tcp(octets) => {
                self.put_text(b" > T ");
                self.put_octets(octets);
            }
            Action::Close(cause) => {
                self.put_text(b" > X ");
                self.put_number(u64::from(cause));
            }
            Action::Gap(station, session) => {
                self.put_text(b" > G ");
                self.put_number(station as u64 + 1);
                self.put_text(b" ");
                self.put_number(session);
            }
        }
        self.end_line();
    }

    pub fn put_left(&mut self, piece: &[u8]) {
        self.put_text(b"left ");
        self.put_octets(piece);
        self.end_line();
    }

    pub fn put_counts(&mut self, counts: [u64; 4]) {
        self.put_text(b"counts");
        for (name, count) in ["skipped", "mirrors", "lost", "spoilt"].into_iter().zip(counts) {
            self.put_text(b" ");
            self.put_text(name.as_bytes());
            self.put_text(b" ");
            self.put_number(count);
        }
        self.end_line();
    }

    fn end_line(&mut self) {
        self.lines[self.len] = b'\n';
        self.len += 1;
        if self.len > ROOM - LONGEST {
            self.pour();
        }
    }

    fn pour(&mut self) {
        if self.fault.is_ok() {
            self.fault = self.out.write_all(&self.lines[..self.len]);
        }
        self.len = 0;
    }

    pub fn end(mut self) -> io::Result<()> {
        self.pour();
        self.fault?;
        self.out.flush()
    }
}
