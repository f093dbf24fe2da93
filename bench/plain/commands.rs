//! Commands on their way, selections and own answers.
use crate::asdu::{Asdu, Sizes};
use crate::config::{Config, Station};
use std::collections::VecDeque;

const MOST_WAITING: usize = 64;
const MOST_KEPT: usize = 16;

/// What a command acts on: its type on the line, common address and object address.
type Target = (u8, u16, u32);

/// A command's octets: at most 19, as an ASDU of one object with a tag has.
#[derive(Clone, Copy)]
struct Short {
    octets: [u8; 20],
    len: u8,
}

impl Short {
    fn of(octets: &[u8]) -> Short {
        let mut short = Short { octets: [0; 20], len: 0 };
        short.put(octets);
        short
    }

    fn put(&mut self, octets: &[u8]) {
        self.octets[usize::from(self.len)..][..octets.len()].copy_from_slice(octets);
        self.len += octets.len() as u8;
    }

    fn get(&self) -> &[u8] {
        &self.octets[..usize::from(self.len)]
    }
}

struct Waiting {
    station: usize,
    received: Short,
    serial: Short,
}

#[derive(Clone, Copy)]
enum Stage {
    /// So many commands go to the station before it.
    Queued(usize),
    OnLine,
    Accepted,
    Confirmed(u64),
}

struct Selection {
    station: usize,
    target: Target,
    kind: u8,
    is_test: bool,
    element: [u8; 3],
    came: u64,
    stage: Stage,
}

impl Selection {
    fn is_over(&self, now: u64, select_ms: u64) -> bool {
        let since = match self.stage {
            Stage::Confirmed(moment) => moment,
            _ => self.came,
        };
        now.saturating_sub(since) >= select_ms
    }
}

/// What stands on a station's line: nothing, or a command, with what was received of it while its
/// connection lasts.
enum Line {
    Free,
    Holds(Option<Short>),
}

/// A command without a fault of its own.
struct Command {
    kind: u8,
    target: Target,
    element: [u8; 3],
    is_test: bool,
    /// Whether it operates something, as an interrogation doesn't.
    is_switch: bool,
    is_activation: bool,
    is_select: bool,
}

impl Command {
    fn of(octets: &[u8], target: Target) -> Command {
        let kind = octets[0];
        let element = padded(&octets[9..9 + element_size(kind)]);
        let (is_switch, is_activation) = (kind != 100, octets[2] & 0x3F == 6);
        let has_select = element[element_size(kind) - 1] & 0x80 != 0;
        Command {
            kind,
            target,
            element,
            is_test: octets[2] & 0x80 != 0,
            is_switch,
            is_activation,
            is_select: is_switch && is_activation && has_select,
        }
    }

    fn is_execute(&self) -> bool {
        self.is_switch && self.is_activation && !self.is_select
    }

    /// Whether it is an execute or a deactivation.
    fn ends_selection(&self) -> bool {
        self.is_switch && !self.is_select
    }
}

pub struct Commands {
    stations: Vec<(u16, bool)>,
    sizes: Sizes,
    select_ms: u64,
    max_age_ms: u64,
    waiting: Vec<Waiting>,
    lines: Vec<Line>,
    selections: Vec<Selection>,
    /// The latest first sendings, with their tags.
    sendings: VecDeque<(Target, Option<[u8; 7]>)>,
    answers: VecDeque<Vec<u8>>,
}

fn line_kind(kind: u8) -> u8 {
    if (58..=62).contains(&kind) {
        kind - 13
    } else {
        kind
    }
}

fn element_size(kind: u8) -> usize {
    if matches!(line_kind(kind), 48 | 49) {
        3
    } else {
        1
    }
}

fn padded(element: &[u8]) -> [u8; 3] {
    let mut all = [0; 3];
    all[..element.len()].copy_from_slice(element);
    all
}

/// The element without its select bit, which is bit 7 of its last octet.
fn without_select(kind: u8, element: [u8; 3]) -> [u8; 3] {
    let mut element = element;
    element[element_size(kind) - 1] &= 0x7F;
    element
}

fn answer(octets: &[u8], cause: u8) -> Vec<u8> {
    let mut answer = octets.to_vec();
    answer[2] = octets[2] & 0x80 | 0x40 | cause;
    answer
}

fn negative(octets: &[u8]) -> Vec<u8> {
    answer(octets, if octets[2] & 0x3F == 8 { 9 } else { 7 })
}

/// The instant of a tag in ms since 1970, if it is a good one (IEC 60870-5-101, 7.2.6.18).
fn instant(tag: &[u8]) -> Option<i64> {
    let ms = i64::from(u16::from_le_bytes([tag[0], tag[1]]));
    let (minute, hour) = (i64::from(tag[2] & 0x3F), i64::from(tag[3] & 0x1F));
    let (day, weekday) = (i64::from(tag[4] & 0x1F), i64::from(tag[4] >> 5));
    let (month, year) = (i64::from(tag[5] & 0x0F), i64::from(tag[6] & 0x7F));
    if ms > 59999 || minute > 59 || hour > 23 || day == 0 || !(1..=12).contains(&month) || year > 99
    {
        return None;
    }
    let year = 2000 + year;
    let is_leap = year % 4 == 0 && (year % 100 != 0 || year % 400 == 0);
    let lengths = [
        31,
        if is_leap { 29 } else { 28 },
        31,
        30,
        31,
        30,
        31,
        31,
        30,
        31,
        30,
        31,
    ];
    if day > lengths[month as usize - 1] {
        return None;
    }
    let leaps = |year: i64| (year - 1) / 4 - (year - 1) / 100 + (year - 1) / 400;
    let days = 365 * (year - 1970) + leaps(year) - leaps(1970)
        + lengths[..month as usize - 1].iter().sum::<i64>()
        + day
        - 1;
    // 1970-01-01 was a Thursday, the fourth day of the week.
    if weekday != 0 && weekday != (days + 3) % 7 + 1 || tag[2] & 0x80 != 0 {
        return None;
    }
    Some(((days * 24 + hour) * 60 + minute) * 60000 + ms)
}

impl Commands {
    pub fn new(config: &Config) -> Commands {
        Commands {
            stations: config
                .stations
                .iter()
                .map(|Station { ca, select, .. }| (*ca, *select))
                .collect(),
            sizes: config.sizes,
            select_ms: config.select_ms,
            max_age_ms: config.max_age_ms,
            waiting: Vec::with_capacity(MOST_WAITING),
            lines: config.stations.iter().map(|_| Line::Free).collect(),
            selections: Vec::with_capacity(MOST_KEPT),
            sendings: VecDeque::with_capacity(MOST_KEPT),
            answers: VecDeque::with_capacity(MOST_KEPT),
        }
    }

    /// Judges an ASDU of the control centre: it is forwarded, or this answers it.
    pub fn judge(&mut self, octets: &[u8], now: u64, wall: Option<u64>) -> Option<Vec<u8>> {
        let kind = octets[0];
        if !matches!(kind, 45..=49 | 58..=62 | 100) {
            return Some(answer(octets, 44));
        }
        let cause = octets[2] & 0x3F;
        if cause != 6 && cause != 8 {
            return Some(answer(octets, 45));
        }
        let ca = u16::from_le_bytes([octets[4], octets[5]]);
        let is_for = |station: &(u16, bool)| station.0 == ca || kind == 100 && ca == 65535;
        let addressed = self
            .stations
            .iter()
            .filter(|station| is_for(station))
            .count();
        if addressed == 0 {
            return Some(answer(octets, 46));
        }
        let address = u32::from_le_bytes([octets[6], octets[7], octets[8], 0]);
        let is_object = if kind == 100 {
            address == 0
        } else {
            address != 0 && address >> (8 * self.sizes.ioa) == 0
        };
        if !is_object {
            return Some(answer(octets, 47));
        }
        let is_tagged = (58..=62).contains(&kind);
        let len = 9 + element_size(kind) + if is_tagged { 7 } else { 0 };
        if octets[1] != 1 || octets.len() != len {
            return Some(negative(octets));
        }
        let element = &octets[9..9 + element_size(kind)];
        let is_right = match line_kind(kind) {
            46 | 47 => matches!(element[0] & 3, 1 | 2),
            100 => (20..=36).contains(&element[0]),
            _ => true,
        };
        if !is_right || is_tagged && cause == 6 && !self.is_fresh(&octets[len - 7..], wall) {
            return Some(negative(octets));
        }
        self.admit(octets, (line_kind(kind), ca, address), addressed, now)
    }

    fn is_fresh(&self, tag: &[u8], wall: Option<u64>) -> bool {
        let (Some(instant), Some(wall)) = (instant(tag), wall) else {
            return false;
        };
        instant.abs_diff(i64::try_from(wall).unwrap_or(i64::MAX)) <= self.max_age_ms
    }

    fn admit(
        &mut self,
        octets: &[u8],
        target: Target,
        addressed: usize,
        now: u64,
    ) -> Option<Vec<u8>> {
        let command = Command::of(octets, target);
        let is_guarded = command.is_switch
            && self
                .stations
                .iter()
                .any(|(ca, select)| *ca == target.1 && *select);
        let lacks_selection =
            is_guarded && command.is_execute() && !self.is_selected(&command, now);
        if command.ends_selection() {
            self.end_selection(target);
        }
        let makes_selection = is_guarded && command.is_select;
        let is_full = self.waiting.len() + addressed > MOST_WAITING
            || makes_selection && self.count_others(target) >= MOST_KEPT;
        if lacks_selection || is_full {
            return Some(negative(octets));
        }
        if makes_selection {
            self.select(&command, now);
        }
        self.queue(octets, target);
        None
    }

    fn is_selected(&self, command: &Command, now: u64) -> bool {
        let kind = command.kind;
        self.selections.iter().any(|selection| {
            selection.target == command.target
                && selection.kind == kind
                && selection.is_test == command.is_test
                && without_select(kind, selection.element) == without_select(kind, command.element)
                && matches!(selection.stage, Stage::Confirmed(_))
                && !selection.is_over(now, self.select_ms)
        })
    }

    fn end_selection(&mut self, target: Target) {
        self.selections
            .retain(|selection| selection.target != target);
    }

    fn count_others(&self, target: Target) -> usize {
        self.selections
            .iter()
            .filter(|selection| selection.target != target)
            .count()
    }

    fn select(&mut self, command: &Command, now: u64) {
        let target = command.target;
        self.end_selection(target);
        let Some(station) = self.stations.iter().position(|(ca, _)| *ca == target.1) else {
            return;
        };
        let before = self
            .waiting
            .iter()
            .filter(|waiting| waiting.station == station)
            .count();
        self.selections.push(Selection {
            station,
            target,
            kind: command.kind,
            is_test: command.is_test,
            element: command.element,
            came: now,
            stage: Stage::Queued(before),
        });
    }

    fn queue(&mut self, octets: &[u8], target: Target) {
        for (station, (ca, _)) in self.stations.iter().enumerate() {
            if *ca == target.1 || target.1 == 65535 && octets[0] == 100 {
                self.waiting.push(Waiting {
                    station,
                    received: Short::of(octets),
                    serial: serial(self.sizes, octets, *ca),
                });
            }
        }
    }

    /// The oldest command that waits for a station, in the sizes of the line.
    pub fn waiting(&self, station: usize) -> Option<&[u8]> {
        let waiting = self
            .waiting
            .iter()
            .find(|waiting| waiting.station == station)?;
        Some(waiting.serial.get())
    }

    pub fn has_waiting(&self) -> bool {
        !self.waiting.is_empty()
    }

    /// It goes out for the first time.
    pub fn on_line(&mut self, station: usize) {
        let Some(place) = self
            .waiting
            .iter()
            .position(|waiting| waiting.station == station)
        else {
            return;
        };
        let Waiting { received, .. } = self.waiting.remove(place);
        for selection in self
            .selections
            .iter_mut()
            .filter(|selection| selection.station == station)
        {
            selection.stage = match selection.stage {
                Stage::Queued(0) => Stage::OnLine,
                Stage::Queued(before) => Stage::Queued(before - 1),
                stage => stage,
            };
        }
        let octets = received.get();
        let kind = line_kind(octets[0]);
        if kind != 100 {
            if self.sendings.len() == MOST_KEPT {
                self.sendings.pop_front();
            }
            let target = (
                kind,
                u16::from_le_bytes([octets[4], octets[5]]),
                u32::from_le_bytes([octets[6], octets[7], octets[8], 0]),
            );
            let tag = octets
                .get(9 + element_size(kind)..)
                .and_then(|tag| tag.try_into().ok());
            self.sendings.push_back((target, tag));
        }
        self.lines[station] = Line::Holds(Some(received));
    }

    pub fn accepted(&mut self, station: usize) {
        for selection in &mut self.selections {
            if selection.station == station && matches!(selection.stage, Stage::OnLine) {
                selection.stage = Stage::Accepted;
            }
        }
        self.lines[station] = Line::Free;
    }

    /// The command on a station's line is given up: whether there was one, and what was received.
    fn end_command(&mut self, station: usize) -> (bool, Option<Short>) {
        self.selections.retain(|selection| {
            selection.station != station || !matches!(selection.stage, Stage::OnLine)
        });
        match std::mem::replace(&mut self.lines[station], Line::Free) {
            Line::Free => (false, None),
            Line::Holds(received) => (true, received),
        }
    }

    /// The command on a station's line is given up, if there is one.
    pub fn lost(&mut self, station: usize) -> bool {
        self.end_command(station).0
    }

    /// The station was busy: the answer, where its connection is open.
    pub fn busy(&mut self, station: usize) -> Option<Vec<u8>> {
        self.end_command(station).1.map(|received| negative(received.get()))
    }

    /// A station answered a command: what that does to selections, and the tag that the answer bears.
    pub fn mirror(&mut self, asdu: &Asdu<'_>, now: u64) -> Option<[u8; 7]> {
        let mut objects = asdu.objects();
        let first = objects.next()?;
        let is_one = objects.next().is_none();
        let target = |address| (asdu.kind, asdu.ca, address);
        let tag = if is_one {
            self.sendings
                .iter()
                .rev()
                .find(|sending| sending.0 == target(first.0))
                .and_then(|sending| sending.1)
        } else {
            None
        };
        match asdu.cause & 0x7F {
            0x47 => {
                for (address, _) in asdu.objects() {
                    self.selections
                        .retain(|selection| selection.target != target(address));
                }
            }
            0x07 if is_one => {
                let select_ms = self.select_ms;
                for selection in &mut self.selections {
                    if selection.target == target(first.0)
                        && selection.element == padded(first.1)
                        && matches!(selection.stage, Stage::Accepted | Stage::Confirmed(_))
                        && now.saturating_sub(selection.came) < select_ms
                    {
                        selection.stage = Stage::Confirmed(now);
                    }
                }
            }
            _ => {}
        }
        tag
    }

    /// Keeps an own answer; `false` where there is no place.
    pub fn own(&mut self, octets: &[u8]) -> bool {
        if self.answers.len() == MOST_KEPT {
            return false;
        }
        self.answers.push_back(octets.to_vec());
        true
    }

    pub fn own_answer(&self) -> Option<&[u8]> {
        self.answers.front().map(Vec::as_slice)
    }

    pub fn own_sent(&mut self) {
        self.answers.pop_front();
    }

    pub fn cut(&mut self) {
        self.waiting.clear();
        self.selections.clear();
        self.sendings.clear();
        self.answers.clear();
        for line in &mut self.lines {
            if let Line::Holds(received) = line {
                *received = None;
            }
        }
    }

    pub fn due(&mut self, now: u64) {
        let select_ms = self.select_ms;
        self.selections
            .retain(|selection| !selection.is_over(now, select_ms));
    }
}

/// A command in the sizes of the line, with the station's common address, and without a tag.
fn serial(sizes: Sizes, octets: &[u8], ca: u16) -> Short {
    let kind = octets[0];
    let mut out = Short::of(&[line_kind(kind), octets[1]]);
    out.put(&octets[2..2 + sizes.cause]);
    out.put(&ca.to_le_bytes()[..sizes.ca]);
    out.put(&octets[6..6 + sizes.ioa]);
    out.put(&octets[9..9 + element_size(kind)]);
    out
}
