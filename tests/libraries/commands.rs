mod limits;
mod own;
mod rules;
mod selections;
mod tags;

use asdu::{CaSize, CauseSize, IoaSize, Sizes, read};
use command::{Act, Commands, NoMemory, StationInfo};
use elements::Cp56;
use std::alloc::Global;
use std::test::Fail;

/// The smallest sizes.
pub const SMALL: Sizes = Sizes {
    cause: CauseSize::One,
    ca: CaSize::One,
    ioa: IoaSize::One,
};

/// Cause and common address of one octet, object address of two.
pub const MIDDLE: Sizes = Sizes {
    cause: CauseSize::One,
    ca: CaSize::One,
    ioa: IoaSize::Two,
};

/// How long a selection lasts, in ms.
pub const SELECT_MS: u64 = 10_000;

/// How old a command with a tag may be, in ms.
pub const MAX_AGE_MS: u64 = 10_000;

/// A select of object 10 (single command, on), its execute, and the negative answer to that.
pub const SELECT: [u8; 10] = [0x2D, 0x01, 0x06, 0x00, 0x01, 0x00, 0x0A, 0x00, 0x00, 0x81];

pub const EXECUTE: [u8; 10] = [0x2D, 0x01, 0x06, 0x00, 0x01, 0x00, 0x0A, 0x00, 0x00, 0x01];

pub const REFUSED: [u8; 10] = [0x2D, 0x01, 0x47, 0x00, 0x01, 0x00, 0x0A, 0x00, 0x00, 0x01];

/// The deactivation, and the negative answer to it.
pub const STOP: [u8; 10] = [0x2D, 0x01, 0x08, 0x00, 0x01, 0x00, 0x0A, 0x00, 0x00, 0x01];

/// The select and the execute on the line, in the sizes `MIDDLE`, and the select's con, positive
/// and negative.
pub const LINE_SELECT: [u8; 7] = [0x2D, 0x01, 0x06, 0x01, 0x0A, 0x00, 0x81];

pub const LINE_EXECUTE: [u8; 7] = [0x2D, 0x01, 0x06, 0x01, 0x0A, 0x00, 0x01];

pub const CON: [u8; 7] = [0x2D, 0x01, 0x07, 0x01, 0x0A, 0x00, 0x81];

pub const NEGATIVE: [u8; 7] = [0x2D, 0x01, 0x47, 0x01, 0x0A, 0x00, 0x81];

/// A station interrogation, to station 1, and to all of them.
pub const INTERROGATION: [u8; 10] = [0x64, 0x01, 0x06, 0x00, 0x01, 0x00, 0x00, 0x00, 0x00, 0x14];

pub const FOR_ALL: [u8; 10] = [0x64, 0x01, 0x06, 0x00, 0xFF, 0xFF, 0x00, 0x00, 0x00, 0x14];

/// A call, and what it is to answer.
#[derive(Clone, Copy)]
pub enum Step<'a> {
    /// An ASDU comes at this moment and is forwarded.
    Forwards(&'a [u8], u64),
    /// An ASDU comes at this moment and gets this answer.
    Answers(&'a [u8], u64, &'a [u8]),
    /// An ASDU comes at moment 1 and gets itself back, with this octet for its cause.
    Refuses(&'a [u8; 10], u8),
    /// An ASDU comes at this moment of the wall and is forwarded.
    ForwardsAt(&'a [u8], u64),
    /// An ASDU comes at this moment of the wall and gets this answer.
    AnswersAt(&'a [u8], u64, &'a [u8]),
    /// These octets wait for the line of the station, and go out.
    Sends(usize, &'a [u8]),
    /// Nothing waits for the station.
    Rests(usize),
    Accepts(usize),
    /// The station is busy, which gets this answer.
    Busy(usize, &'a [u8]),
    /// The station is busy, which gets no answer.
    Silent(usize),
    /// The command on the station's line is given up; whether there was one.
    Loses(usize, bool),
    /// A station's ASDU comes in the sizes `MIDDLE`, at this moment; no tag is answered.
    Mirrors(&'a [u8], u64),
    /// A station's ASDU comes in the sizes `MIDDLE`; this tag is answered.
    Bears(&'a [u8], [u8; 7]),
    /// An own answer is handed over; whether it is kept.
    Keeps(&'a [u8], bool),
    /// This is the oldest own answer.
    Oldest(&'a [u8]),
    /// No own answer is kept.
    Empty,
    Cut,
    Due(u64),
}

/// What happens to two stations, in these sizes of the line: calls that lead up to it, and those
/// that it is about.
pub type Script<'a> = (&'a str, Sizes, &'a [Step<'a>], &'a [Step<'a>]);

/// All of them.
const SCRIPTS: [&[Script<'static>]; 5] = [
    limits::SCRIPTS,
    own::SCRIPTS,
    rules::SCRIPTS,
    selections::SCRIPTS,
    tags::SCRIPTS,
];

#[test]
fn calls_answer_in_their_order(rt: HostRuntime) -> Result<(), Fail> {
    for scripts in SCRIPTS {
        for (name, sizes, before, steps) in scripts {
            let mut commands = two_stations(rt.alloc(), *sizes)?;
            assert_eq!(rt;
                count_of_answers(&mut commands, before),
                before.len(),
                "before {name}"
            );
            assert_eq!(rt;
                count_of_answers(&mut commands, steps),
                steps.len(),
                "{name}"
            );
        }
    }
    Ok(())
}

/// Two stations: 1, which asks for selects, and 2, which doesn't.
fn two_stations(alloc: Global, sizes: Sizes) -> Result<Commands, NoMemory> {
    let stations = [
        StationInfo {
            ca: 1,
            select: true,
        },
        StationInfo {
            ca: 2,
            select: false,
        },
    ];
    Commands::new(alloc, &stations, sizes, SELECT_MS, MAX_AGE_MS)
}

/// How many of the calls, in their order, answer what they are to.
pub fn count_of_answers(commands: &mut Commands, steps: &[Step]) -> usize {
    let mut count: usize = 0;
    for step in steps {
        if !is_right(commands, step) {
            return count;
        }
        count = count.wrapping_add(1);
    }
    count
}

/// Makes the call, and says whether the answer was the one.
fn is_right(commands: &mut Commands, step: &Step) -> bool {
    match step {
        Step::Forwards(octets, now) => return forwards(commands, octets, *now),
        Step::Answers(octets, now, answer) => {
            return is_answered(commands, octets, (*now, None), answer);
        }
        Step::Refuses(octets, cause) => return is_refused(commands, octets, *cause),
        Step::ForwardsAt(octets, wall) => return forwards_at(commands, octets, (1, Some(*wall))),
        Step::AnswersAt(octets, wall, answer) => {
            return is_answered(commands, octets, (1, Some(*wall)), answer);
        }
        Step::Sends(station, octets) => return sends(commands, *station, octets),
        Step::Rests(station) => return commands.waiting(*station).is_none(),
        Step::Accepts(station) => commands.accepted(*station),
        Step::Busy(station, answer) => return refuses(commands, *station, answer),
        Step::Silent(station) => return commands.busy(*station).is_none(),
        Step::Loses(station, there) => return commands.lost(*station) == *there,
        Step::Mirrors(octets, now) => return mirrors(commands, octets, *now, None),
        Step::Bears(octets, tag) => return mirrors(commands, octets, 1, Some(Cp56(*tag))),
        Step::Keeps(octets, kept) => return keeps(commands, octets, *kept),
        Step::Oldest(octets) => return commands.own_answer() == Some(*octets),
        Step::Empty => return commands.own_answer().is_none(),
        Step::Cut => commands.cut(),
        Step::Due(now) => commands.due(*now),
    }
    true
}

fn forwards(commands: &mut Commands, octets: &[u8], now: u64) -> bool {
    forwards_at(commands, octets, (now, None))
}

/// Whether it is forwarded at this moment, and this one of the wall.
fn forwards_at(commands: &mut Commands, octets: &[u8], at: (u64, Option<u64>)) -> bool {
    if octets.len() < 9 || octets.len() > 249 {
        return false;
    }
    matches!(commands.judge_command(octets, at.0, at.1), Act::Forward)
}

fn is_answered(
    commands: &mut Commands,
    octets: &[u8],
    at: (u64, Option<u64>),
    wanted: &[u8],
) -> bool {
    if octets.len() < 9 || octets.len() > 249 {
        return false;
    }
    match commands.judge_command(octets, at.0, at.1) {
        Act::Forward => false,
        Act::Own(answer) => answer.as_slice() == wanted,
    }
}

/// Whether the answer is the ASDU with this octet for its cause.
fn is_refused(commands: &mut Commands, octets: &[u8; 10], cause: u8) -> bool {
    let mut wanted = *octets;
    wanted[2] = cause;
    is_answered(commands, octets, (1, None), &wanted)
}

fn sends(commands: &mut Commands, station: usize, octets: &[u8]) -> bool {
    let right = commands.waiting(station) == Some(octets);
    commands.on_line(station);
    right
}

fn refuses(commands: &mut Commands, station: usize, wanted: &[u8]) -> bool {
    match commands.busy(station) {
        Some(answer) => answer.as_slice() == wanted,
        None => false,
    }
}

fn mirrors(commands: &mut Commands, octets: &[u8], now: u64, wanted: Option<Cp56>) -> bool {
    match read(MIDDLE, octets) {
        Ok(asdu) => commands.mirror(&asdu, now) == wanted,
        Err(_) => false,
    }
}

fn keeps(commands: &mut Commands, octets: &[u8], kept: bool) -> bool {
    if octets.len() < 9 || octets.len() > 249 {
        return false;
    }
    commands.own(octets) == kept
}
