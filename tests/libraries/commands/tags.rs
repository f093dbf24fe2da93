//! Commands with a time tag: their age, what goes to the line, and the tags of mirrors.
use super::{MIDDLE, Script, Step};

/// 2024-02-29 12:34:56.789 UTC, a Thursday: `INSTANT` ms since 1970-01-01.
const TAG: [u8; 7] = [0xD5, 0xDD, 0x22, 0x0C, 0x9D, 0x02, 0x18];

const INSTANT: u64 = 1_709_210_096_789;

/// A single command, on, with that tag, to station 2, which asks for no select.
const ON: [u8; 17] = [
    0x3A, 0x01, 0x06, 0x00, 0x02, 0x00, 0x0A, 0x00, 0x00, 0x01, 0xD5, 0xDD, 0x22, 0x0C, 0x9D, 0x02,
    0x18,
];

/// Its negative answer.
const REFUSED: [u8; 17] = [
    0x3A, 0x01, 0x47, 0x00, 0x02, 0x00, 0x0A, 0x00, 0x00, 0x01, 0xD5, 0xDD, 0x22, 0x0C, 0x9D, 0x02,
    0x18,
];

/// It on the line, the station's con and its termination.
const LINE_ON: [u8; 7] = [0x2D, 0x01, 0x06, 0x02, 0x0A, 0x00, 0x01];

const CON: [u8; 7] = [0x2D, 0x01, 0x07, 0x02, 0x0A, 0x00, 0x01];

const TERM: [u8; 7] = [0x2D, 0x01, 0x0A, 0x02, 0x0A, 0x00, 0x01];

/// The same command without a tag.
const PLAIN: [u8; 10] = [0x2D, 0x01, 0x06, 0x00, 0x02, 0x00, 0x0A, 0x00, 0x00, 0x01];

pub const SCRIPTS: &[Script<'static>] = &[(
    "commands with a tag go out without it",
    MIDDLE,
    &[],
    &[
        Step::Answers(&ON, 1, &REFUSED),
        Step::AnswersAt(&ON, INSTANT + 10_001, &REFUSED),
        Step::AnswersAt(&ON, INSTANT - 10_001, &REFUSED),
        Step::ForwardsAt(&ON, INSTANT + 10_000),
        Step::Sends(1, &LINE_ON),
        Step::Accepts(1),
        Step::Bears(&CON, TAG),
        Step::Bears(&TERM, TAG),
        Step::ForwardsAt(&ON, INSTANT - 10_000),
        Step::Sends(1, &LINE_ON),
        Step::Busy(1, &REFUSED),
        Step::ForwardsAt(&PLAIN, INSTANT),
        Step::Sends(1, &LINE_ON),
        Step::Mirrors(&CON, 1),
        Step::ForwardsAt(&ON, INSTANT),
        Step::Sends(1, &LINE_ON),
        Step::Cut,
        Step::Mirrors(&CON, 1),
    ],
)];
