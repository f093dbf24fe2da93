//! Resets of a station that was up: a gap is reported if the session's latest service was a poll
//! that wasn't answered by 8, 9 or E5.

use super::bench::{Expected, Script, Step};
use super::first_wrong_of;
use link::NoMemory;
use std::alloc::Global;

const POLL: [u8; 5] = [0x10, 0x7B, 0x01, 0x7C, 0x16];

const NEXT_POLL: [u8; 5] = [0x10, 0x5B, 0x01, 0x5C, 0x16];

const STATUS: [u8; 5] = [0x10, 0x49, 0x01, 0x4A, 0x16];

/// The service isn't functioning, and isn't implemented.
const BY_14: [u8; 5] = [0x10, 0x0E, 0x01, 0x0F, 0x16];

const BY_15: [u8; 5] = [0x10, 0x0F, 0x01, 0x10, 0x16];

/// There are no data.
const BY_9: [u8; 5] = [0x10, 0x09, 0x01, 0x0A, 0x16];

/// The command 7 on the line, under either frame count bit.
const COMMAND: [u8; 9] = [0x68, 0x03, 0x03, 0x68, 0x53, 0x01, 0x07, 0x5B, 0x16];

const NEXT_COMMAND: [u8; 9] = [0x68, 0x03, 0x03, 0x68, 0x73, 0x01, 0x07, 0x7B, 0x16];

const SCRIPTS: &[Script<'static>] = &[
    (
        "an unanswered poll leaves a gap",
        (0, false, 8),
        false,
        &[
            // The first start is none.
            Step::Opens,
            // Silence.
            Step::Sends(20, &POLL),
            Step::Due(220, Expected::Down(0)),
            Step::Restarts(220, Expected::StartedGap(0, 1)),
            // Answered by E5, and then by 14.
            Step::Sends(230, &POLL),
            Step::Receives(&[0xE5], Expected::Empty(0)),
            Step::Sends(240, &NEXT_POLL),
            Step::Receives(&BY_14, Expected::Down(0)),
            Step::Restarts(250, Expected::StartedGap(0, 2)),
            // Answered by 9, and then by a frame of another station.
            Step::Sends(260, &POLL),
            Step::Receives(&BY_9, Expected::Empty(0)),
            Step::Sends(270, &NEXT_POLL),
            Step::Receives(&[0x10, 0x09, 0x02, 0x0B, 0x16], Expected::None),
            Step::Due(470, Expected::Down(0)),
            // The status is answered by 14, and the reset not at all: the session has not ended
            // yet.
            Step::Sends(470, &STATUS),
            Step::Receives(&BY_14, Expected::Down(0)),
            Step::Sends(480, &STATUS),
            Step::Receives(&[0x10, 0x0B, 0x01, 0x0C, 0x16], Expected::None),
            Step::Sends(490, &[0x10, 0x40, 0x01, 0x41, 0x16]),
            Step::Due(690, Expected::None),
            Step::Restarts(690, Expected::StartedGap(0, 3)),
        ],
    ),
    (
        "what else ends a session leaves none",
        (0, false, 8),
        false,
        &[
            Step::Opens,
            // A poll is answered by data, and then a command by silence.
            Step::Sends(20, &POLL),
            Step::Receives(
                &[0x68, 0x03, 0x03, 0x68, 0x08, 0x01, 0x07, 0x10, 0x16],
                Expected::Report(0, &[0x07]),
            ),
            Step::Waits(&[7]),
            Step::Sends(30, &COMMAND),
            Step::Due(230, Expected::Down(0)),
            Step::Restarts(230, Expected::Started(0)),
            // A command, by 15, and nothing else between two resets.
            Step::Waits(&[7]),
            Step::Sends(240, &NEXT_COMMAND),
            Step::Receives(&BY_15, Expected::Down(0)),
            Step::Restarts(250, Expected::Started(0)),
            // The sessions without a gap are counted, too.
            Step::Sends(260, &POLL),
            Step::Receives(&BY_15, Expected::Down(0)),
            Step::Restarts(270, Expected::StartedGap(0, 3)),
        ],
    ),
    (
        "a repeat that is answered leaves no gap",
        (2, false, 8),
        false,
        &[
            Step::Opens,
            Step::Sends(0, &POLL),
            Step::Due(200, Expected::None),
            Step::Sends(200, &POLL),
            Step::Receives(&[0xE5], Expected::Empty(0)),
            // The poll was answered, the command wasn't.
            Step::Waits(&[7]),
            Step::Sends(300, &COMMAND),
            Step::Receives(&BY_14, Expected::Down(0)),
            Step::Restarts(310, Expected::Started(0)),
            // Three times silence.
            Step::Sends(400, &POLL),
            Step::Due(600, Expected::None),
            Step::Sends(600, &POLL),
            Step::Due(800, Expected::None),
            Step::Sends(800, &POLL),
            Step::Due(1000, Expected::Down(0)),
            Step::Restarts(1000, Expected::StartedGap(0, 2)),
        ],
    ),
];

/// The first of them whose calls aren't all answered as they are to be.
pub(super) fn first_wrong(alloc: Global) -> Result<Option<&'static str>, NoMemory> {
    first_wrong_of(alloc, SCRIPTS)
}
