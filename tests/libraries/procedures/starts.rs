//! Two stations: how they are started, and take turns.

use super::bench::{Expected, Script, Step};
use super::first_wrong_of;
use link::{NoMemory, RequestKind};
use std::alloc::Global;

const STATUS: [u8; 5] = [0x10, 0x49, 0x01, 0x4A, 0x16];

const OTHER_STATUS: [u8; 5] = [0x10, 0x49, 0x02, 0x4B, 0x16];

/// The other station's answer to its status, and its reset.
const OTHER_READY: [u8; 5] = [0x10, 0x0B, 0x02, 0x0D, 0x16];

const OTHER_RESET: [u8; 5] = [0x10, 0x40, 0x02, 0x42, 0x16];

const POLL: [u8; 5] = [0x10, 0x7B, 0x01, 0x7C, 0x16];

const SCRIPTS: &[Script<'static>] = &[
    (
        "a silent station loses its turn",
        (0, true, 8),
        true,
        &[
            Step::Sends(0, &STATUS),
            Step::Rests(0, true),
            Step::Due(199, Expected::None),
            Step::Rests(199, true),
            Step::Due(200, Expected::None),
            Step::Sends(200, &OTHER_STATUS),
            Step::Receives(&OTHER_READY, Expected::None),
            Step::Sends(210, &OTHER_RESET),
            Step::Receives(&[0xE5], Expected::Started(1)),
            Step::Sends(220, &STATUS),
        ],
    ),
    (
        "a silent poll is held",
        (1, true, 8),
        true,
        &[
            Step::Opens,
            Step::Sends(20, &OTHER_STATUS),
            Step::Receives(&OTHER_READY, Expected::None),
            Step::Sends(30, &OTHER_RESET),
            Step::Receives(&[0xE5], Expected::Started(1)),
            Step::Sends(1000, &POLL),
            Step::Due(1200, Expected::None),
            // Without leave to poll it is sent again all the same.
            Step::Asks(1200, false, &POLL, RequestKind::Class2, true),
            Step::Due(1400, Expected::None),
            Step::Sends(1400, &[0x10, 0x7B, 0x02, 0x7D, 0x16]),
            Step::Receives(&[0xE5], Expected::Empty(1)),
            Step::Sends(1410, &POLL),
        ],
    ),
    (
        "a refused reset is dropped",
        (0, true, 8),
        true,
        &[
            Step::Sends(0, &STATUS),
            Step::Receives(&[0x10, 0x0B, 0x01, 0x0C, 0x16], Expected::None),
            Step::Sends(10, &[0x10, 0x40, 0x01, 0x41, 0x16]),
            Step::Receives(&[0x10, 0x0E, 0x01, 0x0F, 0x16], Expected::None),
            Step::Receives(&[0xE5], Expected::None),
            Step::Rests(209, true),
            Step::Due(210, Expected::None),
            Step::Sends(210, &OTHER_STATUS),
            Step::Receives(&[0x10, 0x0F, 0x02, 0x11, 0x16], Expected::Down(1)),
            Step::Sends(220, &STATUS),
        ],
    ),
];

/// The first of them whose calls aren't all answered as they are to be.
pub(super) fn first_wrong(alloc: Global) -> Result<Option<&'static str>, NoMemory> {
    first_wrong_of(alloc, SCRIPTS)
}
