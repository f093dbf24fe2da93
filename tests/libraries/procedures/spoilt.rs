//! Which exchanges count as spoilt.

use super::bench::{Expected, Script, Step};
use super::first_wrong_of;
use super::lines::{CLASS2, NEXT_CLASS2, POINT, REPORT, SPOILT};
use link::NoMemory;
use std::alloc::Global;

const SCRIPTS: &[Script<'static>] = &[
    (
        "a wrong sum is spoilt once the time is over",
        (3, true, 8),
        false,
        &[
            Step::Opens,
            Step::Sends(20, &CLASS2),
            Step::Receives(&SPOILT, Expected::None),
            Step::Due(219, Expected::None),
            Step::Spoilt(0),
            Step::Due(220, Expected::None),
            Step::Spoilt(1),
            Step::Due(1000, Expected::None),
            Step::Spoilt(1),
            Step::Sends(1000, &CLASS2),
            Step::Receives(&[0x68], Expected::None),
            Step::Due(1200, Expected::None),
            Step::Spoilt(2),
        ],
    ),
    (
        "silence spoils nothing",
        (3, true, 8),
        false,
        &[
            Step::Opens,
            Step::Sends(20, &CLASS2),
            Step::Receives(&[], Expected::None),
            Step::Due(220, Expected::None),
            Step::Receives(&[0x00], Expected::None),
            Step::Sends(220, &CLASS2),
            Step::Due(420, Expected::None),
            Step::Spoilt(0),
        ],
    ),
    (
        "an answered exchange is not spoilt",
        (3, true, 8),
        false,
        &[
            Step::Opens,
            Step::Sends(20, &CLASS2),
            Step::Receives(&REPORT, POINT),
            Step::Due(220, Expected::None),
            Step::Spoilt(0),
            Step::Sends(220, &NEXT_CLASS2),
            Step::Receives(&REPORT, POINT),
            Step::Receives(&[0x00], Expected::None),
            Step::Due(420, Expected::None),
            Step::Spoilt(0),
        ],
    ),
    (
        "a frame that does not fit spoils its exchange",
        (3, true, 8),
        false,
        &[
            Step::Opens,
            Step::Sends(20, &CLASS2),
            // A status of the link answers no poll.
            Step::Receives(&[0x10, 0x0B, 0x01, 0x0C, 0x16], Expected::None),
            Step::Receives(&REPORT, Expected::None),
            Step::Due(220, Expected::None),
            Step::Spoilt(1),
        ],
    ),
];

/// The first of them whose calls aren't all answered as they are to be.
pub(super) fn first_wrong(alloc: Global) -> Result<Option<&'static str>, NoMemory> {
    first_wrong_of(alloc, SCRIPTS)
}
