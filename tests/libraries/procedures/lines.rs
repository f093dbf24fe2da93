//! One station, with its polls and commands.

use super::bench::{Bench, Expected, Script, Step};
use super::first_wrong_of;
use link::{NoMemory, RequestKind};
use std::alloc::Global;

/// One single point, spontaneous, at 100.
pub(super) const REPORT: [u8; 15] = [
    0x68, 0x09, 0x09, 0x68, 0x08, 0x01, 0x01, 0x01, 0x03, 0x01, 0x64, 0x00, 0x01, 0x74, 0x16,
];

/// The same with ACD set.
const MORE: [u8; 15] = [
    0x68, 0x09, 0x09, 0x68, 0x28, 0x01, 0x01, 0x01, 0x03, 0x01, 0x64, 0x00, 0x01, 0x94, 0x16,
];

/// The first with a wrong sum.
pub(super) const SPOILT: [u8; 15] = [
    0x68, 0x09, 0x09, 0x68, 0x08, 0x01, 0x01, 0x01, 0x03, 0x01, 0x64, 0x00, 0x01, 0x75, 0x16,
];

/// What the reports say.
pub(super) const POINT: Expected<'static> = Expected::Report(
    0,
    &[0x01, 0x01, 0x03, 0x01, 0x64, 0x00, 0x01],
);

pub(super) const CLASS2: [u8; 5] = [0x10, 0x7B, 0x01, 0x7C, 0x16];

pub(super) const NEXT_CLASS2: [u8; 5] = [0x10, 0x5B, 0x01, 0x5C, 0x16];

const STATUS: [u8; 5] = [0x10, 0x49, 0x01, 0x4A, 0x16];

/// A single command, on, to object 10, and it on the line.
const EXECUTE: [u8; 7] = [0x2D, 0x01, 0x06, 0x01, 0x0A, 0x00, 0x01];

const COMMAND: [u8; 15] = [
    0x68, 0x09, 0x09, 0x68, 0x73, 0x01, 0x2D, 0x01, 0x06, 0x01, 0x0A, 0x00, 0x01, 0xB4, 0x16,
];

/// A station interrogation, and it on the line.
const INTERROGATION: [u8; 7] = [0x64, 0x01, 0x06, 0x01, 0x00, 0x00, 0x14];

const INTERROGATES: [u8; 15] = [
    0x68, 0x09, 0x09, 0x68, 0x53, 0x01, 0x64, 0x01, 0x06, 0x01, 0x00, 0x00, 0x14, 0xD4, 0x16,
];

const SCRIPTS: &[Script<'static>] = &[
    (
        "a report is taken once",
        (3, true, 8),
        false,
        &[
            Step::Opens,
            Step::Sends(20, &CLASS2),
            Step::Due(220, Expected::None),
            Step::Sends(220, &CLASS2),
            Step::Receives(&REPORT, POINT),
            Step::Receives(&REPORT, Expected::None),
            Step::Sends(230, &NEXT_CLASS2),
        ],
    ),
    (
        "a spoilt report is dropped",
        (3, true, 8),
        false,
        &[
            Step::Opens,
            Step::Sends(20, &CLASS2),
            Step::Receives(&SPOILT, Expected::None),
            Step::Receives(&REPORT, Expected::None),
            Step::Due(219, Expected::None),
            Step::Rests(219, true),
            Step::Due(220, Expected::None),
            Step::Sends(220, &CLASS2),
            // Half a report is forgotten.
            Step::Receives(
                &[0x68, 0x09, 0x09, 0x68, 0x08, 0x01, 0x01, 0x01, 0x03, 0x01],
                Expected::None,
            ),
            Step::Due(420, Expected::None),
            Step::Sends(420, &CLASS2),
            Step::Receives(&REPORT, POINT),
        ],
    ),
    (
        "octets after an answer are dropped",
        (3, true, 8),
        false,
        &[
            Step::Opens,
            Step::Sends(20, &CLASS2),
            Step::Receives(
                &[
                    0x68, 0x09, 0x09, 0x68, 0x08, 0x01, 0x01, 0x01, 0x03, 0x01, 0x64, 0x00, 0x01,
                    0x74, 0x16, 0xE5,
                ],
                POINT,
            ),
            Step::Sends(50, &NEXT_CLASS2),
            Step::Due(249, Expected::None),
            Step::Due(250, Expected::None),
            Step::Sends(250, &NEXT_CLASS2),
        ],
    ),
    (
        "the single character answers no status",
        (3, true, 8),
        false,
        &[
            Step::Sends(0, &STATUS),
            Step::Receives(&[0xE5], Expected::None),
            Step::Due(200, Expected::None),
            Step::Sends(200, &STATUS),
        ],
    ),
    (
        "the single character answers a poll",
        (3, true, 8),
        false,
        &[
            Step::Opens,
            Step::Sends(20, &CLASS2),
            Step::Receives(&[0xE5], Expected::Empty(0)),
            Step::Sends(50, &NEXT_CLASS2),
        ],
    ),
    (
        "silence resets the link",
        (1, false, 8),
        false,
        &[
            Step::Opens,
            Step::Sends(20, &CLASS2),
            Step::Due(220, Expected::None),
            Step::Sends(220, &CLASS2),
            Step::Due(420, Expected::Down(0)),
            Step::Sends(420, &STATUS),
        ],
    ),
    (
        "class 1 waits",
        (3, true, 2),
        false,
        &[
            Step::Opens,
            Step::Sends(20, &CLASS2),
            Step::Receives(&MORE, POINT),
            Step::Sends(30, &[0x10, 0x5A, 0x01, 0x5B, 0x16]),
            Step::Receives(&MORE, POINT),
            Step::Sends(40, &[0x10, 0x7A, 0x01, 0x7B, 0x16]),
            Step::Receives(&MORE, POINT),
            Step::Asks(
                50,
                true,
                &[0x10, 0x5A, 0x01, 0x5B, 0x16],
                RequestKind::Class1,
                false,
            ),
        ],
    ),
    (
        "a command waits while DFC is set",
        (3, true, 8),
        false,
        &[
            Step::Opens,
            Step::Sends(20, &CLASS2),
            Step::Waits(&EXECUTE),
            Step::Receives(&[0x10, 0x19, 0x01, 0x1A, 0x16], Expected::Empty(0)),
            Step::Sends(50, &NEXT_CLASS2),
            Step::Receives(&[0xE5], Expected::Empty(0)),
            Step::Sends(60, &COMMAND),
        ],
    ),
    (
        "a command is sent again under its bit",
        (3, true, 8),
        false,
        &[
            Step::Waits(&EXECUTE),
            Step::Opens,
            Step::Sends(100, &COMMAND),
            // One that waits meanwhile doesn't pass it.
            Step::Waits(&INTERROGATION),
            Step::Due(300, Expected::None),
            Step::Sends(300, &COMMAND),
            Step::Receives(&[0xE5], Expected::Accepted(0)),
            Step::Sends(310, &NEXT_CLASS2),
        ],
    ),
    (
        "a busy station takes no command",
        (3, true, 8),
        false,
        &[
            Step::Opens,
            Step::Sends(20, &CLASS2),
            Step::Waits(&INTERROGATION),
            Step::Receives(&[0xE5], Expected::Empty(0)),
            Step::Sends(60, &INTERROGATES),
            Step::Receives(&[0x10, 0x01, 0x01, 0x02, 0x16], Expected::Busy(0)),
            Step::Sends(70, &CLASS2),
        ],
    ),
    (
        "a command that waits no more never goes out",
        (3, true, 8),
        false,
        &[
            Step::Opens,
            Step::Waits(&INTERROGATION),
            Step::WaitsNoMore,
            Step::Rests(20, false),
        ],
    ),
];

/// The first of them whose calls aren't all answered as they are to be.
pub(super) fn first_wrong(alloc: Global) -> Result<Option<&'static str>, NoMemory> {
    first_wrong_of(alloc, SCRIPTS)
}

#[test]
fn a_report_comes_in_two_pieces(rt: HostRuntime) -> Result<(), NoMemory> {
    for cut in 1..15 {
        let mut line = Bench::new(rt.alloc(), (3, true, 8), false)?;
        let steps = [
            Step::Opens,
            Step::Sends(20, &CLASS2),
            Step::Receives(&REPORT[..cut], Expected::None),
            Step::Receives(&REPORT[cut..], POINT),
            Step::Sends(50, &NEXT_CLASS2),
        ];
        assert_eq!(rt; line.count_of_answers(&steps), 5, "cut at {cut}");
    }
    Ok(())
}
