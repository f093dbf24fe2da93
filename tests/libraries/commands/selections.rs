//! What a selection lets through, and what ends it.
use super::{
    CON, EXECUTE, LINE_EXECUTE, LINE_SELECT, MIDDLE, NEGATIVE, REFUSED, SELECT, STOP, Script, Step,
};

/// A select of object 10, which station 1 accepts, and which is confirmed at 80.
const SELECTED: &[Step<'static>] = &[
    Step::Forwards(&SELECT, 50),
    Step::Sends(0, &LINE_SELECT),
    Step::Accepts(0),
    Step::Mirrors(&CON, 80),
];

/// The select, not confirmed yet.
const ACCEPTED: &[Step<'static>] = &[
    Step::Forwards(&SELECT, 50),
    Step::Sends(0, &LINE_SELECT),
    Step::Accepts(0),
];

/// Off in place of on, and the negative answer to it.
const OFF: [u8; 10] = [0x2D, 0x01, 0x06, 0x00, 0x01, 0x00, 0x0A, 0x00, 0x00, 0x00];

const OFF_REFUSED: [u8; 10] = [0x2D, 0x01, 0x47, 0x00, 0x01, 0x00, 0x0A, 0x00, 0x00, 0x00];

/// The execute with the test bit.
const TEST: [u8; 10] = [0x2D, 0x01, 0x86, 0x00, 0x01, 0x00, 0x0A, 0x00, 0x00, 0x01];

const TEST_REFUSED: [u8; 10] = [0x2D, 0x01, 0xC7, 0x00, 0x01, 0x00, 0x0A, 0x00, 0x00, 0x01];

/// The execute of another object.
const OTHER: [u8; 10] = [0x2D, 0x01, 0x06, 0x00, 0x01, 0x00, 0x0B, 0x00, 0x00, 0x01];

const OTHER_REFUSED: [u8; 10] = [0x2D, 0x01, 0x47, 0x00, 0x01, 0x00, 0x0B, 0x00, 0x00, 0x01];

pub const SCRIPTS: &[Script<'static>] = &[
    (
        "an execute follows its select once",
        MIDDLE,
        SELECTED,
        &[
            Step::Rests(0),
            Step::Forwards(&EXECUTE, 90),
            Step::Sends(0, &LINE_EXECUTE),
            Step::Answers(&EXECUTE, 95, &REFUSED),
        ],
    ),
    (
        "an execute is in time",
        MIDDLE,
        SELECTED,
        &[Step::Due(10_079), Step::Forwards(&EXECUTE, 10_079)],
    ),
    (
        "an execute is late",
        MIDDLE,
        SELECTED,
        &[Step::Answers(&EXECUTE, 10_080, &REFUSED)],
    ),
    (
        "the time was over before an execute",
        MIDDLE,
        SELECTED,
        &[Step::Due(10_080), Step::Answers(&EXECUTE, 10_079, &REFUSED)],
    ),
    (
        "an execute of another element ends it",
        MIDDLE,
        SELECTED,
        &[
            Step::Answers(&OFF, 90, &OFF_REFUSED),
            Step::Answers(&EXECUTE, 91, &REFUSED),
        ],
    ),
    (
        "an execute has another test bit",
        MIDDLE,
        SELECTED,
        &[Step::Answers(&TEST, 90, &TEST_REFUSED)],
    ),
    (
        "an execute of another object leaves it",
        MIDDLE,
        SELECTED,
        &[
            Step::Answers(&OTHER, 90, &OTHER_REFUSED),
            Step::Forwards(&EXECUTE, 91),
        ],
    ),
    (
        "a cut ends it",
        MIDDLE,
        SELECTED,
        &[
            Step::Cut,
            Step::Answers(&EXECUTE, 88, &REFUSED),
            Step::Rests(0),
        ],
    ),
    (
        "a deactivation ends it",
        MIDDLE,
        SELECTED,
        &[
            Step::Forwards(&STOP, 85),
            Step::Sends(0, &[0x2D, 0x01, 0x08, 0x01, 0x0A, 0x00, 0x01]),
            Step::Answers(&EXECUTE, 88, &REFUSED),
        ],
    ),
    (
        "a con counts once the select was accepted",
        MIDDLE,
        &[],
        &[
            Step::Forwards(&SELECT, 50),
            Step::Mirrors(&CON, 60),
            Step::Answers(&EXECUTE, 61, &REFUSED),
            Step::Forwards(&SELECT, 62),
            Step::Sends(0, &LINE_SELECT),
            Step::Accepts(0),
            Step::Sends(0, &LINE_SELECT),
            Step::Mirrors(&CON, 70),
            Step::Answers(&EXECUTE, 71, &REFUSED),
        ],
    ),
    (
        "a con is late",
        MIDDLE,
        ACCEPTED,
        &[
            Step::Mirrors(&CON, 10_050),
            Step::Answers(&EXECUTE, 10_051, &REFUSED),
        ],
    ),
    (
        "a con is of another element",
        MIDDLE,
        ACCEPTED,
        &[
            Step::Mirrors(&[0x2D, 0x01, 0x07, 0x01, 0x0A, 0x00, 0x80], 60),
            Step::Answers(&EXECUTE, 61, &REFUSED),
        ],
    ),
    (
        "a negative con ends it",
        MIDDLE,
        SELECTED,
        &[
            Step::Mirrors(&NEGATIVE, 85),
            Step::Answers(&EXECUTE, 90, &REFUSED),
        ],
    ),
    (
        "a negative con of several objects, one of them its own, ends it",
        MIDDLE,
        SELECTED,
        &[
            Step::Mirrors(
                &[0x2D, 0x02, 0x47, 0x01, 0x09, 0x00, 0x81, 0x0A, 0x00, 0x81],
                85,
            ),
            Step::Answers(&EXECUTE, 90, &REFUSED),
        ],
    ),
    (
        "a negative con of another object leaves it",
        MIDDLE,
        SELECTED,
        &[
            Step::Mirrors(&[0x2D, 0x01, 0x47, 0x01, 0x09, 0x00, 0x81], 85),
            Step::Forwards(&EXECUTE, 90),
        ],
    ),
    (
        "a busy or lost select makes none",
        MIDDLE,
        &[],
        &[
            Step::Forwards(&SELECT, 50),
            Step::Sends(0, &LINE_SELECT),
            Step::Busy(
                0,
                &[0x2D, 0x01, 0x47, 0x00, 0x01, 0x00, 0x0A, 0x00, 0x00, 0x81],
            ),
            Step::Mirrors(&CON, 60),
            Step::Answers(&EXECUTE, 61, &REFUSED),
            Step::Forwards(&SELECT, 62),
            Step::Sends(0, &LINE_SELECT),
            Step::Loses(0, true),
            Step::Mirrors(&CON, 63),
            Step::Answers(&EXECUTE, 64, &REFUSED),
        ],
    ),
    (
        "the con of a select touches no later one",
        MIDDLE,
        SELECTED,
        &[
            Step::Forwards(&SELECT, 85),
            Step::Mirrors(&CON, 86),
            Step::Answers(&EXECUTE, 87, &REFUSED),
        ],
    ),
    (
        "a second select takes its place",
        MIDDLE,
        SELECTED,
        &[
            Step::Forwards(&SELECT, 85),
            Step::Sends(0, &LINE_SELECT),
            Step::Accepts(0),
            Step::Mirrors(&CON, 90),
            Step::Forwards(&EXECUTE, 10_089),
        ],
    ),
];
