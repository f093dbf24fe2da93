//! Own answers, and commands whose connection has ended.
use super::{FOR_ALL, INTERROGATION, MIDDLE, Script, Step};

/// The interrogation on the line of station 1, and the negative answer to it.
const LINE: [u8; 7] = [0x64, 0x01, 0x06, 0x01, 0x00, 0x00, 0x14];

const NO: [u8; 10] = [0x64, 0x01, 0x47, 0x00, 0x01, 0x00, 0x00, 0x00, 0x00, 0x14];

pub const SCRIPTS: &[Script<'static>] = &[
    (
        "a busy station is answered for",
        MIDDLE,
        &[],
        &[
            Step::Forwards(&INTERROGATION, 50),
            Step::Sends(0, &LINE),
            Step::Busy(0, &NO),
            Step::Silent(0),
            Step::Loses(0, false),
        ],
    ),
    (
        "a cut takes back what never went out",
        MIDDLE,
        &[],
        &[
            Step::Forwards(&FOR_ALL, 50),
            Step::Sends(0, &LINE),
            Step::Cut,
            Step::Rests(0),
            Step::Rests(1),
            // the one on the line is still there, and its connection isn't
            Step::Silent(0),
            Step::Loses(0, false),
            Step::Forwards(&INTERROGATION, 60),
            Step::Sends(0, &LINE),
            Step::Cut,
            Step::Loses(0, true),
            Step::Loses(1, false),
            Step::Loses(2, false),
        ],
    ),
];
