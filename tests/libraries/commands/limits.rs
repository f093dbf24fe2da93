//! 64 waiting commands, 16 selections, 16 own answers.
use super::{
    EXECUTE, FOR_ALL, INTERROGATION, MAX_AGE_MS, MIDDLE, SELECT, SELECT_MS, SMALL, Script, Step,
    count_of_answers,
};
use command::{Commands, StationInfo};
use std::test::Fail;

/// The negative answer to the interrogation of station 1, and to that of all of them.
const NO: [u8; 10] = [0x64, 0x01, 0x47, 0x00, 0x01, 0x00, 0x00, 0x00, 0x00, 0x14];

const NO_FOR_ALL: [u8; 10] = [0x64, 0x01, 0x47, 0x00, 0xFF, 0xFF, 0x00, 0x00, 0x00, 0x14];

pub const SCRIPTS: &[Script<'static>] = &[
    (
        "64 commands wait",
        MIDDLE,
        &[Step::Forwards(&INTERROGATION, 3); 64],
        &[
            Step::Answers(&INTERROGATION, 67, &NO),
            // one goes out, so one place is free, and two aren't
            Step::Sends(0, &[0x64, 0x01, 0x06, 0x01, 0x00, 0x00, 0x14]),
            Step::Answers(&FOR_ALL, 68, &NO_FOR_ALL),
            Step::Forwards(&INTERROGATION, 69),
            Step::Answers(&INTERROGATION, 70, &NO),
            Step::Cut,
            Step::Rests(0),
            Step::Forwards(&FOR_ALL, 71),
        ],
    ),
    (
        "64 commands wait for two stations",
        SMALL,
        &[Step::Forwards(&FOR_ALL, 3); 32],
        &[
            Step::Answers(&INTERROGATION, 67, &NO),
            Step::Sends(1, &[0x64, 0x01, 0x06, 0x02, 0x00, 0x14]),
        ],
    ),
    (
        "two own answers are kept",
        MIDDLE,
        &[],
        &[
            Step::Empty,
            Step::Keeps(&SELECT, true),
            Step::Keeps(&EXECUTE, true),
            Step::Oldest(&SELECT),
        ],
    ),
    (
        "16 own answers are kept",
        MIDDLE,
        &SIXTEEN_ANSWERS,
        &[
            Step::Keeps(&FOR_ALL, false),
            Step::Oldest(&SELECT),
            Step::Cut,
            Step::Empty,
        ],
    ),
    (
        "16 selections are kept",
        MIDDLE,
        &SIXTEEN_SELECTS,
        &[
            Step::Answers(&SELECT_17, 6, &REFUSED_17),
            // one in the place of its own
            Step::Forwards(&SELECT_16, 7),
            // a station that asks for none keeps none
            Step::Forwards(
                &[0x2D, 0x01, 0x06, 0x00, 0x02, 0x00, 0x11, 0x00, 0x00, 0x81],
                8,
            ),
            // those of 5 are over
            Step::Due(5 + SELECT_MS),
            Step::Forwards(&SELECT_17, 5 + SELECT_MS),
        ],
    ),
];

/// A select, an execute, and 14 interrogations, as own answers.
const SIXTEEN_ANSWERS: [Step<'static>; 16] = [
    Step::Keeps(&SELECT, true),
    Step::Keeps(&EXECUTE, true),
    Step::Keeps(&INTERROGATION, true),
    Step::Keeps(&INTERROGATION, true),
    Step::Keeps(&INTERROGATION, true),
    Step::Keeps(&INTERROGATION, true),
    Step::Keeps(&INTERROGATION, true),
    Step::Keeps(&INTERROGATION, true),
    Step::Keeps(&INTERROGATION, true),
    Step::Keeps(&INTERROGATION, true),
    Step::Keeps(&INTERROGATION, true),
    Step::Keeps(&INTERROGATION, true),
    Step::Keeps(&INTERROGATION, true),
    Step::Keeps(&INTERROGATION, true),
    Step::Keeps(&INTERROGATION, true),
    Step::Keeps(&INTERROGATION, true),
];

/// The select of objects 16 and 17, and the negative answer to that.
const SELECT_16: [u8; 10] = [0x2D, 0x01, 0x06, 0x00, 0x01, 0x00, 0x10, 0x00, 0x00, 0x81];

const SELECT_17: [u8; 10] = [0x2D, 0x01, 0x06, 0x00, 0x01, 0x00, 0x11, 0x00, 0x00, 0x81];

const REFUSED_17: [u8; 10] = [0x2D, 0x01, 0x47, 0x00, 0x01, 0x00, 0x11, 0x00, 0x00, 0x81];

/// Selects of objects 1 to 16, at 5.
const SIXTEEN_SELECTS: [Step<'static>; 16] = [
    Step::Forwards(
        &[0x2D, 0x01, 0x06, 0x00, 0x01, 0x00, 0x01, 0x00, 0x00, 0x81],
        5,
    ),
    Step::Forwards(
        &[0x2D, 0x01, 0x06, 0x00, 0x01, 0x00, 0x02, 0x00, 0x00, 0x81],
        5,
    ),
    Step::Forwards(
        &[0x2D, 0x01, 0x06, 0x00, 0x01, 0x00, 0x03, 0x00, 0x00, 0x81],
        5,
    ),
    Step::Forwards(
        &[0x2D, 0x01, 0x06, 0x00, 0x01, 0x00, 0x04, 0x00, 0x00, 0x81],
        5,
    ),
    Step::Forwards(
        &[0x2D, 0x01, 0x06, 0x00, 0x01, 0x00, 0x05, 0x00, 0x00, 0x81],
        5,
    ),
    Step::Forwards(
        &[0x2D, 0x01, 0x06, 0x00, 0x01, 0x00, 0x06, 0x00, 0x00, 0x81],
        5,
    ),
    Step::Forwards(
        &[0x2D, 0x01, 0x06, 0x00, 0x01, 0x00, 0x07, 0x00, 0x00, 0x81],
        5,
    ),
    Step::Forwards(
        &[0x2D, 0x01, 0x06, 0x00, 0x01, 0x00, 0x08, 0x00, 0x00, 0x81],
        5,
    ),
    Step::Forwards(
        &[0x2D, 0x01, 0x06, 0x00, 0x01, 0x00, 0x09, 0x00, 0x00, 0x81],
        5,
    ),
    Step::Forwards(
        &[0x2D, 0x01, 0x06, 0x00, 0x01, 0x00, 0x0A, 0x00, 0x00, 0x81],
        5,
    ),
    Step::Forwards(
        &[0x2D, 0x01, 0x06, 0x00, 0x01, 0x00, 0x0B, 0x00, 0x00, 0x81],
        5,
    ),
    Step::Forwards(
        &[0x2D, 0x01, 0x06, 0x00, 0x01, 0x00, 0x0C, 0x00, 0x00, 0x81],
        5,
    ),
    Step::Forwards(
        &[0x2D, 0x01, 0x06, 0x00, 0x01, 0x00, 0x0D, 0x00, 0x00, 0x81],
        5,
    ),
    Step::Forwards(
        &[0x2D, 0x01, 0x06, 0x00, 0x01, 0x00, 0x0E, 0x00, 0x00, 0x81],
        5,
    ),
    Step::Forwards(
        &[0x2D, 0x01, 0x06, 0x00, 0x01, 0x00, 0x0F, 0x00, 0x00, 0x81],
        5,
    ),
    Step::Forwards(
        &[0x2D, 0x01, 0x06, 0x00, 0x01, 0x00, 0x10, 0x00, 0x00, 0x81],
        5,
    ),
];

/// What happens to stations 100 to 131.
const THIRTY_TWO: [Step<'static>; 5] = [
    Step::Forwards(&FOR_ALL, 1),
    Step::Forwards(&FOR_ALL, 2),
    Step::Answers(&FOR_ALL, 3, &NO_FOR_ALL),
    Step::Sends(31, &[0x64, 0x01, 0x06, 0x83, 0x00, 0x14]),
    Step::Rests(32),
];

#[test]
fn thirty_two_stations(rt: HostRuntime) -> Result<(), Fail> {
    let mut stations = [StationInfo {
        ca: 0,
        select: false,
    }; 32];
    let mut ca = 100;
    for station in stations.iter_mut() {
        station.ca = ca;
        ca = ca.wrapping_add(1_u16);
    }
    let mut commands = Commands::new(rt.alloc(), &stations, SMALL, SELECT_MS, MAX_AGE_MS)?;
    assert_eq!(rt; count_of_answers(&mut commands, &THIRTY_TWO), 5);
    Ok(())
}
