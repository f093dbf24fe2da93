//! Commands: the crate `command`.
use asdu::{CaSize, CauseSize, IoaSize, Sizes, read};
use command::{Act, Commands, NoMemory, StationInfo};
use elements::Cp56;
use std::process::Abort;

/// Cause and common address of one octet, object address of two.
const LINE: Sizes = Sizes {
    cause: CauseSize::One,
    ca: CaSize::One,
    ioa: IoaSize::Two,
};

/// 2024-02-29 12:34:56.789 UTC, in ms since 1970-01-01.
const INSTANT: u64 = 1_709_210_096_789;

/// A single command, on, to object 10, with the tag of that moment; it on the line, and the
/// station's confirmation.
const TAGGED: [u8; 17] = [
    0x3A, 0x01, 0x06, 0x00, 0x01, 0x00, 0x0A, 0x00, 0x00, 0x01, 0xD5, 0xDD, 0x22, 0x0C, 0x9D, 0x02,
    0x18,
];

const LINE_COMMAND: [u8; 7] = [0x2D, 0x01, 0x06, 0x01, 0x0A, 0x00, 0x01];

const CONFIRMATION: [u8; 7] = [0x2D, 0x01, 0x07, 0x01, 0x0A, 0x00, 0x01];

/// An interrogation, and the negative answer to it.
const INTERROGATION: [u8; 10] = [0x64, 0x01, 0x06, 0x00, 0x01, 0x00, 0x00, 0x00, 0x00, 0x14];

const NEGATIVE: [u8; 10] = [0x64, 0x01, 0x47, 0x00, 0x01, 0x00, 0x00, 0x00, 0x00, 0x14];

/// Whether this is the answer.
fn is_answer(answer: Option<command::OwnAnswer>, octets: &[u8]) -> bool {
    answer.is_some_and(|answer| answer.as_slice() == octets)
}

#[test]
fn commands_on_their_way(rt: HostRuntime) -> Result<(), NoMemory> {
    let station = StationInfo {
        ca: 1,
        select: false,
    };
    let mut commands = Commands::new(rt.alloc(), &[station], LINE, 30_000, 10_000)?;
    go_their_way(&rt, &mut commands);
    Ok(())
}

/// One goes down and is confirmed, one meets a busy link, one is taken back.
fn go_their_way(rt: &impl Abort, commands: &mut Commands) {
    // While the wall clock shows 10 s more than the tag.
    let wall = Some(INSTANT + 10_000);
    assert!(rt; matches!(commands.judge_command(&TAGGED, 50, wall), Act::Forward));
    assert!(rt; commands.waiting(0) == Some(LINE_COMMAND.as_slice()));
    commands.on_line(0);
    assert!(rt; commands.waiting(0).is_none());
    commands.accepted(0);
    // The link is busy: the control centre gets an answer.
    assert!(rt;
        matches!(
            commands.judge_command(&INTERROGATION, 60, None),
            Act::Forward
        )
    );
    commands.on_line(0);
    assert!(rt; is_answer(commands.busy(0), &NEGATIVE));
    // None is on the line, so none is lost.
    assert!(rt; !commands.lost(0));
    // The confirmation of the tagged command bears its tag.
    let Ok(confirmation) = read(LINE, &CONFIRMATION) else {
        assert!(rt; false);
        return;
    };
    let tag = Cp56([0xD5, 0xDD, 0x22, 0x0C, 0x9D, 0x02, 0x18]);
    assert_eq!(rt; commands.mirror(&confirmation, 80), Some(tag));
    // Own answers go out in their order.
    assert!(rt; commands.own(&NEGATIVE));
    assert!(rt; commands.own(&INTERROGATION));
    assert!(rt; commands.own_answer() == Some(NEGATIVE.as_slice()));
    commands.own_sent();
    assert!(rt; commands.own_answer() == Some(INTERROGATION.as_slice()));
    // A cut takes back what never went out.
    assert!(rt;
        matches!(
            commands.judge_command(&INTERROGATION, 90, None),
            Act::Forward
        )
    );
    commands.cut();
    assert!(rt; commands.waiting(0).is_none());
    commands.due(90);
}
