//! Link procedures: the crate `link` (IEC 60870-5-2).

use ft12::{Frame, LinkSize};
use link::{LinkSettings, LinkUser, Master, NoCommands, NoMemory, Outcome, Request, Station};
use std::process::Abort;

/// One-octet addresses, no repeats; a service that isn't answered is held.
const SETTINGS: LinkSettings = LinkSettings {
    size: LinkSize::One,
    answer_ms: 200,
    retries: 0,
    hold: true,
    burst: 8,
};

const STATUS: [u8; 5] = [0x10, 0x49, 0x01, 0x4A, 0x16];

const RESET: [u8; 5] = [0x10, 0x40, 0x01, 0x41, 0x16];

const POLL: [u8; 5] = [0x10, 0x7B, 0x01, 0x7C, 0x16];

/// A single command, on, to object 10; and it on the line, as the service after the first poll.
const EXECUTE: [u8; 7] = [0x2D, 0x01, 0x06, 0x01, 0x0A, 0x00, 0x01];

const COMMAND: [u8; 15] = [
    0x68, 0x09, 0x09, 0x68, 0x53, 0x01, 0x2D, 0x01, 0x06, 0x01, 0x0A, 0x00, 0x01, 0x94, 0x16,
];

/// A user of the line who has one command, for the first station.
#[derive(Drop)]
struct Operator {
    command: [u8; 7],
}

impl LinkUser for Operator {
    ghost use Rattle.std.specs.Prelude.{◌==◌, Some, None, if◌then◌else◌};

    ghost waiting = { λ user. λ station. if station == 0 then Some user.command else None };

    fn command(&self, station: usize) -> Option<&[u8]> {
        if station == 0 {
            Some(&self.command)
        } else {
            None
        }
    }
}

/// Whether this request goes out.
fn sends(request: Option<Request>, octets: &[u8]) -> bool {
    request.is_some_and(|request| request.octets.as_slice() == octets)
}

#[test]
fn a_primary_station(rt: HostRuntime) -> Result<(), NoMemory> {
    let mut master = Master::new(rt.alloc(), SETTINGS, &[1, 2])?;
    starts_the_second(&rt, &mut master);
    let mut master = Master::new(rt.alloc(), SETTINGS, &[1])?;
    sends_a_command(&rt, &mut master);
    Ok(())
}

/// The second station is asked once the first one's time is over, and started.
fn starts_the_second(rt: &impl Abort, master: &mut Master) {
    assert!(rt; sends(master.next(0, true, &NoCommands), &STATUS));
    assert!(rt; matches!(master.due(200), Outcome::None));
    assert!(rt;
        sends(
            master.next(200, true, &NoCommands),
            &[0x10, 0x49, 0x02, 0x4B, 0x16]
        )
    );
    assert!(rt;
        matches!(
            master.octets(&[0x10, 0x0B, 0x02, 0x0D, 0x16], &mut None),
            Outcome::None
        )
    );
    assert!(rt;
        sends(
            master.next(201, true, &NoCommands),
            &[0x10, 0x40, 0x02, 0x42, 0x16]
        )
    );
    assert!(rt; matches!(master.octets(&[0xE5], &mut None), Outcome::Started(1)));
    assert!(rt; sends(master.next(202, true, &NoCommands), &STATUS));
}

/// The one station is started and polled. A command goes down to it, and its answer is spoilt.
fn sends_a_command(rt: &impl Abort, master: &mut Master) {
    let _ = master.next(0, true, &NoCommands);
    let _ = master.octets(&[0x10, 0x0B, 0x01, 0x0C, 0x16], &mut None);
    let _ = master.next(10, true, &NoCommands);
    assert!(rt; matches!(master.octets(&[0xE5], &mut None), Outcome::Started(0)));
    assert!(rt; sends(master.next(20, true, &NoCommands), &POLL));
    assert!(rt; matches!(master.due(219), Outcome::None));
    assert!(rt; matches!(master.octets(&[0xE5], &mut None), Outcome::Empty(0)));
    // The command that waits for the station goes out.
    let operator = Operator { command: EXECUTE };
    assert!(rt; sends(master.next(40, true, &operator), &COMMAND));
    // An exchange that had octets and no answer is spoilt.
    assert!(rt; matches!(master.octets(&[0x00], &mut None), Outcome::None));
    assert!(rt; matches!(master.due(240), Outcome::None));
    assert_eq!(rt; master.spoilt(), 1);
}

/// Whether the answer is a report of station 1, with ACD clear.
fn gives(answer: Option<Frame>, report: &[u8]) -> bool {
    match answer {
        Some(
            Frame::Data {
                c: 0x08,
                a: 1,
                body,
            },
        ) => body.as_slice() == report,
        _ => false,
    }
}

#[test]
fn an_outstation(rt: HostRuntime) -> Result<(), NoMemory> {
    let mut station = Station::new(rt.alloc(), LinkSize::One, 1);
    station.report1(&[7])?;
    assert!(rt; matches!(station.size(), LinkSize::One));
    station.report2(&[1, 2, 3])?;
    answers(&rt, &mut station);
    Ok(())
}

/// It gives a report of each class and takes a command.
fn answers(rt: &impl Abort, station: &mut Station) {
    // A poll before a reset isn't answered. ACD is set while class 1 waits.
    assert!(rt; station.receive(&POLL).is_none());
    assert_eq!(rt;
        station.receive(&STATUS),
        Some(Frame::Fixed { c: 0x2B, a: 1 })
    );
    assert_eq!(rt;
        station.receive(&RESET),
        Some(Frame::Fixed { c: 0x20, a: 1 })
    );
    assert!(rt; gives(station.receive(&[0x10, 0x7A, 0x01, 0x7B, 0x16]), &[7]));
    // The bit changes with each new service; a repeat gets the same answer.
    let class2 = [0x10, 0x5B, 0x01, 0x5C, 0x16];
    assert!(rt; gives(station.receive(&class2), &[1, 2, 3]));
    assert!(rt; gives(station.receive(&class2), &[1, 2, 3]));
    let command = [
        0x68, 0x09, 0x09, 0x68, 0x73, 0x01, 0x2D, 0x01, 0x06, 0x01, 0x0A, 0x00, 0x01, 0xB4, 0x16,
    ];
    assert_eq!(rt; station.receive(&command), Some(Frame::Single));
    assert!(rt; matches!(station.accepted(), [asdu] if asdu.as_slice() == EXECUTE.as_slice()));
    assert_eq!(rt; station.given(), 2);
}
