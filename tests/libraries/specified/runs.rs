//! The gateway: the crate `gateway`.

use asdu::{CaSize, CauseSize, IoaSize, Sizes};
use ft12::LinkSize;
use gateway::{
    Action, Config, Counts, End, Event, Gateway, LineSettings, Next, Port, Silence,
    StationSettings, TcpSettings, drive, drive_on,
};
use std::alloc::{AllocError, Global};
use std::process::Abort;
use std::test::Fail;
use traces::{Trace, read_trace};

/// One station with the addresses 1 and 1.
fn config(alloc: Global) -> Result<Config, AllocError> {
    let line = LineSettings {
        link: LinkSize::One,
        sizes: Sizes {
            cause: CauseSize::One,
            ca: CaSize::One,
            ioa: IoaSize::Two,
        },
        answer_ms: 200,
        retries: 3,
        silence: Silence::Hold,
        burst: 8,
        queue: 100,
    };
    let tcp = TcpSettings {
        k: 12,
        w: 8,
        t1_ms: 15000,
        t2_ms: 10000,
        t3_ms: 20000,
        select_ms: 30000,
        max_age_ms: 10000,
    };
    let station = StationSettings {
        address: 1,
        ca: 1,
        select: false,
    };
    let stations = Vec::from_slice(alloc, &[station])?;
    Ok(Config::new(line, tcp, stations))
}

/// The link is reset, a control centre starts, and the station reports that the single point 100
/// is on.
const TRACE: &[u8] = b"10 S 100B010C16
20 S E5
30 O
40 R 680407000000
50 S 680909680801010103016400017416
";

/// What a gateway begins with, and what follows.
const FIRST: &[u8] = b"0 > S 1049014A16\n";

const TRACED: &[u8] = b"10 > S 1040014116
20 > S 107B017C16
40 > T 68040B000000
50 > S 105B015C16
50 > T 680E0000000001010300010064000001
";

/// A port over a trace, which writes to memory.
fn port_over(alloc: Global, text: &[u8]) -> Result<Trace<Vec<u8>>, Fail> {
    let entries = read_trace(alloc, text)?;
    Ok(Trace::new(alloc, entries, Vec::new(alloc)))
}

/// Whether nothing was counted.
fn is_nothing(counts: Counts) -> bool {
    [counts.skipped, counts.mirrors, counts.lost, counts.spoilt] == [0; 4]
}

#[test]
fn steps_of_a_gateway(rt: HostRuntime) -> Result<(), Fail> {
    let alloc = rt.alloc();
    let config = config(alloc)?;
    let mut gateway = Gateway::new(alloc, &config)?;
    goes_on(&rt, alloc, &mut gateway)
}

/// A tick, and then a run whose report isn't acknowledged, and so kept.
fn goes_on(rt: &impl Abort, alloc: Global, gateway: &mut Gateway) -> Result<(), Fail> {
    let mut port = port_over(alloc, b"")?;
    let is_well = gateway.step(0, Event::Tick, &mut port);
    let written = port.into_writer();
    assert!(rt; is_well && written.as_slice() == FIRST);
    assert!(rt; is_nothing(gateway.counts()));
    assert!(rt; gateway.kept().next().is_none());
    let mut port = port_over(alloc, TRACE)?;
    let end = drive_on(gateway, &mut port, 8);
    let written = port.into_writer();
    assert!(rt; end == End::Finished && written.as_slice() == TRACED);
    let mut kept = gateway.kept();
    assert!(rt; kept.next() == Some([1, 1, 3, 0, 1, 0, 100, 0, 0, 1].as_slice()));
    assert!(rt; kept.next().is_none());
    Ok(())
}

#[test]
fn a_run_and_its_port(rt: HostRuntime) -> Result<(), Fail> {
    let alloc = rt.alloc();
    let config = config(alloc)?;
    let mut port = port_over(alloc, b"")?;
    let end = drive(alloc, &config, &mut port, 8);
    let written = port.into_writer();
    assert!(rt; end? == End::Finished && written.as_slice() == FIRST);
    let mut port = port_over(alloc, b"7 S E5\n")?;
    let is_right = gives_and_takes(&mut port);
    let written = port.into_writer();
    assert!(rt; is_right && written.as_slice() == b"7 > S 1049014A16\n".as_slice());
    Ok(())
}

/// Whether a port gives a tick and an octet, takes an action, and has no more.
fn gives_and_takes(port: &mut Trace<Vec<u8>>) -> bool {
    let mut buf = [0; 1024];
    matches!(port.next(&mut buf), Next::Tick(0))
        && matches!(port.next(&mut buf), Next::Line(7, 1))
        && buf[0] == 0xE5
        && port.put(7, &Action::Line(&[0x10, 0x49, 0x01, 0x4A, 0x16]))
        && matches!(port.next(&mut buf), Next::Done)
        && port.failures() == 0
}
