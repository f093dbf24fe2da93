//! Where a run ends. What goes out in runs is shown by checks/rows.py and checks/flood.py.

use asdu::{CaSize, CauseSize, IoaSize, Sizes};
use ft12::LinkSize;
use gateway::{
    Action, Config, End, LineSettings, Next, Port, Silence, StationSettings, TcpSettings, drive,
};
use std::alloc::{AllocError, Global};
use std::test::Fail;

/// One station with the addresses 1 and 1.
pub(crate) fn config(alloc: Global) -> Result<Config, AllocError> {
    let line = LineSettings {
        link: LinkSize::One,
        sizes: Sizes {
            cause: CauseSize::One,
            ca: CaSize::One,
            ioa: IoaSize::Two,
        },
        answer_ms: 200,
        retries: 3,
        silence: Silence::Hold,
        burst: 8,
        queue: 100,
    };
    let tcp = TcpSettings {
        k: 12,
        w: 8,
        t1_ms: 15000,
        t2_ms: 10000,
        t3_ms: 20000,
        select_ms: 30000,
        max_age_ms: 10000,
    };
    let station = StationSettings {
        address: 1,
        ca: 1,
        select: false,
    };
    let stations = Vec::from_slice(alloc, &[station])?;
    Ok(Config::new(line, tcp, stations))
}

/// A port that has no event, and takes each action. It gives no log.
#[derive(Drop)]
struct Sink;

impl Port for Sink {
    ghost use Rattle.std.specs.Prelude.{None, true, []};

    ghost log = { λ _. None };

    ghost failed = { λ _. 0 };

    ghost ended = { λ _. true };

    ghost script = { λ _. [] };

    fn next(&mut self, _buf: &mut [u8; 1024]) -> Next {
        Next::Done
    }

    fn put(&mut self, _now: u64, _action: &Action<'_>) -> bool {
        true
    }

    fn failures(&self) -> u64 {
        0
    }
}

#[test]
fn a_run_ends_where_the_port_does(rt: HostRuntime) -> Result<(), Fail> {
    let alloc = rt.alloc();
    let config = config(alloc)?;
    for (turns, end) in [(5, End::Finished), (0, End::Turns)] {
        assert!(rt; drive(alloc, &config, &mut Sink, turns)? == end, "{turns}");
    }
    Ok(())
}
