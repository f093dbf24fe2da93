//! Live ends: the crate `live`.

use gateway::{Next, Port};
use live::{Accepted, AllowList, Got, Listener, Live, OctetStream, RefusedPeers, RunClock, Timed};
use settings::read_config;
use std::net::{IpAddr, Ipv4Addr};
use std::test::Fail;

/// One station.
const CONFIG: &[u8] = b"[line]
link = 1
cause = 1
ca = 1
ioa = 2
[[station]]
address = 1
ca = 1
";

/// A stream on which one octet stands. It takes one write, and notes nothing.
#[derive(Drop)]
struct Stub {
    octet: Option<u8>,
    is_free: bool,
}

/// A stream on which this octet stands.
fn stream_with(octet: u8) -> Stub {
    Stub {
        octet: Some(octet),
        is_free: true,
    }
}

impl OctetStream for Stub {
    ghost use Rattle.std.specs.Prelude.{None};

    ghost history = { λ _. None };

    fn read(&mut self, buf: &mut [u8; 1024]) -> Got {
        let Some(octet) = self.octet.take() else {
            return Got::Quiet;
        };
        buf[0] = octet;
        Got::Octets(1)
    }

    fn drop_waiting(&mut self) -> u64 {
        match self.octet.take() {
            Some(_) => 1,
            None => 0,
        }
    }

    fn write(&mut self, _octets: &[u8]) -> bool {
        let was_free = self.is_free;
        self.is_free = false;
        was_free
    }
}

/// A listener at which one control centre of this machine waits. It notes nothing.
#[derive(Drop)]
struct Hall {
    centre: Option<Stub>,
}

impl Listener for Hall {
    type Stream = Stub;

    ghost use Rattle.std.specs.Prelude.{None};
    ghost use Rattle.live.specs.AllowLists.{nobody};

    ghost attempts = { λ _. None };

    ghost refusals = { λ _. record { peers = None; said = nobody } };

    fn accept(&mut self, allow_list: &AllowList) -> Option<Accepted<Stub>> {
        let stream = self.centre.take()?;
        let address = IpAddr::V4(Ipv4Addr::LOCALHOST);
        if allow_list.allows(address) {
            Some(Accepted { address, stream })
        } else {
            None
        }
    }

    fn refused(&self) -> RefusedPeers {
        RefusedPeers {
            count: 0,
            last: None,
        }
    }
}

/// A clock that goes on by 1 ms at each reading, and begins at 7. It notes nothing.
#[derive(Drop)]
struct Steps {
    now: u64,
}

impl Timed for Steps {
    fn shown_ms(&self) -> u64 {
        self.now
    }
}

impl RunClock for Steps {
    ghost use Rattle.std.specs.Prelude.{None};

    ghost moments = { λ _. None };

    ghost walls = { λ _. None };

    fn now_ms(&mut self) -> u64 {
        self.now = self.now.saturating_add(1);
        self.now
    }

    fn wall_ms(&mut self) -> u64 {
        1_709_210_096_789
    }
}

#[test]
fn ends_of_a_live_run(rt: HostRuntime) -> Result<(), Fail> {
    let config = read_config(rt.alloc(), CONFIG, false)?;
    let hall = Hall {
        centre: Some(stream_with(0x68)),
    };
    // The wall clock is given first. Then the listener is looked at, then the connection, then the
    // line.
    let mut port = Live::new(
        stream_with(0xE5),
        hall,
        Steps { now: 0 },
        AllowList::Anyone,
        &config,
    );
    let mut buf = [0; 1024];
    let are_given = matches!(port.next(&mut buf), Next::Wall(_, 1_709_210_096_789))
        && matches!(port.next(&mut buf), Next::Open(_))
        && matches!(port.next(&mut buf), Next::Bytes(_, 1))
        && buf[0] == 0x68
        && matches!(port.next(&mut buf), Next::Line(_, 1))
        && buf[0] == 0xE5;
    assert!(rt; are_given);
    Ok(())
}

#[test]
fn ends_one_by_one(rt: HostRuntime) {
    let mut buf = [0; 1024];
    let mut stream = stream_with(0xE5);
    assert_eq!(rt; stream.read(&mut buf), Got::Octets(1));
    assert_eq!(rt; stream.read(&mut buf), Got::Quiet);
    assert_eq!(rt; stream_with(0xE5).drop_waiting(), 1);
    assert_eq!(rt; stream.drop_waiting(), 0);
    assert!(rt; stream.write(&[0xE5]));
    assert!(rt; !stream.write(&[0xE5]));
    let mut hall = Hall {
        centre: Some(stream_with(0x68)),
    };
    assert!(rt; hall.accept(&AllowList::Anyone).is_some());
    assert!(rt; hall.accept(&AllowList::Anyone).is_none());
    let mut clock = Steps { now: 6 };
    assert_eq!(rt; clock.now_ms(), 7);
    assert_eq!(rt; clock.wall_ms(), 1_709_210_096_789);
}
