//! Scripts: the crate `sim`.
use settings::read_config;
use sim::{SimFault, read_script, simulate, simulate_watched};
use std::alloc::Global;
use std::io;
use std::io::{ErrorKind, Write};
use std::test::Fail;

/// One station.
const CONFIG: &[u8] = b"[line]
link = 1
cause = 1
ca = 1
ioa = 2
queue = 100
[[station]]
address = 1
ca = 1
";

/// A report, whose answer is lost once.
const SCRIPT: &[u8] = b"turns 8
report 1 2 01010301640001
lose answer 3
";

const SIMULATED: &[u8] = b"1 > S 1049014A16
2 > T 68040B000000
3 > S 1040014116
4 > S 107B017C16
204 > S 107B017C16
205 > S 105B015C16
205 > T 680E0000000001010300010064000001
207 > S 107B017C16
station 1 reports 1 given 1 accepted 0
connection 1 objects 1
";

/// Takes so many octets, one a write, and then fails.
#[derive(Drop)]
struct Failing {
    octets: u64,
}

impl Write for Failing {
    fn write(&mut self, buf: &[u8]) -> io::Result<usize> {
        if self.octets == 0 {
            return Err(io::Error::from(ErrorKind::BrokenPipe));
        }
        if buf.is_empty() {
            return Ok(0);
        }
        self.octets -= 1;
        Ok(1)
    }

    fn flush(&mut self) -> io::Result<()> {
        Ok(())
    }
}

/// What a run of the script prints to a writer that takes so many octets.
fn simulated(alloc: Global, octets: u64) -> Result<Result<(), SimFault>, Fail> {
    let config = read_config(alloc, CONFIG, false)?;
    let script = read_script(alloc, &config, SCRIPT)?;
    Ok(simulate(alloc, &config, &script, &mut Failing { octets }))
}

#[test]
fn a_script_is_simulated(rt: HostRuntime) -> Result<(), Fail> {
    let alloc = rt.alloc();
    let config = read_config(alloc, CONFIG, false)?;
    let script = read_script(alloc, &config, SCRIPT)?;
    let mut out = Vec::new(alloc);
    simulate(alloc, &config, &script, &mut out)?;
    assert!(rt; out.as_slice() == SIMULATED);
    // A run of one stride shows nothing.
    let (mut watched, mut logged) = (Vec::new(alloc), Vec::new(alloc));
    simulate_watched(alloc, &config, &script, &mut watched, &mut logged)?;
    assert!(rt; watched.as_slice() == SIMULATED && logged.is_empty());
    // `Write` comes where a write failed, and only there.
    let all = SIMULATED.len() as u64;
    assert!(rt; simulated(alloc, all)? == Ok(()));
    assert!(rt; simulated(alloc, all - 1)? == Err(SimFault::Write));
    assert!(rt; simulated(alloc, 0)? == Err(SimFault::Write));
    Ok(())
}
