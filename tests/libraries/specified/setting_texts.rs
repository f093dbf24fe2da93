//! Settings: the crate `settings`.
use gateway::Config;
use settings::{ConfigFault, LiveSettings, read_config, read_live_config};
use std::test::Fail;

/// One station, and the ends of a live run.
const TEXT: &[u8] = b"[line]
link = 1
cause = 1
ca = 1
ioa = 2
queue = 100
[[station]]
address = 1
ca = 1
[live]
line = 'tcp:10.0.0.1:4001'
listen = '0.0.0.0:2404'
";

#[test]
fn settings_of_a_file(rt: HostRuntime) -> Result<(), Fail> {
    let alloc = rt.alloc();
    assert!(rt; has_values(&read_config(alloc, TEXT, true)?));
    // t2 is less than t1.
    let wrong =
        b"[line]\nlink = 1\ncause = 1\nca = 1\nioa = 2\n[tcp]\nt1_ms = 15000\nt2_ms = 15000\n";
    assert!(rt;
        matches!(
            read_config(alloc, wrong, false).err(),
            Some(ConfigFault::Key("tcp.t2_ms"))
        )
    );
    // A live run has to learn where its line is.
    let nowhere =
        b"[line]\nlink = 1\ncause = 1\nca = 1\nioa = 2\n[[station]]\naddress = 1\nca = 1\n";
    assert!(rt; read_config(alloc, nowhere, false).is_ok());
    assert!(rt;
        matches!(
            read_config(alloc, nowhere, true).err(),
            Some(ConfigFault::Key("live.line"))
        )
    );
    let (_, live) = read_live_config(alloc, TEXT)?;
    assert!(rt; is_place(&live, "tcp:10.0.0.1:4001", "0.0.0.0:2404"));
    Ok(())
}

/// Whether a value that the file has, and two that it leaves out, are there.
fn has_values(config: &Config) -> bool {
    config.line().queue == 100 && config.line().answer_ms == 200 && config.tcp().k == 12
}

/// Whether a live run finds its line and its control centre there.
fn is_place(live: &LiveSettings, line: &str, listen: &str) -> bool {
    live.line.as_str() == line && live.listen.as_str() == listen
}
