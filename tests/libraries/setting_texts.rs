//! The values that files of settings give, and where a live run finds its ends. checks/faults.py
//! shows which faults are reported.
use asdu::{CaSize, CauseSize, IoaSize, Sizes};
use ft12::LinkSize;
use gateway::{LineSettings, Silence, StationSettings, TcpSettings};
use settings::{read_config, read_live_config};
use std::alloc::Global;
use std::test::Fail;

const CONFIG_A: &str =
    "[line]\nlink = 1\ncause = 1\nca = 1\nioa = 2\nqueue = 100\n[[station]]\naddress = 1\nca = 1\n";

/// Each key with another value than its default, most of them the greatest.
const CONFIG_FULL: &str =
    "[line]\nlink = 2\ncause = 2\nca = 2\nioa = 3\nanswer_ms = 60000\nretries = 0\n\
    silence = \"reset\"\nburst = 255\nqueue = 65535\n\
    [tcp]\nk = 32767\nw = 1\nt1_ms = 255000\nt2_ms = 254999\n\
    t3_ms = 86400000\nselect_ms = 600000\nmax_age_ms = 3600000\n\
    [[station]]\naddress = 65534\nca = 65533\nselect = true\n\
    [[station]]\naddress = 65533\nca = 65534\n[live]\nline = \"anything\"\nlisten = \"\"\n";

/// Settings, and the values that they give.
const VALUES: [(&str, LineSettings, TcpSettings, &[StationSettings]); 2] = [
    (
        CONFIG_A,
        LineSettings {
            link: LinkSize::One,
            sizes: Sizes {
                cause: CauseSize::One,
                ca: CaSize::One,
                ioa: IoaSize::Two,
            },
            answer_ms: 200,
            retries: 3,
            silence: Silence::Hold,
            burst: 8,
            queue: 100,
        },
        TcpSettings {
            k: 12,
            w: 8,
            t1_ms: 15000,
            t2_ms: 10000,
            t3_ms: 20000,
            select_ms: 30000,
            max_age_ms: 10000,
        },
        &[StationSettings {
            address: 1,
            ca: 1,
            select: false,
        }],
    ),
    (
        CONFIG_FULL,
        LineSettings {
            link: LinkSize::Two,
            sizes: Sizes {
                cause: CauseSize::Two,
                ca: CaSize::Two,
                ioa: IoaSize::Three,
            },
            answer_ms: 60000,
            retries: 0,
            silence: Silence::Reset,
            burst: 255,
            queue: 65535,
        },
        TcpSettings {
            k: 32767,
            w: 1,
            t1_ms: 255000,
            t2_ms: 254999,
            t3_ms: 86400000,
            select_ms: 600000,
            max_age_ms: 3600000,
        },
        &[
            StationSettings {
                address: 65534,
                ca: 65533,
                select: true,
            },
            StationSettings {
                address: 65533,
                ca: 65534,
                select: false,
            },
        ],
    ),
];

/// Config A with this table `live` after it.
fn verdict(alloc: Global, live: &str) -> Result<String, Fail> {
    let text = format!(in alloc;
        "[line]\nlink = 1\ncause = 1\nca = 1\nioa = 2\n[[station]]\naddress = 1\nca = 1\n{live}"
    )?;
    match read_live_config(alloc, text.as_bytes()) {
        Ok((_, live)) => {
            let (line, listen) = (live.line.as_str(), live.listen.as_str());
            Ok(format!(in alloc; "{line} {listen}")?)
        }
        Err(fault) => Ok(format!(in alloc; "{fault}")?),
    }
}

/// The table `live`, and the two places, or what is wrong.
static PLACES: [(&'static str, &'static str); 26] = [
    (
        "[live]\nline = \"tcp:server:4001\"\nlisten = \"0.0.0.0:2404\"",
        "tcp:server:4001 0.0.0.0:2404",
    ),
    (
        "[live]\nline = \"unix:l\"\nlisten = \"[::1]:65535\"",
        "unix:l [::1]:65535",
    ),
    (
        "[live]\nline = \"tcp:::1\"\nlisten = \"h:1\"",
        "tcp:::1 h:1",
    ),
    // No place of the line.
    ("", "config: live.line"),
    ("[[live]]", "config: live.line"),
    ("[live]\nlisten = \"h:1\"", "config: live.line"),
    ("[live]\nline = 1\nlisten = 1", "config: live.line"),
    ("[live]\nline = \"h:1\"", "config: live.line"),
    ("[live]\nline = \"tcp:h\"", "config: live.line"),
    ("[live]\nline = \"tcp::1\"", "config: live.line"),
    ("[live]\nline = \"tcp:h:0\"", "config: live.line"),
    ("[live]\nline = \"tcp:h:65536\"", "config: live.line"),
    ("[live]\nline = \"tcp:h:1x\"", "config: live.line"),
    ("[live]\nline = \"tcp:h:\"", "config: live.line"),
    ("[live]\nline = \"unix:\"", "config: live.line"),
    ("[live]\nline = \"TCP:h:1\"", "config: live.line"),
    ("[live]\nline = \"\"\nunknown = 1", "config: live.line"),
    // No place to listen at.
    ("[live]\nline = \"unix:/line\"\n", "config: live.listen"),
    (
        "[live]\nline = \"unix:/line\"\nlisten = true",
        "config: live.listen",
    ),
    (
        "[live]\nline = \"unix:/line\"\nlisten = \"2404\"",
        "config: live.listen",
    ),
    (
        "[live]\nline = \"unix:/line\"\nlisten = \":2404\"",
        "config: live.listen",
    ),
    (
        "[live]\nline = \"unix:/line\"\nlisten = \"h:+1\"",
        "config: live.listen",
    ),
    (
        "[live]\nline = \"unix:/line\"\nlisten = \"h:1 \"",
        "config: live.listen",
    ),
    (
        "[live]\nline = \"unix:/line\"\nlisten = \"tcp:h:\"\nunknown = 1",
        "config: live.listen",
    ),
    // Other faults keep their order.
    (
        "[live]\nline = \"unix:/line\"\nlisten = \"h:1\"\nunknown = 1",
        "config: unknown live.unknown",
    ),
    (
        "[[station]]\naddress = 1\nca = 2\n[live]\nline = 1",
        "config: station.address",
    ),
];

/// Whether the text is read as these settings.
fn reads(
    alloc: Global,
    text: &str,
    line: &LineSettings,
    tcp: &TcpSettings,
    stations: &[StationSettings],
) -> Result<bool, Fail> {
    let config = read_config(alloc, text.as_bytes(), false)?;
    let is_line = *config.line() == *line && *config.tcp() == *tcp;
    Ok(is_line && config.stations() == stations)
}

#[test]
fn settings_are_read(rt: HostRuntime) -> Result<(), Fail> {
    for (text, line, tcp, stations) in VALUES {
        assert!(rt; reads(rt.alloc(), text, &line, &tcp, stations)?);
    }
    for (live, want) in &PLACES {
        assert!(rt; verdict(rt.alloc(), *live)?.as_str() == *want, "{live}");
    }
    Ok(())
}
