//! The settings of a gateway in a test.

use asdu::{CaSize, CauseSize, IoaSize, Sizes};
use ft12::LinkSize;
use gateway::{Config, LineSettings, Silence, StationSettings, TcpSettings};
use std::alloc::{AllocError, Global};

const STATION: StationSettings = StationSettings {
    address: 1,
    ca: 1,
    select: false,
};

/// One station, whose answer is awaited for so long, in ms.
pub(crate) fn config(alloc: Global, answer_ms: u64) -> Result<Config, AllocError> {
    let line = LineSettings {
        link: LinkSize::One,
        sizes: Sizes {
            cause: CauseSize::One,
            ca: CaSize::One,
            ioa: IoaSize::Two,
        },
        answer_ms,
        retries: 3,
        silence: Silence::Hold,
        burst: 8,
        queue: 100,
    };
    let tcp = TcpSettings {
        k: 12,
        w: 8,
        t1_ms: 15000,
        t2_ms: 10000,
        t3_ms: 20000,
        select_ms: 30000,
        max_age_ms: 10000,
    };
    Ok(Config::new(line, tcp, Vec::from_slice(alloc, &[STATION])?))
}
