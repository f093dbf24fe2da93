//! Visitors over streams in memory.
use live::SyncTimes;
use noted_ends::OneVisitor;
use status::{CentreView, Keeping, LineView, Queue, Snapshot, Visitors};
use std::test::Fail;

/// A run without stations, ten seconds old.
fn snapshot() -> Snapshot<'static> {
    Snapshot {
        version: "1.0",
        now_ms: 10_000,
        started_ms: 0,
        wall_ms: None,
        name: "",
        line: LineView {
            is_there: true,
            was_there: true,
            since_ms: 0,
            cause: None,
        },
        centre: CentreView {
            peer: None,
            is_started: false,
            since_ms: 0,
            unacknowledged: 0,
        },
        queue: Queue {
            taken: 0,
            places: 100,
            oldest_ms: None,
            hour: &[],
        },
        keeping: Keeping::Off,
        lost_by: None,
        syncs: SyncTimes::none(),
        stations: &[],
        latest: &[],
        settings: &[],
    }
}

#[test]
fn a_visitor_gets_the_page_piece_by_piece(rt: HostRuntime) -> Result<(), Fail> {
    let mut answer = Vec::new(rt.alloc());
    let request = b"GET /metrics HTTP/1.1\r\nHost: gateway\r\n\r\n";
    let source = OneVisitor::new(request, &mut answer);
    let mut visitors = Visitors::new(rt.alloc(), source)?;
    for _ in 0..1_000 {
        visitors.turn(10_000, &snapshot());
    }
    drop(visitors);
    let head = b"HTTP/1.1 200 OK\r\nContent-Type: text/plain; version=0.0.4; charset=utf-8\r\n";
    assert!(rt; answer.as_slice().starts_with(head));
    assert!(rt; answer.as_slice().ends_with(b"\n"));
    Ok(())
}
