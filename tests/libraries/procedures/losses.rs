//! A primary and a secondary station over a line that loses one request or answer.

use super::bench::settings;
use ft12::{LinkSize, encode};
use link::{Master, NoCommands, NoMemory, Outcome, Station};
use std::alloc::Global;

/// What is lost of the exchange with this number.
#[derive(Clone, Copy)]
struct LostExchange {
    exchange: usize,
    request: bool,
}

/// The first octet of the report that an answer brought, if it brought one.
fn reported(outcome: &Outcome<'_>) -> Option<u8> {
    match outcome {
        Outcome::Report(_, report) => report.octets().first().copied(),
        _ => None,
    }
}

/// Octets of the line come: the first octet of the report that they bring.
fn receive(master: &mut Master, octets: &[u8]) -> Option<u8> {
    reported(&master.octets(octets, &mut None))
}

/// The first octets of the reports that the master took, as one number in base 16.
fn taken(master: &mut Master, station: &mut Station, loss: LostExchange) -> u64 {
    let mut taken: u64 = 0;
    let mut now: u64 = 0;
    for exchange in 0..24 {
        let Some(request) = master.next(now, true, &NoCommands) else {
            return taken;
        };
        let lost = exchange == loss.exchange;
        let size = station.size();
        let answer = if lost && loss.request {
            None
        } else {
            station.receive(request.octets.as_slice())
        };
        match answer {
            Some(frame) if !lost => {
                let octets = encode(size, &frame);
                if let Some(octet) = receive(master, octets.as_slice()) {
                    taken = taken.wrapping_mul(16).wrapping_add(u64::from(octet));
                }
            }
            _ => {
                now = now.saturating_add(200);
                let _quiet = master.due(now);
            }
        }
    }
    taken
}

/// A station with five reports.
fn station(alloc: Global) -> Result<Station, NoMemory> {
    let mut station = Station::new(alloc, LinkSize::One, 1);
    report_five(&mut station)?;
    Ok(station)
}

/// Five reports wait from now on.
fn report_five(station: &mut Station) -> Result<(), NoMemory> {
    station.report2(&[1])?;
    station.report2(&[2])?;
    station.report2(&[3])?;
    station.report2(&[4])?;
    station.report2(&[5])
}

/// The reports that a master takes of that station, as one number, and how many the station gave.
fn taken_and_given(alloc: Global, loss: LostExchange) -> Result<(u64, u64), NoMemory> {
    let mut station = station(alloc)?;
    let mut master = Master::new(alloc, settings((0, true, 8)), &[1])?;
    let taken = taken(&mut master, &mut station, loss);
    Ok((taken, station.given()))
}

#[test]
fn each_report_comes_once(rt: HostRuntime) -> Result<(), NoMemory> {
    for exchange in 0..16 {
        for request in [true, false] {
            let loss = LostExchange { exchange, request };
            assert!(rt;
                taken_and_given(rt.alloc(), loss)? == (0x12345, 5),
                "at {exchange}"
            );
        }
    }
    Ok(())
}
