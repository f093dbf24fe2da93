//! A secondary station, by itself.

use ft12::{Frame, LinkSize};
use link::{NoMemory, Station};
use std::alloc::Global;

const STATUS: [u8; 5] = [0x10, 0x49, 0x01, 0x4A, 0x16];

const RESET: [u8; 5] = [0x10, 0x40, 0x01, 0x41, 0x16];

const POLL: [u8; 5] = [0x10, 0x7B, 0x01, 0x7C, 0x16];

/// What a request is answered with.
#[derive(Clone, Copy)]
enum ExpectedAnswer<'a> {
    Nothing,
    Single,
    /// A frame of fixed length with this control octet.
    Fixed(u8),
    /// A report with this control octet.
    Report(u8, &'a [u8]),
}

/// A call, and what it is to answer.
#[derive(Clone, Copy)]
enum Step<'a> {
    /// A report of class 1 waits from now on.
    Report1(&'a [u8]),
    Report2(&'a [u8]),
    /// Octets of the line come, and are answered so.
    Receives(&'a [u8], ExpectedAnswer<'a>),
    /// So many reports were given by now.
    Given(u64),
}

/// Whether this is the answer of station 1.
fn is_answer(answer: &Option<Frame>, wanted: ExpectedAnswer<'_>) -> bool {
    match (answer, wanted) {
        (None, ExpectedAnswer::Nothing) => true,
        (Some(Frame::Single), ExpectedAnswer::Single) => true,
        (Some(Frame::Fixed { c, a: 1 }), ExpectedAnswer::Fixed(control)) => *c == control,
        (Some(Frame::Data { c, a: 1, body }), ExpectedAnswer::Report(control, octets)) => {
            *c == control && body.as_slice() == octets
        }
        _ => false,
    }
}

/// Whether the station can give this report.
fn fits(station: &Station, report: &[u8]) -> bool {
    matches!(station.size(), LinkSize::One) && report.len() <= 253
}

/// Makes the call, and says whether the answer was the one.
fn is_right(station: &mut Station, step: &Step) -> Result<bool, NoMemory> {
    match step {
        Step::Report1(octets) => {
            if !fits(station, octets) {
                return Ok(false);
            }
            station.report1(octets)?;
        }
        Step::Report2(octets) => {
            if !fits(station, octets) {
                return Ok(false);
            }
            station.report2(octets)?;
        }
        Step::Receives(octets, wanted) => return Ok(is_answer(&station.receive(octets), *wanted)),
        Step::Given(count) => return Ok(station.given() == *count),
    }
    Ok(true)
}

/// What happens to a station.
const SCRIPTS: [(&str, &[Step<'static>]); 3] = [
    (
        "a report is given once",
        &[
            Step::Report2(&[1, 2, 3]),
            Step::Receives(&POLL, ExpectedAnswer::Nothing),
            Step::Receives(&STATUS, ExpectedAnswer::Fixed(0x0B)),
            Step::Receives(&RESET, ExpectedAnswer::Single),
            Step::Receives(&POLL, ExpectedAnswer::Report(0x08, &[1, 2, 3])),
            Step::Receives(&POLL, ExpectedAnswer::Report(0x08, &[1, 2, 3])),
            Step::Given(1),
            Step::Receives(&[0x10, 0x5B, 0x01, 0x5C, 0x16], ExpectedAnswer::Single),
        ],
    ),
    (
        "class 1 sets ACD",
        &[
            Step::Report1(&[7]),
            Step::Report1(&[8]),
            Step::Receives(&STATUS, ExpectedAnswer::Fixed(0x2B)),
            Step::Receives(&RESET, ExpectedAnswer::Fixed(0x20)),
            Step::Receives(&POLL, ExpectedAnswer::Fixed(0x29)),
            Step::Receives(
                &[0x10, 0x5A, 0x01, 0x5B, 0x16],
                ExpectedAnswer::Report(0x28, &[7]),
            ),
            Step::Receives(
                &[0x10, 0x7A, 0x01, 0x7B, 0x16],
                ExpectedAnswer::Report(0x08, &[8]),
            ),
            Step::Given(2),
        ],
    ),
    (
        "other requests",
        &[
            Step::Receives(&[0x10, 0x49, 0x02, 0x4B, 0x16], ExpectedAnswer::Nothing),
            Step::Receives(&[0x10, 0x0B, 0x01, 0x0C, 0x16], ExpectedAnswer::Nothing),
            Step::Receives(
                &[0x10, 0x49, 0x01, 0x4A, 0x16, 0xE5],
                ExpectedAnswer::Nothing,
            ),
            Step::Receives(&[0x10, 0x44, 0x01, 0x45, 0x16], ExpectedAnswer::Fixed(0x0F)),
        ],
    ),
];

/// How many of the calls of a new station, in their order, answer what they are to.
fn count_of_answers(alloc: Global, steps: &[Step]) -> Result<usize, NoMemory> {
    let mut station = Station::new(alloc, LinkSize::One, 1);
    count_right(&mut station, steps)
}

fn count_right(station: &mut Station, steps: &[Step]) -> Result<usize, NoMemory> {
    let mut count: usize = 0;
    for step in steps {
        if !is_right(station, step)? {
            return Ok(count);
        }
        count = count.wrapping_add(1);
    }
    Ok(count)
}

#[test]
fn calls_answer_in_their_order(rt: HostRuntime) -> Result<(), NoMemory> {
    for (name, steps) in SCRIPTS {
        assert_eq!(rt; count_of_answers(rt.alloc(), steps)?, steps.len(), "{name}");
    }
    Ok(())
}
