//! Examples of the line procedures, with their octets.

mod bench;
mod lines;
mod losses;
mod resets;
mod spoilt;
mod starts;
mod stations;

use bench::{Bench, Script};
use link::NoMemory;
use std::alloc::Global;

// Each list is gone through by a function of its own module: what a function costs the proof grows
// faster than the constants that it names.
#[test]
fn calls_answer_in_their_order(rt: HostRuntime) -> Result<(), NoMemory> {
    let alloc = rt.alloc();
    assert_eq!(rt; lines::first_wrong(alloc)?, None);
    assert_eq!(rt; resets::first_wrong(alloc)?, None);
    assert_eq!(rt; spoilt::first_wrong(alloc)?, None);
    assert_eq!(rt; starts::first_wrong(alloc)?, None);
    Ok(())
}

/// The first of these whose calls aren't all answered as they are to be.
fn first_wrong_of(
    alloc: Global,
    scripts: &[Script<'static>],
) -> Result<Option<&'static str>, NoMemory> {
    for (name, ways, is_pair, steps) in scripts {
        let mut line = Bench::new(alloc, *ways, *is_pair)?;
        if line.count_of_answers(steps) < steps.len() {
            return Ok(Some(*name));
        }
    }
    Ok(None)
}
