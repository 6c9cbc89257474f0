//! What a write to one of N eventfds costs, with the run that delivers it and its owner's read, over the kernel's epoll: of a
//! loop, and of a manager.
#![tactic(auto)]

mod of_loop;
mod of_manager;
mod readers;

use anyhow::Result;
use measures::arguments::{Family, Wanted};
use measures::bench::Bench;
use of_loop::measure_loop;
use of_manager::measure_manager;

/// What picks the rounds of a loop.
const LOOP: Family = Family("loop");

/// What picks those of a manager.
const MANAGER: Family = Family("manager");

/// How many eventfds there are: each number divides 4096.
const COUNTS: [u32; 4] = [1, 16, 256, 4096];

fn main(rt: HostRuntime) -> Result<()> {
    let alloc = rt.alloc();
    let wanted = Wanted::from_arguments(&rt, &[LOOP, MANAGER])?;
    let bench = Bench { rt, alloc, wanted };
    bench.print_heading()?;
    for count in COUNTS {
        if bench.wanted.has_family(LOOP) {
            measure_loop(&bench, count)?;
        }
        if bench.wanted.has_family(MANAGER) {
            measure_manager(&bench, count)?;
        }
    }
    Ok(())
}
