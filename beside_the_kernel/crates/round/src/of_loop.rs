//! The rounds of a loop.

use crate::readers::{Counters, Reader, join, leave, passes};
use anyhow::Result;
use event_manager::EventLoop;
use linux::epoll::Epoll;
use measures::bench::{Bench, expect};
use measures::timing::Times;
use std::time::Clock;

// Writes 1 to one counter after the other, so often to each, and runs the loop each time.
fn write_and_run(
    event_loop: &mut EventLoop<Reader, Epoll>,
    counters: &Counters,
    passes: u32,
) -> Result<()> {
    for _pass in 0..passes {
        for (counter, _id) in counters.iter() {
            counter.write(1)?;
            expect(event_loop.run()? as u64, 1)?;
        }
    }
    Ok(())
}

/// Measures a loop with so many readers.
pub fn measure_loop<R: Clock + Print>(bench: &Bench<R>, count: u32) -> Result<()> {
    let alloc = bench.alloc;
    let mut event_loop = EventLoop::new(alloc, Epoll::new(alloc, 256)?)?;
    let counters = join(&mut event_loop, alloc, count)?;
    let passes = passes(bench, count);
    let times = Times::of(
        || write_and_run(&mut event_loop, &counters, passes),
        &bench.rt,
    )?;
    let measured = leave(&mut event_loop, counters, passes, times)?;
    let name = format!(in alloc; "loop, {count} eventfds")?;
    bench.print(name.as_str(), measured)
}
