//! The rounds of a manager, whose endpoint is an eventfd too.

use crate::readers::{Counters, Reader, join, leave, passes};
use anyhow::Result;
use event_manager::{
    EventManager, EventPoller, Ledgers, NamedCounter, NoJob, WithLedgers, with_ledgers,
};
use linux::epoll::Epoll;
use linux::eventfd::EventFd;
use measures::bench::{Bench, Measured, expect};
use measures::timing::Times;
use std::alloc::Global;
use std::sync::Wait;
use std::time::Clock;

/// A manager of readers.
type Manager<N, P> = EventManager<Reader, NoJob, N, P>;

/// The rounds: all that they need but the manager, which is made of a counter and ledgers.
struct Rounds<'a, R> {
    epoll: Epoll,
    alloc: Global,
    count: u32,
    passes: u32,
    rt: &'a R,
}

impl<R: Wait + Clock> WithLedgers for Rounds<'_, R> {
    type Output = Result<Measured>;

    fn run<N: NamedCounter + Send + Sync>(
        self,
        counter: N,
        ledgers: Ledgers<N>,
    ) -> Result<Measured> {
        let Rounds {
            epoll,
            alloc,
            count,
            passes,
            rt,
        } = self;
        let mut manager = Manager::<N, _>::new(alloc, epoll, counter, ledgers)?;
        take(&mut manager, alloc, count, passes, rt)
    }
}

/// Takes the measure on a new manager.
fn take<N: NamedCounter, P: EventPoller, R: Wait + Clock>(
    manager: &mut Manager<N, P>,
    alloc: Global,
    count: u32,
    passes: u32,
    rt: &R,
) -> Result<Measured> {
    let counters = join(manager, alloc, count)?;
    let times = Times::of(|| write_and_run(manager, &counters, passes, rt), rt)?;
    leave(manager, counters, passes, times)
}

// Writes 1 to one counter after the other, so often to each, and runs the manager each time.
fn write_and_run<N: NamedCounter, P: EventPoller, R: Wait + Clock>(
    manager: &mut Manager<N, P>,
    counters: &Counters,
    passes: u32,
    rt: &R,
) -> Result<()> {
    for _pass in 0..passes {
        for (counter, _id) in counters.iter() {
            counter.write(1)?;
            expect(manager.run(rt)? as u64, 1)?;
        }
    }
    Ok(())
}

/// Measures a manager with so many readers.
pub fn measure_manager<R: Wait + Clock + Print>(bench: &Bench<R>, count: u32) -> Result<()> {
    let alloc = bench.alloc;
    let (epoll, counter) = (Epoll::new(alloc, 256)?, EventFd::new(0)?);
    let rounds = Rounds {
        epoll,
        alloc,
        count,
        passes: passes(bench, count),
        rt: &bench.rt,
    };
    let measured = with_ledgers(counter, rounds)?;
    let name = format!(in alloc; "manager, {count} eventfds")?;
    bench.print(name.as_str(), measured)
}
