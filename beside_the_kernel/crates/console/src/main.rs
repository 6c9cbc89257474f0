//! Counts what comes in on standard input, until its end.
#![tactic(auto)]

#[cfg(test)]
mod tests;

use anyhow::Result;
use event_loop::{
    EventLoop, EventOps, EventPoller, EventSet, Events, MutEventSubscriber, SubscriberOps,
};
use linux::epoll::Epoll;
use std::alloc::Global;
use vmm_sys::epoll::{AsRawFd, Fd};

/// For how many runs the console goes on at most.
const MOST_RUNS: u32 = 1_000_000;

/// Counts bytes, and is over at the end of the input, or where it can't be watched.
#[derive(Drop)]
struct Console {
    input: Fd,
    bytes: u64,
    is_over: bool,
}

impl MutEventSubscriber for Console {
    ghost use Rattle.std.specs.Prelude.{◌≡◌, ◌⊎◌, true};
    ghost use Rattle.event_loop.specs.Exchange.{Exchanges, AsksNothing, AsksToRemove};

    ghost begins = { λ v exchanges w. Unit {0} };

    // It has read some, or it is over and asks to be removed.
    ghost serves = { λ v event exchanges w. AsksNothing exchanges ⊎ (AsksToRemove event exchanges × (w ≡ record v { is_over = true })) };

    fn process<P: EventPoller>(&mut self, events: Events, ops: &mut EventOps<P>) {
        let mut bytes = [0u8; 4096];
        let count = libc::read(self.input.as_raw_fd(), &mut bytes);
        if count > 0 {
            self.bytes = self.bytes.saturating_add(count as u64);
        } else {
            self.is_over = true;
            let _ = ops.remove(events);
        }
    }

    fn init<P: EventPoller>(&mut self, ops: &mut EventOps<P>) {
        self.is_over = ops.add(Events::new(&self.input, EventSet::IN)).is_err();
    }
}

/// How many bytes come in, until the end.
fn count_bytes(alloc: Global, input: Fd) -> Result<u64> {
    let epoll = Epoll::new(alloc, 16)?;
    let mut event_loop = EventLoop::new(alloc, epoll)?;
    let id = event_loop.add_subscriber(Console {
        input,
        bytes: 0,
        is_over: false,
    })?;
    for _run in 0..MOST_RUNS {
        if event_loop.subscriber(id)?.is_over {
            break;
        }
        event_loop.run()?;
    }
    Ok(event_loop.subscriber(id)?.bytes)
}

fn main(rt: HostRuntime) -> Result<()> {
    let bytes = count_bytes(rt.alloc(), Fd::of(&rt.stdin())?)?;
    Ok(println!(rt; "{bytes} bytes")?)
}
