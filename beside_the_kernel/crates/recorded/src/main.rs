//! A run over the kernel's epoll, recorded, and made again where its descriptor isn't.
#![tactic(auto)]

use anyhow::Result;
use event_loop::{
    EventLoop, EventOps, EventPoller, EventSet, Events, MutEventSubscriber, SubscriberId,
    SubscriberOps,
};
use linux::epoll::Epoll;
use linux::eventfd::EventFd;
use poller_records::recording_poller::RecordingPoller;
use poller_records::replay_poller::ReplayPoller;
use poller_records::text::{read_record, write_record};
use std::alloc::Global;
use vmm_sys::epoll::{AsRawFd, Fd};

/// How many entries a record has at most.
const MOST_ENTRIES: usize = 1000;

/// Counts how often something arrived on a descriptor. It is edge-triggered, so it reads nothing.
#[derive(Drop)]
struct Meter {
    watched: Fd,
    arrivals: u64,
}

impl MutEventSubscriber for Meter {
    ghost use Rattle.std.specs.Prelude.{◌≡◌};
    ghost use Rattle.event_loop.specs.CounterEvents.{next_count};
    ghost use Rattle.event_loop.specs.Exchange.{AsksNothing};

    ghost begins = { λ v exchanges w. w ≡ v };

    ghost serves = { λ v event exchanges w. AsksNothing exchanges × (w ≡ record v { arrivals = next_count v.arrivals }) };

    fn process<P: EventPoller>(&mut self, _events: Events, _ops: &mut EventOps<P>) {
        self.arrivals = self.arrivals.saturating_add(1);
    }

    fn init<P: EventPoller>(&mut self, ops: &mut EventOps<P>) {
        let set = EventSet::IN | EventSet::EDGE_TRIGGERED;
        let _ = ops.add(Events::new(&self.watched, set));
    }
}

/// Runs three times; in production the eventfd is written before the first two. Answers how much the meter of the id counted.
fn run_thrice<P: EventPoller>(
    event_loop: &mut EventLoop<Meter, P>,
    id: SubscriberId,
    written: Option<&EventFd>,
) -> Result<u64> {
    for _run in 0..2 {
        if let Some(counter) = written {
            counter.write(1)?;
        }
        event_loop.run()?;
    }
    event_loop.run_with_timeout(10)?;
    Ok(event_loop.subscriber(id)?.arrivals)
}

/// What the meter counts over the record of this text, and at which entry the run diverged from it, if it did.
fn on_a_desk(text: &str, watched: Fd, alloc: Global) -> Result<(u64, Option<usize>)> {
    let poller = ReplayPoller::new(read_record(alloc, text)?);
    let mut event_loop = EventLoop::new(alloc, poller)?;
    let meter = Meter {
        watched,
        arrivals: 0,
    };
    let id = event_loop.add_subscriber(meter)?;
    let arrivals = run_thrice(&mut event_loop, id, None)?;
    Ok((arrivals, event_loop.poller().diverged()))
}

fn main(rt: HostRuntime) -> Result<()> {
    let alloc = rt.alloc();
    let poller = RecordingPoller::new(Epoll::new(alloc, 16)?, alloc, MOST_ENTRIES)?;
    let mut event_loop = EventLoop::new(alloc, poller)?;
    let counter = EventFd::new(0)?;
    let watched = Fd::new(counter.as_raw_fd())?;
    let meter = Meter {
        watched,
        arrivals: 0,
    };
    let id = event_loop.add_subscriber(meter)?;
    let arrivals = run_thrice(&mut event_loop, id, Some(&counter))?;
    let text = write_record(alloc, event_loop.poller().record())?;
    print!(rt; "in production: {arrivals} arrivals\n{text}")?;
    let (again, left) = on_a_desk(&text, watched, alloc)?;
    let has_diverged = left.is_some();
    Ok(println!(rt; "on a desk: {again} arrivals, diverged: {has_diverged}")?)
}
