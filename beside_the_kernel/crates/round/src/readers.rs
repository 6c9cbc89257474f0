//! Subscribers that read an eventfd each.

use anyhow::Result;
use event_manager::{
    EventOps, EventPoller, EventSet, Events, MutEventSubscriber, SubscriberId, SubscriberOps,
};
use linux::eventfd::EventFd;
use measures::bench::{Bench, Measured, expect};
use measures::timing::{REPEATS, Times};
use std::alloc::Global;
use std::sync::Arc;

/// How many writes a repeat makes.
const WRITES: u32 = 4096;

/// Reads its counter at each event, and adds up what it read.
#[derive(Drop)]
pub struct Reader {
    counter: Arc<EventFd>,
    read: u64,
}

impl MutEventSubscriber for Reader {
    ghost use Rattle.event_manager.specs.Exchange.{AsksNothing};

    ghost begins = { λ v exchanges w. Unit {0} };

    ghost serves = { λ v event exchanges w. AsksNothing exchanges };

    fn process<P: EventPoller>(&mut self, _events: Events, _ops: &mut EventOps<P>) {
        self.read = self.read.saturating_add(self.counter.read().unwrap_or(0));
    }

    fn init<P: EventPoller>(&mut self, ops: &mut EventOps<P>) {
        let _ = ops.add(Events::new(&self.counter, EventSet::IN));
    }
}

/// Eventfds, each with the id of its reader.
pub type Counters = Vec<(Arc<EventFd>, SubscriberId)>;

/// Lets so many readers join.
pub fn join<O: SubscriberOps<Subscriber = Reader>>(
    owner: &mut O,
    alloc: Global,
    count: u32,
) -> Result<Counters> {
    let mut counters = Vec::new(alloc);
    for _counter in 0..count {
        let counter = Arc::new(alloc, EventFd::new(0)?)?;
        let reader = Reader {
            counter: Arc::try_clone(&counter)?,
            read: 0,
        };
        let id = owner.add_subscriber(reader)?;
        counters.push((counter, id))?;
    }
    Ok(counters)
}

/// How often all of so many counters are written in a repeat.
pub fn passes<R: Print>(bench: &Bench<R>, count: u32) -> u32 {
    bench.rounds(WRITES / count.max(1))
}

/// Lets the readers leave; refused where they have read another number than was written.
pub fn leave<O: SubscriberOps<Subscriber = Reader>>(
    owner: &mut O,
    counters: Counters,
    passes: u32,
    times: Times,
) -> Result<Measured> {
    let operations = (counters.len() as u64).saturating_mul(u64::from(passes));
    let mut read = 0u64;
    for (_counter, id) in counters {
        read = read.saturating_add(owner.remove_subscriber(id)?.read);
    }
    Ok(Measured {
        times,
        operations,
        count: expect(read, operations.saturating_mul(u64::from(REPEATS)))?,
    })
}
