//! A subscriber that counts the rings of its bell, and a job that asks how many.

use event_manager::{
    EventOps, EventPoller, EventSet, Events, Job, MutEventSubscriber, Registry, Result,
    SubscriberId, SubscriberOps,
};
use linux::eventfd::EventFd;
use std::sync::{Arc, Wait};
use std::time::Clock;

/// Counts how often its bell was rung.
#[derive(Drop)]
pub struct Doorman {
    pub bell: Arc<EventFd>,
    pub asked: Result<()>,
    pub heard: u64,
}

impl MutEventSubscriber for Doorman {
    ghost use Rattle.std.specs.Prelude.{ℕ, ◌≡◌, ◌+◌, min};
    ghost use Rattle.event_manager.specs.Exchange.{AsksNothing};

    ghost begins = { λ v exchanges w. w ≡ record v { asked = w.asked } };

    ghost serves = { λ v event exchanges w. AsksNothing exchanges × ((rings : ℕ) × (w ≡ record v { heard = min (v.heard + rings) 18446744073709551615 })) };

    fn process<P: EventPoller>(&mut self, _events: Events, _ops: &mut EventOps<P>) {
        let rings = self.bell.read().unwrap_or(0);
        self.heard = self.heard.saturating_add(rings);
    }

    fn init<P: EventPoller>(&mut self, ops: &mut EventOps<P>) {
        self.asked = ops.add(Events::new(&self.bell, EventSet::IN));
    }
}

/// Asks the doorman of this id how many rings it has heard: 0 where nobody has the id.
#[derive(Drop)]
pub struct Ask(pub SubscriberId);

impl Job<Doorman> for Ask {
    type Reply = u64;

    ghost use Rattle.std.specs.Prelude.{◌≡◌, []};

    ghost may = { λ self steps reply. steps ≡ [] };

    fn call<P: EventPoller, R: Wait + Clock>(
        self,
        registry: &mut Registry<Doorman, P>,
        _rt: &R,
    ) -> u64 {
        match registry.subscriber(self.0) {
            Ok(doorman) => doorman.heard,
            Err(_) => 0,
        }
    }
}
