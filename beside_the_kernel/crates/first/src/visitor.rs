//! The loop's side, and who rings and asks from a thread of its own.

use crate::doorman::{Ask, Doorman};
use event_manager::{
    Error, EventPoller, JobSender, LoopWithSenders, NamedCounter, RemoteEndpoint, Result,
    SubscriberId, TrackedManager,
};
use linux::eventfd::EventFd;
use std::alloc::Global;
use std::sync::{Arc, Wait};
use std::time::Clock;

/// A house with a bell.
#[derive(Drop)]
pub struct House {
    pub bell: Arc<EventFd>,
}

/// Rings at the door of this id.
#[derive(Drop)]
pub struct Visitor {
    bell: Arc<EventFd>,
    door: SubscriberId,
}

impl<R: Wait + Clock> LoopWithSenders<Doorman, Ask, Visitor, R> for House {
    fn begin<N: NamedCounter, P: EventPoller>(
        &mut self,
        _rt: &R,
        alloc: Global,
        manager: &mut TrackedManager<Doorman, Ask, N, P>,
    ) -> Result<Vec<Visitor>> {
        let door = manager.add_subscriber(Doorman {
            bell: Arc::try_clone(&self.bell)?,
            asked: Ok(()),
            heard: 0,
        })?;
        manager.subscriber(door)?.asked?;
        let bell = Arc::try_clone(&self.bell)?;
        Ok(vec![in alloc; Visitor { bell, door }]?)
    }
}

impl<R: Wait + Clock> JobSender<Doorman, Ask, Result<[u64; 3]>, R> for Visitor {
    /// Rings, and asks what was heard, three times.
    fn send<N: NamedCounter>(
        self,
        endpoint: &RemoteEndpoint<Doorman, Ask, N>,
        rt: &R,
    ) -> Result<[u64; 3]> {
        let mut told = [0; 3];
        for heard in told.iter_mut() {
            self.bell.write(1).map_err(Error::EventFd)?;
            *heard = endpoint.call_blocking(Ask(self.door), rt)?;
        }
        Ok(told)
    }
}
