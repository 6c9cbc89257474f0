//! A semaphore, and a descriptor whose number is closed and given again.

use event_manager::{
    Error, EventLoop, EventOps, EventPoller, EventSet, Events, MutEventSubscriber, SubscriberOps,
};
use linux::epoll::Epoll;
use linux::eventfd::EventFd;
use std::alloc::Global;
use std::process::Abort;
use vmm_sys::epoll::{AsRawFd, RawFd};
use vmm_sys::errno::Errno;

/// How many milliseconds a run waits at most.
const LIMIT: i32 = 5_000;

/// Reads its counter at each event; counts the events, and adds up what it read.
#[derive(Drop)]
struct Reader {
    counter: Option<EventFd>,
    events: u32,
    read: u64,
}

/// A reader that has seen no event.
fn make_reader(counter: EventFd) -> Reader {
    Reader {
        counter: Some(counter),
        events: 0,
        read: 0,
    }
}

impl MutEventSubscriber for Reader {
    ghost use Rattle.event_manager.specs.Exchange.{AsksNothing};

    ghost begins = { λ v exchanges w. Unit {0} };

    ghost serves = { λ v event exchanges w. AsksNothing exchanges };

    fn process<P: EventPoller>(&mut self, _events: Events, _ops: &mut EventOps<P>) {
        self.events = self.events.saturating_add(1);
        if let Some(counter) = &self.counter {
            self.read = self.read.saturating_add(counter.read().unwrap_or(0));
        }
    }

    fn init<P: EventPoller>(&mut self, ops: &mut EventOps<P>) {
        if let Some(counter) = &self.counter {
            let _ = ops.add(Events::new(counter, EventSet::IN));
        }
    }
}

/// A loop over the kernel's epoll.
fn loop_of<R: Abort>(rt: &R, alloc: Global) -> EventLoop<Reader, Epoll> {
    let epoll = Epoll::new(alloc, 16).expect(rt, "an epoll instance");
    EventLoop::new(alloc, epoll).expect(rt, "a loop")
}

/// A new eventfd, of value 0.
fn eventfd<R: Abort>(rt: &R) -> EventFd {
    EventFd::new(0).expect(rt, "an eventfd")
}

#[test]
fn a_semaphore_is_reported_until_it_was_read_as_often_as_its_value(rt: HostRuntime) {
    let mut event_loop = loop_of(&rt, rt.alloc());
    let semaphore = EventFd::semaphore(2).expect(&rt, "a semaphore");
    let id = event_loop
        .add_subscriber(make_reader(semaphore))
        .expect(&rt, "an id");
    assert_eq!(rt; event_loop.run_with_timeout(LIMIT), Ok(1));
    assert_eq!(rt; event_loop.run_with_timeout(LIMIT), Ok(1));
    assert_eq!(rt; event_loop.run_with_timeout(0), Ok(0));
    let reader = event_loop.remove_subscriber(id).expect(&rt, "the reader");
    assert_eq!(rt; (reader.events, reader.read), (2, 2));
}

/// A loop with a reader of whose eventfd the number was closed, and that number; a duplicate goes with it.
fn with_a_closed_one<R: Abort>(
    rt: &R,
    alloc: Global,
) -> (EventLoop<Reader, Epoll>, RawFd, EventFd) {
    let mut event_loop = loop_of(rt, alloc);
    let counter = eventfd(rt);
    let duplicate = counter.try_clone().expect(rt, "a duplicate");
    let number = counter.as_raw_fd();
    let id = event_loop
        .add_subscriber(make_reader(counter))
        .expect(rt, "an id");
    event_loop
        .subscriber_mut(id)
        .expect(rt, "the reader")
        .counter = None;
    let closed = Events::empty_raw(number);
    let answer = event_loop
        .event_ops(id)
        .expect(rt, "its requests")
        .remove(closed);
    assert_eq!(rt; answer, Err(Error::Epoll(Errno::EBADF)));
    assert!(rt; event_loop.remove_subscriber(id).is_ok());
    (event_loop, number, duplicate)
}

#[test]
fn a_closed_descriptor_goes_with_its_owner(rt: HostRuntime) {
    let (mut event_loop, number, _duplicate) = with_a_closed_one(&rt, rt.alloc());
    let counter = eventfd(&rt);
    assert_eq!(rt; counter.as_raw_fd(), number);
    counter.write(3).expect(&rt, "it has room");
    let id = event_loop
        .add_subscriber(make_reader(counter))
        .expect(&rt, "an id");
    assert_eq!(rt; event_loop.run_with_timeout(LIMIT), Ok(1));
    let reader = event_loop.remove_subscriber(id).expect(&rt, "the reader");
    assert_eq!(rt; (reader.events, reader.read), (1, 3));
}

#[test]
fn an_event_of_a_duplicate_goes_to_who_owns_the_number_now(rt: HostRuntime) {
    let (mut event_loop, number, duplicate) = with_a_closed_one(&rt, rt.alloc());
    let counter = eventfd(&rt);
    assert_eq!(rt; counter.as_raw_fd(), number);
    let id = event_loop
        .add_subscriber(make_reader(counter))
        .expect(&rt, "an id");
    duplicate.write(3).expect(&rt, "it has room");
    assert_eq!(rt; event_loop.run_with_timeout(LIMIT), Ok(1));
    drop(duplicate);
    assert_eq!(rt; event_loop.run_with_timeout(0), Ok(0));
    let reader = event_loop.remove_subscriber(id).expect(&rt, "the reader");
    assert_eq!(rt; (reader.events, reader.read), (1, 0));
}
