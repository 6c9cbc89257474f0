//! A caller beside a loop that the kernel's epoll puts to sleep.

use event_manager::{
    Error, EventOps, EventPoller, Events, Job, JobSender, LoopWithSenders, MutEventSubscriber,
    NamedCounter, Registry, RemoteEndpoint, Result, Senders, TrackedManager, with_senders,
};
use linux::epoll::Epoll;
use linux::eventfd::EventFd;
use std::alloc::Global;
use std::process::Abort;
use std::sync::Wait;
use std::thread;
use std::thread::Threads;
use std::time::{Clock, Duration};
use vmm_sys::errno::Errno;

/// The highest value of an eventfd.
const HIGHEST: u64 = 18_446_744_073_709_551_614;

/// How many milliseconds a wait of the kernel's lasts at most, and as often a loop looks for its caller.
const LIMIT: i32 = 5_000;

/// Asks for nothing.
#[derive(Drop)]
struct Idle;

impl MutEventSubscriber for Idle {
    ghost use Rattle.event_manager.specs.Exchange.{AsksNothing};

    ghost begins = { λ v exchanges w. AsksNothing exchanges };

    ghost serves = { λ v event exchanges w. AsksNothing exchanges };

    fn process<P: EventPoller>(&mut self, _events: Events, _ops: &mut EventOps<P>) {}

    fn init<P: EventPoller>(&mut self, _ops: &mut EventOps<P>) {}
}

/// Replies its number.
#[derive(Drop)]
struct Number(u64);

impl Job<Idle> for Number {
    type Reply = u64;

    ghost use Rattle.std.specs.Prelude.{◌≡◌, []};

    ghost may = { λ self steps reply. steps ≡ [] };

    fn call<P: EventPoller, R: Wait + Clock>(
        self,
        _registry: &mut Registry<Idle, P>,
        _rt: &R,
    ) -> u64 {
        self.0
    }
}

/// What the loop does beside a caller.
#[derive(Clone, Copy, PartialEq, Eq)]
enum Act {
    /// It sleeps in the kernel before the caller calls, and is run once.
    Sleep,
    /// It ends while the caller waits for its reply.
    Close,
    /// Its own thread sends while its counter is full, and once more behind a run.
    Fill,
}

/// Sends while the counter is full, and once more behind a run.
fn send_to_a_full_counter<N: NamedCounter, P: EventPoller, R: Wait + Clock + Abort>(
    rt: &R,
    manager: &mut TrackedManager<Idle, Number, N, P>,
) -> Result<()> {
    let endpoint = manager.remote_endpoint()?;
    let full = Err(Error::EventFd(Errno::EAGAIN));
    let refused = endpoint.fire(Number(1), rt).map(|ticket| ticket.number());
    assert_eq!(rt; refused, full);
    assert_eq!(rt; endpoint.kick(rt).map(|()| 0), full);
    assert_eq!(rt; manager.run_with_timeout(LIMIT, rt), Ok(1));
    assert_eq!(rt; endpoint.fire(Number(2), rt)?.number(), 1);
    Ok(())
}

/// Expects that a job waits before long.
fn expect_waiting<N: NamedCounter, R: Wait + Clock + Abort>(
    rt: &R,
    endpoint: &RemoteEndpoint<Idle, Number, N>,
) {
    for _look in 0..LIMIT {
        if endpoint.pending() == Some(1) {
            return;
        }
        thread::sleep(rt, Duration::from_millis(1));
    }
    panic!(rt; "no job waits");
}

impl<R: Wait + Clock + Abort> LoopWithSenders<Idle, Number, Act, R> for Act {
    fn begin<N: NamedCounter, P: EventPoller>(
        &mut self,
        rt: &R,
        alloc: Global,
        manager: &mut TrackedManager<Idle, Number, N, P>,
    ) -> Result<Vec<Act>> {
        if *self == Act::Fill {
            send_to_a_full_counter(rt, manager)?;
            return Ok(Vec::new(alloc));
        }
        Ok(vec![in alloc; *self]?)
    }

    fn run<N: NamedCounter, P: EventPoller>(
        &mut self,
        rt: &R,
        manager: &mut TrackedManager<Idle, Number, N, P>,
        _senders: &Senders,
    ) -> Result<()> {
        if *self == Act::Close {
            expect_waiting(rt, &manager.remote_endpoint()?);
            return Ok(());
        }
        assert_eq!(rt; manager.run_with_timeout(LIMIT, rt), Ok(1));
        Ok(())
    }
}

impl<R: Wait + Clock> JobSender<Idle, Number, Result<u64>, R> for Act {
    fn send<N: NamedCounter>(
        self,
        endpoint: &RemoteEndpoint<Idle, Number, N>,
        rt: &R,
    ) -> Result<u64> {
        if self == Act::Sleep {
            thread::sleep(rt, Duration::from_millis(100));
        }
        endpoint.call_blocking(Number(7), rt)
    }
}

/// What the caller is answered, if there is one, and how many tickets were issued and jobs taken.
fn answers_of<R: Threads + Wait + Clock + Abort + Copy + Sync + Drop>(
    rt: &R,
    alloc: Global,
    value: u64,
    act: Act,
) -> (Option<Result<u64>>, u64, u64) {
    let counter = EventFd::new(0).expect(rt, "an eventfd");
    counter.write(value).expect(rt, "it has room");
    let epoll = Epoll::new(alloc, 16).expect(rt, "an epoll instance");
    let mut body = act;
    let ended = with_senders(rt, alloc, epoll, counter, &mut body).expect(rt, "a manager");
    assert_eq!(rt; ended.ran, Ok(()));
    let mut sent = ended.sent;
    (sent.pop(), ended.issued, ended.taken)
}

#[test]
fn a_job_of_another_thread_ends_a_wait_of_the_kernel(rt: HostRuntime) {
    let answers = answers_of(&rt, rt.alloc(), 0, Act::Sleep);
    assert_eq!(rt; answers, (Some(Ok(7)), 1, 1));
}

#[test]
fn a_close_answers_a_caller(rt: HostRuntime) {
    let answers = answers_of(&rt, rt.alloc(), 0, Act::Close);
    assert_eq!(rt; answers, (Some(Err(Error::ChannelRecv)), 1, 0));
}

#[test]
fn a_full_eventfd_refuses_a_send(rt: HostRuntime) {
    let answers = answers_of(&rt, rt.alloc(), HIGHEST, Act::Fill);
    assert_eq!(rt; answers, (None, 1, 1));
}
