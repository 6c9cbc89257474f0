//! Timers beside the kernel's epoll: its wait sleeps until one is due, or until another thread arms one.

use linux::epoll::Epoll;
use linux::eventfd::EventFd;
use std::alloc::Global;
use std::process::Abort;
use std::sync::Wait;
use std::thread;
use std::thread::Threads;
use std::time::{Clock, Duration};
use timerfd::{TimedPoller, TimerFd};
use vmm_sys::epoll::{AsRawFd, ControlOperation, EpollEvent, EventSet};
use vmm_sys::errno::Errno;
use vmm_sys::poller::Poller;

/// How many milliseconds a wait lasts at most.
const LIMIT: i32 = 5_000;

/// The word of the timer.
const WORD: u64 = 7;

/// A poller over the kernel, with a timer that it watches.
#[derive(Drop)]
struct Watched<R> {
    timed: TimedPoller<Epoll, R, EventFd>,
    timer: TimerFd<EventFd>,
}

fn open<R: Wait + Clock + Copy + Drop>(rt: &R, alloc: Global) -> Result<Watched<R>, Errno> {
    let mut timed = TimedPoller::new(Epoll::new(alloc, 2)?, EventFd::new(0)?, *rt, alloc)?;
    let timer = TimerFd::new(&timed, rt)?;
    let event = EpollEvent::new(EventSet::IN, WORD);
    timed.ctl(ControlOperation::Add, timer.as_raw_fd(), event)?;
    Ok(Watched { timed, timer })
}

/// How many entries a wait reports, which all are the timer's.
fn wait<R: Wait + Clock + Abort + Drop>(
    rt: &R,
    timed: &mut TimedPoller<Epoll, R, EventFd>,
) -> usize {
    let mut buffer = [EpollEvent::new(EventSet::IN, WORD); 2];
    let count = timed.wait(LIMIT, &mut buffer).expect(rt, "a report");
    assert_eq!(rt; buffer[0].data(), WORD);
    count
}

#[test]
fn a_sleep_of_the_kernel_ends_with_a_report_of_the_timer(rt: HostRuntime) {
    let mut watched = open(&rt, rt.alloc()).expect(&rt, "a timer");
    let armed = watched.timer.reset(Duration::from_millis(2), None, &rt);
    assert_eq!(rt; armed, Ok(()));
    assert_eq!(rt; wait(&rt, &mut watched.timed), 1);
    assert_eq!(rt; watched.timer.wait(&rt), Ok(1));
}

/// Arms the timer once the other thread has had time to fall asleep.
fn arm_later<R: Wait + Clock + Abort>(rt: &R, timer: &TimerFd<EventFd>) {
    thread::sleep(rt, Duration::from_millis(20));
    assert_eq!(rt; timer.reset(Duration::from_nanos(1), None, rt), Ok(()));
}

/// Waits until the timer is reported: the first wait may end before it is due.
fn wait_for_it<R: Wait + Clock + Abort + Drop>(rt: &R, timed: &mut TimedPoller<Epoll, R, EventFd>) {
    let began = rt.monotonic().expect(rt, "the time");
    for _wait in 0..10 {
        if wait(rt, timed) == 1 {
            break;
        }
    }
    let took = rt.monotonic().expect(rt, "the time").saturating_sub(began);
    assert!(rt;
        took < Duration::from_millis(4_000),
        "nothing ends the sleep"
    );
}

fn arm_beside_a_sleep<R: Wait + Clock + Threads + Abort + Copy + Send + Sync + Drop>(
    rt: &R,
    alloc: Global,
) {
    let Watched { mut timed, timer } = open(rt, alloc).expect(rt, "a timer");
    thread::join(rt, || arm_later(rt, &timer), || wait_for_it(rt, &mut timed));
    assert_eq!(rt; timer.wait(rt), Ok(1));
}

#[test]
fn an_arming_by_another_thread_ends_a_sleep_of_the_kernel(rt: HostRuntime) {
    arm_beside_a_sleep(&rt, rt.alloc());
}
