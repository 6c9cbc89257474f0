//! The kernel's epoll, as a poller.

ghost use Rattle.std.specs.Prelude.{OnOk, pos, ◌≤ℤ◌};
ghost use base.Stored.{gnil};

use libc::net;
use os::FromRawFd;
use std::alloc::Global;
use std::os::fd::{AsRawFd, OwnedFd};
use vmm_sys::epoll::{ControlOperation, EpollEvent, EventSet, RawFd};
use vmm_sys::errno::Errno;
use vmm_sys::poller::Poller;

/// Whether the system agreed; else the number with which it refused.
pub(crate) fn agreed(answer: i32) -> Result<(), Errno>
    ensures { OnOk result (pos 0 ≤ℤ answer) }
{
    if answer < 0 {
        return Err(Errno(os::errno()));
    }
    Ok(())
}

/// An epoll instance of the kernel's.
#[derive(Drop)]
pub struct Epoll {
    instance: OwnedFd,
    report: Vec<os::EpollEvent>,
}

impl Epoll {
    /// An instance that watches nothing, with room for so many events of a report. `EINVAL`: for none. `ENOMEM`: memory was
    /// refused; or the number with which the system refuses.
    pub fn new(alloc: Global, room: usize) -> Result<Epoll, Errno> {
        if room == 0 {
            return Err(Errno::EINVAL);
        }
        let empty = os::EpollEvent { events: 0, data: 0 };
        let Ok(report) = vec![in alloc; empty; room] else {
            return Err(Errno::ENOMEM);
        };
        let fd = net::epoll_create1(net::EPOLL_CLOEXEC);
        agreed(fd)?;
        Ok(Epoll {
            instance: unsafe { OwnedFd::from_raw_fd(fd) },
            report,
        })
    }
}

/// That of the instance, which another poller can watch.
impl vmm_sys::epoll::AsRawFd for Epoll {
    ghost descriptor = { λ e. ⟦<OwnedFd as vmm_sys::epoll::AsRawFd>⟧.descriptor e.instance };

    fn as_raw_fd(&self) -> RawFd {
        vmm_sys::epoll::AsRawFd::as_raw_fd(&self.instance)
    }
}

impl Poller for Epoll {
    ghost use base.Stored.{Gv};

    // The kernel's instance changes by itself, so a value of this poller says nothing of it.
    ghost meaning = { λ _. gnil };

    ghost may_ctl = { λ before op fd event answer after. Unit {0} };

    ghost may_wait = { λ before ms room answer entries after. Unit {0} };

    fn ctl(&mut self, op: ControlOperation, fd: RawFd, event: EpollEvent) -> Result<(), Errno> {
        let op = match op {
            ControlOperation::Add => net::EPOLL_CTL_ADD,
            ControlOperation::Modify => net::EPOLL_CTL_MOD,
            ControlOperation::Delete => net::EPOLL_CTL_DEL,
        };
        let instance = self.instance.as_raw_fd();
        agreed(os::epoll_ctl(instance, op, fd, event.events(), event.data()))
    }

    fn wait(&mut self, ms: i32, buffer: &mut [EpollEvent]) -> Result<usize, Errno> {
        let room = buffer.len().min(self.report.len());
        let instance = self.instance.as_raw_fd();
        let count = os::epoll_wait(instance, &mut self.report[..room], ms);
        let errno = os::errno();
        if errno != 0 {
            return Err(Errno(errno));
        }
        for (entry, told) in buffer.iter_mut().zip(self.report.iter()).take(count) {
            *entry = EpollEvent::new(EventSet::from_bits_retain(told.events), told.data);
        }
        Ok(count)
    }
}
