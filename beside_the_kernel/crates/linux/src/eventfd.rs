//! The kernel's eventfd, as a counter.

use crate::epoll::agreed;
use libc::net;
use os::FromRawFd;
use std::os::fd::OwnedFd;
use std::sync::Wait;
use std::time::Clock;
use vmm_sys::counter::{Bell, Counter};
use vmm_sys::epoll::{AsRawFd, RawFd};
use vmm_sys::errno::Errno;

/// Each read takes 1: `EFD_SEMAPHORE` of Linux's `eventfd.h`, which the kit's `libc` doesn't name.
const SEMAPHORE: i32 = 1;

/// An eventfd that never blocks, with values from 0 to 18446744073709551614.
#[derive(Drop)]
pub struct EventFd {
    fd: OwnedFd,
}

// An eventfd of this value and these flags, beside those of each.
fn open(value: u32, flags: i32) -> Result<EventFd, Errno> {
    let fd = net::eventfd(value, net::EFD_CLOEXEC | net::EFD_NONBLOCK | flags);
    agreed(fd)?;
    Ok(EventFd {
        fd: unsafe { OwnedFd::from_raw_fd(fd) },
    })
}

impl EventFd {
    /// A counter of this value. The number with which the system refuses.
    pub fn new(value: u32) -> Result<EventFd, Errno> {
        open(value, 0)
    }

    /// A semaphore of this value, of which each read takes 1. The number with which the system refuses.
    pub fn semaphore(value: u32) -> Result<EventFd, Errno> {
        open(value, SEMAPHORE)
    }

    /// A duplicate, with another descriptor: close it, or remove the one that was added, before you close that one. The number
    /// with which the system refuses.
    pub fn try_clone(&self) -> Result<EventFd, Errno> {
        let fd = os::duplicate(self.as_raw_fd());
        agreed(fd)?;
        Ok(EventFd {
            fd: unsafe { OwnedFd::from_raw_fd(fd) },
        })
    }

    /// Adds to the value. `EAGAIN`: the sum is above 18446744073709551614.
    pub fn write(&self, value: u64) -> Result<(), Errno> {
        let written = libc::write(self.as_raw_fd(), &value.to_ne_bytes());
        if written < 0 {
            return Err(Errno(os::errno()));
        }
        Ok(())
    }

    /// Takes the value, which is then 0; of a semaphore, takes 1 of it. `EAGAIN`: it is 0.
    pub fn read(&self) -> Result<u64, Errno> {
        let mut bytes = [0u8; 8];
        let count = libc::read(self.as_raw_fd(), &mut bytes);
        if count < 0 {
            return Err(Errno(os::errno()));
        }
        Ok(u64::from_ne_bytes(bytes))
    }
}

/// An eventfd that was opened elsewhere, as by another process. It must not block.
impl From<OwnedFd> for EventFd {
    fn from(fd: OwnedFd) -> EventFd {
        EventFd { fd }
    }
}

impl AsRawFd for EventFd {
    ghost descriptor = { λ e. ⟦<OwnedFd as AsRawFd>⟧.descriptor e.fd };

    fn as_raw_fd(&self) -> RawFd {
        self.fd.as_raw_fd()
    }
}

impl Bell for EventFd {
    ghost rings = { λ e answer. Unit {0} };

    fn ring<R: Wait + Clock>(&self, _rt: &R) -> Result<(), Errno> {
        self.write(1)
    }
}

impl Counter for EventFd {
    ghost clears = { λ e answer. Unit {0} };

    fn clear<R: Wait + Clock>(&self, _rt: &R) -> Result<u64, Errno> {
        self.read()
    }
}
