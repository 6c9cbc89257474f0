//! A doorman in a manager over the kernel's epoll, and a visitor on a thread of its own.
#![tactic(auto)]

mod doorman;
#[cfg(test)]
mod tests;
mod visitor;

use crate::visitor::House;
use anyhow::Result;
use event_manager::with_senders;
use linux::epoll::Epoll;
use linux::eventfd::EventFd;
use std::alloc::Global;
use std::sync::{Arc, Wait};
use std::thread::Threads;
use std::time::Clock;

/// What the visitor was told behind each of its rings.
fn visit<R: Threads + Wait + Clock + Copy + Sync + Drop>(
    rt: &R,
    alloc: Global,
) -> Result<[u64; 3]> {
    let epoll = Epoll::new(alloc, 256)?;
    let bell = Arc::new(alloc, EventFd::new(0)?)?;
    let mut house = House { bell };
    let ended = with_senders(rt, alloc, epoll, EventFd::new(0)?, &mut house)?;
    ended.ran?;
    let mut told = [0; 3];
    for heard in ended.sent {
        told = heard?;
    }
    Ok(told)
}

fn main(rt: HostRuntime) -> Result<()> {
    let told = visit(&rt, rt.alloc())?;
    Ok(println!(rt; "heard {}, {} and {} rings", told[0], told[1], told[2])?)
}
